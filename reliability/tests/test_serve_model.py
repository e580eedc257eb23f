"""Tests of the model of `serve`: blocks that were written by hand, and what holds of each list of lines; of the lists
that serve.py makes; and that this script finds a program that says something else. Those that compare the model with
`drive` need the program, and are left out where PLANNER names none:

    cd reliability && PLANNER=PROGRAM python3 -B -m unittest discover -s tests -p 'test_serve*.py'"""
import argparse
import collections
import contextlib
import io
import itertools
import json
import os
import pathlib
import random
import tempfile
import unittest
import unittest.mock

import explore
import runs
import serve
import serve_model as model

HERE = pathlib.Path(__file__).resolve().parent
HELLO = "0100000800000000"


def plan_of(name, file="plan.json"):
    return json.loads((runs.ROOT / "examples" / name / file).read_text())


def in_one_round(plan):
    """The plan with all its changes in one round, without evidence."""
    return plan | {"rounds": [[change for changes in plan["rounds"] for change in changes]]}


# The messages, as the standard has them, written out.

def replace(xid, port, address="0a000000"):
    """Sets the action of the entry of priority 100 for a prefix of 24 bits to a port."""
    return (f"010e0050{xid:08x}003220ef0000" + 24 * "0" + "000000000800" + 16 * "0" + f"{address}00000000" + 16 * "0"
            + f"0002000000000064ffffffffffff000000000008{port:04x}0000")


def dropping(xid, command, length="0048"):
    """Inserts (0) or deletes (4) the entry of priority 16384 that drops all of VLAN 3000."""
    return (
        f"010e{length}{xid:08x}003820ed0000"
        + 24 * "0"
        + "0bb800000800"
        + 16 * "0"
        + 16 * "0"
        + 16 * "0"
        + f"{command:04x}000000004000ffffffffffff0000"
    )


def sending(xid, command, port):
    """Inserts (0) or deletes (4) the entry of priority 16484 for VLAN 3000 and 10.0.0.0/24, which sends to a port."""
    actions = f"00000008{port:04x}0000" if command == 0 else ""
    return (
        f"010e{72 + len(actions) // 2:04x}{xid:08x}003220ed0000"
        + 24 * "0"
        + "0bb800000800"
        + 16 * "0"
        + "0a00000000000000"
        + 16 * "0"
        + f"{command:04x}000000004064ffffffffffff0000"
        + actions
    )


def barrier(xid):
    return f"01120008{xid:08x}"


def reply(xid):
    return f"01130008{xid:08x}"


class Written(unittest.TestCase):
    """Lines and blocks: each line is followed by what the model has to say."""

    def begun(self, name="square", plan=None):
        update = explore.example(name)
        self.serve = model.Serve(update["topology"], update["old"], plan or plan_of(name))
        return self.serve.begin()

    def say(self, line, *block):
        self.assertEqual([*block], self.serve.line(line.encode()))

    def open(self, *names):
        for name in names:
            self.say(f"feed {name} {HELLO}", f"ok {self.phase()}")

    def phase(self):
        return self.serve.line(b"#")[-1].removeprefix("ok ")

    def both_rounds(self):
        """Both rounds of the square network, up to their end: the xids 1 to 4."""
        self.begun()
        self.open("s1", "s3")
        self.say("start", "start", f"send s1 {replace(1, 4)}", f"send s1 {barrier(2)}", "ok running 1 of 2")
        self.say(f"feed s1 {reply(2)}", "change 0", "settle", "ok settled 1 of 2")
        self.say("start", "start", f"send s3 {replace(3, 3)}", f"send s3 {barrier(4)}", "ok running 2 of 2")
        self.say(f"feed s3 {reply(4)}", "change 0", "settle", "ok settled 2 of 2")


class Forward(Written):
    def test_line_0(self):
        self.assertEqual(
            [*(f"send {name} {HELLO}" for name in ("s1", "s2", "s3", "s4")), "ok settled 0 of 2"], self.begun()
        )

    def test_an_update(self):
        self.both_rounds()
        self.say("start", "no finished")

    def test_pieces_of_messages(self):
        self.begun()
        self.say("feed s1 01", "ok settled 0 of 2")
        self.say("feed s1 00000800000000", "ok settled 0 of 2")
        self.say("feed s3 04000008000000", "ok settled 0 of 2")
        self.say("feed s3 05", "ok settled 0 of 2")
        self.say("start", "start", f"send s1 {replace(1, 4)}", f"send s1 {barrier(2)}", "ok running 1 of 2")
        self.say(
            f"feed s1 0102000c0000000900FF00fF{reply(2)}010a0009", "send s1 0103000c0000000900ff00ff", "change 0",
            "settle", "ok settled 1 of 2",
        )

    def test_starts_that_are_refused(self):
        self.begun()
        self.say("start", "no open s1")
        self.open("s1")
        self.serve.line(b"start")
        self.say("start", "no running")
        self.serve.line(f"feed s1 {reply(2)}".encode())
        self.say("start", "no open s3")
        self.begun("leaf-spine", in_one_round(plan_of("leaf-spine")))
        self.open("l3", "l1")
        self.say("start", "no open l2")

    def test_lines_that_are_bad_and_comments(self):
        self.begun()
        for line in (
            "start ", " start", "START", "dead", "dead ", "dead s9", "dead s1 ", "feed", "feed s1", "feed s1 ",
            "feed s1 0", "feed s1 0g", "feed s9 00",
            "feed s1 00 00", "reopen", "reopen s9", "back s1", "feed  s1 00", "stop", " ", "start\r", "#" * 262145,
            "feed s1 " + "00" * 131069,
        ):
            self.say(line, "bad line")
        for line in ("", "#", "# start", "#" * 262144):
            self.say(line, "ok settled 0 of 2")
        self.assertEqual(["ok settled 0 of 2"], self.serve.line(b"#\xff\x00"))

    def test_sessions_that_fail(self):
        for data, cause in (
            ("0000000800000000", "Version"), ("04000008000000000413000800000001", "Version"),
            ("0100000700000000", "Length"), (reply(1), "NoHello"), (HELLO + "0113000900000001", "Length"),
            (HELLO + "0101000b00000001", "Length"), (HELLO + "0101000c0000000100030002", "Error 3 2"),
            (HELLO + reply(4294967295), "Xid 4294967295"),
        ):
            self.begun()
            self.say(f"feed s2 {data}{HELLO}", f"failed s2 {cause}", "ok settled 0 of 2")
            self.say(f"feed s2 {HELLO}{reply(7)}", "ok settled 0 of 2")

    def test_a_second_answer_fails(self):
        self.begun()
        self.open("s1")
        self.serve.line(b"start")
        self.say(f"feed s1 {reply(2)}{reply(2)}", "change 0", "settle", "failed s1 Xid 2", "ok settled 1 of 2")

    def test_a_round_without_changes(self):
        self.begun("detour")
        self.serve.settled = 4
        self.say("start", "start", "settle", "ok settled 5 of 8")
        self.say("back", "back", "settle", "ok settled 4 of 8")


class Back(Written):
    def test_a_settled_round_is_undone(self):
        self.both_rounds()
        self.say("back", "back", f"send s3 {replace(5, 2)}", f"send s3 {barrier(6)}", "ok running 2 of 2")
        self.say("back", "no running")
        self.say("start", "no running")
        self.say(f"feed s3 {reply(6)}", "undo 0", "settle", "ok settled 1 of 2")
        self.say("back", "back", f"send s1 {replace(7, 2)}", f"send s1 {barrier(8)}", "ok running 1 of 2")
        self.say(f"feed s1 {reply(8)}", "undo 0", "settle", "ok settled 0 of 2")
        self.say("back", "no begun")
        self.say("start", "start", f"send s1 {replace(9, 4)}", f"send s1 {barrier(10)}", "ok running 1 of 2")

    def test_a_running_round_is_turned(self):
        self.begun()
        self.say("back", "no begun")
        self.open("s1")
        self.serve.line(b"start")
        self.say("back", f"send s1 {replace(3, 2)}", f"send s1 {barrier(4)}", "ok running 1 of 2")
        self.say("back", "no running")
        self.say(f"feed s1 {reply(2)}", "change 0", "ok running 1 of 2")
        self.say(f"feed s1 {reply(4)}", "undo 0", "settle", "ok settled 0 of 2")

    def test_answers_out_of_order_fail(self):
        self.begun()
        self.open("s1")
        self.serve.line(b"start")
        self.serve.line(b"back")
        self.say(f"feed s1 {reply(4)}", "failed s1 Xid 4", "ok running 1 of 2")
        self.say("reopen s1", f"send s1 {HELLO}", "ok running 1 of 2")
        self.say(f"feed s1 {HELLO}", f"send s1 {replace(3, 2)}", f"send s1 {barrier(4)}", "ok running 1 of 2")
        self.say(f"feed s1 {reply(2)}", "failed s1 Xid 2", "ok running 1 of 2")

    def test_what_was_never_in_force_is_not_undone(self):
        self.begun()
        self.open("s1")
        self.serve.line(b"start")
        self.say("reopen s1", f"send s1 {HELLO}", "ok running 1 of 2")
        self.say("back", "ok running 1 of 2")
        self.say(f"feed s1 {HELLO}", f"send s1 {replace(3, 2)}", f"send s1 {barrier(4)}", "ok running 1 of 2")
        self.say(f"feed s1 {reply(4)}", "settle", "ok settled 0 of 2")

    def test_a_session_must_be_open_where_no_round_runs(self):
        self.both_rounds()
        self.say("reopen s3", f"send s3 {HELLO}", "ok settled 2 of 2")
        self.say("back", "no open s3")
        self.say(f"feed s3 {HELLO}", "ok settled 2 of 2")
        self.say("back", "back", f"send s3 {replace(5, 2)}", f"send s3 {barrier(6)}", "ok running 2 of 2")

    def test_a_round_of_a_dozen_is_turned_in_the_middle(self):
        """The round is carried out at l1 and, unknown to the driver, at l2; l3 isn't connected any more when it is
        turned."""
        self.begun("leaf-spine", in_one_round(plan_of("leaf-spine")))
        self.open("l1", "l2", "l3", "l4")
        self.serve.line(b"start")
        self.say(f"feed l1 {reply(13)}", "change 0", "change 1", "change 2", "ok running 1 of 1")
        self.say(f"feed l3 {reply(1)}", "failed l3 Xid 1", "ok running 1 of 1")

        def taken_back(name, xid):
            prefixes = [number for number in (4, 3, 2, 1) if f"l{number}" != name]
            return [f"send {name} {replace(xid + at, 3, f'0a01{number:02x}00')}" for at, number in enumerate(prefixes)]

        self.say(
            "back", *taken_back("l4", 17), *taken_back("l2", 23), *taken_back("l1", 26), f"send l1 {barrier(29)}",
            f"send l2 {barrier(30)}", f"send l4 {barrier(32)}", "ok running 1 of 1",
        )
        self.say(f"feed l1 {reply(29)}", "undo 2", "undo 1", "undo 0", "ok running 1 of 1")
        self.say(
            f"feed l4 {reply(16)}{reply(32)}", "change 9", "change 10", "change 11", "undo 11", "undo 10", "undo 9",
            "ok running 1 of 1",
        )
        self.say("reopen l3", f"send l3 {HELLO}", "ok running 1 of 1")
        self.say(f"feed l3 {HELLO}", *taken_back("l3", 20), f"send l3 {barrier(31)}", "ok running 1 of 1")
        self.say(f"feed l3 {reply(31)}", "ok running 1 of 1")
        self.say(
            f"feed l2 {reply(14)}{reply(30)}", "change 3", "change 4", "change 5", "undo 5", "undo 4", "undo 3",
            "settle", "ok settled 0 of 1",
        )

    def test_inserts_and_deletes_take_each_other_back(self):
        plan = plan_of("detour")
        # two inserts at x, and later their deletes
        plan["rounds"] = [plan["rounds"][0][2:4], plan["rounds"][7][2:4]]
        self.begun("detour", plan)
        self.open("x")
        self.say(
            "start", "start", f"send x {sending(1, 0, 3)}", f"send x {dropping(2, 0)}", f"send x {barrier(3)}",
            "ok running 1 of 2",
        )
        self.say(f"feed x {reply(3)}", "change 0", "change 1", "settle", "ok settled 1 of 2")
        self.say(
            "start", "start", f"send x {sending(4, 4, 3)}", f"send x {dropping(5, 4)}", f"send x {barrier(6)}",
            "ok running 2 of 2",
        )
        self.say(
            "back", f"send x {dropping(7, 0)}", f"send x {sending(8, 0, 3)}", f"send x {barrier(9)}",
            "ok running 2 of 2",
        )
        self.say(
            f"feed x {reply(6)}{reply(9)}", "change 0", "change 1", "undo 1", "undo 0", "settle", "ok settled 1 of 2"
        )
        self.say(
            "back", "back", f"send x {dropping(10, 4)}", f"send x {sending(11, 4, 3)}", f"send x {barrier(12)}",
            "ok running 1 of 2",
        )

    def test_behind_the_greatest_number_comes_1(self):
        self.both_rounds()
        self.serve.last_xid = 0xFFFFFFFE
        self.say("back", "back", f"send s3 {replace(0xFFFFFFFF, 2)}", f"send s3 {barrier(1)}", "ok running 2 of 2")
        self.say(f"feed s3 {reply(1)}", "undo 0", "settle", "ok settled 1 of 2")
        self.say("start", "start", f"send s3 {replace(2, 3)}", f"send s3 {barrier(3)}", "ok running 2 of 2")


class Dead(Written):
    """Plans of leaf and spine in one round have twelve changes: three at each of l1 to l4."""

    def running(self):
        """The round runs: the xids 1 to 12, and 13 to 16 of the barrier requests."""
        self.begun("leaf-spine", in_one_round(plan_of("leaf-spine")))
        self.open("l1", "l2", "l3", "l4")
        self.serve.line(b"start")

    def test_the_last_one_that_is_waited_for(self):
        self.both_rounds()
        self.say("back", "back", f"send s3 {replace(5, 2)}", f"send s3 {barrier(6)}", "ok running 2 of 2")
        self.say("dead s3", "undo 0", "settle", "ok settled 1 of 2")
        self.say("dead s3", "ok settled 1 of 2")
        self.say("start", "start", "change 0", "settle", "ok settled 2 of 2")
        self.say("back", "back", "undo 0", "settle", "ok settled 1 of 2")
        self.say("back", "back", f"send s1 {replace(11, 2)}", f"send s1 {barrier(12)}", "ok running 1 of 2")

    def test_their_changes_stand_before_settle(self):
        self.running()
        self.say("dead l3", "ok running 1 of 1")
        self.say(f"feed l4 {reply(16)}", "change 9", "change 10", "change 11", "ok running 1 of 1")
        self.say("dead l1", "ok running 1 of 1")
        self.say("dead l4", "ok running 1 of 1")
        self.say(f"feed l3 {reply(15)}", "ok running 1 of 1")
        self.say(
            f"feed l2 {reply(14)}", "change 3", "change 4", "change 5", "change 0", "change 1", "change 2", "change 6",
            "change 7", "change 8", "settle", "ok settled 1 of 1",
        )

    def test_and_are_taken_back_so(self):
        self.running()
        for name, xid, first in (("l1", 13, 0), ("l4", 16, 9)):
            self.say(
                f"feed {name} {reply(xid)}", f"change {first}", f"change {first + 1}", f"change {first + 2}",
                "ok running 1 of 1",
            )
        self.serve.line(b"back")
        for name in ("l1", "l3", "l4"):
            self.say(f"dead {name}", "ok running 1 of 1")
        self.say(
            f"feed l2 {reply(14)}{reply(30)}", "change 3", "change 4", "change 5", "undo 5", "undo 4", "undo 3",
            "undo 11", "undo 10", "undo 9", "undo 2", "undo 1", "undo 0", "settle", "ok settled 0 of 1",
        )

    def test_one_is_there_again(self):
        self.begun()
        self.open("s1")
        self.say("start", "start", f"send s1 {replace(1, 4)}", f"send s1 {barrier(2)}", "ok running 1 of 2")
        self.say("dead s1", "change 0", "settle", "ok settled 1 of 2")
        self.say("reopen s1", f"send s1 {HELLO}", "ok settled 1 of 2")
        self.say("back", "no open s1")
        self.say(f"feed s1 {HELLO}", "ok settled 1 of 2")
        self.say("back", "back", f"send s1 {replace(3, 2)}", f"send s1 {barrier(4)}", "ok running 1 of 2")
        self.running()
        self.say("dead l1", "ok running 1 of 1")
        self.say("reopen l1", f"send l1 {HELLO}", "ok running 1 of 1")
        self.assertEqual(5, len(self.serve.line(f"feed l1 {HELLO}".encode())))
        self.say("dead l1", "ok running 1 of 1")
        self.say(f"feed l1 {HELLO}{reply(13)}", "ok running 1 of 1")

    def test_no_open_passes_over_them(self):
        self.begun()
        self.say("start", "no open s1")
        self.say("dead s1", "ok settled 0 of 2")
        self.say("start", "start", "change 0", "settle", "ok settled 1 of 2")
        self.say("start", "no open s3")


class Reopen(Written):
    def test_what_is_not_answered_is_sent_again(self):
        self.begun("leaf-spine", in_one_round(plan_of("leaf-spine")))
        self.open("l1", "l2", "l3", "l4")
        said = self.serve.line(b"start")
        self.serve.line(f"feed l1 {reply(13)}".encode())
        for name in ("l1", "l2"):
            self.say(f"reopen {name}", f"send {name} {HELLO}", "ok running 1 of 1")
        self.say(f"feed l1 {HELLO}", "ok running 1 of 1")
        self.say(
            f"feed l2 {HELLO}{HELLO}", *(line for line in said if line.startswith("send l2 ")), "ok running 1 of 1"
        )
        self.say(f"feed l2 {reply(14)}", "change 3", "change 4", "change 5", "ok running 1 of 1")
        self.say(f"feed l1 {reply(13)}", "failed l1 Xid 13", "ok running 1 of 1")

    def test_what_was_cut_is_dropped(self):
        self.begun()
        self.say("feed s1 0100000800", "ok settled 0 of 2")
        self.say("reopen s1", f"send s1 {HELLO}", "ok settled 0 of 2")
        self.open("s1")
        self.say("start", "start", f"send s1 {replace(1, 4)}", f"send s1 {barrier(2)}", "ok running 1 of 2")

    def test_a_failed_session_begins_anew(self):
        self.begun()
        self.say(f"feed s1 {reply(1)}", "failed s1 NoHello", "ok settled 0 of 2")
        self.say("reopen s1", f"send s1 {HELLO}", "ok settled 0 of 2")
        self.say(f"feed s1 {reply(1)}", "failed s1 NoHello", "ok settled 0 of 2")
        self.say("reopen s1", f"send s1 {HELLO}", "ok settled 0 of 2")
        self.open("s1")


class Table:
    """A switch's table as its messages make it."""

    def __init__(self):
        self.entries = {}

    def hear(self, piece):
        key, command = (piece[8:48], piece[62:64]), int.from_bytes(piece[56:58], "big")
        if command == 4:
            self.entries.pop(key, None)
        else:
            self.entries[key] = piece[72:]


class Random(unittest.TestCase):
    """What holds of each list of lines."""

    made = []

    @classmethod
    def setUpClass(cls):
        for name, plan in (
            ("square", plan_of("square")), ("detour", plan_of("detour")),
            ("leaf-spine", in_one_round(plan_of("leaf-spine"))),
        ):
            update = explore.example(name)
            for restless, seed in itertools.product((serve.RESTLESS, 0.4), range(8)):
                made = serve.Lines(random.Random(f"{name} {restless} {seed}"), update, plan, False, restless).go_on(300)
                cls.made.append((f"{name} {restless} {seed}", update, plan, made))

    def lists(self):
        for name, update, plan, made in self.made:
            with self.subTest(name):
                yield update, plan, made

    def test_they_go_both_ways(self):
        events = [event.split(" ")[0] for _, _, made in self.lists() for event in made.serve.events]
        ends = {block[-1].split(" ")[1] for _, _, made in self.lists() for block in made.blocks}
        for word, least in (("start", 60), ("back", 20), ("change", 200), ("undo", 60), ("settle", 80)):
            self.assertGreater(events.count(word), least, word)
        self.assertEqual({"settled", "running", "finished", "begun", "open", "line"}, ends)

    def test_sessions_begin_anew_in_all_stages(self):
        """Rounds are begun and turned while a session isn't open, and sessions open while messages of either way wait
        for them."""
        met = collections.Counter()
        for update, plan, made in self.lists():
            again = model.Serve(update["topology"], update["old"], plan)
            again.begin()
            for line in made.lines:
                way, waiting = again.sending and again.sending.way, {
                    name for name, one in again.sessions.items() if one.state != model.OPEN
                }
                unanswered = again.sending.unanswered & waiting if again.sending else set()
                block, word = again.line(line), line.split(b" ")[0].decode("latin-1")
                met[
                    word, way,
                    "no open" if block[-1].startswith("no open") else "ok" if block[-1].startswith("ok ") else "no",
                ] += 1
                met[word, way, "waits"] += unanswered != set()
                met[word, way, "settles"] += "settle" in block
                met[word, way, "sent again"] += word == "feed" and any(
                    line.startswith("send ") and line.split(" ")[2].startswith("010e") for line in block
                )
                met[word, way, "Xid"] += any(" Xid " in line for line in block)
        for what, least in (
            (("reopen", None, "ok"), 50), (("reopen", model.FORWARD, "waits"), 20),
            (("reopen", model.BACK, "waits"), 100), (("feed", model.FORWARD, "sent again"), 20),
            (("feed", model.BACK, "sent again"), 100), (("feed", model.BACK, "Xid"), 10),
            (("back", model.FORWARD, "waits"), 10), (("back", None, "no open"), 0), (("start", None, "no open"), 50),
            (("start", model.BACK, "no"), 100), (("dead", None, "ok"), 50), (("dead", model.FORWARD, "settles"), 5),
            (("dead", model.BACK, "settles"), 5), (("start", None, "settles"), 1), (("back", None, "settles"), 1),
        ):
            self.assertGreater(met[what], least, what)

    def test_the_events_are_a_run(self):
        """A round is settled where all its changes are in force, or none, and the next event fits to what is in
        force."""
        for _, plan, made in self.lists():
            settled, flags, way = 0, None, 0
            for event in made.serve.events:
                what, *number = event.split(" ")
                if what in ("start", "back"):
                    self.assertIsNone(flags)
                    way = int(what == "start")
                    settled -= 1 - way
                    flags = [what == "back"] * len(plan["rounds"][settled])
                elif what == "settle":
                    self.assertLessEqual(len({*flags}), 1)
                    settled, flags = settled + (flags[0] if flags else way), None
                else:
                    self.assertEqual(what == "undo", flags[int(number[0])])
                    flags[int(number[0])] = what == "change"
            self.assertEqual((settled, flags is not None), (made.serve.settled, made.serve.sending is not None))

    def test_the_messages_lead_to_the_tables(self):
        """Where no round runs the messages have made the tables of the rounds that are settled, whatever was turned and
        sent again on the way."""
        for update, plan, made in self.lists():
            steps = [tables_of(made.names, table) for table in made.serve.tables]
            tables = tables_of(made.names, made.serve.tables[0])
            again = model.Serve(update["topology"], update["old"], plan)
            for said, block in zip((b"", *made.lines), made.blocks):
                name = said.decode("latin-1").removeprefix("reopen ")
                if name in made.names and again.sessions[name].state == model.DEAD:
                    tables[name] = tables_of(made.names, again.table_now())[name]      # it has been repaired
                again.line(said)
                for words in (line.split(" ") for line in block):
                    if words[0] == "send" and words[2].startswith("010e"):
                        tables[words[1]].hear(bytes.fromhex(words[2]))
                if block[-1].startswith("ok settled "):
                    for name in made.names:
                        if again.sessions[name].state != model.DEAD:
                            wanted = steps[int(block[-1].split(" ")[2])][name]
                            self.assertEqual(wanted.entries, tables[name].entries, name)

    def test_bytes_may_be_cut_anywhere(self):
        rng = random.Random(1)
        for update, plan, made in self.lists():
            again = model.Serve(update["topology"], update["old"], plan)
            again.begin()
            for line, block in zip(made.lines, made.blocks[1:]):
                words = line.split(b" ")
                if words[0] == b"feed" and block[-1].startswith("ok ") and len(words[2]) > 2:
                    cut = 2 * rng.randint(1, len(words[2]) // 2 - 1)
                    first, second = again.line(b" ".join([*words[:2], words[2][:cut]])), again.line(
                        b" ".join([*words[:2], words[2][cut:]])
                    )
                    self.assertEqual(block, [*first[:-1], *second])
                else:
                    self.assertEqual(block, again.line(line))


def tables_of(names, rules):
    """The switches' tables with these rules, by their keys."""
    tables = {name: Table() for name in names}
    for key, rule in rules.items():
        tables[key[0]].hear(model.Change("insert", key[0], rule).message(1))
    return tables


@unittest.skipUnless(os.environ.get("PLANNER"), "PLANNER names no program to compare the model with")
class BesideDrive(unittest.TestCase):
    def test_lists_of_lines(self):
        for restless in (serve.RESTLESS, 0.4):
            said, chosen = io.StringIO(), argparse.Namespace(lists=3, lines=200, networks=2, restless=restless, seed=1)
            with self.subTest(restless), tempfile.TemporaryDirectory() as name, contextlib.redirect_stdout(said):
                self.assertFalse(serve.compare(runs.program(), chosen, pathlib.Path(name)), said.getvalue())
            self.assertIn(" 0 differences", said.getvalue())

    def test_messages_are_those_of_emit(self):
        for example in ("square", "detour", "leaf-spine"):
            folder, update = runs.ROOT / "examples" / example, explore.example(example)
            _, text = explore.ask(runs.program(), folder, "emit", "topology.json", "plan.json")
            made = model.Serve(update["topology"], update["old"], plan_of(example))
            for session in made.sessions.values():
                session.state = model.OPEN
            lines = []
            while made.settled < len(made.rounds):
                block = made.line(b"start")
                lines += [
                    f"{made.settled + 1} {line.removeprefix('send ')}" for line in block if line.startswith("send ")
                ]
                for line in block:
                    if line.startswith("send ") and line.split(" ")[2].startswith("0112"):
                        made.line(f"feed {line.split(' ')[1]} {reply(int(line[-8:], 16))}".encode())
            self.assertEqual(text.splitlines(), lines)


class Script(unittest.TestCase):
    """That serve.py finds a program that says something else."""

    def said_of(self, fault, lists=1, names=("square", "leaf-spine")):
        said, updates = io.StringIO(), [
            (name, explore.example(name), in_one_round(plan_of(name)) if name == "leaf-spine" else plan_of(name))
            for name in names
        ]
        with (
            tempfile.TemporaryDirectory() as folder, contextlib.redirect_stdout(said),
            unittest.mock.patch.dict(os.environ, FAULT=fault),
            unittest.mock.patch.object(serve, "updates", lambda *_: updates),
        ):
            is_wrong = serve.compare(
                str(HERE / "serve_stand_in.py"),
                argparse.Namespace(lists=lists, lines=400, restless=serve.RESTLESS, seed=1), pathlib.Path(folder),
            )
        return is_wrong, said.getvalue()

    def test_a_program_that_says_the_same(self):
        is_wrong, said = self.said_of("", lists=2)
        self.assertFalse(is_wrong, said)
        self.assertIn("4 lists for serve", said)
        self.assertIn(" 0 differences", said)

    def test_faults_are_found(self):
        for fault in (
            "starts without sessions", "begins anew to count", "forgets what waits", "takes any answer", "ends badly",
            "refuses", "waits for the dead", "forgets the changes of the dead", "says of the dead that they are open",
        ):
            with self.subTest(fault):
                self.assertTrue(self.said_of(fault, lists=4)[0])

    def test_a_block_that_comes_late_is_found(self):
        with unittest.mock.patch.object(serve, "SECONDS", 5):
            is_wrong, said = self.said_of("is late", names=("square",))
        self.assertTrue(is_wrong)
        self.assertIn("line 1 ", said)

    def test_a_program_without_serve(self):
        is_wrong, said = self.said_of("has no serve", names=("square",))
        self.assertFalse(is_wrong, said)
        self.assertIn(serve.NO_SERVE, said)


if __name__ == "__main__":
    unittest.main()
