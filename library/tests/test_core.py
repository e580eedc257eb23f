"""What a session knows by what `planner serve` has said, without a program; and the lines that it is given by whoever
keeps a record. PLANNER names the program."""
import os
import pathlib
import shlex
import stat
import struct
import sys
import tempfile
import unittest

ROOT = pathlib.Path(__file__).resolve().parents[2]
sys.path[:0] = [str(ROOT / "library"), str(ROOT)]

import planner  # noqa: E402
from planner import core as cores  # noqa: E402
from planner.serving import Blocks  # noqa: E402
from planner_tools import program  # noqa: E402

SQUARE = ROOT / "examples" / "square"
FILES = [SQUARE / f"{name}.json" for name in ("topology", "old", "new", "policy", "plan")]
RULE = {"switch": "s1", "priority": 10, "dst": "10.0.0.0/8", "out": 1}
# The schedule of a round that was settled and is being undone.
TURNED = "start\nchange 0\nsettle\nback\n"


def message(kind, xid, body=b""):
    return struct.pack("!BBHI", 1, kind, 8 + len(body), xid) + body


class Cores(unittest.TestCase):
    def test_a_core_tells_what_is_in_force_and_who_owes_what(self):
        core = cores.Core([[("insert", RULE)], [("delete", RULE)]])
        flow, request = message(cores.TYPE_FLOW_MOD, 1, bytes(64)), message(cores.TYPE_BARRIER_REQUEST, 2)
        hello, reply = planner.HELLO.hex(), message(cores.TYPE_BARRIER_REPLY, 2).hex()
        steps = [
            ("", [f"send s1 {hello}", "ok settled 0 of 2"], (False, False, 0, set(), ""), []),
            ("start", ["no open s1"], (False, False, 0, set(), ""), []),
            (f"feed s1 {hello}", ["ok settled 0 of 2"], (False, False, 0, set(), ""), []),
            (
                "start", ["start", f"send s1 {flow.hex()}", f"send s1 {request.hex()}", "ok running 1 of 2"],
                (True, False, 0, {"s1"}, "start\n"), ["started"],
            ),
            (
                f"feed s1 {reply}", ["change 0", "settle", "ok settled 1 of 2"],
                (False, False, 1, set(), "start\nchange 0\nsettle\n"), ["changed", "settled"],
            ),
            (
                "back", ["back", f"send s1 {request.hex()}", "ok running 1 of 2"], (True, True, 0, {"s1"}, TURNED),
                ["turned"],
            ),
            (
                "feed s1 0100000c000000020003", ["failed s1 Error 3 0", "ok running 1 of 2"],
                (True, True, 0, {"s1"}, TURNED), ["failed"],
            ),
            ("reopen s1", [f"send s1 {hello}", "ok running 1 of 2"], (True, True, 0, set(), TURNED), []),
            (
                f"feed s1 {hello}", [f"send s1 {request.hex()}", "ok running 1 of 2"], (True, True, 0, {"s1"}, TURNED),
                [],
            ),
            (
                f"feed s1 {reply}", ["undo 0", "settle", "ok settled 0 of 2"], (False, True, 0, set(), ""),
                ["undone", "taken back"],
            ),
        ]
        for line, block, expected, kinds in steps:
            with self.subTest(line):
                answer = core.take(line, block)
                sent = tuple(
                    planner.Message(it.split()[1], bytes.fromhex(it.split()[2]))
                    for it in block
                    if it.startswith("send ")
                )
                self.assertEqual(
                    (line, block[-1], sent, kinds),
                    (answer.line, answer.last, answer.messages, [one.kind for one in answer.events]),
                )
                self.assertEqual(expected, (core.is_running, core.is_back, core.settled, core.owing(), core.schedule()))
        self.assertEqual((1, 1, {"s1"}, 1), (core.carried_out, core.undone, core.open, core.failures))

    def test_a_dead_switch_owes_nothing_and_is_fed_nothing(self):
        other = {**RULE, "switch": "s2"}
        core = cores.Core([[("insert", RULE), ("delete", other)]])
        hello = planner.HELLO.hex()
        sends = [
            f"send {name} {message(kind, xid, bytes(length)).hex()}"
            for name, kind, xid, length in (
                ("s1", cores.TYPE_FLOW_MOD, 1, 64), ("s2", cores.TYPE_FLOW_MOD, 2, 64),
                ("s1", cores.TYPE_BARRIER_REQUEST, 3, 0), ("s2", cores.TYPE_BARRIER_REQUEST, 4, 0),
            )
        ]
        reply = message(cores.TYPE_BARRIER_REPLY, 3)
        for line, block, dead, owing, kinds in (
            (f"feed s1 {hello}", ["ok settled 0 of 1"], set(), set(), []),
            (f"feed s2 {hello}", ["ok settled 0 of 1"], set(), set(), []),
            ("start", ["start", *sends, "ok running 1 of 1"], set(), {"s1", "s2"}, [("started", None)]),
            ("dead s2", ["ok running 1 of 1"], {"s2"}, {"s1"}, []),
            (
                f"feed s1 {reply.hex()}", ["change 0", "change 1", "settle", "ok settled 1 of 1"], {"s2"}, set(),
                [("changed", "s1"), ("changed", "s2"), ("settled", None)],
            ),
            ("reopen s2", [f"send s2 {hello}", "ok settled 1 of 1"], set(), set(), []),
        ):
            with self.subTest(line):
                answer = core.take(line, block)
                self.assertEqual(kinds, [(one.kind, one.switch) for one in answer.events])
                self.assertEqual((dead, owing), (core.dead, core.owing()))
        self.assertEqual({"s1"}, core.open)
        self.assertEqual("start\nchange 0\nchange 1\nsettle\n", core.schedule())

    def test_what_comes_from_a_dead_switch_is_handed_on(self):
        core = cores.Core([[("insert", RULE)]])
        core.take("dead s1", ["ok settled 0 of 1"])
        bad = bytes([4, 5, 0, 8]) + bytes(4)
        data = planner.HELLO + message(10, 7, bytes(12)) + bad
        self.assertEqual(
            [(planner.HELLO, False), (message(10, 7, bytes(12)), False), (bad, False)], list(core.pieces("s1", data))
        )
        self.assertEqual([(planner.HELLO, True)], list(core.pieces("s2", planner.HELLO)))

    def test_a_failed_session_of_a_dead_switch_counts_no_more(self):
        core = cores.Core([[("insert", RULE)]])
        core.take("feed s1 0100000c000000020003", ["failed s1 NoHello", "ok settled 0 of 1"])
        self.assertEqual({"s1"}, core.owing())
        core.take("dead s1", ["ok settled 0 of 1"])
        self.assertEqual(({}, set(), {"s1"}), (core.failed, core.owing(), core.dead))

    def test_the_messages_of_the_running_round_are_known_by_their_xids(self):
        core = cores.Core([[("insert", RULE)]])
        flow = message(cores.TYPE_FLOW_MOD, 7, bytes(64))
        core.take("start", ["start", f"send s1 {flow.hex()}", "ok running 1 of 1"])
        self.assertEqual({"s1": {7: flow}}, core.sent)

    def test_a_line_that_is_not_taken_changes_nothing(self):
        core = cores.Core([[("insert", RULE)]])
        for last, fault in (("no running", planner.NotNow), ("bad line", ValueError)):
            answer = core.take("start", [last])
            self.assertEqual((False, (), ()), (answer.is_taken, answer.messages, answer.events))
            self.assertFalse(core.begun)
            with self.assertRaises(fault):
                cores.checked(answer)

    def test_blocks_come_in_pieces(self):
        data = b"send s1 01\nok settled 0 of 2\nbad line\nno open s1\nchange"
        for size in (1, 2, 7, len(data)):
            said, found = Blocks(), []
            for at in range(0, len(data), size):
                said.feed(data[at:at + size])
                while (block := said.next()) is not None:
                    found.append(block)
            self.assertEqual([["send s1 01", "ok settled 0 of 2"], ["bad line"], ["no open s1"]], found)
            self.assertEqual("change", said.text())


class OwnRecords(unittest.TestCase):
    LINES = [f"feed {name} {planner.HELLO.hex()}" for name in ("s1", "s2", "s3", "s4")]

    def session(self, path=None, **more):
        session = planner.Session(*FILES, program=path or program.path(), **more)
        self.addCleanup(session.close)
        return session

    def slow(self):
        """The path of a program that answers a while later."""
        folder = tempfile.TemporaryDirectory(prefix="planner-tests-")
        self.addCleanup(folder.cleanup)
        path = os.path.join(folder.name, "slow")
        with open(path, "w", encoding="utf-8") as file:
            file.write(f'#!/bin/sh\nsleep 0.3\nexec {shlex.quote(os.path.abspath(program.path()))} "$@"\n')
        os.chmod(path, stat.S_IRWXU)
        return path

    def test_lines_are_given_together_and_each_is_answered(self):
        sent, calls = [], []
        session = self.session(
            self.slow(), send=lambda name, data: sent.append(name), meanwhile=lambda: calls.append(1)
        )
        lines = [*self.LINES, "start", "start", "nothing", "back"]
        replies = list(session.replies(lines))
        self.assertEqual(lines, [one.line for one in replies])
        self.assertEqual([True] * 5 + [False, False, True], [one.is_taken for one in replies])
        self.assertEqual(["no running", "bad line"], [one.last for one in replies[5:7]])
        self.assertEqual([one.switch for reply in replies for one in reply.messages], sent)
        self.assertEqual((True, "start\nback\n"), (session.is_running, session.schedule()))
        self.assertTrue(calls)

    def test_replies_that_are_not_all_taken_end_the_session(self):
        session = self.session()
        for _ in session.replies([*self.LINES, "start"]):
            break
        with self.assertRaises(planner.ServeEnded):
            session.start()

    def test_what_is_raised_meanwhile_ends_the_session(self):
        def end():
            raise KeyboardInterrupt

        with self.assertRaises(KeyboardInterrupt):
            self.session(self.slow(), meanwhile=end)

    def test_an_end_has_its_status_and_its_text(self):
        session = self.session()
        session._serve.process.kill()
        with self.assertRaises(planner.ServeEnded) as ended:
            list(session.replies(["start"]))
        self.assertEqual((-9, ""), (ended.exception.status, ended.exception.text))

    def test_a_closed_session_says_so(self):
        session = self.session()
        session.close()
        with self.assertRaises(planner.ServeEnded):
            session.start()


if __name__ == "__main__":
    unittest.main()
