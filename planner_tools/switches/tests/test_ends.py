"""Tests of how runs end, and of what is said then: signals, a closed error stream, a program that hangs, slow answers,
marks of others, a lost record. PLANNER names the program."""
import os
import signal
import stat
import sys
import time
import unittest

import fake_switch
from network import LONGEST, PLANNER, Network, UpdateTest
from planner_tools.switches import under_way

# A program of which a command says nothing any more from a word on, or at once.
HANGING = """#!{python}
import os, subprocess, sys, time
if sys.argv[1] != {command!r}:
    os.execv({planner!r}, [{planner!r}, *sys.argv[1:]])
if not {word!r}:
    time.sleep(600)
with subprocess.Popen([{planner!r}, *sys.argv[1:]], stdout=subprocess.PIPE, text=True) as run:
    for line in run.stdout:
        if line.startswith({word!r}):
            time.sleep(600)
        print(line, end="", flush=True)
"""


class Ends(UpdateTest):
    def last_of(self, net):
        return net.record.read_text().splitlines()[-1]

    def hanging(self, net, command, word=""):
        script = net.folder / f"hanging-{command}"
        script.write_text(HANGING.format(python=sys.executable, command=command, word=word, planner=PLANNER))
        os.chmod(script, stat.S_IRWXU)
        return str(script)

    # ---- signals, and nobody who hears

    def test_a_terminal_that_is_closed_ends_it_with_a_line_in_the_record(self):
        net = Network(self, "square")
        run = net.begin("--ask")
        self.wait_for(run, "round 1 of 2 is next")
        self.press(run)
        self.wait_for(run, "round 2 of 2 is next")
        run.send_signal(signal.SIGHUP)
        said = run.communicate(timeout=LONGEST)[1]
        self.stops(
            (run.returncode, said), "its terminal was closed (SIGHUP); 1 of 2 rounds are settled", "go on with --resume"
        )
        self.assertIn(
            "stopped: its terminal was closed (SIGHUP); 1 of 2 rounds are settled. Next: go on with --resume",
            self.last_of(net),
        )
        self.settles(net, net.apply("--resume"))

    def test_the_command_that_goes_on_is_said_as_it_can_be_typed(self):
        net = Network(self, "square", only={"s3": {"error_at": 1}})
        last = net.apply()[1].splitlines()[-1]
        self.assertRegex(last, rf"\(`planner apply .* {net.record} --switches {net.listed} .*--resume`\)$")
        self.assertTrue(self.run_line(net, last.rpartition("`planner ")[2].rstrip("`)")))
        self.settles(net, (0, ""))

    def run_line(self, net, words):
        import shlex
        import subprocess
        from network import FRONT_END
        done = subprocess.run(
            [sys.executable, str(FRONT_END), *shlex.split(words)], capture_output=True, text=True, timeout=LONGEST,
            check=False, env={**os.environ, "PLANNER": PLANNER},
        )
        self.assertEqual(done.returncode, 0, done.stderr)
        return True

    def test_a_run_that_minds_no_hangup_goes_on(self):
        net = Network(self, "square")
        run = net.begin("--ask", before=("nohup",))
        self.wait_for(run, "round 1 of 2 is next")
        run.send_signal(signal.SIGHUP)
        for number in (1, 2):
            self.press(run)
            if number == 1:
                self.wait_for(run, "round 2 of 2 is next")
        self.settles(net, (0, run.communicate(timeout=LONGEST)[1]))

    def test_a_closed_error_stream_ends_it_with_a_line_in_the_record(self):
        net = Network(self, "square")
        run = net.begin("--ask")
        self.wait_for(run, "round 1 of 2 is next")
        run.stderr.close()
        self.press(run)
        self.assertEqual(run.wait(LONGEST), 1)
        self.assertRegex(
            self.last_of(net),
            (
                r"stopped: the error stream is closed, and nobody hears what happens \(Broken pipe\); 1 of 2 rounds are"
                r" settled. Next: go on with --resume"
            ),
        )
        self.settles(net, net.apply("--resume"))

    # ---- the program hangs

    def test_a_program_that_hangs_is_told_and_ends_with_the_patience(self):
        for command, word in (("serve", "change "), ("tables", "")):
            with self.subTest(command):
                net = Network(self, "square")
                run = net.apply("--patience", "4", program=self.hanging(net, command, word))
                self.stops(
                    run, f"the patience of 20 s with the program is at its end: `planner {command}` hasn't answered",
                    "go on with --resume",
                )
                self.assertIn(f"s: no answer yet from `planner {command}`", run[1])
                self.settles(net, net.apply("--resume"))

    # ---- slow answers

    def test_answers_that_take_longer_than_half_of_the_wait_are_said_with_a_wait_that_would_do(self):
        for delay, wait, words in (
            (0.5, "0.1", "more than the wait of 0.1 s"), (0.7, "1", "more than (the|half of the) wait of 1 s"),
        ):
            with self.subTest(wait):
                net = Network(self, "square", only={"s1": {"delay": delay}})
                run = net.apply("--wait", wait)
                self.settles(net, run)
                self.assertRegex(run[1], rf"s1 took [0-9.]+ s to answer, {words}: .*; --wait [1-9][0-9]* would do")
                self.assertRegex(
                    net.record.read_text(),
                    r"round 2 starts, after a wait of .*; s1 took [0-9.]+ s to answer, more than",
                )

    # ---- marks of others

    def another(self, net):
        copied = net.folder / "other-switches"
        copied.write_text(net.listed.read_text())
        first, net.listed, net.record = net.record, copied, net.folder / "other"
        return first

    def marks(self, net):
        return sum(key[3] == fake_switch.MARK_TYPE for one in net.switches.values() for key in one.table)

    def test_marks_aren_t_taken_away_where_it_can_t_be_gone_on(self):
        net = Network(self, "detour", listen=True)
        net.apply_until("round 5 starts")
        listed = net.listed
        first = self.another(net)
        run = net.apply()
        self.stops(
            run, "another update is at work",
            f"its record is {first}: with that one --resume carries it on, and --back turns it back",
        )
        before = self.marks(net)
        run = net.apply("--resume", "--take-over")
        self.stops(
            run, "The mark of the update",
            f"carry that update on with its own record, {first}, by --resume, or turn it back by --back",
        )
        self.assertEqual((self.marks(net), before), (5, 5))
        net.record, net.listed = first, listed
        self.is_back(net, net.apply("--back"))

    def test_collect_says_that_an_update_is_under_way(self):
        net = Network(self, "detour")
        net.apply_until("round 5 starts")
        done = net.collect()
        self.assertEqual((done.returncode, done.stdout), (1, ""))
        self.assertEqual(len(done.stderr.splitlines()), 1, done.stderr)
        self.assertRegex(
            done.stderr,
            (
                r"^stopped: an update is under way: s, x, w, y, d have its mark, [0-9a-f]{12}, begun .*; \d+ entries"
                r" are of its making, of priorities above 16383.*--resume.*--back"
            ),
        )

    # ---- a lost record

    def test_a_record_that_is_lost_is_made_anew_and_gone_on_with_in_either_way(self):
        for name, text, more, end in (
            ("detour", "round 5 starts", [], self.settles), ("detour", "round 3 starts", ["--back"], self.is_back),
            ("square", "round 1 starts", [], self.settles),
            ("square", "the mark of the update is put", [], self.settles),
            ("detour", "round 8 starts", ["--back"], self.is_back),
        ):
            with self.subTest(text, more=more):
                net = Network(self, name)
                net.apply_until(text, "--wait", "0.05")
                net.record.unlink()
                run = net.apply("--recover", *more)
                end(net, run)
                self.assertRegex(
                    run[1], r"the record .* is made anew from what the switches have: \d of [28] rounds are settled"
                )
                self.assertEqual(self.marks(net), 0)

    def test_a_record_is_made_anew_in_the_middle_of_a_round(self):
        for more, end in (([], self.settles), (["--back"], self.is_back)):
            with self.subTest(more):
                net = Network(self, "detour", only={"w": {"error_at": 1}})
                self.stops(net.apply(), "the session with w failed", "--resume")
                net.record.unlink()
                run = net.apply("--recover", *more)
                self.assertIn("0 of 8 rounds are settled, and round 1 is half made", run[1])
                end(net, run)

    def test_tables_of_the_plan_itself_are_told_where_an_update_would_begin(self):
        net = Network(self, "detour")
        net.apply_until("round 5 starts")
        net.record = net.folder / "other"
        self.stops(net.apply("--take-over"), "So the switches don't have the tables of", " of 8 rounds are settled")
        self.assertIn("and its record is lost, --recover with another record goes on from there", self.last_of(net))
        net.record = net.folder / "third"
        self.settles(net, net.apply("--recover"))

    def test_tables_that_are_those_of_no_round_are_told(self):
        net = Network(self, "detour")
        net.apply_until("round 5 starts")
        time.sleep(0.2)
        net.record.unlink()
        net.switches["s"].table.clear()
        self.stops(net.apply("--recover"), "are those of no round of", "then --recover --repair goes on from there")
        self.assertFalse(net.record.exists())
        self.settles(net, net.apply("--recover", "--repair"))
        self.stops(net.apply("--recover"), "is there already", "go on with it by --resume or --back")


class Standings(unittest.TestCase):
    RULES = [
        {"switch": "a", "priority": 1, "dst": "10.0.0.0/8", "out": 1},
        {"switch": "b", "priority": 1, "dst": "10.0.0.0/8", "out": 1},
    ]
    PLAN = {
        "rules": [{**RULES[0], "out": 2}, {**RULES[1], "out": 2}, {**RULES[0], "priority": 2}, RULES[1]],
        "rounds": [[["replace", 0], ["replace", 1]], [["insert", 2]], [["delete", 3]]],
    }

    def test_each_state_of_a_plan_is_found(self):
        a, b, c = (
            ("a", (1, "any", "any", 10 << 24, 8)), ("b", (1, "any", "any", 10 << 24, 8)),
            ("a", (2, "any", "any", 10 << 24, 8)),
        )
        one, two = "output 1", "output 2"
        for there, settled, is_running, wrong in (
            ({a: one, b: one}, 0, False, 0), ({a: two, b: one}, 0, True, 0), ({a: one, b: two}, 0, True, 0),
            ({a: two, b: two}, 1, False, 0), ({a: two, b: two, c: one}, 2, False, 0), ({a: two, c: one}, 3, False, 0),
            ({a: two}, 3, False, 1), ({a: two, c: "drop"}, 3, False, 1),
        ):
            with self.subTest(there):
                found = under_way.standing(self.RULES, self.PLAN, there)
                self.assertEqual((found.settled, found.is_running, len(found.wrong)), (settled, is_running, wrong))


if __name__ == "__main__":
    unittest.main()
