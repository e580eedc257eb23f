"""Tests of turning back, of lost connections and of `serve` itself: whole updates of fake switches over the loopback.
PLANNER names the program."""
import os
import re
import signal
import stat
import sys
import time
import unittest

from network import LONGEST, PLANNER, Network, UpdateTest
from planner_tools.switches import openflow

# The lines that a core of the older form had, beside comments.
OLDER = re.compile(r"(start|feed [^ ]+ [0-9a-f]+)$")
# A program whose first run of `serve` dies in the middle of the block that says of a change.
DYING = """#!{python}
import os, subprocess, sys
if sys.argv[1] != "serve" or os.path.exists({died!r}):
    os.execv({planner!r}, [{planner!r}, *sys.argv[1:]])
with open({died!r}, "w"), subprocess.Popen([{planner!r}, *sys.argv[1:]], stdout=subprocess.PIPE, text=True) as run:
    for line in run.stdout:
        if line.startswith("change "):
            run.kill()
            sys.exit(9)
        print(line, end="", flush=True)
"""


def lines_of(net):
    """The lines of a record that aren't comments, without what stands behind a switch."""
    return [
        " ".join(line.split()[:2]) if line.startswith("feed") else line
        for line in net.record.read_text().splitlines()
        if not line.startswith("#")
    ]


class Turning(UpdateTest):
    def stopped_in_round(self, net, number, *more):
        """Ends a run by a key while the round runs: its status and what it said."""
        run, until = net.begin(*more), time.monotonic() + LONGEST
        while (
            time.monotonic() < until
            and run.poll() is None
            and not (net.record.exists() and f"round {number} starts" in net.record.read_text())
        ):
            time.sleep(0.01)
        time.sleep(0.1)
        run.send_signal(signal.SIGINT)
        return run.wait(LONGEST), run.stderr.read()

    def test_a_round_that_runs_is_turned_back(self):
        for name, number, slow, of in (
            ("square", 2, "s3", 2), ("square", 1, "s1", 2), ("detour", 1, "w", 8), ("detour", 6, "s", 8),
        ):
            with self.subTest(name, number=number):
                net = Network(self, name, only={slow: {"delay": 0.6}})
                net.switches[slow].delay = 0.3
                stopped = self.stopped_in_round(net, number)
                self.stops(
                    stopped,
                    f"the operator ended it; {number - 1} of {of} rounds are settled, round {number} is running",
                    "--back in its place turns the update back",
                )
                for one in net.switches.values():
                    one.delay = 0.0
                run = net.apply("--back")
                text = self.is_back(net, run)
                self.assertIn(f"round {number} is turned back", run[1])
                told = re.findall(rf"round (\d+) of {of} is undone", run[1])
                self.assertEqual(told, [str(it) for it in range(number, 0, -1)])
                self.assertIn(
                    f"no round is settled any more, {number - 1} were carried out and {number} undone",
                    run[1].splitlines()[-1],
                )
                self.assertEqual(lines_of(net).count("back"), number)
                self.assertEqual(text.count("\nback\n"), number - 1)

    def test_an_update_that_is_done_is_turned_back_and_carried_out_again(self):
        for name in ("square", "detour"):
            with self.subTest(name):
                net = Network(self, name)
                self.settles(net, net.apply())
                run = net.apply("--back", "--wait", "0.1")
                self.is_back(net, run)
                waits = [
                    float(it)
                    for it in re.findall(r"round \d+ is undone, after a wait of ([0-9.]+) s", net.record.read_text())
                ]
                self.assertTrue(waits and all(0.1 <= it < 10 for it in waits), waits)
                self.settles(net, net.apply("--resume"))

    def test_what_was_not_begun_or_is_back_already_is_only_compared(self):
        net = Network(self, "square")
        self.stops(net.apply("--back"), "there is no record", "to begin an update")
        net.apply_until("the mark of the update is put on the switches", "--wait", "20")
        run = net.apply("--back")
        self.is_back(net, run)
        self.assertIn("done: no round was begun, and the switches have the tables of", run[1])
        self.assertEqual(sum(one.flow_messages for one in net.switches.values()), 0)
        self.settles(net, net.apply("--resume"))
        self.is_back(net, net.apply("--back"))
        lines = lines_of(net).count("back")
        self.is_back(net, net.apply("--back"))
        self.assertEqual(lines_of(net).count("back"), lines)

    def test_an_update_with_a_failed_session_is_turned_back(self):
        for name, more in (
            ("square", {"s3": {"error_at": 1}}), ("detour", {"d": {"error_at": 3}}), ("detour", {"w": {"error_at": 1}}),
        ):
            with self.subTest(name, more=more):
                net = Network(self, name, only=more)
                self.stops(net.apply(), "failed: Error 3 0", "--back in its place turns the update back")
                self.is_back(net, net.apply("--back"))

    def test_a_session_that_fails_while_a_round_is_undone(self):
        net = Network(self, "square", only={"s1": {"error_at": 2}})
        self.settles(net, net.apply())
        self.stops(
            net.apply("--back"),
            "the session with s1 failed: Error 3 0 (flow message failed: all tables full); it is about: replace"
            " priority 100 10.0.0.0/24; 1 of 2 rounds are settled (2 were carried out and 1 undone)".replace(
                "1 of 2", "0 of 2"
            ),
            "go on with --back",
        )
        self.is_back(net, net.apply("--back"))

    def test_a_turned_update_that_is_killed_goes_on_either_way(self):
        for more, end in ((["--back"], self.is_back), (["--resume"], self.settles)):
            with self.subTest(more):
                net = Network(self, "detour")
                self.settles(net, net.apply())
                for one in net.switches.values():
                    one.delay = 0.1
                run = net.begin("--back")
                until = time.monotonic() + LONGEST
                while time.monotonic() < until and run.poll() is None and lines_of(net).count("back") < 3:
                    time.sleep(0.01)
                run.kill()
                run.wait()
                end(net, net.apply(*more))

    def test_a_switch_that_was_emptied_while_a_round_was_undone_is_told(self):
        net = Network(self, "square")
        self.settles(net, net.apply())
        net.switches["s3"].barriers, net.switches["s3"].empty_at = 0, 1
        self.stops(net.apply("--back"), "of s3 are not as they must be", "go on with --back --repair")
        self.is_back(net, net.apply("--back", "--repair"))

    # ---- lost connections

    def test_connections_that_are_lost_in_mid_round_are_taken_back_in_either_way(self):
        net = Network(self, "detour", only={name: {"close_at": 1} for name in ("s", "w", "d")})
        run = net.apply()
        self.settles(net, run)
        self.assertGreaterEqual(run[1].count("its session is opened anew"), 3)
        for name in ("s", "w", "d"):
            net.switches[name].barriers = 0
        run = net.apply("--back")
        self.is_back(net, run)
        self.assertIn("what it hasn't answered of the undoing of round", run[1])

    def test_a_session_is_opened_anew_when_the_connection_has_stood_for_the_wait(self):
        net = Network(self, "square", only={"s3": {"close_at": 1}})
        begun = time.monotonic()
        self.settles(net, net.apply("--wait", "1"))
        self.assertGreaterEqual(time.monotonic() - begun, 3.0)       # two rounds, and once for the connection

    def test_an_answer_on_the_new_connection_isn_t_one_of_the_old_session(self):
        net = Network(
            self, "square", only={"s3": {"close_at": 1, "greeting": openflow.message(openflow.BARRIER_REPLY, 4)}}
        )
        self.stops(net.apply(), "the session with s3 failed: Xid 4", "--resume")
        self.stops(net.apply("--back"), "the session with s3 failed: Xid 4", "--back")
        net.switches["s3"].greeting = b""
        self.is_back(net, net.apply("--back"))

    def test_the_operator_s_key_undoes_each_round(self):
        net = Network(self, "square")
        self.settles(net, net.apply())
        run = net.begin("--back", "--ask")
        for number in (2, 1):
            self.assertIn("press Enter", self.wait_for(run, f"the undoing of round {number} of 2 is next"))
            self.press(run)
        self.is_back(net, (0, run.communicate(timeout=LONGEST)[1]))

    # ---- `serve` itself

    def test_a_core_that_dies_is_told_and_the_record_goes_on(self):
        net = Network(self, "square")
        script = net.folder / "dying"
        script.write_text(DYING.format(python=sys.executable, died=str(net.folder / "died"), planner=PLANNER))
        os.chmod(script, stat.S_IRWXU)
        self.stops(
            net.apply(program=str(script)),
            "`planner serve` ended with status 9; 0 of 2 rounds are settled, round 1 is running",
            "then go on with --resume",
        )
        self.settles(net, net.apply("--resume"))

    def test_a_record_of_the_older_form_is_gone_on_with(self):
        for more, end in ((["--resume"], self.settles), (["--back"], self.is_back)):
            with self.subTest(more):
                net = Network(self, "square", only={"s3": {"is_silent": True}})
                self.stops(net.apply("--patience", "0.5"), "round 2 is running", "--resume")
                self.assertTrue(
                    all(OLDER.match(line) for line in net.record.read_text().splitlines() if not line.startswith("#"))
                )
                net.switches["s3"].is_silent = False
                end(net, net.apply(*more))


if __name__ == "__main__":
    unittest.main()
