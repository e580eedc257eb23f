"""Tests of switches that are gone in the middle of an update: it goes on, or back, without them. When they are there
again they get the tables that they must have by then. Whole updates of fake switches over the loopback. PLANNER names
the program."""
import json
import os
import shlex
import signal
import stat
import subprocess
import sys
import unittest

import fake_switch
from network import DATAPATHS, FRONT_END, LONGEST, PLANNER, Network, UpdateTest
from planner_tools.switches.apply import MODES, typed, with_names

# A program that knows no line `dead`.
OLDER = """#!{python}
import os, subprocess, sys
if sys.argv[1] != "serve":
    os.execv({planner!r}, [{planner!r}, *sys.argv[1:]])
with subprocess.Popen([{planner!r}, *sys.argv[1:]], stdin=subprocess.PIPE, text=True) as run:
    for line in sys.stdin:
        run.stdin.write(line.replace("dead ", "unknown "))
        run.stdin.flush()
    run.stdin.close()
"""
STRAY = {"priority": 77, "dst": "203.0.113.0/24", "out": "drop"}


class Gone(UpdateTest):
    def dies(self, net, *names):
        """The switches are gone, with their tables."""
        for name in names:
            net.switches[name].stop()

    def come_back(self, net, *names, rules=(), **more):
        """Switches are there again, with these rules alone."""
        for name in names:
            net.switches[name] = fake_switch.FakeSwitch(
                DATAPATHS[net.files[0].parent.name][name], net.address, [{"switch": name, **one} for one in rules],
                **more,
            )
            net.switches[name].start()
            self.addCleanup(net.switches[name].stop)

    def end_of(self, run):
        said = run.communicate(timeout=LONGEST)[1]
        return run.returncode, said

    def runs_dry(self, net, silent, number):
        """An update that a silent switch holds up in a round; then that switch is gone."""
        net.switches[silent].is_silent = True
        run = net.apply("--patience", "1")
        self.stops(run, f"round {number} is running, no answer yet from {silent}", f"--resume --without {silent} goes")
        self.dies(net, silent)

    def rules_of(self, net, word, name):
        rules = json.loads(net.files[{"old": 1, "new": 2}[word]].read_text())["rules"]
        return [rule for rule in rules if rule["switch"] == name]

    def has_but(self, net, word, *gone):
        """Checks that all switches but those that are gone have the tables of a configuration, and no mark."""
        datapaths = DATAPATHS[net.files[0].parent.name]
        wanted = fake_switch.switches_of(datapaths, net.files[{"old": 1, "new": 2}[word]], None)
        for name in net.switches:
            if name not in gone:
                self.assertEqual(
                    {key: it[2] for key, it in net.switches[name].table.items()},
                    {key: it[2] for key, it in wanted[name].table.items()}, name,
                )

    def type_next(self, net, said):
        """Does the command that the last line says to type: its status and what it said."""
        line = said.splitlines()[-1].rpartition("(`")[2].rpartition("`)")[0]
        words = shlex.split(line)
        self.assertEqual(words[1], "apply", said)
        done = subprocess.run(
            [sys.executable, str(FRONT_END), *words[1:]], capture_output=True, text=True, timeout=LONGEST, check=False,
            env={**os.environ, "PLANNER": PLANNER},
        )
        return done.returncode, done.stderr

    # ---- on and back without them

    def test_an_update_goes_on_without_a_switch_that_is_gone_and_gives_it_the_new_table(self):
        for name, silent, rules in (("square", "s3", []), ("detour", "w", []), ("detour", "s", [STRAY])):
            with self.subTest(name, silent=silent):
                net = Network(self, name)
                self.runs_dry(net, silent, self.first_round_of(net, silent))
                status, said = net.apply("--resume", "--without", silent)
                self.assertEqual(status, 0, said)
                self.assertRegex(net.told(), r"\nok settled (\d+) of \1\n$")
                self.has_but(net, "new", silent)
                count, last = len(self.rules_of(net, "new", silent)), said.splitlines()[-1]
                self.assertIn(f"the switches have the tables of {net.files[2]}, but {silent}, which is dead", last)
                self.assertIn(f"give {silent} the {count} entr", last)
                self.assertIn(f"--resume --repair {silent} does so", last)
                self.come_back(net, silent, rules=rules)
                self.settles(net, self.type_next(net, said))

    def first_round_of(self, net, name):
        """The first round that changes a switch."""
        plan = json.loads(net.files[4].read_text())
        return 1 + next(
            at for at, one in enumerate(plan["rounds"]) if any(plan["rules"][it]["switch"] == name for _, it in one)
        )

    def test_an_update_is_turned_back_without_a_switch_that_is_gone(self):
        for name, silent in (("square", "s3"), ("detour", "w"), ("detour", "d")):
            with self.subTest(name, silent=silent):
                net = Network(self, name)
                self.runs_dry(net, silent, self.first_round_of(net, silent))
                status, said = net.apply("--back", "--without", silent)
                self.assertEqual(status, 0, said)
                self.assertRegex(net.told(), r"\nok settled 0 of \d+\n$")
                self.has_but(net, "old", silent)
                count = len(self.rules_of(net, "old", silent))
                self.assertIn(f"give {silent} the {count} entr", said.splitlines()[-1])
                self.assertIn(f"--back --repair {silent} does so", said.splitlines()[-1])
                self.come_back(net, silent)
                self.is_back(net, self.type_next(net, said))

    def test_several_switches_are_gone(self):
        net = Network(self, "detour")
        self.runs_dry(net, "w", 1)
        self.dies(net, "y")
        status, said = net.apply("--resume", "--without", "w", "--without", "y")
        self.assertEqual(status, 0, said)
        self.has_but(net, "new", "w", "y")
        last = said.splitlines()[-1]
        self.assertIn("but w, y, which are dead", last)
        self.assertIn("--resume --repair w --repair y does so", last)
        # one of them is there again; the update is looked at without the other
        self.come_back(net, "w", rules=[STRAY])
        status, said = net.apply("--resume", "--repair", "w")
        self.assertEqual(status, 0, said)
        self.has_but(net, "new", "y")
        self.assertIn("but y, which is dead", said.splitlines()[-1])
        self.come_back(net, "y")
        self.settles(net, self.type_next(net, said))

    def test_an_update_is_begun_without_a_switch(self):
        for more, end in (((), self.settles), (("--no-mark",), self.settles)):
            with self.subTest(more):
                net = Network(self, "detour")
                self.dies(net, "w")
                status, said = net.apply("--without", "w", *more)
                self.assertEqual(status, 0, said)
                self.assertIn("w is gone, and is waited for no more", said)
                self.has_but(net, "new", "w")
                self.come_back(net, "w")
                end(net, net.apply("--resume", "--repair", "w", *more))

    def test_the_record_keeps_that_a_switch_is_gone(self):
        net = Network(self, "detour")
        self.runs_dry(net, "w", 1)
        run = net.begin("--resume", "--without", "w", "--ask")
        self.wait_for(run, "round 2 of 8 is next")
        run.send_signal(signal.SIGINT)
        self.stops(self.end_of(run), "1 of 8 rounds are settled, without w", "go on with --resume")
        status, said = net.apply("--resume")
        self.assertEqual(status, 0, said)
        self.assertNotIn("is gone, and is waited", said)
        self.assertEqual(net.record.read_text().count("\ndead w\n"), 1)
        self.has_but(net, "new", "w")

    # ---- there again in the middle

    def test_a_switch_that_is_there_again_takes_part_in_the_rest(self):
        for more, end in ((["--resume"], self.settles), (["--back"], self.is_back)):
            for rules in ([], [STRAY]):
                with self.subTest(more, rules=rules):
                    net = Network(self, "detour")
                    self.runs_dry(net, "w", 1)
                    run = net.begin("--resume", "--without", "w", "--ask")
                    for number in (2, 3):
                        self.wait_for(run, f"round {number} of 8 is next")
                        self.press(run)
                    self.wait_for(run, "round 4 of 8 is next")
                    run.send_signal(signal.SIGINT)
                    self.end_of(run)
                    self.come_back(net, "w", rules=rules)
                    status, said = net.apply(*more, "--repair", "w")
                    end(net, (status, said))
                    self.assertIn("w has what it must have, and is dead no more", said)
                    self.assertNotIn("packets that fit these entries", said)

    def test_a_switch_that_is_there_again_while_a_round_runs_is_sent_that_round(self):
        """The round waits for another switch. What the one that is there again gets first is the table before the
        round, and then the round's messages."""
        for more, end in ((["--resume"], self.settles), (["--back"], self.is_back)):
            with self.subTest(more):
                net = Network(self, "detour")
                net.switches["y"].is_silent = True
                self.runs_dry(net, "w", 1)
                # both are held up in round 1
                run = net.apply("--resume", "--without", "w", "--patience", "1")
                self.stops(run, "round 1 is running, without w, no answer yet from y", "--resume")
                net.switches["y"].is_silent = False
                self.come_back(net, "w", rules=[STRAY])
                end(net, net.apply(*more, "--repair", "w"))
                lines = net.record.read_text().splitlines()
                self.assertLess(lines.index("dead w"), lines.index("reopen w", lines.index("dead w")))

    def test_a_switch_gets_what_the_round_that_was_settled_meanwhile_made(self):
        """The running round is settled while a switch that is there again is being given its table: then it must have
        what the round made, and is asked and given that before it takes part."""
        net = Network(self, "detour")
        net.switches["y"].is_silent = True
        self.runs_dry(net, "w", 1)
        self.stops(net.apply("--resume", "--without", "w", "--patience", "1"), "round 1 is running, without w", "")
        # y is given the round when w has come, answers, and the round is settled before w has stood for the wait
        net.switches["y"].is_silent = False
        self.come_back(net, "w", late=2.5)
        run = net.begin("--resume", "--repair", "w", "--wait", "2")
        said = self.wait_for(run, "w has what it must have, and is dead no more")
        run.kill()
        run.communicate()
        self.assertIn("round 1 of 8 is settled", said)
        self.assertEqual(said.count("what differs at w is put right"), 2, said)
        self.assertIn("w: missing: priority 16384", said[said.index("round 1 of 8 is settled"):])
        self.settles(net, net.apply("--resume", "--repair", "w"))

    # ---- words

    def test_a_dead_switch_that_connects_is_not_spoken_with(self):
        net = Network(self, "detour")
        self.runs_dry(net, "w", 1)
        self.come_back(net, "w")
        status, said = net.apply("--resume", "--without", "w")
        self.assertEqual(status, 0, said)
        self.assertIn("is w, which is dead by the record: no packet may pass it before `--repair w` has given it", said)
        self.assertEqual((net.switches["w"].flow_messages, net.switches["w"].own_messages), (0, 0))

    def test_a_switch_that_is_to_take_part_again_and_is_not_there_is_told(self):
        net = Network(self, "square")
        self.runs_dry(net, "s3", 2)
        net.apply("--resume", "--without", "s3")
        self.stops(
            net.apply("--resume", "--repair", "s3", "--patience", "1"), "2 of 2 rounds are settled, without s3",
            "then go on with --resume --repair s3. While it is gone --resume goes on without it",
        )
        status, said = net.apply("--resume")
        self.assertEqual(status, 0, said)

    def test_a_name_that_is_none_is_told_before_anything_is_begun(self):
        net = Network(self, "square")
        for option in ("--without", "--repair"):
            self.stops(net.apply(option, "s9"), f"{option} s9: {net.files[0]} has no switch s9", "name one of s1, s2,")
            self.assertFalse(net.record.exists())
        status, said = net.apply("--without", "s3", "--repair", "s3")
        self.assertEqual(status, 2, said)
        self.assertIn("it is either gone or there again", said)

    def test_a_program_that_does_not_know_dead_switches_is_told(self):
        net = Network(self, "square")
        self.dies(net, "s3")
        script = net.folder / "older"
        script.write_text(OLDER.format(python=sys.executable, planner=PLANNER))
        os.chmod(script, stat.S_IRWXU)
        self.stops(
            net.apply("--without", "s3", program=str(script)), "`planner serve` answers `bad line` to `dead s3`",
            "see that the program is as new as these scripts",
        )

    def test_a_lost_record_is_made_anew_without_a_switch(self):
        for more, end, word in (([], self.settles, "new"), (["--back"], self.is_back, "old")):
            with self.subTest(more):
                net = Network(self, "detour")
                net.apply_until("round 5 starts", "--wait", "0.05")
                net.record.unlink()
                self.dies(net, "w")
                status, said = net.apply("--recover", *more, "--without", "w")
                self.assertEqual(status, 0, said)
                self.has_but(net, word, "w")
                self.come_back(net, "w")
                end(net, self.type_next(net, said))


class Words(unittest.TestCase):
    def test_names_behind_options_are_told_from_files(self):
        self.assertEqual(
            with_names(["t.json", "--repair", "s1", "--without", "s2", "--repair", "--resume", "--repair"]),
            ["t.json", "--repair=s1", "--without=s2", "--repair=", "--resume", "--repair="],
        )
        self.assertEqual(with_names(["--repair", "t.json"]), ["--repair=", "t.json"])

    def test_the_command_that_is_typed_has_the_words_that_are_next(self):
        given = with_names(["t.json", "--back", "--without", "s2", "--repair", "s1", "--wait", "2"])
        for then, words in (
            ("then go on with --resume. Where it is gone", "--without s2 --wait 2 --resume"),
            ("when it is there: --resume --repair s2 does so", "--wait 2 --resume --repair s2"),
            ("--resume --repair, which sends", "--without s2 --wait 2 --resume --repair"),
        ):
            self.assertRegex(typed(given, then), rf" apply t.json {words}`\)$")
            without = words.replace("--without s2 ", "")
            self.assertRegex(typed(given, then, ["s2"]), rf" apply t.json {without}`\)$")
        self.assertRegex(typed(given, "leave out --resume to begin an update"), r" t.json --without s2 --wait 2`\)$")
        self.assertEqual("", typed(given, "--recover with another record goes on from there; or by --resume"))
        self.assertEqual(MODES.search("--back --repair w --repair y does")[0], "--back --repair w --repair y")


if __name__ == "__main__":
    unittest.main()
