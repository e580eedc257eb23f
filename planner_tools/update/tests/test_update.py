"""Tests of `planner update`: whole updates of switches in Python by one command, and a refusal at each step. PLANNER
names the program."""
import json
import os
import pathlib
import pty
import re
import shlex
import shutil
import signal
import struct
import subprocess
import sys
import time
import unittest

sys.path.insert(0, str(pathlib.Path(__file__).resolve().parents[2] / "switches" / "tests"))

from network import DATAPATHS, EXAMPLES, FRONT_END, LONGEST, PLANNER, Network, heed_interrupts  # noqa: E402
import fake_switch  # noqa: E402
from planner_tools.update import meanwhile, summary  # noqa: E402

FLOW_MESSAGE = bytes.fromhex("010e")


class UpdateCommand(unittest.TestCase):
    def network(self, name="square", **more):
        """Switches with the old tables of an example, and the folder with the three files."""
        net = Network(self, name, **more)
        net.wanted = net.folder / "wanted"
        net.wanted.mkdir()
        for word in ("topology", "new", "policy"):
            shutil.copy(EXAMPLES / name / f"{word}.json", net.wanted)
        return net

    def words(self, net, *more):
        wait = [] if {"--wait", "--ask"} & set(more) else ["--wait", "0.05"]
        return [
            sys.executable, str(FRONT_END), "update", str(net.wanted), "--switches", str(net.listed),
            *map(str, net.where), *wait, *more,
        ]

    def run_it(self, net, *more):
        done = subprocess.run(
            self.words(net, *more), capture_output=True, text=True, timeout=LONGEST, stdin=subprocess.DEVNULL,
            check=False, env={**os.environ, "PLANNER": PLANNER},
        )
        self.assertEqual(done.stdout, "")
        return done.returncode, done.stderr

    def answering(self, net, answer, *more):
        """A run that is asked on a terminal."""
        ours, theirs = pty.openpty()
        run = subprocess.Popen(
            self.words(net, *more), stdin=theirs, stderr=subprocess.PIPE, text=True,
            env={**os.environ, "PLANNER": PLANNER},
        )
        os.close(theirs)
        os.write(ours, f"{answer}\n".encode())
        said = run.communicate(timeout=LONGEST)[1]
        os.close(ours)
        return run.returncode, said

    def nothing_was_sent(self, net):
        """No switch was sent a message that changes its table."""
        for switch in net.switches.values():
            self.assertEqual(switch.flow_messages, 0)

    def stops(self, net, run, status, step, what, *then):
        found, said = run
        self.assertEqual(found, status, said)
        last = said.splitlines()[-1]
        self.assertIn(f"stopped at {step}", last)
        for words in (what, *then, "Nothing was sent"):
            self.assertIn(words, last)
        self.nothing_was_sent(net)

    def change(self, net, name, **members):
        path = net.wanted / f"{name}.json"
        path.write_text(json.dumps({**json.loads(path.read_text()), **members}))

    def carry_out(self, words):
        """Does a line that was said."""
        done = subprocess.run(
            [sys.executable, str(FRONT_END), *shlex.split(words)], capture_output=True, text=True, timeout=LONGEST,
            check=False, env={**os.environ, "PLANNER": PLANNER},
        )
        self.assertEqual(done.returncode, 0, done.stderr)


class Updating(UpdateCommand):
    def test_a_kind_of_plan_may_be_asked_for(self):
        net = self.network()
        status, said = self.run_it(net, "--dry-run", "--two-phase")
        if "unknown command or wrong words" in said:
            self.skipTest("this program takes no KIND")
        self.assertEqual(status, 0, said)
        self.assertIn("It works in two phases", said)
        self.assertIn("an ordered plan (KIND `ordered`) would have 2 rounds, 2 changes at 2 of 4 switches", said)
        self.nothing_was_sent(net)
        net = self.network("detour")
        self.stops(
            net, self.run_it(net, "--yes", "--ordered"), 1, "step 3 of 5, plan", "no ordered plan",
            "without --ordered a two-phase plan is made",
        )

    def test_both_examples_by_one_command(self):
        for name, words in (
            ("square", "2 rounds with 2 changes at 2 of 4 switches: 2 replaced"), ("detour", "8 rounds"),
        ):
            with self.subTest(name):
                net = self.network(name)
                status, said = self.run_it(net, "--yes")
                self.assertEqual(status, 0, said)
                self.assertIn(words, said)
                self.assertTrue(net.has(net.wanted / "new.json"))
                made = net.wanted / "update-1"
                self.assertEqual({"replies", "old.json", "plan.json", "record"} - set(os.listdir(made)), set())
                files = [
                    net.wanted / "topology.json", made / "old.json", net.wanted / "new.json",
                    net.wanted / "policy.json", made / "plan.json", made / "record",
                ]
                done = subprocess.run(
                    [PLANNER, "serve", *map(str, files[:-1])], input=files[-1].read_text(), capture_output=True,
                    text=True, timeout=LONGEST, check=False,
                )
                self.assertRegex(done.stdout, r"\nok settled (\d+) of \1\n$")
                status, said = self.run_it(net, "--yes")
                self.assertEqual(status, 0)
                self.assertIn("already: nothing is to be done", said)

    def test_a_dry_run_sends_nothing_and_says_how_to_go_on(self):
        net = self.network()
        status, said = self.run_it(net, "--dry-run")
        self.assertEqual(status, 0, said)
        self.assertIn("accepted: ordered, 2 rounds, 12 classes", said)
        self.assertIn(
            "12 classes of packets: 0 arrive no more, 0 arrive now and didn't, 3 go another way, 9 as before\n", said
        )
        self.assertIn(
            "    now s1 s4, leaves at s4:3\n    s1: 10.0.0.0/24, priority 100, to s4 (port 4), was s2 (port 2)\n", said
        )
        self.assertIn("a dry run ends here: nothing was sent", said)
        self.nothing_was_sent(net)
        line = re.search(r"it is carried out by: planner (.*)", said)[1]
        done = subprocess.run(
            [sys.executable, str(FRONT_END), *shlex.split(line)], capture_output=True, text=True, timeout=LONGEST,
            check=False, env={**os.environ, "PLANNER": PLANNER},
        )
        self.assertEqual(done.returncode, 0, done.stderr)
        self.assertTrue(net.has(net.wanted / "new.json"))

    def test_what_becomes_of_packets_outside_of_the_model_is_said_before_the_question(self):
        """In two phases ingress entries drop what the miss entry sent to the controller, and packets of undeclared
        VLANs."""
        net = self.network("detour")
        match = struct.pack("!I36x", 0x003820FF)
        net.switches["s"].table[fake_switch.key_of(match, 0)] = [match, 0, bytes.fromhex("00000008fffd0000"), 0]
        for key, one in net.switches["s"].table.items():
            net.switches["s"].table[key] = [*one[:3], 7 if one[1] else 0]
        status, said = self.run_it(net, "--dry-run")
        self.assertEqual(status, 0, said)
        plan = json.loads((net.wanted / "update-1" / "plan.json").read_text())
        rounds = [
            number
            for number, changes in enumerate(plan["rounds"], 1)
            for _, at in changes
            if plan["rules"][at]["out"] == "drop"
            and plan["rules"][at]["switch"] == "s"
            and "in_port" in plan["rules"][at]
        ]
        self.assertIn(
            (
                f"Note: in rounds {min(rounds)} to {max(rounds)} s drops IP packets of hosts that no rule takes, as of"
                " DHCP, which it sends to the controller now.\n"
            ),
            said,
        )
        self.assertIn(
            (
                f"Note: in rounds {min(rounds)} to {max(rounds)} s, d drop IP packets of hosts with VLANs that the"
                " topology doesn't declare, which rules for any VLAN take now.\n"
            ),
            said,
        )
        self.assertRegex(
            said,
            (
                r"Note: entries have cookies \(\d+ at s\): one that the plan deletes, and that is put back where the"
                r" update is turned back, has the cookie 0 then\."
            ),
        )
        self.nothing_was_sent(net)

    def test_an_ordered_plan_has_nothing_of_that(self):
        rule = {"switch": "s1", "priority": 5, "dst": "0.0.0.0/0", "out": "drop"}
        plan = {"kind": "ordered", "rules": [rule], "rounds": [[["delete", 0]]]}
        self.assertEqual(
            [],
            meanwhile.meanwhile(
                plan, [rule],
                "# s1: what no entry takes is sent to the controller\n# s2: 4 of its entries have a cookie\n",
            ),
        )
        self.assertEqual(1, len(meanwhile.meanwhile(plan, [rule], "# s1: 4 of its entries have a cookie\n")))

    def test_the_question(self):
        net = self.network()
        self.stops(net, self.run_it(net), 1, "the question", "there is no terminal to ask", "--yes")
        for answer in ("n", "", "perhaps"):
            self.stops(net, self.answering(net, answer), 1, "the question", "it isn't wanted", "the plan stays in")
        status, said = self.answering(net, "y")
        self.assertEqual(status, 0, said)
        self.assertTrue(net.has(net.wanted / "new.json"))
        self.assertTrue((net.wanted / "update-5" / "record").exists())

    def test_the_question_shows_what_show_shows(self):
        net = self.network("detour")
        said = self.answering(net, "n")[1]
        shown = subprocess.run(
            [
                sys.executable, str(FRONT_END), "show",
                *(str(net.wanted / name) for name in ("topology.json", "update-1/old.json", "update-1/plan.json")),
                "--wait", "0.05",
            ],
            capture_output=True, text=True, timeout=LONGEST, check=True, env={**os.environ, "PLANNER": PLANNER},
        ).stdout
        self.assertIn("\nround 8: ", shown)
        self.assertIn(shown, said)
        self.assertLess(said.index(shown), said.index("Carry it out? [y/N]"))
        self.assertIn(shown, self.run_it(net, "--dry-run")[1].replace("update-2", "update-1"))
        said = self.run_it(net, "--yes")[1]
        self.assertNotIn("\nround 8: ", said)
        self.assertIn("The plan has 8 rounds with", said)

    # ---- warnings and sentences

    def misspell(self, net):
        demands = json.loads((net.wanted / "policy.json").read_text())["demands"]
        self.change(
            net, "policy",
            demands=[{"thru" if word == "through" else word: it for word, it in one.items()} for one in demands],
        )

    def test_what_the_commands_warn_of_is_warned_of_before_the_question(self):
        net = self.network("detour")
        self.misspell(net)
        said = self.answering(net, "n")[1]
        warning = f"planner: warning: {net.wanted}/policy.json, line 1, column "
        self.assertIn(warning, said)
        self.assertIn("thru counts for nothing: no member has this name; did you mean `through`?", said)
        self.assertLess(said.index(warning), said.index("step 1: "))
        self.assertIn("There is 1 warning: see the first lines.\nCarry it out? [y/N]", said)
        checked = subprocess.run(
            [
                sys.executable, str(FRONT_END), "check",
                *(
                    str(net.wanted / f"{name}.json")
                    for name in ("topology", "update-1/old", "new", "policy", "update-1/plan")
                ),
            ],
            capture_output=True, text=True, timeout=LONGEST, check=True, env={**os.environ, "PLANNER": PLANNER},
        ).stderr
        warnings = [line for line in checked.splitlines() if line.startswith("planner: warning: ")]
        self.assertTrue(warnings)
        # each of them, and once
        self.assertEqual([line for line in said.splitlines() if line.startswith("planner: warning: ")], warnings)

    def test_strict_ends_it_at_a_warning_and_quiet_says_none(self):
        net = self.network()
        self.misspell(net)
        self.change(net, "policy", demands=[{"from": "s1:1", "dst": "10.0.0.0/24", "thru": ["s4"]}])
        for words in (("--yes", "--strict"), ("--yes", "--strict", "--quiet")):
            run = self.run_it(net, *words)
            self.assertIn("thru counts for nothing", run[1])
            self.stops(net, run, 3, "the files", "there are warnings, and --strict is given", "leave out --strict")
            self.assertEqual(sorted(os.listdir(net.wanted)), ["new.json", "policy.json", "topology.json"])
        self.assertEqual(self.run_it(net, "--yes", "--quiet"), (0, ""))
        self.assertTrue(net.has(net.wanted / "new.json"))

    def test_a_refusal_is_said_with_file_line_and_column(self):
        net = self.network()
        (net.wanted / "new.json").write_text(
            '{"rules": [\n  {"switch": "s1", "priority": 0, "dst": "10.0.0.0/24", "out": 2}]}'
        )
        run = self.run_it(net, "--yes")
        self.assertIn(f"planner: {net.wanted}/new.json, line 2, column 32: rules[0].priority is 0: ", run[1])
        self.stops(net, run, 3, "step 3 of 5, plan", "bad new", "correct that file")
        (net.wanted / "topology.json").write_text("{]")
        run = self.run_it(net, "--yes")
        self.assertIn(f"planner: {net.wanted}/topology.json, line 1, column 2: ", run[1])
        self.stops(net, run, 3, "the files", "is no topology")

    def test_a_run_that_fails_at_its_first_step_leaves_no_folder(self):
        net = self.network(only={"s3": {"late": 60.0}})
        self.stops(
            net, self.run_it(net, "--yes", "--patience", "0.5"), 1, "step 1 of 5, collect", "the lines above say why"
        )
        self.assertEqual(sorted(os.listdir(net.wanted)), ["new.json", "policy.json", "topology.json"])

    def test_files_that_are_not_there(self):
        net = self.network()
        (net.wanted / "policy.json").unlink()
        self.stops(
            net, self.run_it(net, "--yes"), 6, "the files", "policy.json can't be read",
            "has to have topology.json, new.json, policy.json",
        )
        (net.wanted / "topology.json").write_text("[]")
        (net.wanted / "policy.json").write_text("{}")
        self.stops(net, self.run_it(net, "--yes"), 3, "the files", "is no topology")

    def test_a_table_that_can_t_be_said_stops_at_collect(self):
        net = self.network()
        from test_collect import entry
        net.switches["s1"].entries = [entry(priority=32768)]
        status, said = run = self.run_it(net, "--yes")
        self.assertIn("s1: priority 32768 type 0800 10.0.0.0/24 -> output 2: its priority isn't 1 to 16383", said)
        self.assertFalse((net.wanted / "update-1").exists())
        self.stops(net, run, status, "step 1 of 5, collect", "the lines above say why")
        self.assertEqual(status, 1)

    def test_a_port_that_is_not_in_the_topology_stops_at_import(self):
        net = self.network()
        from test_collect import entry
        net.switches["s1"].entries = [entry(actions="00000008004d0000")]
        self.stops(
            net, self.run_it(net, "--yes"), 3, "step 2 of 5, import", "bad replies: 7 BadPort at 0",
            "change at the switches",
        )

    def test_what_no_plan_is_made_for_stops_at_plan(self):
        for change, status, what, *then in (
            (
                lambda net: self.change(
                    net, "policy", demands=[{"from": "s4:3", "dst": "10.0.0.0/24", "deliver": True}]
                ),
                1, "refused: 1 EndBreaks old", "update-1/old.json", "--own CONFIG` puts those of CONFIG in",
            ),
            (lambda net: self.change(net, "new", rules=[]), 1, "refused: 1 EndBreaks new", "wanted/new.json"),
            (lambda net: self.change(net, "new", rules=[{}]), 3, "bad new", "correct that file"),
        ):
            net = self.network()
            change(net)
            with self.subTest(what):
                self.stops(net, self.run_it(net, "--yes"), status, "step 3 of 5, plan", what, *then)
        net = self.network("detour")
        self.change(net, "topology", tags=[])
        self.stops(net, self.run_it(net, "--yes"), 4, "step 3 of 5, plan", "too few tags", "widen `tags`")
        net = self.network("detour")
        topology = json.loads((net.wanted / "topology.json").read_text())
        self.change(net, "topology", switches=[{**one, "capacity": 1} for one in topology["switches"]])
        self.stops(net, self.run_it(net, "--yes"), 5, "step 3 of 5, plan", "too small", "make room")

    def test_a_switch_that_refuses_a_change_stops_at_apply_with_the_line_to_go_on(self):
        net = self.network(only={"s3": {"error_at": 1}})
        status, said = self.run_it(net, "--yes")
        self.assertEqual(status, 1, said)
        self.assertIn("the session with s3 failed: Error 3 0", said)
        self.assertRegex(
            said.splitlines()[-1],
            (
                r"^where the line above says to go on with --resume, this does it: planner apply .*/update-1/record"
                r" .*--resume$"
            ),
        )

    def test_the_line_that_turns_an_update_back(self):
        for only, status in (({}, 0), ({"d": {"error_at": 3}}, 1)):
            with self.subTest(status=status):
                net = self.network("detour", only=only)
                found, said = self.run_it(net, "--yes")
                self.assertEqual(found, status, said)
                self.carry_out(re.search(r"this turns the update back: planner (.*)", said)[1])
                self.assertTrue(net.has(EXAMPLES / "detour" / "old.json"))

    def test_an_update_that_was_cut_off_is_gone_on_with(self):
        net = self.network(only={"s3": {"is_silent": True}})
        status, said = self.run_it(net, "--yes", "--patience", "0.5")
        self.assertEqual(status, 1, said)
        net.switches["s3"].is_silent = False
        self.carry_out(said.splitlines()[-1].partition("this does it: planner ")[2])
        self.assertTrue(net.has(net.wanted / "new.json"))


class Endings(UpdateCommand):
    """Runs that are ended before anything was sent."""

    def begun(self, net, *more):
        return subprocess.Popen(
            self.words(net, *more), stdin=subprocess.DEVNULL, stderr=subprocess.PIPE, text=True,
            env={**os.environ, "PLANNER": PLANNER}, preexec_fn=heed_interrupts,
        )

    def test_a_signal_ends_it_with_a_word(self):
        for number, words in (
            (signal.SIGHUP, "its terminal was closed (SIGHUP)"), (signal.SIGINT, "the operator ended it"),
            (signal.SIGTERM, "the operator ended it"),
        ):
            with self.subTest(number):
                net = self.network(only={"s3": {"late": 600.0}})
                run = self.begun(net, "--yes")
                for line in run.stderr:
                    if line.startswith("step 1: "):
                        break
                run.send_signal(number)
                said = run.communicate(timeout=LONGEST)[1]
                self.assertEqual((run.returncode, said), (1, f"stopped: {words}. Nothing was sent\n"))
                self.assertFalse((net.wanted / "update-1").exists())

    def test_where_nobody_hears_it_nothing_is_sent(self):
        net = self.network()
        run = self.begun(net, "--yes")
        run.stderr.close()
        self.assertEqual(run.wait(LONGEST), 1)
        self.nothing_was_sent(net)
        self.assertTrue(net.has(EXAMPLES / "square" / "old.json"))


class UnderWay(UpdateCommand):
    """A second run of `update` where an update is under way."""

    def interrupted(self, net, round_):
        """Ends an update by a key while a round runs, or waits to be begun."""
        run = subprocess.Popen(
            self.words(net, "--yes", "--wait", "0.3"), stdin=subprocess.DEVNULL, stderr=subprocess.PIPE, text=True,
            env={**os.environ, "PLANNER": PLANNER}, preexec_fn=heed_interrupts,
        )
        record, end = net.wanted / "update-1" / "record", time.monotonic() + LONGEST
        while (
            time.monotonic() < end
            and run.poll() is None
            and not (record.exists() and f"round {round_} starts" in record.read_text())
        ):
            time.sleep(0.01)
        run.send_signal(signal.SIGINT)
        said = run.communicate(timeout=LONGEST)[1]
        self.assertIn("the operator ended it", said)
        return record

    def says(self, net, *words):
        """What a second run says, which changes no table."""
        before = sum(one.flow_messages + one.own_messages for one in net.switches.values())
        status, said = self.run_it(net, "--yes")
        self.assertEqual(status, 1, said)
        last = said.splitlines()[-1]
        for one in ("stopped at step 1 of 5, collect: an update is under way: ", "Nothing was sent. Next: ", *words):
            self.assertIn(one, last)
        self.assertLess(len(said.splitlines()), 8, said)
        self.assertFalse((net.wanted / "update-2").exists())
        self.assertEqual(sum(one.flow_messages + one.own_messages for one in net.switches.values()), before)
        return dict(zip(("on", "back"), re.findall(r"`planner ([^`]*)`", last)))

    def test_it_names_the_record_and_both_ways_on(self):
        for name, round_, way, wanted in (
            ("detour", 4, "on", "new"), ("detour", 6, "back", "old"), ("square", 2, "on", "new"),
        ):
            with self.subTest(name, way=way):
                net = self.network(name)
                record = self.interrupted(net, round_)
                self.change(net, "new", comment="somebody goes on with their work")
                lines = self.says(net, " have its mark, ", f"; its record is {record}: ", " rounds are settled")
                self.carry_out(lines[way])
                self.assertTrue(net.has(EXAMPLES / name / f"{wanted}.json"))

    def test_it_says_where_a_run_is_at_work(self):
        net = self.network("detour", listen=True)
        run = subprocess.Popen(
            self.words(net, "--yes", "--wait", "60"), stdin=subprocess.DEVNULL, stderr=subprocess.PIPE, text=True,
            env={**os.environ, "PLANNER": PLANNER},
        )
        for line in run.stderr:
            if "the switches have the tables of" in line:
                break
        try:
            self.says(
                net, f"; its record is {net.wanted}/update-1/record, and a run is at work with it",
                "wait for the end of that run",
            )
        finally:
            run.kill()
            run.communicate()

    def test_where_the_record_is_lost_the_tables_say_how_far_it_came(self):
        for round_, way, wanted in ((5, "on", "new"), (3, "back", "old")):
            with self.subTest(way):
                net = self.network("detour")
                self.interrupted(net, round_).unlink()
                lines = self.says(
                    net, "Its record isn't in", "; by the tables of the switches ", " of 8 rounds are settled",
                    "update-1/plan.json", "see that nothing is at work with it any more",
                )
                self.assertIn("--recover", lines[way])
                self.carry_out(lines[way])
                self.assertTrue(net.has(EXAMPLES / "detour" / f"{wanted}.json"))

    def test_where_the_marks_are_gone_the_entries_say_it(self):
        net = self.network("detour")
        record = self.interrupted(net, 5)
        for one in net.switches.values():
            one.table = {key: it for key, it in one.table.items() if key[3] != 0x88B5}
        lines = self.says(net, "the switches have the entries of ", f"; its record is {record}: ")
        self.assertEqual(sorted(lines), ["back", "on"])

    def test_where_all_is_lost_it_says_what_to_look_for(self):
        net = self.network("detour")
        record = self.interrupted(net, 5)
        token = record.read_text().split()[4]
        shutil.rmtree(record.parent)
        net.switches["s"].table.popitem()
        said = self.run_it(net, "--yes")[1]
        self.assertIn("nor a plan whose tables these are", said)
        self.assertIn(f"a file whose second line begins with `# update {token}`", said)


class Gone(UpdateCommand):
    def test_an_update_without_a_switch_that_is_gone(self):
        """Its old rules are those of the last update that came to its end, of old.json, or else of new.json."""
        net = self.network()
        status, said = self.run_it(net, "--yes")
        self.assertEqual(status, 0, said)
        shutil.copy(EXAMPLES / "square" / "old.json", net.wanted / "new.json")
        net.switches["s3"].stop()
        status, said = self.run_it(net, "--yes", "--without", "s3")
        self.assertEqual(status, 0, said)
        self.assertIn("step 1: the tables of 3 switches are read", said)
        self.assertIn(f"s3: the rules of {net.wanted}/update-1/new.json count as the old (1 rule)", said)
        done = next(line for line in said.splitlines() if line.startswith("done: "))
        self.assertIn("--resume --repair s3 does so", done)
        net.switches["s3"] = fake_switch.FakeSwitch(DATAPATHS["square"]["s3"], net.address)
        net.switches["s3"].start()
        self.addCleanup(net.switches["s3"].stop)
        self.assertNotIn("--without", said.splitlines()[-1])     # it may be typed when the switch is there again
        self.carry_out(re.search(r"\(`planner (apply [^`]*)`\)", done)[1])
        self.assertTrue(net.has(EXAMPLES / "square" / "old.json"))

    def test_where_its_old_rules_are_looked_for(self):
        net = self.network()
        net.switches["s3"].stop()
        self.stops(
            net, self.run_it(net, "--yes", "--without", "s9"), 2, "the files", "has no switch s9", "name one of s1, s2,"
        )
        for copied, path in (("new", "new.json"), ("old", "old.json")):
            with self.subTest(path):
                shutil.copy(EXAMPLES / "square" / f"{copied}.json", net.wanted / path)
                said = self.run_it(net, "--dry-run", "--without", "s3")[1]
                self.assertIn(f"s3: the rules of {net.wanted}/{path} count as the old (1 rule)", said)
        self.assertIn("--without s3", said.splitlines()[-1])


class Summaries(unittest.TestCase):
    def test_durations(self):
        for seconds, words in (
            (0, "0 seconds"), (1, "1 second"), (119, "119 seconds"), (120, "2 minutes"), (1016, "17 minutes"),
            (7200, "2.0 hours"),
        ):
            self.assertEqual(summary.duration(seconds), words)

    def test_a_plan_of_one_change(self):
        plan = {"kind": "ordered", "rules": [{"switch": "s1"}], "rounds": [[["insert", 0]]]}
        self.assertEqual(
            summary.summary(plan, 1, None)[0],
            "The plan has 1 round with 1 change at 1 of 1 switch: 1 inserted (entry).",
        )

    def test_a_plan_in_two_phases(self):
        plan = {
            "kind": "two-phase", "rules": [{"switch": "s"}, {"switch": "t"}],
            "rounds": [[["insert", 0], ["delete", 1]], []],
        }
        lines = summary.summary(plan, 3, 90)
        self.assertEqual(
            lines[0], "The plan has 2 rounds with 2 changes at 2 of 3 switches: 1 inserted, 1 deleted (entries)."
        )
        self.assertIn("two phases", lines[1])
        self.assertEqual(lines[2], "With 90 s before each round it takes at least 3 minutes.")


if __name__ == "__main__":
    unittest.main()
