"""The command line where it is misused, or used in unusual ways: what is said, the status, and that nothing is left
behind. PLANNER names the program."""
import json
import os
import shutil
import subprocess
import sys
import tempfile
import unittest

import rows

sys.path.insert(0, rows.ROOT)
from planner_tools import program  # noqa: E402

PROGRAM = os.path.abspath(program.path())
EXAMPLES = os.path.join(rows.ROOT, "examples")
UPDATE = ["topology.json", "old.json", "new.json", "policy.json"]


class Case(unittest.TestCase):
    """A copy of the square in a folder of its own, in which the commands run."""

    example = "square"

    def setUp(self):
        self.room = tempfile.TemporaryDirectory(prefix="planner-tests-")
        self.addCleanup(self.room.cleanup)
        self.folder = os.path.join(self.room.name, "net")
        shutil.copytree(os.path.join(EXAMPLES, self.example), self.folder)

    def path(self, name):
        return os.path.join(self.folder, name)

    def read(self, name):
        with open(self.path(name), encoding="utf-8") as file:
            return file.read()

    def write(self, name, text):
        with open(self.path(name), "w", encoding="utf-8") as file:
            file.write(text)

    def edit(self, name, change):
        """Changes what a file holds."""
        value = json.loads(self.read(name))
        change(value)
        self.write(name, json.dumps(value))

    def run_planner(self, *words, **more):
        """The status, the output and what is said of a run in the folder."""
        environment = {**os.environ, "PLANNER": PROGRAM, "PLANNER_TOOLS_TEST": "1", **more.pop("variables", {})}
        done = subprocess.run(
            [rows.FRONT_END, *words], cwd=more.pop("folder", self.folder), capture_output=True, timeout=rows.SECONDS,
            check=False, env=environment, text=True, **more,
        )
        return done.returncode, done.stdout, done.stderr

    def shell(self, line):
        """The same of a line of the shell, in which `planner` is the front end."""
        done = subprocess.run(
            ["sh", "-c", line.replace("planner", rows.FRONT_END)], cwd=self.folder, capture_output=True,
            timeout=rows.SECONDS, check=False, text=True,
            env={**os.environ, "PLANNER": PROGRAM, "PLANNER_TOOLS_TEST": "1"},
        )
        return done.returncode, done.stdout, done.stderr


class Output(Case):
    """Where the answer goes."""

    def test_a_folder_as_output_is_refused(self):
        before = sorted(os.listdir(self.folder))
        for command in ("plan", "show", "page"):
            for place, said in (
                (self.room.name, f"planner: {self.room.name}: Is a directory\n    -o takes the name of a file\n"),
                (".", "planner: .: Is a directory\n    -o takes the name of a file\n"),
            ):
                with self.subTest(command=command, place=place):
                    self.assertEqual((7, "", said), self.run_planner(command, ".", "-o", place, "--quiet"))
        self.assertEqual((before, ["net"]), (sorted(os.listdir(self.folder)), os.listdir(self.room.name)))

    def test_no_name_as_output_is_refused(self):
        before = sorted(os.listdir(self.folder))
        for command in ("plan", "show"):
            with self.subTest(command):
                status, text, said = self.run_planner(command, ".", "-o", "")
                self.assertEqual(
                    (2, "", "planner: behind -o the name of a file is missing\n"),
                    (status, text, said[: said.index("\n") + 1]),
                )
        self.assertEqual(before, sorted(os.listdir(self.folder)))

    def test_an_output_file_that_cannot_be_written(self):
        for command in ("plan", "show"):
            with self.subTest(command):
                status, _, said = self.run_planner(command, ".", "-o", "/dev/full", "--quiet")
                self.assertEqual(7, status)
                self.assertIn("planner: /dev/full: the output couldn't all be written: No space left on device", said)

    def test_a_closed_standard_output(self):
        for line in (
            "planner plan .", "planner show .", "planner page .", "planner --help", "planner --version",
            "planner check .",
        ):
            with self.subTest(line):
                status, _, said = self.shell(f"{line} >&-")
                self.assertEqual(
                    (
                        7,
                        (
                            "planner: the standard output: the output couldn't all be written: Bad file descriptor;"
                            " what is there isn't whole"
                        ),
                    ),
                    (status, said.splitlines()[-1]),
                )
        self.assertEqual((0, ""), self.shell("planner plan . -o plan-2.json --quiet >&-")[::2])
        self.assertEqual(self.read("plan.json").strip(), self.read("plan-2.json").strip())

    def test_a_closed_error_stream(self):
        for line in ("planner plan .", "planner show .", "planner check . plan-at-once.json"):
            with self.subTest(line):
                status, text, _ = self.shell(line)
                self.assertEqual((status, text, ""), self.shell(f"{line} 2>&-"))


class Words(Case):
    """Names of files, folders and options."""

    def test_the_standard_input_is_shown(self):
        plan = self.read("plan.json")
        for words in (["show", "-"], ["show", ".", "-"], ["show", "topology.json", "old.json", "-"]):
            with self.subTest(words=words):
                status, text, _ = self.run_planner(*words, input=plan)
                self.assertEqual(
                    (0, self.run_planner("show", ".")[1].replace("plan.json", "the standard input", 1)), (status, text)
                )
        self.assertEqual(
            (3, "", "planner: the standard input: a policy isn't shown\n    planner show TOPO [OLD] [PLAN] FILE\n"),
            self.run_planner("show", ".", "-", input=self.read("policy.json")),
        )
        self.assertEqual(
            (
                3, "",
                (
                    "planner: the standard input: it is no JSON that can be shown: the file ends before the object that"
                    " begins in line 1, column 1 is closed: it is cut off, or a bracket is missing\n"
                ),
            ),
            self.run_planner("show", ".", "-", input=plan.rstrip()[:-1]),
        )

    def test_the_standard_input_as_page(self):
        plan = self.read("plan.json")
        whole = self.run_planner("page", ".", "--layout", "own")[1]
        for words in (["page", "-"], ["page", ".", "-"], ["page", *UPDATE, "-"]):
            with self.subTest(words=words):
                status, text, said = self.run_planner(*words, "--layout", "own", input=plan)
                self.assertEqual(
                    (0, "", True), (status, said, "<title>the standard input: what the plan does</title>" in text)
                )
                self.assertEqual(len(whole.splitlines()), len(text.splitlines()))
        status, text, _ = self.run_planner("page", "topology.json", "-", "--layout", "own", input=self.read("old.json"))
        self.assertEqual((0, True), (status, "<title>the standard input: where packets go</title>" in text))
        status, text, said = self.run_planner("page", ".", "-", input=plan[:-9])
        self.assertEqual((3, "", True), (status, text, "planner: the standard input, line " in said), said)

    def test_the_standard_input_twice(self):
        for words in (["show", ".", "-", "-"], ["page", ".", "-", "--schedule", "-"]):
            with self.subTest(words=words):
                status, text, said = self.run_planner(*words, input=self.read("plan.json"))
                self.assertEqual(
                    (
                        2, "",
                        "planner: `-` stands twice among the words, and the standard input can be read only once\n",
                    ),
                    (status, text, said),
                )

    def test_a_misspelt_folder_is_said_as_such(self):
        for words in ("plan", "config", "page", "show", "apply", "diff", "links", "policy", "route"):
            with self.subTest(words):
                status, _, said = self.run_planner(words, "nett", folder=self.room.name)
                self.assertEqual(
                    (2, "planner: nett: No such file or directory; did you mean net?"), (status, said.splitlines()[0])
                )

    def test_an_unknown_option_is_wrong_words_wherever_it_stands(self):
        for words in (
            "--strct plan .", "plan --strct .", "plan . --strct", "plan topology.json old.json --strct",
            "plan topology.json old.json new.json policy.json --strct", "config topology.json --strct",
            "show . --strct", "page . --strct", "collect . --switches switches --strct",
            "update . --switches switches --strct",
        ):
            with self.subTest(words):
                status, _, said = self.run_planner(*words.split())
                self.assertEqual(2, status, said)
                self.assertIn("--strct", said)

    def test_a_file_with_the_name_of_an_option(self):
        os.rename(self.path("policy.json"), self.path("--policy"))
        self.assertEqual(0, self.run_planner("plan", "topology.json", "old.json", "new.json", "--policy")[0])

    def test_help_in_its_usual_forms(self):
        whole, version = self.run_planner("--help"), self.run_planner("--version")
        for words in (["-h"], ["help"], ["help", "-h"]):
            self.assertEqual(whole, self.run_planner(*words))
        self.assertEqual(version, self.run_planner("-V"))
        for command in ("plan", "apply", "show", "to-ofctl"):
            self.assertEqual(0, self.run_planner(command, "--help")[0])
            for words in ([command, "-h"], ["help", command]):
                self.assertEqual(self.run_planner(command, "--help"), self.run_planner(*words))
        self.assertEqual(
            (
                2, "",
                "planner: no command is named `pln`; did you mean `plan`?\n    `planner --help` has the commands\n",
            ),
            self.run_planner("help", "pln"),
        )

    def test_the_name_alone_says_what_there_is(self):
        status, text, said = self.run_planner()
        self.assertEqual((2, "unknown command or wrong words\n"), (status, text))
        for name in ("plan", "update", "show", "install"):
            self.assertRegex(said, rf"\b{name}\b")


    def test_a_folder_or_a_file_of_switches_that_is_not_there(self):
        for command, wanted in (
            ("update nett --switches switches", (6, "nett is no folder", "; did you mean net?\n")),
            ("adopt nett --switches switches", (1, "nett is no folder", "; did you mean net?\n")),
            ("update net --switches nowhere", (6, "nowhere can't be read: No such file", "--switches names the file")),
            ("adopt net --switches nowhere", (1, "stopped: nowhere: No such file or directory.", "begin again")),
            ("collect net --switches nowhere", (1, "stopped: nowhere: No such file or directory.", "ask again")),
        ):
            with self.subTest(command):
                status, _, said = self.run_planner(*command.split(), folder=self.room.name)
                self.assertEqual(wanted[0], status, said)
                for words in wanted[1:]:
                    self.assertIn(words, said)


class Warnings(Case):
    """What is warned of."""

    # The commands of the front end that show what files mean, over files of the folder.
    SHOWING = (
        "diff .", "links . new.json", "policy .", "route . prefixes --from new.json", "page . plan.json",
        "page topology.json new.json policy.json",
    )

    def test_the_commands_that_show_what_files_mean_warn_too(self):
        self.edit("topology.json", lambda value: value["switches"][0].update(kapacity=3))
        self.edit("policy.json", lambda value: value["demands"][0].update(thru=["s1"]))
        self.write("prefixes", "10.0.0.0/24 s4:3\n")
        for line in self.SHOWING:
            with self.subTest(line):
                status, text, said = self.run_planner(*line.split())
                self.assertEqual(0, status, said)
                self.assertEqual(1, said.count("switches[0].kapacity counts for nothing"), said)
                self.assertEqual(line.startswith(("diff", "page")), "demands[0].thru counts for nothing" in said, said)
                self.assertEqual((0, text), self.run_planner(*line.split(), "--quiet")[:2])
                status, text, said = self.run_planner(*line.split(), "--strict")
                self.assertEqual((3, ""), (status, text), said)
                self.assertIn("switches[0].kapacity counts for nothing", said)

    def test_an_option_s_file_is_looked_at_too(self):
        self.write("prefixes", "10.0.0.0/24 s4:3\n")
        self.edit("new.json", lambda value: value["rules"][0].update(in_prot=1))
        status, _, said = self.run_planner("route", ".", "--from", "new.json")
        self.assertEqual(0, status, said)
        self.assertIn("rules[0].in_prot counts for nothing: no member has this name; did you mean `in_port`?", said)

    def test_many_members_that_count_for_nothing_are_one_warning(self):
        def mark(value):
            for one in value["rules"]:
                one["coment"] = "as ordered"
        self.edit("old.json", mark)
        status, _, said = self.run_planner("config", "topology.json", "old.json")
        self.assertEqual(
            (
                0,
                (
                    "planner: warning: old.json, line 1, column 78: rules[0].coment counts for nothing: no member has"
                    " this name\n    3 more like it: rules[1].coment, rules[2].coment, rules[3].coment\n    the members"
                    " are `switch`, `priority`, `in_port`, `vlan`, `dst`, `out`\n"
                ),
            ),
            (status, said),
        )

    def test_a_thousand_rules_with_such_a_member(self):
        self.write(
            "many.json",
            json.dumps(
                {
                    "rules": [
                        {
                            "switch": "s1", "priority": 1 + number, "dst": "10.0.0.0/24", "out": 2, "note": "x",
                            "remark": "y",
                        }
                        for number in range(1000)
                    ]
                }
            ),
        )
        self.edit("topology.json", lambda value: value["switches"][0].update(capacity=1000))
        lines = self.run_planner("config", "topology.json", "many.json")[2].splitlines()
        self.assertEqual(2, sum("counts for nothing" in line for line in lines))
        self.assertIn(
            (
                "    999 more like it: rules[1].note, rules[2].note, rules[3].note, rules[4].note, rules[5].note,"
                " rules[6].note and 993 more"
            ),
            lines,
        )
        self.assertLess(len(lines), 12)

    def test_many_demands_that_speak_of_no_packet_are_one_warning(self):
        def add(value):
            value["demands"] += [{"dst": f"10.{number}.0.0/16", "vlan": 7} for number in range(9)]
        self.edit("policy.json", add)
        said = self.run_planner("config", "topology.json", "old.json", "policy.json")[2]
        self.assertEqual(1, said.count("speaks of no packet"))
        self.assertIn(
            "    8 more like it: demands[4], demands[5], demands[6], demands[7], demands[8], demands[9] and 2 more\n",
            said,
        )

    def test_remarks_are_no_warnings(self):
        def mark(value):
            value["_made_by"] = "hand"
            for one in next(iter(one for one in value.values() if isinstance(one, list))):
                one["comment"] = one["_ticket"] = "as ordered"
        for name in UPDATE:
            self.edit(name, mark)
        status, text, said = self.run_planner("plan", ".", "--strict", "--quiet")
        self.assertEqual((0, self.read("plan.json").strip(), ""), (status, text.strip(), said))
        self.edit("old.json", lambda value: value.update(note="x"))
        status, text, said = self.run_planner("plan", ".", "--strict", "--quiet")
        self.assertEqual((3, ""), (status, text))
        self.assertIn("note counts for nothing", said)

    def test_a_file_of_the_working_folder_in_place_of_one_of_the_folder_is_warned_of(self):
        shutil.copy(self.path("old.json"), os.path.join(self.room.name, "new.json"))
        warning = (
            "planner: warning: new.json is the file of the working folder, and net has another one of this name\n"
            "    `net/new.json` names that one, and `./new.json` the one that is taken without this warning\n"
        )
        status, text, said = self.run_planner("config", "net", "new.json", folder=self.room.name)
        self.assertEqual((0, "holds: 12 classes\n", True), (status, text, said.startswith(warning)), said)
        self.assertEqual((3, ""), self.run_planner("config", "net", "new.json", "--strict", folder=self.room.name)[:2])
        self.assertEqual(warning, self.run_planner("show", "net", "new.json", folder=self.room.name)[2])
        for word in ("./new.json", "net/new.json"):
            self.assertNotIn("warning", self.run_planner("config", "net", word, folder=self.room.name)[2])


class Answers(Case):
    """What is said of an answer."""

    def send_back(self):
        """Lets s3 send what comes from s2 back to it."""
        self.edit("old.json", lambda value: value["rules"][2].update(out=1))

    def test_a_packet_that_is_sent_back_is_said_to_be(self):
        self.send_back()
        for words in (
            ["config", "topology.json", "old.json", "policy.json"],
            ["paths", "topology.json", "old.json", "policy.json"], ["plan", "."],
        ):
            with self.subTest(words=words):
                status, _, said = self.run_planner(*words)
                self.assertEqual(1, status)
                self.assertIn("      dropped by s3: its output is the port it came in by\n", said)
                self.assertIn(
                    (
                        "    Next: let s3 send it to another port in old.json, where it is to arrive; where others that"
                        " come in elsewhere need that rule, by a rule of greater"
                    ),
                    said,
                )

    def test_trace_says_that_a_packet_is_sent_back(self):
        for output, said in ((3, "planner: note: dropped by s2: its output is the port it came in by\n"), ("drop", "")):
            self.edit("new.json", lambda value: value["rules"][1].update(out=output))
            self.assertEqual(
                (0, said), self.run_planner("trace", ".", "new.json", "s2:3", "untagged", "10.0.0.1")[::2]
            )

    def test_explain_says_that_a_packet_is_sent_back(self):
        self.edit(
            "new.json",
            lambda value: (value["rules"].clear(), value["rules"].extend(json.loads(self.read("old.json"))["rules"])),
        )
        self.edit("new.json", lambda value: value["rules"][1].update(out=1))
        self.edit("policy.json", lambda value: value["demands"].pop())
        rule = {"switch": "s2", "priority": 100, "dst": "10.0.0.0/24", "out": 1}
        self.write(
            "plan.json",
            json.dumps(
                {
                    "format": 2, "kind": "ordered", "rules": [rule, {**rule, "out": 2}],
                    "rounds": [[["replace", 0]], [["replace", 1]]], "numberings": [], "befores": [], "uses": [],
                    "picks": [],
                }
            ),
        )
        status, _, said = self.run_planner(
            "explain", "topology.json", "old.json", "old.json", "policy.json", "plan.json"
        )
        self.assertEqual(0, status, said)
        self.assertIn(
            "    packet 0 is dropped by s2: its output is the port it came in by, and has broken the policy\n", said
        )

    def test_a_plan_without_evidence_leads_to_certify(self):
        self.edit("plan.json", lambda value: value.update(numberings=[], befores=[], uses=[], picks=[]))
        status, text, said = self.run_planner("check", ".")
        self.assertEqual((1, "refused: 6 NoNumbering round 1 at s1:1 untagged 0.0.0.0\n"), (status, text))
        self.assertRegex(
            said, r"Next: the plan has no evidence for its rounds: `\S*planner certify \.` makes it, where there is any"
        )
        self.assertNotIn("certify", self.run_planner("check", ".", "plan-at-once.json")[2])

    def test_old_and_new_in_the_wrong_order(self):
        status, _, said = self.run_planner("check", "topology.json", "new.json", "old.json", "policy.json", "plan.json")
        self.assertEqual(1, status)
        self.assertIn(
            (
                "    with old.json as the old configuration and new.json as the new one the plan is accepted: are they"
                " swapped?\n"
            ),
            said,
        )
        self.assertNotIn("swapped", self.run_planner("check", ".", "plan-at-once.json")[2])

    def test_text_of_ovs_ofctl_given_to_import(self):
        for text in (
            "NXST_FLOW reply (xid=0x4):\n",
            (
                " cookie=0x0, duration=1.3s, table=0, n_packets=0, n_bytes=0, priority=100,ip,nw_dst=10.0.0.0/24"
                " actions=output:2\n"
            ),
        ):
            self.write("flows", text)
            status, _, said = self.run_planner("import", "topology.json", "flows")
            self.assertEqual(3, status)
            self.assertIn(
                "planner: flows, line 1: it is text of `ovs-ofctl dump-flows`, and no bytes of a message\n", said
            )
            self.assertIn(
                "`planner from-ofctl TOPO SWITCH=FILE` makes a configuration of that text", " ".join(said.split())
            )

    def test_the_default_priority_of_ovs_ofctl_is_named(self):
        self.edit("old.json", lambda value: value["rules"][0].update(priority=32768))
        self.assertIn(
            "    32768 is the priority that `ovs-ofctl add-flow` takes where none is given\n",
            self.run_planner("config", "topology.json", "old.json")[2],
        )

    def test_the_folder_of_an_update_stands_for_its_files(self):
        """Such a folder has the old configuration and the plan; what the update began with stands in the folder
        above."""
        os.mkdir(self.path("update-1"))
        for name in ("old.json", "plan.json"):
            os.rename(self.path(name), self.path(f"update-1/{name}"))
        status, text, said = self.run_planner("show", "update-1")
        self.assertEqual(
            (0, "update-1/plan.json: ordered, 2 rounds, 2 changes at 2 switches: 0 new, 2 changed, 0 deleted", ""),
            (status, text.splitlines()[0], said),
        )
        self.assertIn("  s1: 10.0.0.0/24 to s4 (port 4), was s2 (port 2)\n", text)
        self.assertEqual((0, "accepted: ordered, 2 rounds, 12 classes\n"), self.run_planner("check", "update-1")[:2])
        self.assertEqual(0, self.run_planner("page", "update-1", "--layout", "own")[0])


class OnThePath(Case):
    """Lines that are printed to be typed."""

    def test_the_planner_is_named_as_it_can_be_called_from_here(self):
        words = ["config", "topology.json", "old.json", "policy.json"]
        path = os.environ.get("PATH", os.defpath)
        self.assertIn(
            "`planner paths topology.json old.json policy.json` lists them",
            self.run_planner(*words, variables={"PATH": os.pathsep.join([rows.ROOT, path])})[2],
        )
        elsewhere = os.pathsep.join(
            one for one in path.split(os.pathsep) if not os.path.exists(os.path.join(one, "planner"))
        )
        said = self.run_planner(*words, variables={"PATH": elsewhere})[2]
        line = next(line for line in said.splitlines() if "lists them" in line).split("`")[1]
        self.assertNotEqual("planner", line.split()[0])
        done = subprocess.run(
            ["sh", "-c", line], cwd=self.folder, capture_output=True, text=True, timeout=rows.SECONDS, check=False,
            env={**os.environ, "PLANNER": PROGRAM},
        )
        self.assertEqual((0, "12 classes: "), (done.returncode, done.stdout.splitlines()[-1][:12]))


if __name__ == "__main__":
    unittest.main()
