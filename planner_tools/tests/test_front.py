"""The front end beside the program: what the program writes and its status are handed on as they are; options, files
and manners. PLANNER names the program."""
import json
import os
import pty
import random
import signal
import subprocess
import sys
import tempfile
import unittest

import rows
import usual

sys.path.insert(0, rows.ROOT)
from planner_tools import program  # noqa: E402
from planner_tools.faults import faults_of  # noqa: E402
from planner_tools.files import Json, NotJson, read_json  # noqa: E402
from planner_tools.network import Network, plain  # noqa: E402
from planner_tools.version import VERSION  # noqa: E402
from planner_tools.words import PROVED  # noqa: E402

PROGRAM = os.path.abspath(program.path())
EXAMPLES = os.path.join(rows.ROOT, "examples")
SQUARE = os.path.join(EXAMPLES, "square")
UPDATE = ["topology.json", "old.json", "new.json", "policy.json"]
# The words of runs in the folder of each example, whose text and status are compared.
COMMANDS = [
    "config topology.json old.json", "config topology.json new.json policy.json",
    "plan topology.json old.json new.json policy.json", "plan topology.json new.json old.json policy.json",
    "plan topology.json old.json old.json policy.json", "check topology.json old.json new.json policy.json plan.json",
    "check topology.json new.json old.json policy.json plan.json",
    "certify topology.json old.json new.json policy.json plan.json", "pack topology.json old.json new.json policy.json",
    "explain topology.json old.json new.json policy.json plan.json",
    "simulate topology.json old.json new.json policy.json plan.json 7 100",
    "simulate topology.json new.json old.json policy.json plan.json 7 100", "upgrade topology.json plan.json",
    "emit topology.json plan.json", "replay topology.json old.json plan.json none", "import topology.json plan.json",
    "drive topology.json old.json new.json policy.json plan.json README.md", "upgrade topology.json topology.json",
    "config topology.json policy.json", "plan plan.json old.json new.json policy.json", "sample 4", "sample 16",
    "sample 3", "none", "plan", "check a b c d e", "paths topology.json old.json policy.json",
    "paths topology.json new.json", "config topology.json old.json policy.json more",
    *(
        f"pack topology.json old.json new.json policy.json{kind}"
        for kind in ("", " ordered", " two-phase", " none", " ordered ordered")
    ),
]
SQUARE_COMMANDS = [
    "check topology.json old.json new.json policy.json plan-at-once.json",
    "explain topology.json old.json new.json policy.json plan-at-once.json",
    "replay topology.json old.json plan.json schedule", "import topology.json replies-s1",
    "import topology.json schedule", "simulate topology.json old.json new.json policy.json plan-at-once.json 0 2",
    "trace topology.json old.json s1:1 untagged 10.0.0.1", "tables topology.json old.json plan.json schedule",
]
# A command that no line above is of has a usual run.
COMMANDS += map(" ".join, usual.of_others([line.split() for line in COMMANDS + SQUARE_COMMANDS]))


def planner(*words, folder=SQUARE, **more):
    return subprocess.run(
        [rows.FRONT_END, *words], cwd=folder, capture_output=True, timeout=rows.SECONDS, check=False,
        env={**os.environ, "PLANNER": more.pop("program", PROGRAM), **more.pop("variables", {})}, **more,
    )


def directly(*words, folder=SQUARE, **more):
    return subprocess.run([PROGRAM, *words], cwd=folder, capture_output=True, timeout=rows.SECONDS, check=False, **more)


class Answers(unittest.TestCase):
    def same(self, front, direct):
        self.assertEqual((direct.returncode, direct.stdout), (front.returncode, front.stdout))

    def test_text_and_status_are_the_programs(self):
        for example in sorted(os.listdir(EXAMPLES)):
            folder = os.path.join(EXAMPLES, example)
            for line in COMMANDS + (SQUARE_COMMANDS if example == "square" else []) if os.path.isdir(folder) else []:
                with self.subTest(example=example, words=line):
                    self.same(planner(*line.split(), folder=folder), directly(*line.split(), folder=folder))

    def test_each_command_has_a_usual_run(self):
        for command in PROVED:
            with self.subTest(command.name):
                run = usual.words_of(command)
                self.assertNotEqual(2, directly(*run, stdin=subprocess.DEVNULL).returncode, run)

    def test_a_good_run_says_nothing_that_is_no_note(self):
        for words in (
            ["plan", *UPDATE], ["check", *UPDATE, "plan.json"], ["emit", "topology.json", "plan.json"], ["sample", "4"],
        ):
            said = planner(*words).stderr.decode()
            self.assertTrue(all(line.startswith(("planner: note: ", "    ")) for line in said.splitlines()), said)
            self.assertEqual(b"", planner(*words, "--quiet").stderr)

    def test_a_folder_stands_for_the_names_that_are_left_out(self):
        for words, whole in [
            ("plan square", "plan S/topology.json S/old.json S/new.json S/policy.json"),
            ("check square", "check S/topology.json S/old.json S/new.json S/policy.json S/plan.json"),
            (
                "check square square/plan-at-once.json",
                "check S/topology.json S/old.json S/new.json S/policy.json S/plan-at-once.json",
            ),
            (
                "check square plan-at-once.json",
                "check S/topology.json S/old.json S/new.json S/policy.json S/plan-at-once.json",
            ),
            ("config square", "config S/topology.json S/old.json S/policy.json"),
            ("config square new.json", "config S/topology.json S/new.json S/policy.json"),
            ("simulate square 3 9", "simulate S/topology.json S/old.json S/new.json S/policy.json S/plan.json 3 9"),
            ("replay square", "replay S/topology.json S/old.json S/plan.json S/schedule"),
            ("import square replies-s1", "import S/topology.json S/replies-s1"),
            ("emit square", "emit S/topology.json S/plan.json"),
        ]:
            with self.subTest(words):
                self.same(
                    planner(*words.split(), folder=EXAMPLES),
                    directly(*whole.replace("S/", "square/").split(), folder=EXAMPLES),
                )

    def test_the_standard_input(self):
        with open(os.path.join(SQUARE, "plan.json"), "rb") as file:
            plan = file.read()
        self.same(planner("check", *UPDATE, "-", input=plan), directly("check", *UPDATE, "plan.json"))
        self.assertEqual(3, planner("check", *UPDATE, "-", input=plan[:-9]).returncode)

    def test_an_answer_goes_into_a_file_only_where_it_is_yes(self):
        with tempfile.TemporaryDirectory() as folder:
            path = os.path.join(folder, "answer")
            done = planner("plan", *UPDATE, "-o", path)
            self.assertEqual((0, b""), (done.returncode, done.stdout))
            with open(path, "rb") as file:
                self.assertEqual(directly("plan", *UPDATE).stdout, file.read())
            refused = planner("check", *UPDATE, "plan-at-once.json", "-o", path)
            self.same(refused, directly("check", *UPDATE, "plan-at-once.json"))
            with open(path, "rb") as file:
                self.assertEqual(directly("plan", *UPDATE).stdout, file.read(), "the file is as it was")
            planner("check", *UPDATE, "plan-at-once.json", "-o", path + "-2")
            planner("plan", "none", "-o", path + "-2")
            self.assertEqual(["answer"], os.listdir(folder))

    def test_output_that_cannot_be_written(self):
        with open("/dev/full", "wb") as full:
            done = subprocess.run(
                [rows.FRONT_END, "plan", *UPDATE], cwd=SQUARE, stdout=full, stderr=subprocess.PIPE, check=False,
                env={**os.environ, "PLANNER": PROGRAM},
            )
        self.assertEqual(7, done.returncode)
        self.assertIn(b"No space left on device", done.stderr)
        reader, writer = os.pipe()
        os.close(reader)
        with os.fdopen(writer, "wb") as closed:
            done = subprocess.run(
                [rows.FRONT_END, "plan", *UPDATE], cwd=SQUARE, stdout=closed, stderr=subprocess.PIPE, check=False,
                env={**os.environ, "PLANNER": PROGRAM},
            )
        self.assertEqual(7, done.returncode)
        self.assertIn(b"Broken pipe", done.stderr)

    def test_output_of_the_front_end_that_cannot_be_written(self):
        for words in (["show", "."], ["--help"], ["--version"], ["page", "."]):
            with self.subTest(words[0]), open("/dev/full", "wb") as full:
                done = subprocess.run(
                    [rows.FRONT_END, *words], cwd=SQUARE, stdout=full, stderr=subprocess.PIPE, check=False,
                    env={**os.environ, "PLANNER": PROGRAM},
                )
                self.assertEqual(
                    (
                        7,
                        (
                            b"planner: the standard output: the output couldn't all be written: No space left on"
                            b" device; what is there isn't whole\n"
                        ),
                    ),
                    (done.returncode, done.stderr),
                )

    def test_wrong_words_leave_no_file_behind(self):
        with tempfile.TemporaryDirectory() as folder:
            for words in (["page", "none"], ["show", "none", "none"], ["plan", "none"], ["chek"]):
                self.assertNotEqual(0, planner(*words, "-o", os.path.join(folder, "answer")).returncode)
            self.assertEqual([], os.listdir(folder))

    def test_a_file_that_may_not_be_read(self):
        with tempfile.TemporaryDirectory() as folder:
            path = os.path.join(folder, "old.json")
            os.symlink(path, path)
            done = planner("config", "topology.json", path)
            self.assertEqual((6, b""), (done.returncode, done.stdout))
            self.assertIn(f"planner: {path}: Too many levels of symbolic links", done.stderr.decode())

    def stand_in(self, script):
        """A program in place of PLANNER, which does what a shell script says."""
        folder = tempfile.TemporaryDirectory()
        self.addCleanup(folder.cleanup)
        path = os.path.join(folder.name, "stand-in")
        with open(path, "w", encoding="utf-8") as file:
            file.write(f"#!/bin/sh\n{script}\n")
        os.chmod(path, 0o755)
        return path

    def test_want_of_memory(self):
        done = planner("plan", *UPDATE, "--quiet", program=self.stand_in("exit 9"))
        self.assertEqual((9, b""), (done.returncode, done.stdout))
        self.assertIn(b"memory ran out", done.stderr)

    def test_a_program_that_is_ended(self):
        done = planner("plan", *UPDATE, program=self.stand_in("printf half\nkill -KILL $$"))
        self.assertEqual((128 + signal.SIGKILL, b"half"), (done.returncode, done.stdout))
        self.assertIn(b"the program was ended by signal 9", done.stderr)

    def test_a_program_that_is_not_there(self):
        done = planner("plan", *UPDATE, program="/none/planner")
        self.assertEqual((125, b""), (done.returncode, done.stdout))
        self.assertIn(b"/none/planner", done.stderr)

    def test_a_fault_of_the_front_end_changes_no_answer(self):
        odd = self.stand_in("echo 'refused: 99 Unheard of'\nexit 1")
        done = planner("check", *UPDATE, "plan.json", program=odd, variables={"PLANNER_TOOLS_TEST": ""})
        self.assertEqual((1, b"refused: 99 Unheard of\n"), (done.returncode, done.stdout))


class Manners(unittest.TestCase):
    def test_version(self):
        self.assertEqual(
            f"planner {VERSION}\nprogram: {PROGRAM}, which the variable PLANNER names\n".encode(),
            planner("--version").stdout,
        )
        self.assertEqual("3.0.0", VERSION)

    def on_terminal(self, **variables):
        """What is said of a wrong word where the error stream is a terminal."""
        reader, writer = pty.openpty()
        with subprocess.Popen(
            [rows.FRONT_END, "chek"], stdout=subprocess.DEVNULL, stderr=writer,
            env={
                **{name: value for name, value in os.environ.items() if name != "NO_COLOR"}, "TERM": "xterm",
                "PLANNER": PROGRAM, **variables,
            },
        ) as process:
            process.wait(rows.SECONDS)
        os.close(writer)
        said = b""
        try:
            while piece := os.read(reader, 4096):
                said += piece
        except OSError:
            pass
        os.close(reader)
        return said

    def test_colour_only_on_a_terminal(self):
        self.assertIn(b"\x1b[", self.on_terminal())
        self.assertNotIn(b"\x1b[", self.on_terminal(NO_COLOR="1"))
        self.assertNotIn(b"\x1b[", self.on_terminal(TERM="dumb"))
        self.assertNotIn(b"\x1b[", planner("chek").stderr)

    def test_show(self):
        text = planner("show", "square", folder=EXAMPLES).stdout.decode()
        self.assertEqual("""square/plan.json: ordered, 2 rounds, 2 changes at 2 switches: 0 new, 2 changed, 0 deleted
no tags: packets keep the VLANs with which they come
time: with a wait of 2 s before each round 4 s, and what the switches take

round 1: 1 change
  s1: 10.0.0.0/24 to s4 (port 4), was s2 (port 2)

round 2: 1 change
  s3: 10.0.0.0/24 to s1 (port 3), was s4 (port 2)
""", text)
        self.assertIn(
            "before each round 60 s,", planner("show", "square", "--wait", "30", folder=EXAMPLES).stdout.decode()
        )

    def test_show_a_two_phase_plan(self):
        text = planner("show", "detour", folder=EXAMPLES).stdout.decode()
        for line in (
            "detour/plan.json: two-phase, 8 rounds, 32 changes at 5 switches: 14 new, 4 changed, 14 deleted",
            "tags: 3000 for untagged packets",
            "  d: 10.0.0.0/24 with VLAN 3000, priority 16484, to the host at d:3, the tag taken off, new",
            "  s: 10.0.0.0/24 from port 1 untagged, priority 32868, to y (port 3), tagged 3000, new",
            "  s: 10.0.0.0/24, priority 100, to y (port 3), was x (port 2)",
            "  s: 0.0.0.0/0 from port 1, priority 32768, deleted, was dropped",
        ):
            self.assertIn(line, text.splitlines())

    def test_show_for_machines(self):
        values = json.loads(planner("show", ".", "--json", "--wait", "5").stdout)
        self.assertEqual(
            ("ordered", 10.0, {"insert": 0, "delete": 0, "replace": 2}, []),
            (values["kind"], values["seconds"], values["counts"], values["tags"]),
        )
        self.assertEqual(
            [("s1", "s4", "s2"), ("s3", "s1", "s4")],
            [(one["rule"]["switch"], one["to"], one["was"]) for it in values["rounds"] for one in it["changes"]],
        )

    def test_show_a_configuration(self):
        text = planner("show", "topology.json", "new.json").stdout.decode()
        self.assertTrue(
            text.startswith(
                "new.json: 4 rules at 4 switches\n\ns1: 1 of 8 entries\n  10.0.0.0/24 to s4 (port 4), priority 100\n"
            ),
            text,
        )

    def test_show_a_schedule(self):
        lines = planner("show", ".", "schedule").stdout.decode().splitlines()
        self.assertEqual("schedule: 8 events, settled 1 of 2 rounds", lines[0])
        self.assertEqual(
            [
                "round 1 starts: its change may be made at any time", "packet 0 enters at s1:1, untagged, for 10.0.0.1",
                "packet 0 goes from s1 to s2",
                "change 0, at s1: 10.0.0.0/24, priority 100, to s4 (port 4), was s2 (port 2)",
                "packet 0 goes from s2 to s3", "packet 0 goes from s3 to s4",
                "packet 0 leaves the network at s4:3 untagged", "round 1 is settled",
            ],
            lines[2:],
        )
        self.assertEqual(8, len(planner("show", "topology.json", "schedule").stdout.decode().splitlines()[2:]))


class Reader(unittest.TestCase):
    """What the front end's reader takes for JSON, and where it finds a fault, agrees with the program."""

    PIECES = [
        b"{", b"}", b"[", b"]", b",", b":", b'"', b"1", b"0", b"-", b".", b"e", b"\\", b"u", b"\xff", b"\xc3\xa9", b" ",
        b"\n", b"\t", b"true", b"null", b"NaN", b"\0",
    ]
    VALUES = [
        0, 1, 7, 300, 65280, 70000, -1, 1.5, "", "s1", "s9", "s1:1", "s1:2", "s1:9", "any", "drop", "untagged",
        "10.0.0.0/24", "10.0.0.0/8", "10.0.0.1/24", "insert", "replace", None, True, [], {}, [1, 2], {"a": 1},
        ["insert", 0], ["insert", 99], 4294967296, 10**25,
    ]
    FILES = [("topology.json", "config"), ("old.json", "config"), ("policy.json", "config"), ("plan.json", "upgrade")]
    WORDS = {
        "config": ["config", "topology.json", "old.json", "policy.json"],
        "upgrade": ["upgrade", "topology.json", "plan.json"],
    }
    RUNS = 150

    def test_it_reads_what_json_reads(self):
        for example in sorted(os.listdir(EXAMPLES)):
            for name in (
                [*UPDATE, "plan.json"] if os.path.exists(os.path.join(EXAMPLES, example, "topology.json")) else []
            ):
                with open(os.path.join(EXAMPLES, example, name), "rb") as file:
                    data = file.read()
                self.assertEqual(json.loads(data), plain(Json(name, data).root))

    def run_on(self, folder, name, command, data):
        with open(os.path.join(folder, name), "wb") as file:
            file.write(data)
        return directly(*self.WORDS[command], folder=folder).stdout.decode().split("\n")[0].split(" ")

    def changed(self, chance, data):
        """A file with a piece left out, put in or exchanged."""
        at, piece = chance.randrange(len(data)), chance.choice(self.PIECES)
        return chance.choice(
            [data[:at] + data[at + 1 :], data[:at] + piece + data[at:], data[:at] + piece + data[at + 1 :], data[:at]]
        )

    def exchanged(self, chance, data):
        """A file with one value exchanged for another one, or left out."""
        value = json.loads(data)

        def places(held):
            for key in held if isinstance(held, dict) else range(len(held)) if isinstance(held, list) else []:
                yield held, key
                yield from places(held[key])

        held, key = chance.choice(list(places(value)))
        if chance.random() < 0.2:
            del held[key]
        else:
            held[key] = chance.choice(self.VALUES)
        return json.dumps(value).encode()

    def check(self, change, judge):
        chance = random.Random(20)
        for number in range(self.RUNS):
            name, command = self.FILES[number % len(self.FILES)]
            with tempfile.TemporaryDirectory() as folder:
                rows.Row("").prepare(folder)
                with open(os.path.join(folder, name), "rb") as file:
                    data = change(chance, file.read())
                said = self.run_on(folder, name, command, data)
                with self.subTest(data=data):
                    judge(said, data, folder)

    def test_it_refuses_what_the_program_refuses(self):
        def judge(said, data, _):
            try:
                Json("it", data)
                is_json = True
            except NotJson:
                is_json = False
            self.assertEqual(is_json, "NotJson" not in said)

        self.check(self.changed, judge)

    def test_each_fault_is_found_where_the_program_finds_it(self):
        def judge(said, _, folder):
            if said[0] != "bad" or "NotJson" in said:
                return
            kind, number = said[1].rstrip(":"), int(said[-1])
            field = said[4] if said[4] != "at" else ""
            network = None if kind == "topology" else Network(read_json(os.path.join(folder, "topology.json")))
            refused = {"topology": "topology.json", "config": "old.json", "policy": "policy.json", "plan": "plan.json"}[
                kind
            ]
            first = next(faults_of(kind, read_json(os.path.join(folder, refused)), network))
            self.assertEqual((said[3], field, number), (first.name, first.field, first.place))

        self.check(self.exchanged, judge)


if __name__ == "__main__":
    unittest.main()
