"""Whole runs of the proved program over files of a small network: each command, writes that fail, files that can't be
read or are too long, words that are none of the usage, and lines that come in pieces. The texts are worked out from
docs/FORMATS.md. PLANNER names the program."""
import json
import os
import struct
import subprocess
import sys
import tempfile
import unittest

import rows

sys.path.insert(0, rows.ROOT)
from planner_tools import program  # noqa: E402

PROGRAM = os.path.abspath(program.path())
DONE, USAGE, BAD_FILE, READ_FAULT, WRITE_FAULT, NOT_A_RUN = 0, 2, 3, 6, 7, 8
MOST_BYTES = 16 << 20
# Begins a program that may write files of so many bytes, and that isn't told by a signal where it may write no more.
LIMITED = """import os, resource, signal, sys
signal.signal(signal.SIGXFSZ, signal.SIG_IGN)
resource.setrlimit(resource.RLIMIT_FSIZE, (int(sys.argv[1]),) * 2)
os.execv(sys.argv[2], sys.argv[2:])
"""


def written(value):
    return json.dumps(value, separators=(",", ":"), sort_keys=True).encode() + b"\n"


def rule(switch, out):
    return {"switch": switch, "priority": 100, "dst": "10.0.0.0/24", "out": out}


# Four switches in a row, with a link from s1 to s3 and one from s1 to s4. The path along the row gives way to the link
# from s1 to s4.
TOPOLOGY = {
    "switches": [{"name": name, "capacity": 8} for name in ("s1", "s2", "s3", "s4")],
    "links": [["s1:2", "s2:1"], ["s2:2", "s3:1"], ["s3:2", "s4:1"], ["s1:3", "s3:3"], ["s1:4", "s4:2"]],
    "hosts": ["s1:1", "s2:3", "s3:4", "s4:3"], "vlans": ["untagged"], "tags": [3000, 3009],
}
OLD = {"rules": [rule("s1", 2), rule("s2", 2), rule("s3", 2), rule("s4", 3)]}
NEW = {"rules": [rule("s1", 4), rule("s2", 2), rule("s3", 3), rule("s4", 3)]}
POLICY = {"demands": [
    {"from": port, "dst": "10.0.0.0/24", "deliver": True} for port in ("s1:1", "s2:3", "s3:4")
]}
NUMBERINGS = [[0, 0, 0, 0], [3, 2, 1, 0], [0, 2, 1, 0], [0, 0, 1, 0], [1, 3, 2, 0], [1, 0, 2, 0]]
# Of each class that isn't numbered by the first of them: its number, by rounds.
PICKED = [{1: 1, 4: 2, 7: 3}, {4: 4, 7: 5}]
PICKS = [[1, index, PICKED[0].get(index, 0)] for index in range(12)] + [[2, *it] for it in PICKED[1].items()]
PLAN = {
    "befores": [], "format": 2, "kind": "ordered", "numberings": NUMBERINGS, "picks": PICKS,
    "rounds": [[["replace", 0]], [["replace", 1]]], "rules": [rule("s1", 4), rule("s3", 3)],
    "uses": [[number, []] for number in range(6)],
}
PLAN_IN_FORMAT_1 = {
    "befores": [], "format": 1, "kind": "ordered", "numberings": NUMBERINGS, "picks": [[*it, []] for it in PICKS],
    "rounds": [[{"do": "replace", **it}] for it in PLAN["rules"]],
}
HELLO = "0100000800000000"


def replaced(xid, port):
    """The messages, as hexadecimal digits, that send the packets of 10.0.0.0/24 to another port: OFPT_FLOW_MOD with
    OFPFC_MODIFY_STRICT, and a barrier request behind it (OpenFlow 1.0, sections 5.2.3 and 5.3.3)."""
    header = struct.pack("!BBHI", 1, 14, 80, xid)
    match = struct.pack("!IH6s6sHBxHBB2xIIHH", 0x3220EF, 0, bytes(6), bytes(6), 0, 0, 0x800, 0, 0, 0, 10 << 24, 0, 0)
    body = struct.pack("!QHHHHIHH", 0, 2, 0, 0, 100, 0xFFFFFFFF, 0xFFFF, 0)
    output = struct.pack("!HHHH", 0, 8, port, 0)
    return [(header + match + body + output).hex(), f"01120008{xid + 1:08x}"]


def sent(switch, xid, port):
    return [f"send {switch} {it}" for it in replaced(xid, port)]


def lines(*texts):
    return "".join(f"{it}\n" for it in texts).encode()


UPDATE = ["topology", "old", "new", "policy"]
FILES = {
    "topology": written(TOPOLOGY), "old": written(OLD), "new": written(NEW), "policy": written(POLICY),
    "plan": written(PLAN), "first": written(PLAN_IN_FORMAT_1), "twice": b"start\nstart\n", "nothing": b"",
    "loss": b"enter s1:1 untagged 10.0.0.1\nlose 0\nstart\n", "unsaid": b"# s1 hasn't said HELLO\nstart\n",
    "long": b" " * (MOST_BYTES + 1),
    # the flow statistics of s1: 10.0.0.0/24 of priority 100, output to port 2
    "replies": lines("s1 " + (
        struct.pack("!BBHIHH", 1, 17, 108, 0, 1, 0) + struct.pack("!HBx", 96, 0)
        + struct.pack("!IH6s6sHBxHBB2xIIHH", 0x3220EF, 0, bytes(6), bytes(6), 0, 0, 0x800, 0, 0, 0, 10 << 24, 0, 0)
        + struct.pack("!IIHHH6xQQQ", 0, 0, 100, 0, 0, 0, 0, 0) + struct.pack("!HHHH", 0, 8, 2, 0)
    ).hex()),
}
# Where the classes of the network go, and which of them its demands cover.
PATHS = lines(*[
    f"{port} untagged {address}: {path}"
    for port, way in (("s1:1", "s1:1 s2:1 s3:1 s4:1"), ("s2:3", "s2:3 s3:1 s4:1"), ("s3:4", "s3:4 s4:1"))
    for address, path in (
        ("0.0.0.0", f"{port} dropped {port[:2]} free"), ("10.0.0.0", f"{way} left s4:3 untagged good"),
        ("10.0.1.0", f"{port} dropped {port[:2]} free"),
    )
], *[f"s4:3 untagged {address}: s4:3 dropped s4 free" for address in ("0.0.0.0", "10.0.0.0", "10.0.1.0")],
    "12 classes: 3 good, 9 free, 0 break")
MESSAGES = lines(*[f"1 s1 {it}" for it in replaced(1, 4)], *[f"2 s3 {it}" for it in replaced(3, 3)])
RECORD = lines("start", "change 0", "settle", "start", "change 0", "settle", "# settled 2 of 2")
SAMPLE = b"sample 4: ordered, 12 rounds, 24 classes, 21 numberings, 32 picks, accepted\n"
LOSS = lines("packet 0 s1:1 untagged 10.0.0.1 born 0: s1:1 lost", "running 1 of 2")
# What is run, how it ends, and what it writes.
RUNS = [
    (["config", "topology", "old"], DONE, b"holds: 12 classes\n"),
    (["paths", "topology", "old", "policy"], DONE, PATHS),
    (["check", *UPDATE, "first"], DONE, b"accepted: ordered, 2 rounds, 12 classes\n"),
    (["certify", *UPDATE, "first"], DONE, FILES["plan"]), (["plan", *UPDATE], DONE, FILES["plan"]),
    (["pack", *UPDATE], DONE, FILES["plan"]), (["upgrade", "topology", "first"], DONE, FILES["plan"]),
    (["emit", "topology", "first"], DONE, MESSAGES), (["simulate", *UPDATE, "first", "0", "0"], DONE, RECORD),
    (["explain", *UPDATE, "first"], DONE, b"no run: every mixed walk is good\n"), (["sample", "4"], DONE, SAMPLE),
    (["replay", "topology", "old", "plan", "twice"], NOT_A_RUN, b"not a run: line 2\n"),
    (["replay", "topology", "old", "plan", "loss"], DONE, LOSS),
    (["tables", "topology", "old", "plan", "twice"], NOT_A_RUN, b"not a run: line 2\n"),
    (["trace", "topology", "old", "s4:3", "untagged", "10.0.1.0"], DONE, b"s4:3 untagged: no rule\ndropped s4\n"),
    (["import", "topology", "replies"], DONE, written({"rules": [rule("s1", 2)]})),
    (["drive", *UPDATE, "plan", "unsaid"], NOT_A_RUN, b"not a run: line 2\n"),
]
# Of these, writes fail at several bytes.
FRONTS = ["config", "plan", "emit", "simulate", "sample", "replay"]
# Words that are none of the usage, or that name a file that isn't there.
WORDS = [
    ([], USAGE), *[(["sample", it], USAGE) for it in ("3", "08", "129", "")],
    (["plan", "topology", "old", "old"], USAGE), (["--help"], USAGE), (["config", "topology"], USAGE),
    (["config", "topology", "missing"], READ_FAULT),
]
# What happens at the core of a controller: sessions open, one of them in pieces; a round is made, and then taken back.
SERVED = lines(
    "# hello", "back", "start", f"feed s1 {HELLO}", f"feed s2 {HELLO}", f"feed s3 {HELLO[:-2]}", "feed s3 00",
    f"feed s4 {HELLO}", "start", "feed s1 0113000800000002", "oops",
) + b"back"
# The block of line 0, and one for each line.
BLOCKS = lines(
    *[f"send s{number} {HELLO}" for number in (1, 2, 3, 4)], "ok settled 0 of 2", "ok settled 0 of 2", "no begun",
    "no open s1", *["ok settled 0 of 2"] * 5, "start", *sent("s1", 1, 4), "ok running 1 of 2", "change 0", "settle",
    "ok settled 1 of 2", "bad line", "back", *sent("s1", 3, 2), "ok running 1 of 2",
)


class Runs(unittest.TestCase):
    @classmethod
    def setUpClass(cls):
        room = tempfile.TemporaryDirectory(prefix="planner-tests-")
        cls.addClassCleanup(room.cleanup)
        cls.folder = room.name
        for name, data in FILES.items():
            with open(os.path.join(cls.folder, name), "wb") as file:
                file.write(data)

    def run_here(self, words, **more):
        done = subprocess.run(
            [PROGRAM, *words], cwd=self.folder, stdout=subprocess.PIPE, stderr=subprocess.PIPE, timeout=rows.SECONDS,
            check=False, **{"stdin": subprocess.DEVNULL, **more},
        )
        return done.returncode, done.stdout

    def test_each_command_runs(self):
        for words, status, text in RUNS:
            with self.subTest(words=words):
                self.assertEqual((status, text), self.run_here(words))

    def test_a_write_that_fails_leaves_what_came_before_it(self):
        for words, status, text in RUNS:
            if words[0] not in FRONTS or status != DONE:
                continue
            for most in (0, 1, 2, len(text) // 2, len(text) - 1, len(text)):
                with self.subTest(words=words, most=most):
                    self.assertEqual((DONE if most == len(text) else WRITE_FAULT, text[:most]),
                                     self.run_with_room(words, most))

    def run_with_room(self, words, most):
        """A run whose text goes to a file that may have so many bytes: its status, and what the file has."""
        path = os.path.join(self.folder, "written")
        with open(path, "wb") as file:
            done = subprocess.run(
                [sys.executable, "-ISc", LIMITED, str(most), PROGRAM, *words], cwd=self.folder, stdout=file,
                stdin=subprocess.DEVNULL, timeout=rows.SECONDS, check=False,
            )
        with open(path, "rb") as file:
            return done.returncode, file.read()

    def test_a_file_past_its_limit_is_too_long(self):
        self.assertEqual((BAD_FILE, b"bad topology: 0 TooLong at 0\n"), self.run_here(["config", "long", "old"]))

    def test_a_file_that_fails_while_it_is_read(self):
        self.assertEqual((READ_FAULT, b""), self.run_here(["config", "/proc/self/mem", "old"]))

    def test_other_words_and_names(self):
        for words, status in WORDS:
            with self.subTest(words=words):
                text = b"unknown command or wrong words\n" if status == USAGE else b""
                self.assertEqual((status, text), self.run_here(words))

    def test_each_line_is_answered(self):
        for piece in (1, 7, 4096):
            with self.subTest(piece=piece), subprocess.Popen(
                [PROGRAM, "serve", *UPDATE, "plan"], cwd=self.folder, stdin=subprocess.PIPE, stdout=subprocess.PIPE,
            ) as run:
                for at in range(0, len(SERVED), piece):
                    os.write(run.stdin.fileno(), SERVED[at:at + piece])
                text, _ = run.communicate(timeout=rows.SECONDS)
                self.assertEqual((DONE, BLOCKS), (run.returncode, text))


if __name__ == "__main__":
    unittest.main()
