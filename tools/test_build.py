"""Tests of build.py: the order of crates, what is foretold and said, and whole builds over an rt that only waits."""
from __future__ import annotations

import io
import os
import signal
import subprocess
import sys
import tempfile
import unittest

import build

LISTED = """# lowest first
base: json
left: base indexmap   # a side
right: base
top: left right base
top_tests: top
"""
CRATES: build.Crates = {
    "base": [], "left": ["base"], "right": ["base"], "top": ["left", "right", "base"], "top_tests": ["top"],
}
SECONDS: build.Seconds = {"base": 100, "left": 10, "right": 40, "top": 50}


class Order(unittest.TestCase):
    def test_libraries_of_the_kit_are_left_out(self) -> None:
        self.assertEqual(build.read_crates(LISTED), CRATES)

    def test_each_crate_stands_after_those_it_uses_and_tests_are_left_out(self) -> None:
        self.assertEqual(build.needed(CRATES, "top"), ["base", "left", "right", "top"])

    def test_a_ring_is_refused(self) -> None:
        with self.assertRaises(ValueError):
            build.needed({"one": ["other"], "other": ["one"]}, "one")

    def test_seconds_are_those_measured_or_go_by_lines(self) -> None:
        measured = build.read_seconds("# of each crate\nbase 100\n\nleft 7   # a side\n")
        self.assertEqual(measured, {"base": 100, "left": 7})
        self.assertEqual(build.expected(measured, {"base": 5, "right": 500}),
                         {"base": 100, "right": 500 * build.SECONDS_FOR_A_LINE})

    def test_chains_count_the_seconds_above(self) -> None:
        self.assertEqual(build.chains(CRATES, ["base", "left", "right", "top"], SECONDS),
                         {"top": 50, "left": 60, "right": 90, "base": 190})

    def test_ready_are_those_with_all_libraries_done_the_longest_chain_first(self) -> None:
        chain: build.Seconds = {"base": 190, "left": 60, "right": 90, "top": 50}
        cases: list[tuple[list[str], list[str], list[str]]] = [
            (["base", "left", "right", "top"], [], ["base"]),
            (["base", "left", "right", "top"], ["base"], []),
            (["left", "right", "top"], [], ["right", "left"]),
            (["left", "right", "top"], ["right"], ["left"]),
            (["left", "top"], ["left"], []),
            (["top"], [], ["top"]),
        ]
        for left, running, wanted in cases:
            self.assertEqual(build.ready(CRATES, left, running, chain), wanted)

    def test_each_crate_has_memory(self) -> None:
        memories = (0, 2_999_999_999, 6_000_000_000, 99_000_000_000)
        self.assertEqual([build.side_by_side(4, it) for it in memories], [1, 1, 2, 4])

    def test_only_the_lines_of_the_program_are_listed(self) -> None:
        self.assertEqual(build.lines_for(["base", "top"], LISTED), "base: json\ntop: left right base\n")

    def test_time_is_that_of_the_order_in_which_crates_are_proved(self) -> None:
        chain: build.Seconds = {"base": 190, "left": 60, "right": 90, "top": 50}
        cases: list[tuple[list[str], int, int]] = [
            (["base", "left", "right", "top"], 1, 200), (["base", "left", "right", "top"], 4, 190), (["left"], 4, 10),
            ([], 4, 0),
        ]
        for left, at_once, wanted in cases:
            self.assertEqual(build.foretold(CRATES, left, SECONDS, chain, at_once), wanted)

    def test_the_end_is_expected_at_the_pace_so_far(self) -> None:
        self.assertEqual(build.expected_end(60, 1000, 800), 300)
        self.assertEqual(build.expected_end(60, 1000, 0), 60)
        self.assertEqual(build.expected_end(60, 1000, 1000), 1000)


class Words(unittest.TestCase):
    def test_lines(self) -> None:
        self.assertEqual(
            build.first_line(30, 30, 24.6, 4),
            "planner: proving and building the program: 30 crates, about 25 minutes on 4 processors with nothing else "
            "to do",
        )
        self.assertEqual(
            build.first_line(30, 1, 0.2, 1),
            "planner: proving and building the program: 29 of 30 crates done before, 1 to do, about 1 minute on "
            "1 processor with nothing else to do",
        )
        self.assertEqual(build.progress(30, 27, ["left", "right"], 119.9, 1475),
                         "planner: 3 of 30 crates done, now left, right, 1 of about 25 minutes")
        self.assertEqual(build.progress(30, 30, [], 59, 10), "planner: 0 of 30 crates done, 0 of about 1 minute")
        self.assertEqual(build.progress(30, 1, [], 120, 100), "planner: 29 of 30 crates done, 2 of about 3 minutes")

    def test_a_terminal_has_one_line_that_is_renewed(self) -> None:
        stream = io.StringIO()
        voice = build.Voice(stream, True, 10)
        voice.renew("0123456789abc")
        voice.renew("one")
        voice.say("end")
        self.assertEqual(stream.getvalue(), "\r\x1b[K012345678\r\x1b[Kone\r\x1b[Kend\n")

    def test_another_stream_has_a_line_at_each_change(self) -> None:
        stream = io.StringIO()
        voice = build.Voice(stream, False, 0)
        lines = ("1 done, now a, 0 of about 3 minutes", "1 done, now a, 1 of about 4 minutes",
                 "2 done, now b, 1 of about 3 minutes")
        for it in lines:
            voice.renew(it)
        self.assertEqual(stream.getvalue(), f"{lines[0]}\n{lines[2]}\n")


# An rt that proves, in a tree of the program's crates alone, what has no file `bad` and wasn't kept, and notes what it
# has proved. At the crate $HOLDS it waits until the file $ON is there. It speaks of its store, as an rt that has one
# does; RT_WITHOUT has none.
RT = """#!/bin/sh
# what is passed is kept in rattle-kept
[ "$1" = version ] && { echo kit; exit 0; }
[ "$1" = ci ] && [ -e HANDLES ] && [ ! -e crates/top_tests ] && [ ! -e crates/base/must-fail ] || { echo "a wrong tree"; exit 2; }
for it in base left right top; do
    key="$KEPT/$it-$(cat crates/$it/src/* | cksum | tr ' ' -)"
    [ -e "$key" ] && { echo "rt: $it is kept: an earlier run proved the same"; continue; }
    mkdir -p "crates/$it/out"
    while [ "$it" = "$HOLDS" ] && [ ! -e "$ON" ]; do sleep 0.1; done
    echo "== $it"
    echo "fn $it::one: proved"
    [ -e "crates/$it/src/bad" ] && { echo "error: bad"; echo "rt: $it NOT PROVED"; exit 1; }
    echo "$it" >> "$ASKED"
    touch "$key"
    echo "rt: $it proved"
done
mkdir -p crates/top/out
echo built > crates/top/out/top
echo "4 passed, 0 failed"
"""

RT_WITHOUT = RT.replace("# what is passed is kept in rattle-kept\n", "").replace('[ -e "$key" ] &&', "false &&")


# How a build has ended: its exit status, the lines that it said, and the crates that rt proved.
Ended = tuple[int, list[str], list[str]]


class Builds(unittest.TestCase):
    def setUp(self) -> None:
        self.room = tempfile.TemporaryDirectory()
        self.root, self.asked = f"{self.room.name}/tree", f"{self.room.name}/asked"
        for folder in ("tree/tools", "kit/rattle/bin", "kept", "temporary"):
            os.makedirs(f"{self.room.name}/{folder}")
        for file, text in ((f"{self.root}/crates.txt", LISTED), (f"{self.root}/HANDLES", ""), (self.asked, "")):
            with open(file, "w") as it:
                it.write(text)
        with open(build.__file__) as one, open(f"{self.root}/tools/build.py", "w") as other:
            other.write(one.read())
        with open(f"{self.root}/tools/{build.MEASURED}", "w") as it:
            it.write("base 1\n")
        for crate in CRATES:
            os.makedirs(f"{self.root}/crates/{crate}/src")
            os.makedirs(f"{self.root}/crates/{crate}/must-fail")
            self.write(crate, "one line\n")
        self.use(RT)
        kit, temporary = f"{self.room.name}/kit/rattle/bin:{os.environ['PATH']}", f"{self.room.name}/temporary"
        self.on = f"{self.room.name}/on"
        self.how = {**os.environ, "PATH": kit, "ASKED": self.asked, "KEPT": f"{self.room.name}/kept",
                    "TMPDIR": temporary, "ON": self.on}

    def tearDown(self) -> None:
        self.room.cleanup()

    def write(self, crate: str, text: str, name: str = "lib.rt") -> None:
        with open(f"{self.root}/crates/{crate}/src/{name}", "w") as it:
            it.write(text)

    def use(self, rt: str) -> None:
        """Puts an rt into the kit."""
        with open(f"{self.room.name}/kit/rattle/bin/rt", "w") as it:
            it.write(rt)
        os.chmod(f"{self.room.name}/kit/rattle/bin/rt", 0o755)

    def begin(self, **more: str) -> subprocess.Popen[str]:
        words = [sys.executable, "-B", f"{self.root}/tools/build.py", "top"]
        return subprocess.Popen(words, env={**self.how, **more}, stderr=subprocess.PIPE, text=True)

    def until(self, ran: subprocess.Popen[str], line: str) -> list[str]:
        """Reads what a build says until it says this line, and returns all that it has said."""
        assert ran.stderr
        said = [ran.stderr.readline().rstrip("\n")]
        while said[-1] not in ("", line):
            said.append(ran.stderr.readline().rstrip("\n"))
        self.assertEqual(said[-1], line)
        return said

    def end(self, ran: subprocess.Popen[str]) -> Ended:
        """Waits until a build has ended."""
        said = ran.communicate()[1].splitlines()
        self.assertEqual(os.listdir(f"{self.room.name}/temporary"), [])
        return ran.returncode, said, self.crates_asked()

    def build(self) -> Ended:
        with open(self.asked, "w"):
            pass
        return self.end(self.begin())

    def crates_asked(self) -> list[str]:
        with open(self.asked) as it:
            return it.read().split()

    def test_builds_all_then_only_what_changed(self) -> None:
        ran = self.begin(HOLDS="left")
        lines = self.until(ran, "planner: 1 of 4 crates done, now left, 0 of about 1 minute")
        self.assertIn("4 crates, about 1 minute on", lines[0])
        with open(self.on, "w"):
            pass
        status, said, asked = self.end(ran)
        self.assertEqual((status, asked), (0, ["base", "left", "right", "top"]))
        self.assertEqual(said[-1], "planner: built, 0 minutes")
        with open(f"{self.root}/crates/top/out/top") as it:
            self.assertEqual(it.read(), "built\n")
        status, said, asked = self.build()
        self.assertEqual((status, asked), (0, []))
        self.assertIn("4 of 4 crates done before, 0 to do, about 1 minute on", said[0])
        self.write("left", "another line\n")
        status, said, asked = self.build()
        self.assertEqual((status, asked), (0, ["left"]))
        self.assertIn("2 of 4 crates done before, 2 to do", said[0])

    def test_goes_on_where_it_was_stopped(self) -> None:
        ran = self.begin(HOLDS="right")
        self.until(ran, "planner: 2 of 4 crates done, now right, 0 of about 1 minute")
        ran.send_signal(signal.SIGTERM)
        status, said, asked = self.end(ran)
        self.assertEqual(status, 128 + signal.SIGTERM)
        self.assertEqual(said[-1], "planner: stopped; the next run goes on from here")
        self.assertEqual(asked, ["base", "left"])
        self.assertFalse(os.path.exists(f"{self.root}/crates/top/out/top"))
        status, said, asked = self.build()
        self.assertEqual((status, asked), (0, ["right", "top"]))
        self.assertIn("2 of 4 crates done before, 2 to do", said[0])

    def test_begins_anew_where_rt_keeps_nothing(self) -> None:
        self.use(RT_WITHOUT)
        ran = self.begin(HOLDS="right")
        self.until(ran, "planner: 2 of 4 crates done, now right, 0 of about 1 minute")
        ran.send_signal(signal.SIGTERM)
        status, said, asked = self.end(ran)
        self.assertEqual(status, 128 + signal.SIGTERM)
        self.assertEqual(said[-1],
                         "planner: stopped; the next run begins anew, since rt keeps nothing of what it has proved")
        for _ in range(2):
            status, said, asked = self.build()
            self.assertEqual((status, asked), (0, ["base", "left", "right", "top"]))
            self.assertIn("program: 4 crates, about 1 minute on", said[0])

    def test_what_was_kept_says_nothing_of_the_pace(self) -> None:
        self.build()
        os.remove(f"{self.root}/crates/top/out/passed")
        with open(f"{self.root}/tools/{build.MEASURED}", "w") as it:
            it.write("base 600\nright 600\n")
        self.write("right", "another line\n")
        ran = self.begin(HOLDS="right")
        lines = self.until(ran, "planner: 2 of 4 crates done, now right, 0 of about 10 minutes")
        self.assertIn("4 crates, about 20 minutes on", lines[0])
        with open(self.on, "w"):
            pass
        status, said, asked = self.end(ran)
        self.assertEqual((status, asked), (0, ["base", "left", "right", "top", "right"]))
        self.assertEqual(said[-1], "planner: built, 0 minutes")

    def test_another_toolchain_is_told(self) -> None:
        told = ("planner: the toolchain on this machine is kit; the repository was proved with {}, and with another "
                "one proofs may fail")
        for named, words in (
            (["other"], [told.format("other")]), (["other", "third"], [told.format("other and with third")]),
            (["kit"], []), (["other", "kit"], []),
        ):
            with open(f"{self.root}/toolchain.txt", "w") as it:
                it.writelines(["# with what it is proved\n", *(f"rattle {one}\n" for one in named), "python 3.10\n"])
            status, said, _ = self.build()
            self.assertEqual(status, 0)
            self.assertEqual([line for line in said if line.startswith("planner: the toolchain")], words, said)

    def test_a_crate_that_fails_is_named_with_what_rt_said(self) -> None:
        self.write("left", "", "bad")
        status, said, asked = self.build()
        self.assertEqual((status, asked), (1, ["base"]))
        self.assertEqual(said[-2:],
                         ["error: bad", "planner: the program could not be built: left failed, as told above"])


if __name__ == "__main__":
    unittest.main()
