"""What is said of wrong files and wrong words: the rows of said.txt and said-paths.txt, each with its whole text.
PLANNER names the program."""
import concurrent.futures
import os
import stat
import subprocess
import sys
import tempfile
import unittest

import rows

sys.path.insert(0, rows.ROOT)
from planner_tools import program  # noqa: E402

# A program that answers as PLANNER does, but for the commands that show paths and tables: the rows of said.txt are
# without these lines. Those of these commands themselves are run by PLANNER.
WITHOUT = ("paths", "trace", "tables")
OLDER = """#!/bin/sh
case "$1" in {names}) echo "unknown command or wrong words"; exit 2 ;; esac
exec {program} "$@"
"""


class Said(unittest.TestCase):
    @classmethod
    def setUpClass(cls):
        cls.room = tempfile.TemporaryDirectory(prefix="planner-tests-")
        cls.addClassCleanup(cls.room.cleanup)
        cls.real, cls.older = os.path.abspath(program.path()), os.path.join(cls.room.name, "older")
        with open(cls.older, "w", encoding="utf-8") as file:
            file.write(OLDER.format(names=" | ".join(WITHOUT), program=cls.real))
        os.chmod(cls.older, stat.S_IRWXU)

    def setUp(self):
        self.before = os.environ.copy()
        os.environ.update(PLANNER=self.older, PLANNER_TOOLS_TEST="1", NO_COLOR="1")
        self.addCleanup(lambda: (os.environ.clear(), os.environ.update(self.before)))

    def check(self, name):
        """Runs the rows of a file: what is said is what stands there, and the text and the status are the program's."""
        found = rows.read(os.path.join(rows.HERE, name))
        with concurrent.futures.ThreadPoolExecutor() as several:
            for row, (status, text, said), direct in several.map(self.run_row, found):
                with self.subTest(row.title):
                    self.assertEqual("".join(f"{line}\n" for line in row.said), said)
                    self.assertEqual(row.status, status)
                    self.assertIn(direct, (None, (status, text)))

    def run_row(self, row):
        """What the front end answers and says of a row, and what the program answers, where the words are the program's
        alone."""
        with tempfile.TemporaryDirectory(dir=self.room.name) as folder:
            row.prepare(folder)
            is_left_out = os.environ["PLANNER"] == self.older and row.words[:1] and row.words[0] in WITHOUT
            planner = self.real if is_left_out else os.environ["PLANNER"]
            direct = row.run(planner, folder)[:2] if row.words and self.is_plain(row, folder) else None
            return row, row.run(rows.FRONT_END, folder, PLANNER=planner), direct

    def test_what_is_said_is_what_stands_in_the_table(self):
        self.check("said.txt")

    def test_what_is_said_of_paths(self):
        os.environ.update(PLANNER=os.path.join(rows.HERE, "fake_program.py"), REAL_PROGRAM=self.older)
        self.check("said-paths.txt")

    def test_the_paths_of_these_tests_are_those_of_the_program(self):
        """The program says what fake_program.py says, where it has the commands."""
        real, fake = os.path.abspath(program.path()) if not self.before.get("PLANNER") else self.before[
            "PLANNER"
        ], os.path.join(rows.HERE, "fake_program.py")
        os.environ["REAL_PROGRAM"] = real
        for example in ("square", "detour", "leaf-spine"):
            names = [
                os.path.join(rows.ROOT, "examples", example, f"{one}.json") for one in ("topology", "old", "policy")
            ]
            entry = {"square": "s1:1", "detour": "s:1", "leaf-spine": "l1:1"}[example]
            for given in (
                ["paths", *names], ["paths", *names[:2]], ["trace", *names[:2], entry, "untagged", "10.0.0.1"],
                ["trace", *names[:2], "none:1", "untagged", "10.0.0.1"],
            ):
                with self.subTest(example=example, words=given[0]):
                    answers = [
                        subprocess.run([one, *given], capture_output=True, check=False, timeout=rows.SECONDS)
                        for one in (real, fake)
                    ]
                    if answers[0].returncode == 2:
                        self.skipTest(f"this program has no `{given[0]}`")
                    self.assertEqual(*((one.returncode, one.stdout) for one in answers))

    @staticmethod
    def is_plain(row, folder):
        """Whether the words of a row are the program's alone."""
        return row.words[0] != "show" and not any(
            word.startswith("-") or os.path.isdir(os.path.join(folder, word)) for word in row.words
        )

    def test_there_are_a_hundred_rows_and_each_reason_of_the_checker(self):
        found = rows.read(os.path.join(rows.HERE, "said.txt"))
        self.assertLess(100, len(found))
        self.assertEqual(len(found), len({row.title for row in found}))
        self.assertLessEqual(11, len([row for row in found if row.title.startswith("a reason: ")]))


if __name__ == "__main__":
    unittest.main()
