"""Tests of run_tests.py: that it knows all folders of tests, and what it says of tests that fail."""
from __future__ import annotations

import contextlib
import io
import os
import tempfile
import unittest
import unittest.mock

import run_tests


# Folders in which no test stands.
PASSED_OVER = ("__pycache__", "crates", "dist")
# A file of one test, which passes or fails.
TEST = """\
import unittest


class It(unittest.TestCase):
    def test_it(self) -> None:
        self.assertTrue({})
"""


class RunTests(unittest.TestCase):
    def test_every_folder_of_tests_is_run(self) -> None:
        groups = run_tests.WITHOUT_PROGRAM + run_tests.WITH_PROGRAM
        known = {tests.partition(":")[0] for group in groups for tests in group}
        found = set()
        for at, folders, names in os.walk(run_tests.ROOT):
            folders[:] = [name for name in folders if name not in PASSED_OVER and not name.startswith(".")]
            if any(name.startswith("test_") and name.endswith(".py") for name in names):
                found.add(os.path.relpath(at, run_tests.ROOT))
        self.assertEqual(found, known)

    def run_words(self, *words: str, groups: list[list[str]]) -> tuple[int, str]:
        without = unittest.mock.patch.object(run_tests, "WITHOUT_PROGRAM", groups)
        nothing: list[list[str]] = []
        behind = unittest.mock.patch.object(run_tests, "WITH_PROGRAM", nothing)
        with without, behind, contextlib.redirect_stdout(io.StringIO()) as said:
            return run_tests.main(list(words)), said.getvalue()

    def test_tests_that_fail_are_told(self) -> None:
        with tempfile.TemporaryDirectory(dir=run_tests.ROOT, prefix=".tests-") as folder:
            for name, answer in (("good", "True"), ("bad", "False")):
                os.makedirs(os.path.join(folder, name, "tests"))
                with open(os.path.join(folder, name, "tests", "test_it.py"), "w", encoding="ascii") as file:
                    file.write(TEST.format(answer))
            at = os.path.relpath(folder, run_tests.ROOT)
            good, bad = (os.path.join(at, name, "tests") for name in ("good", "bad"))
            status, said = self.run_words(groups=[[good, bad]])
            self.assertEqual(1, status)
            self.assertLess(said.index(f"== tests of {good}"), said.index(f"== tests of {bad}"))
            self.assertIn("False is not true", said)
            self.assertEqual(0, self.run_words("good", groups=[[good, bad]])[0])

    def test_a_folder_without_tests_is_a_wrong_word(self) -> None:
        with self.assertRaises(SystemExit) as end, contextlib.redirect_stderr(io.StringIO()) as said:
            run_tests.main(["docs"])
        self.assertEqual((2, True), (end.exception.code, "docs is no folder of tests" in said.getvalue()))


if __name__ == "__main__":
    unittest.main()
