"""Tests of what the last release is."""
import pathlib
import subprocess
import sys
import tempfile
import unittest

sys.path.insert(0, str(pathlib.Path(__file__).resolve().parent))

import release  # noqa: E402


class ReleaseTests(unittest.TestCase):
    """A history of small states, each with the headings of its change log and a program."""

    def setUp(self):
        room = tempfile.TemporaryDirectory()
        self.addCleanup(room.cleanup)
        self.root = pathlib.Path(room.name)
        (self.root / "dist").mkdir()
        self.git("init", "-q")

    def git(self, *words):
        subprocess.run(
            ["git", "-C", str(self.root), "-c", "user.name=a", "-c", "user.email=a@b", *words], check=True,
            capture_output=True,
        )

    def state(self, headings, program):
        (self.root / release.LOG).write_text("# Changes\n\n" + "".join(f"## {it}\n\n" for it in headings))
        if program:
            (self.root / release.PROGRAM).write_text(program)
        self.git("add", "-A")
        self.git("commit", "-q", "--allow-empty", "-m", "a state")

    def released(self):
        path = self.root / "program"
        number = release.write_program(self.root, path)
        return number, path.read_text()

    def test_it_is_the_last_state_with_another_first_heading(self):
        self.state(["1.0.0, 2026-01-01"], "one")
        self.state(["1.1.0, 2026-01-02", "1.0.0, 2026-01-01"], "two")
        # The program of a release may come behind its number.
        self.state(["1.1.0, 2026-01-02", "1.0.0, 2026-01-01"], "three")
        self.assertEqual(self.released(), ("1.0.0", "one"))
        self.state(["Unreleased", "1.1.0, 2026-01-02"], "three")
        self.state(["Unreleased", "1.1.0, 2026-01-02"], "four")
        self.assertEqual(self.released(), ("1.1.0", "three"))
        self.state(["1.2.0, 2026-01-03", "1.1.0, 2026-01-02"], "five")
        self.assertEqual(self.released(), ("1.1.0", "three"))

    def test_a_heading_that_is_not_recorded_yet_counts(self):
        self.state(["1.0.0, 2026-01-01"], "one")
        (self.root / release.LOG).write_text("## Unreleased\n")
        self.assertEqual(self.released(), ("1.0.0", "one"))

    def test_without_one_it_says_so(self):
        self.state(["1.0.0, 2026-01-01"], "one")
        with self.assertRaisesRegex(release.NoRelease, "before 1.0.0"):
            self.released()

    def test_a_release_without_a_program_says_so(self):
        self.state(["1.0.0, 2026-01-01"], "")
        self.state(["1.1.0, 2026-01-02"], "two")
        with self.assertRaisesRegex(release.NoRelease, "1.0.0 has no"):
            self.released()


if __name__ == "__main__":
    unittest.main()
