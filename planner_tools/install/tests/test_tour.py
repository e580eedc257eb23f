"""Tests that the lines of docs/TOUR.md and README.md that stand behind `$` write what stands below them. PLANNER names
the program."""
import os
import pathlib
import re
import subprocess
import sys
import tempfile
import unittest

ROOT = pathlib.Path(__file__).resolve().parents[3]
sys.path.insert(0, str(ROOT))

from planner_tools import program, words  # noqa: E402

LONGEST = 60


def commands(text):
    """Each line behind `$` in a block of code, with the text below it."""
    for block in re.findall(r"^```\n(.*?)^```$", text, re.M | re.S):
        for part in re.split(r"^\$ ", block, flags=re.M)[1:]:
            line, _, wanted = part.partition("\n")
            yield line, wanted


class Tour(unittest.TestCase):
    def test_each_line_writes_what_stands_below_it(self):
        text = (ROOT / "docs" / "TOUR.md").read_text(encoding="utf-8")
        with tempfile.TemporaryDirectory() as folder:
            for name in ("planner", "examples"):
                os.symlink(ROOT / name, pathlib.Path(folder, name))
            lines = list(commands(text))
            self.assertGreaterEqual(len(lines), 9)
            for line, wanted in lines:
                done = subprocess.run(
                    ["sh", "-c", line], cwd=folder, capture_output=True, text=True, timeout=LONGEST, check=False,
                    env={**os.environ, "PLANNER": program.path()},
                )
                if line.startswith("cat") and "replies-s1" in line:       # its one long line is broken in the document
                    continue
                # a program that is older than the command
                if line.split()[1] in getattr(words, "NEW", ()) and done.returncode == 2:
                    continue
                self.assertEqual(wanted, done.stdout, line)

    def test_the_documents_that_are_linked_are_there(self):
        for path in (
            ROOT / "README.md", *sorted((ROOT / "docs").glob("*.md")), ROOT / "CONTRIBUTING.md", ROOT / "SECURITY.md",
            ROOT / "planner_tools" / "page" / "README.md",
        ):
            for target in re.findall(r"\]\(([^)#:]+)(?:#[^)]*)?\)", path.read_text(encoding="utf-8")):
                self.assertTrue((path.parent / target).exists(), f"{path.name}: {target}")


if __name__ == "__main__":
    unittest.main()
