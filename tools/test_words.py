"""Tests that the manual, the completion, the README and the help are made of the words of planner_tools/words.py, and
that the program has them."""
from __future__ import annotations

import os
import re
import subprocess
import sys
import unittest

ROOT = os.path.dirname(os.path.dirname(os.path.realpath(__file__)))
sys.path.insert(0, ROOT)

from planner_tools import words  # noqa: E402
import making  # noqa: E402
import manual  # noqa: E402


def said(*more: str) -> str:
    command = [os.path.join(ROOT, "planner"), *more]
    return subprocess.run(command, capture_output=True, text=True, check=True, timeout=20).stdout


def completed(*more: str) -> tuple[list[str], str]:
    """Returns what bash offers for the last of these words, and what it says of faults."""
    script = '. "$0"; COMP_WORDS=(planner "$@"); COMP_CWORD=$#; _planner; printf "%s\\n" "${COMPREPLY[@]}"'
    command = ["bash", "-c", script, os.path.join(ROOT, "docs", "planner.bash"), *more]
    done = subprocess.run(command, capture_output=True, text=True, check=False, timeout=20)
    return done.stdout.split(), done.stderr


class Words(unittest.TestCase):
    def test_the_files_are_made_of_the_words(self) -> None:
        for path, text in manual.wanted().items():
            with self.subTest(path):
                self.assertEqual(text, making.read(path), "tools/manual.py writes it anew")

    def test_the_readme_and_the_tour_have_their_tables(self) -> None:
        self.assertIn(manual.manual.table(), making.read("README.md"))
        self.assertIn(manual.manual.long_table(), making.read("docs/TOUR.md"))

    def test_each_command_stands_in_the_readme(self) -> None:
        self.assertEqual(set(), set(words.BY_NAME) - {name for _, names in words.WISHES for name in names})

    def test_the_readme_is_short(self) -> None:
        self.assertLessEqual(len(making.read("README.md").partition("## Where to go on")[0].split()), 1200)

    def test_help_has_each_command(self) -> None:
        for command in words.COMMANDS:
            with self.subTest(command.name):
                self.assertIn(f"  {command.name} {command.usage}".rstrip() + "\n", said("--help"))
                self.assertIn(f"planner {command.name}", said(command.name, "--help"))

    def test_each_command_is_completed(self) -> None:
        offered, fault = completed("")
        self.assertEqual("", fault)
        self.assertEqual([*(command.name for command in words.COMMANDS), "--help", "--version"], offered)
        self.assertEqual((["check"], ""), completed("ch"))
        self.assertEqual((["--strict"], ""), completed("check", "--s"))
        self.assertEqual((["--back"], ""), completed("apply", "--b"))

    def test_the_options_of_the_commands_that_speak_with_switches_are_theirs(self) -> None:
        for name, options in words.OWN_OPTIONS.items():
            with self.subTest(name):
                usage = said(name, "--help").partition("\n\n")[0]
                everywhere = {flag.split()[0] for flag, _ in words.OPTIONS}
                own = {flag.split()[0] for flag, _ in options}
                self.assertEqual(set(re.findall(r"--[a-z-]+", usage)) - everywhere, own)

    def test_nothing_is_offered_where_files_or_numbers_stand(self) -> None:
        self.assertEqual(([], ""), completed("check", ""))
        self.assertEqual(([], ""), completed("sample", ""))


if __name__ == "__main__":
    unittest.main()
