"""Tests that the list of changes has each command and the version, and that what else names the version and its owners
says the same."""
from __future__ import annotations

import datetime
import os
import re
import sys
import unittest

ROOT = os.path.dirname(os.path.dirname(os.path.realpath(__file__)))
sys.path.insert(0, ROOT)

from planner_tools import shipped, words  # noqa: E402
from planner_tools.install import files  # noqa: E402
from planner_tools.version import VERSION  # noqa: E402
import debian  # noqa: E402


def read(path: str) -> str:
    with open(os.path.join(ROOT, path), encoding="utf-8") as file:
        return file.read()


def numbers(version: str) -> tuple[int, ...]:
    return tuple(map(int, version.split(".")))


class Changes(unittest.TestCase):
    def setUp(self) -> None:
        self.text = read("CHANGELOG.md")
        self.heads = re.findall(r"^## (.*)$", self.text, re.M)

    def test_each_command_is_named(self) -> None:
        for command in words.COMMANDS:
            self.assertRegex(self.text, rf"`(planner )?{command.name}[` ]", command.name)

    def test_each_command_that_is_named_is_one(self) -> None:
        named = re.findall(r"`planner ([a-z][a-z-]*)", self.text)
        self.assertEqual(set(), {name for name in named if name not in words.BY_NAME})

    def test_versions_have_numbers_and_days_the_newest_first(self) -> None:
        versions = [head for head in self.heads if head != "Unreleased"]
        self.assertLessEqual(len(self.heads) - len(versions), 1)
        self.assertEqual(self.heads[-len(versions):], versions)
        heads = [re.fullmatch(r"(\d+\.\d+\.\d+), (\d{4}-\d\d-\d\d)", head) for head in versions]
        found = [head for head in heads if head]
        self.assertEqual(len(found), len(versions), versions)
        order = [(numbers(one[1]), datetime.date.fromisoformat(one[2])) for one in found]
        self.assertEqual(order, sorted(order, reverse=True))
        self.assertEqual(len(order), len(set(number for number, _ in order)))
        self.assertEqual(found[0][1], VERSION)
        self.assertEqual(files.day_of(ROOT), found[0][2])

    def test_the_readme_names_the_package_of_this_version(self) -> None:
        self.assertEqual({VERSION}, set(re.findall(r"planner_(\d+\.\d+\.\d+)_", read("README.md"))))

    @unittest.skipUnless(os.path.exists(os.path.join(ROOT, shipped.TEXT)), "no dist/ here")
    def test_the_readme_says_where_the_program_of_dist_runs(self) -> None:
        about = shipped.said(ROOT)
        self.assertIn(f"for {about['machine']} with GNU libc {about['glibc']} or newer", read("README.md"))

    def test_the_license_and_the_package_name_the_same_owners(self) -> None:
        owners = re.findall(r"^   Copyright (\d{4} .*)$", read("LICENSE"), re.M)
        self.assertIn(f"Copyright: {owners[0]}\n", debian.copyright_text())


if __name__ == "__main__":
    unittest.main()
