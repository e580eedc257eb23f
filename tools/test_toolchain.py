"""Tests that toolchain.txt says what the machine and the documents say."""
from __future__ import annotations

import os
import re
import sys
import tempfile
import unittest
import unittest.mock

ROOT = os.path.dirname(os.path.dirname(os.path.realpath(__file__)))
sys.path.insert(0, ROOT)

from planner_tools.install import toolchain  # noqa: E402


def read(path: str) -> str:
    with open(os.path.join(ROOT, path), encoding="utf-8") as file:
        return file.read()


class Toolchain(unittest.TestCase):
    def test_the_toolchain_of_this_machine_is_the_one_that_is_named(self) -> None:
        found = toolchain.on_this_machine()
        if found is None:
            self.skipTest("no toolchain on this machine")
        self.assertIn(found, toolchain.toolchains())
        self.assertIsNone(toolchain.difference())

    def test_the_documents_name_the_same(self) -> None:
        kits, logics = zip(*(line.split(" logic ") for line in toolchain.toolchains()))
        for path in ("README.md", "docs/PROVED.md", "docs/CLAIMS.md"):
            text = read(path)
            self.assertEqual(set(kits), set(re.findall(r"rattle-kit-\w+", text)), path)
            self.assertEqual(set(logics), set(re.findall(r"logic `?([0-9a-f]{16})\b", text)), path)
        self.assertIn(f"Python {toolchain.python()}", read("README.md"))

    def test_each_line_of_a_toolchain_counts(self) -> None:
        with tempfile.TemporaryDirectory() as root:
            with open(os.path.join(root, toolchain.FILE), "w", encoding="ascii") as file:
                file.write("# with what\nrattle one logic 1   # the first\nrattle other logic 1\n\npython 3.10\n")
            self.assertEqual(toolchain.toolchains(root), ["one logic 1", "other logic 1"])
            self.assertEqual(toolchain.python(root), "3.10")
            told = ("the toolchain on this machine is third logic 2; the repository was proved with one logic 1 and "
                    "with other logic 1")
            for found, wanted in (("other logic 1", None), (None, None), ("third logic 2", told)):
                with unittest.mock.patch.object(toolchain, "on_this_machine", return_value=found):
                    self.assertEqual(toolchain.difference(root), wanted)

    def test_this_python_is_no_older(self) -> None:
        self.assertGreaterEqual(sys.version_info[:2], tuple(map(int, toolchain.python().split("."))))


if __name__ == "__main__":
    unittest.main()
