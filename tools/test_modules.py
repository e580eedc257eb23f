"""Tests of modules.py: which modules a crate of tests has, and that each has those of its files."""
from __future__ import annotations

import unittest

import making
import modules

TEXT = """\
//! Tests of `one`.
#![tactic(auto)]

#[cfg(test)]
#[cfg(test)]
mod two;
#[cfg(test)]
mod gone;
"""


class Modules(unittest.TestCase):
    def test_each_file_is_a_module_below_the_head(self) -> None:
        self.assertEqual(
            modules.with_modules(TEXT, ["two", "one"]),
            "//! Tests of `one`.\n#![tactic(auto)]\n\n#[cfg(test)]\nmod one;\n#[cfg(test)]\nmod two;\n",
        )
        self.assertEqual(modules.with_modules("//! New.\n\n", ["one"]), "//! New.\n\n#[cfg(test)]\nmod one;\n")

    def test_each_crate_of_tests_has_those_of_its_files(self) -> None:
        wanted, _ = modules.make()
        self.assertIn("crates/command_tests/src/lib.rt", wanted)
        self.assertEqual(making.settle("modules", wanted, True), [])


if __name__ == "__main__":
    unittest.main()
