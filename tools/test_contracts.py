"""Tests of contracts.py: which lines are long, which functions wide, and what is said where the list differs."""
from __future__ import annotations

import unittest

import contracts

CODE = """\
/// """ + "a" * 120 + """
pub fn one<F: Fn(u32, u32) -> u32>(a: u8, b: &[u8], c: (u8, u8), d: HashMap<u8, u8>, e: F, f: u8) -> u8
    requires small { a < """ + "1" * 100 + """ }
    ensures {
        result ≡ a
        + """ + "2" * 100 + """
    }
{
    let text = """ + "3" * 120 + """;
}

fn two(
    a: u8,   // the first, and not the last
    b: u8,
    c: u8,
    d: u8,
    e: u8,
    f: u8,
    g: u8,
) {}

fn none() {}

fn three<A: AllocGlobal, F: Fn(u64, u64) -> u64>(alloc: A, a: u8, b: u8, c: u8, d: u8, e: u8, f: F) -> u8 {}

impl Model for Four {
    ghost view = { λ f. """ + "4" * 100 + """ };
}
"""


class Counted(unittest.TestCase):
    def test_only_lines_of_clauses_count(self) -> None:
        self.assertEqual(contracts.long_lines(CODE), [3, 6, 27])

    def test_a_function_has_the_arguments_between_its_own_commas(self) -> None:
        self.assertEqual(contracts.wide_functions(CODE), ["two", "three"])
        for text, count in (("()", 0), ("(a: u8)", 1), ("(a: u8, b: fn(u8, u8) -> u8,)", 2)):
            self.assertEqual(contracts.arguments_of(text, 1), count)


class Listed(unittest.TestCase):
    def test_a_crate_that_is_not_listed_has_none(self) -> None:
        self.assertEqual(contracts.read_listed("# crate lines functions\n\none 3 1\n"), {"one": (3, 1)})
        self.assertEqual(contracts.differences({"one": (3, 1)}, {"one": (3, 1)}), [])
        self.assertEqual(
            contracts.differences({"two": (1, 0)}, {}),
            ["two has 1 long contract lines, 0 at most are listed: break the new ones"],
        )

    def test_the_list_goes_down_with_the_crates(self) -> None:
        self.assertEqual(
            contracts.differences({}, {"one": (0, 2)}),
            ["one has 0 functions of more than six arguments, and 2 are listed: run tools/contracts.py --write"],
        )


if __name__ == "__main__":
    unittest.main()
