"""Tests of picture.py: what is drawn, which order is wrong, and that docs/MAP.md has the picture."""
from __future__ import annotations

import unittest

import making
import picture

TEXT = """\
# A crate and the libraries that it uses.

# low
one:
two: one serde_json
low_tests: one

# high
# (more on it)
three: two
"""


class Picture(unittest.TestCase):
    def test_families_with_their_crates(self) -> None:
        self.assertEqual(picture.families_in(TEXT), [
            ("low", {"one": [], "two": ["one", "serde_json"], "low_tests": ["one"]}),
            ("high", {"three": ["two"]}),
        ])

    def test_the_highest_family_is_drawn_first_and_no_crate_of_tests(self) -> None:
        wanted = " high             three\n                       |\n low              one  two\n"
        self.assertEqual(picture.drawn(picture.families_in(TEXT)), wanted)

    def test_a_long_row_is_broken_between_crates(self) -> None:
        names = [f"crate_{number}" for number in range(20)]
        lines = picture.drawn([("many", {it: [] for it in names})]).splitlines()
        self.assertEqual([lines[0][:18], lines[1][:18]], [" many             ", " " * 18])
        self.assertEqual(" ".join(lines).split(), ["many", *names])
        self.assertLessEqual(max(map(len, lines)), picture.WIDTH)

    def test_a_crate_stands_behind_those_on_which_it_stands(self) -> None:
        self.assertEqual(picture.misplaced(picture.families_in(TEXT)), [])
        self.assertEqual(picture.misplaced([("all", {"one": ["two", "json"], "two": []})]),
                         ["crates.txt has one before two, on which it stands"])

    def test_the_map_has_the_picture(self) -> None:
        wanted, wrong = picture.make()
        self.assertEqual((making.settle("picture", wanted, True), wrong), ([], []))


if __name__ == "__main__":
    unittest.main()
