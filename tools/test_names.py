"""Tests of names.py: which names are declared, which of them stand for two things, and that the list of those that do
goes down."""
from __future__ import annotations

import unittest

import making
import names

CODE = """\
//! Of a crate.
use one::Place;

/// Where a packet is:
/// a switch.
#[derive(Clone)]
pub struct Place {
    pub switch: u32,
}

pub(crate) enum Step<'a> {
    Kept(&'a Place),
}

impl Model for Place {
    type Value = u32;
}

struct Pair(u8, u8);

fn structure(trait_of: u8) {}
"""

SPECS = """\
-- Of a crate.
use Rattle.one.specs.Places.{Other}

-- whether it is one
abbrev pub is_one : ℕ → Bool
is_one n = n == 1

-- its places,
-- of which each is one
pub record AreGood (places : List ℕ) : Type 0 where
  pub good : list_all is_one places ≡ true

unfoldable pub AreKept : Type 0
pub data Kind : Type 0 where
abbrev own : ℕ
infixl 9 ◌>>=◌
abbrev pub ◌>>=◌ : ℕ
"""

FILES = [
    ("one", "crates/one/src/lib.rt", CODE),
    ("one", "crates/one/specs/Places.antt", SPECS),
    ("two_tests", "crates/two_tests/src/lib.rt", CODE),
]


class Declared(unittest.TestCase):
    def test_types_of_code(self) -> None:
        found = {name: place.said for name, place in names.declared_in("one", "lib.rt", CODE)}
        self.assertEqual(found, {"Place": "Where a packet is: a switch.", "Step": "", "Pair": ""})

    def test_public_definitions(self) -> None:
        found = {name: place.said for name, place in names.declared_in("one", "Places.antt", SPECS)}
        self.assertEqual(
            found,
            {"is_one": "whether it is one", "AreGood": "its places, of which each is one", "AreKept": "", "Kind": ""},
        )

    def test_two_crates_share_a_name_and_no_crate_of_tests_does(self) -> None:
        self.assertEqual(names.shared_in(FILES), {})
        other = ("two", "crates/two/specs/Lib.antt", "pub record Place : Type 0 where\nabbrev pub names_in : ℕ\n")
        role = ("three", "crates/three/specs/Lib.antt", "abbrev pub names_in : ℕ\n")
        self.assertEqual(names.crates_of(names.shared_in([*FILES, other, role])), {"Place": ["one", "two"]})

    def test_the_name_between_which_most_crates_stand_is_first(self) -> None:
        files = [
            *FILES,
            ("two", "crates/two/specs/A.antt", "-- a\nabbrev pub AreKept : ℕ\npub data Kind : ℕ\npub data Step : ℕ"),
            ("three", "crates/three/specs/B.antt", "Kind AreKept.{x}"),
            ("four", "crates/four/specs/C.antt", "Kind Rattle.two.AreKept.{x}"),
            ("four", "crates/four/specs/D.antt", "Step"),
        ]
        libraries: dict[str, list[str]] = {
            "one": [], "two": ["json"], "three": ["one", "two"], "four": ["three"], "five": ["two"],
        }
        self.assertEqual(names.listing(names.shared_in(files), files, libraries), [
            "Kind: 2 crates stand on two that have it, 4 files name it",
            "    crates/one/specs/Places.antt: ",
            "    crates/two/specs/A.antt: ",
            "Step: 1 crates stand on two that have it, 4 files name it",
            "    crates/one/src/lib.rt: ",
            "    crates/two/specs/A.antt: ",
            "AreKept: 1 crates stand on two that have it, 3 files name it",
            "    crates/one/specs/Places.antt: ",
            "    crates/two/specs/A.antt: a",
        ])


class Listed(unittest.TestCase):
    def test_a_name_that_is_not_listed_stands_for_one_thing(self) -> None:
        self.assertEqual(names.read_listed("# names\n\nPlace one two\n"), {"Place": ["one", "two"]})
        self.assertEqual(names.differences({"Place": ["one", "two"]}, {"Place": ["one", "two"]}), [])
        self.assertEqual(names.differences({"Place": ["one", "three", "two"]}, {"Place": ["one", "two"]}),
                         ["Place stands for two things, in one and three and two: give the new one a name of its own"])

    def test_the_list_goes_down_with_the_names(self) -> None:
        self.assertEqual(names.differences({}, {"Place": ["one", "two"]}),
                         ["Place doesn't stand in one and two beside another any more: run tools/names.py --write"])

    def test_the_list_is_that_of_today(self) -> None:
        found = names.crates_of(names.shared_in(making.files_of(("src", "specs"))))
        self.assertEqual(names.differences(found, names.read_listed(making.read(names.LISTED))), [])


if __name__ == "__main__":
    unittest.main()
