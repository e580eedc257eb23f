"""Tests of headline.py, over a small repository."""
from __future__ import annotations

import os
import tempfile
import unittest
from unittest import mock

import headline

FILES = {
    "low/src/lib.rt": """//! Low.

use std::vec::Vec;

/// A place.
#[derive(Clone, Copy)]
pub struct Place {
    pub number: u32,
    /// How it is.
    pub state: State,
}

/// How a place is.
pub enum State {
    Open,
    Shut(u8),
}

/// Places.
pub struct Places {
    list: Vec<Place>,
}

impl Model for Places {
    ghost use Rattle.std.specs.Prelude.{List};
    ghost use Rattle.low.specs.declared.Place.{Place};

    ghost Value = { List Place };

    ghost view = { λ p. p.list.items };
}

/// Not cited.
pub struct Other(pub u32);
""",
    "low/specs/Lists.antt": """-- Lists.
use Rattle.std.specs.Prelude.{List, ◌∷◌, []}
use Rattle.low.specs.declared.State.TheVariants as state

-- twice: one behind the other
infixl 5 ◌&◌
abbrev pub ◌&◌ : {A : Type 0} → List A → List A → List A
[] & ys = ys
(x ∷ xs) & ys = x ∷ (xs & ys)

-- ---- a heading

-- whether it is open, and this name is a variable elsewhere
abbrev pub opened : State → Bool
opened state.Open = true
opened other = false

-- not cited
abbrev pub unused : ℕ
unused = 0
""",
    "high/specs/Good.antt": """-- Good places,
-- in two lines.
use Rattle.std.specs.Prelude.{List, length}
use Rattle.low.specs.Lists.{◌&◌, opened}
use Rattle.low.specs.declared.Place.{Place}
use Rattle.low.specs.declared.Places.{Places}
use Rattle.low.specs.Lists as lists

-- by a module's other name
abbrev pub number : ℕ
number = lists.unused

-- lower than good
abbrev pub half : List Place → List Place
half xs = xs & xs

-- good: all is well
pub record IsGood (places : Places) (opened : ℕ) : Type 0 where
  pub half : half places ≡ places
  pub many : opened < half

-- open
abbrev pub AreOpen : Place → Type 0
AreOpen p = IsTrue (opened p.state)

-- the start
abbrev pub Start : Places → Type 0
Start places = IsGood places 1 × AreOpen places
""",
}


class Page(unittest.TestCase):
    def setUp(self) -> None:
        self.room = tempfile.TemporaryDirectory()
        for file, text in FILES.items():
            path = f"{self.room.name}/crates/{file}"
            os.makedirs(os.path.dirname(path), exist_ok=True)
            with open(path, "w", encoding="utf-8") as it:
                it.write(text)
        self.specs = headline.Specs(self.room.name)

    def tearDown(self) -> None:
        self.room.cleanup()

    def names(self, name: str) -> list[str]:
        return [it.name for it in self.specs.cited(self.specs.named(name))]

    def test_what_a_definition_cites(self) -> None:
        self.assertEqual(self.names("Start"), ["Places", "IsGood", "AreOpen"])
        # (a parameter of the name is no definition, and a part of a record only behind its own line)
        self.assertEqual(self.names("IsGood"), ["Places", "half"])
        self.assertEqual(self.names("AreOpen"), ["Place", "opened"])
        self.assertEqual(self.names("half"), ["Place", "◌&◌"])
        self.assertEqual(self.names("number"), ["unused"])

    def test_types_are_shown_as_declared_or_as_contracts_see_them(self) -> None:
        places, place = self.specs.declared("low", "", "Places"), self.specs.declared("low", "", "Place")
        self.assertEqual(headline.shown(places), "/// Places.\npub struct Places, seen as List Place")
        self.assertEqual(
            headline.shown(place),
            "/// A place.\npub struct Place {\n    pub number: u32,\n    /// How it is.\n    pub state: State,\n}",
        )
        self.assertEqual([it.name for it in self.specs.cited(places)], ["Place"])
        self.assertEqual([it.name for it in self.specs.cited(place)], ["State"])

    def test_an_operator_stands_with_its_comment(self) -> None:
        text = headline.shown(self.specs.named("◌&◌"))
        self.assertTrue(text.startswith("-- twice: one behind the other\ninfixl 5 ◌&◌\nabbrev pub ◌&◌ :"))

    def test_order_goes_from_words_to_what_they_are_made_of(self) -> None:
        leads: dict[str, list[str]] = {"a": ["c", "b"], "b": ["c"], "c": ["d"], "d": []}
        self.assertEqual(headline.in_order(["a"], leads.__getitem__), ["a", "b", "c", "d"])
        leads = {"a": ["b", "c"], "b": [], "c": []}
        self.assertEqual(headline.in_order(["a"], leads.__getitem__), ["a", "b", "c"])

    def test_the_page(self) -> None:
        parts = (("One", "First.", ("AreOpen",)), ("Two", "Second.", ("Start",)))
        with mock.patch.object(headline, "PARTS", parts):
            text, rows, untold = headline.page(self.specs)
        self.assertEqual(rows, [("One", 2, 5, 2, 9, 3), ("Two", 4, 11, 1, 1, 3), ("All", 6, 16, 3, 10, 3)])
        self.assertEqual(untold, [])
        self.assertIn("## 1. One\n\nFirst.\n\n### crates/high/specs/Good.antt\n\nGood places, in two lines.\n\n"
                      "```text\n-- open\nabbrev pub AreOpen", text)
        self.assertLess(text.index("### crates/low/specs/Lists.antt"), text.index("pub enum State"))
        self.assertNotIn("Not cited", text)
        self.assertNotIn("unused", text)

    def test_counts_stand_between_their_marks(self) -> None:
        rows = [("One part", 2, 40, 3, 7, 5), ("Other part", 4, 5, 6, 7, 8), ("Runs", 1, 2, 0, 0, 1),
                ("The wire", 3, 4, 0, 0, 1), ("All", 9, 9, 9, 9, 9)]
        wanted = ("a <!-- counts -->The first claim has 6 (45 lines), the second 4 more (6 lines), which name 9 types "
                  "that the code declares.<!-- /counts --> b")
        self.assertEqual(headline.with_counts("a <!-- counts -->old\ntext<!-- /counts --> b", rows), wanted)
        with self.assertRaises(LookupError):
            headline.with_counts("no marks", rows)

    def test_a_name_that_is_lost_is_told(self) -> None:
        with self.assertRaisesRegex(LookupError, "Gone is defined 0 times"):
            self.specs.named("Gone")


if __name__ == "__main__":
    unittest.main()
