"""Tests of lemmas.py: what is a lemma, and which nothing cites."""
from __future__ import annotations

import unittest

import lemmas

LAWS = """\
use Rattle.std.proofs.Common.{◌≡◌, refl}
use Rattle.one.proofs.Other.{imported}

-- cited by the one below; alone is named in this comment
pub first : (n : ℕ) → n ≡ n
first zero = refl
first (suc n) =
    let e = refl in
    e

alone : (n : ℕ) → n ≡ n
alone zero = refl
alone (suc n) = alone n

inner : (n : ℕ) → n ≡ n
inner n = refl

module _ (n : ℕ) where
    outer : n ≡ n
    outer = inner n

pub record Kept (n : ℕ) : Type 0 where
  pub same : n ≡ n

abbrev second {A : Set} : (n : ℕ) → n ≡ n
second n = first n
"""


class Lemmas(unittest.TestCase):
    def test_a_lemma_has_all_its_clauses(self) -> None:
        names = [None, None, "first", "alone", "inner", None, None, "second"]
        self.assertEqual([name for name, _ in lemmas.items_in(LAWS)], names)
        self.assertTrue(dict(lemmas.items_in(LAWS))["alone"].strip().endswith("alone (suc n) = alone n"))

    def test_a_lemma_that_only_itself_names_is_found(self) -> None:
        code = "#[tactic(auto, using(crate::proofs::Laws::second))]"
        files = {"crates/one/proofs/Laws.antt": LAWS, "crates/one/src/lib.rt": code}
        self.assertEqual(lemmas.uncited(files), [("crates/one/proofs/Laws.antt", "alone", 3)])

    def test_an_import_cites_nothing(self) -> None:
        other = "pub imported : ⊤\nimported = tt\n"
        files = {"crates/one/proofs/Other.antt": other, "crates/one/proofs/Laws.antt": LAWS}
        self.assertEqual([name for _, name, _ in lemmas.uncited(files)], ["imported", "alone", "second"])

    def test_answers_and_definitions_are_passed_over(self) -> None:
        text = "returns-clause : ⊤\nreturns-clause = tt\n"
        paths = ("proofs/f/Answers.antt", "proofs/Rows.antt", "specs/A.antt")
        self.assertEqual(lemmas.uncited({f"crates/one/{it}": text for it in paths}), [])


if __name__ == "__main__":
    unittest.main()
