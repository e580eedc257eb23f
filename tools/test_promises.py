"""Tests of promises.py: what is a row of the table, and that docs/PROVED.md has the rows of every command."""
from __future__ import annotations

import unittest

import making
import promises
from command_table import ROWS, Row

TEXT = """\
-- What a run promises.
use Rattle.one.specs.Two.{Three}

-- a part
pub record Other : Type 0 where
  pub none : ⊥

-- the files, and how the run ended
pub record OnePromise (files : Files)
    (result : Status) : Type 0 where
  -- Done comes exactly where the files are read, in the order of
  -- docs/FORMATS.md.
  pub done : result ≡ status.Done
  -- The line a|b says why (`OtherLine`).
  pub first : (m : Meaning)
      → Says m
  pub first_only : Says

-- what stands behind it
pub record Last : Type 0 where
  -- more
  pub more : ⊥
"""


class Promises(unittest.TestCase):
    def test_a_comment_speaks_of_the_fields_down_to_the_next_one(self) -> None:
        self.assertEqual(promises.groups_in(TEXT, "OnePromise"), [
            ("Done comes exactly where the files are read, in the order of docs/FORMATS.md.", ["done"]),
            ("The line a|b says why (`OtherLine`).", ["first", "first_only"]),
        ])

    def test_a_field_has_a_comment(self) -> None:
        with self.assertRaisesRegex(LookupError, "none of Other has no comment"):
            promises.groups_in(TEXT, "Other")
        with self.assertRaisesRegex(LookupError, "no record TwoPromise"):
            promises.groups_in(TEXT, "TwoPromise")

    def test_a_document_is_linked_and_a_stroke_ends_no_cell(self) -> None:
        self.assertEqual(promises.cell("a|b of docs/FORMATS.md."), "a\\|b of [FORMATS.md](FORMATS.md).")

    def test_a_definition_that_a_comment_names_is_one(self) -> None:
        comment = "`OtherLine`, `Last` and `good`; `KIND`, NotARun"
        self.assertEqual(promises.undefined_in(comment, TEXT), ["OtherLine"])
        self.assertEqual(promises.undefined_in(comment, "abbrev pub OtherLine : Type 0"), [])

    def test_a_record_that_extends_another_has_its_rows_behind_it(self) -> None:
        row = Row("one", "", "", "", "", promise_in="law_one_promise")
        self.assertEqual(promises.records_of(row), [("law_one_promise", "OnePromise")])
        self.assertEqual(promises.records_of(row._replace(promise="OneMorePromise")),
                         [("one_command", "OnePromise"), ("law_one_promise", "OneMorePromise")])

    def test_each_field_of_each_promise_is_in_the_page(self) -> None:
        page = making.read(promises.PAGE)
        for row in ROWS:
            with self.subTest(row.name):
                rows = promises.rows_of(row)
                self.assertTrue(rows[0].startswith(f"| `{promises.clause_of(row)}` | "))
                self.assertIn("".join(rows), page)


if __name__ == "__main__":
    unittest.main()
