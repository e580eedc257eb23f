"""Tests of ledger.py: what it reads from the ledger and from the code, and that the ledger holds."""
from __future__ import annotations

import unittest

import ledger

TEXT = """\
## The top call

| Clause of `run` | In words | Field |
|---|---|---|
| `config` | `plan` does this | `done` |
| | and says that | `says` |

## The crates

| Crate | About | Proved |
|---|---|---|
| net_base | numbers | `read_decimal`: the text (`decimal_in`) |

## What is only tested
"""

CODE = """\
pub fn run(words: &[String]) -> Status
    ensures config { Keeps words }
    ensures plan { Keeps words }
{
    other()
}

fn other() -> Status
    ensures none { Keeps }
{}
"""


class Ledger(unittest.TestCase):
    def test_rows_of_crates(self) -> None:
        self.assertEqual(ledger.rows_in(TEXT), {"net_base": "`read_decimal`: the text (`decimal_in`)"})

    def test_names_of_a_row(self) -> None:
        self.assertEqual(ledger.names_in("`read_decimal`: the text (`decimal_in x`)"),
                         ["read_decimal", "decimal_in", "x"])

    def test_clauses_with_a_row(self) -> None:
        told = ledger.names_in(ledger.clause_cells(TEXT))
        self.assertEqual([it for it in ledger.clauses_of(CODE) if it in told], ["config"])

    def test_clauses_of_run_alone(self) -> None:
        self.assertEqual(ledger.clauses_of(CODE), ["config", "plan"])

    def test_crates_have_rows_and_what_rows_name(self) -> None:
        texts = {"net_base": "decimal_in read_decimal", "trace_command": "fn trace meets fn trace_promised"}
        crates, rows = ["net_base", "trace_command", "topology"], {**ledger.rows_in(TEXT), "gone": ""}
        self.assertEqual(ledger.said_of_rows(crates, rows, texts.__getitem__), [
            "topology has no row",
            "gone has a row and is no crate",
            "trace_command has no TracePromise, which the ledger says of each command",
        ])
        self.assertEqual(ledger.said_of_rows(["net_base"], ledger.rows_in(TEXT), lambda crate: "read_decimal"),
                         ["the row of net_base names decimal_in, which isn't in its src or specs"])

    def test_the_ledger_holds(self) -> None:
        self.assertEqual(ledger.main(), 0)


if __name__ == "__main__":
    unittest.main()
