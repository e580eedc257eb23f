#!/usr/bin/env python3
"""Holds docs/PROVED.md against the crates: prints what the ledger lacks, and what it names that isn't there, and fails
where it prints something.

Each crate of crates.txt has a row, but for those of tests alone (NAME_tests) and those of commands (NAME_command), of
which the ledger says the same. Each name that a row has in backticks stands in src/ or specs/ of its crate. Each clause
of `run` has a row in a table of the top call; that of the promises is made by tools/promises.py. And
tools/crate_seconds.txt names no crate that is gone.
"""
from __future__ import annotations

import re
import sys

import build
import commands
import making
from command_table import ROWS

TYPE_CHECKING = False
if TYPE_CHECKING:
    from typing import Callable, Iterable


def rows_in(text: str) -> dict[str, str]:
    """Returns the last cell of each row of the ledger's table of crates, by the crate."""
    section = text[text.index("## The crates"):].partition("\n## ")[0] if "## The crates" in text else ""
    cells = re.findall(r"(?m)^\| (\w+) \|.* \| (.*) \|$", section)
    return {name: last for name, last in cells if name != "Crate"}


def names_in(cell: str) -> list[str]:
    """Returns the names that a cell has in backticks."""
    return [name for quoted in re.findall(r"`([^`]+)`", cell) for name in re.findall(r"[A-Za-z_]\w*", quoted)]


def clause_cells(text: str) -> str:
    """Returns the first cells of the rows of the tables of the top call, in one text."""
    section = text.partition("## The top call")[2].partition("\n## ")[0]
    return "\n".join(re.findall(r"(?m)^\| ([^|]*) \|", section))


def text_of(crate: str) -> str:
    """Returns all code and definitions of a crate."""
    return "\n".join(text for _, _, text in making.files_of(("src", "specs"), crates=[crate]))


def clauses_of(code: str) -> list[str]:
    """Returns the names of the clauses of `pub fn run` in a source file; none where it has no such function."""
    start = re.search(r"(?m)^pub fn run\b", code)
    head = code[start.start():].partition("\n{")[0] if start else ""
    return re.findall(r"(?m)^    ensures (\w+) \{", head)


def lacking(names: Iterable[str], text: str) -> list[str]:
    """Returns those of names that a text doesn't have as words."""
    return [it for it in names if not re.search(rf"\b{it}\b", text)]


def said_of_rows(crates: list[str], rows: dict[str, str], text_of_crate: Callable[[str], str]) -> list[str]:
    """Returns what is wrong with the rows of crates, a sentence each."""
    commands_of = {commands.crate_of(it): it.name for it in ROWS if it.kind == "answers"}
    said = [f"{it} has no row" for it in crates if it not in rows and it not in commands_of]
    said += [f"{it} has a row and is no crate" for it in rows if it not in crates]
    for crate in crates:
        name = commands_of.get(crate)
        wanted = [name, "meets", f"{name}_promised", f"{name.title()}Promise"] if name else []
        text = text_of_crate(crate) if wanted or rows.get(crate) else ""
        said += [f"{crate} has no {it}, which the ledger says of each command" for it in lacking(wanted, text)]
        named = names_in(rows.get(crate, ""))
        said += [f"the row of {crate} names {it}, which isn't in its src or specs" for it in lacking(named, text)]
    return said


def main() -> int:
    page, measured = making.read("docs/PROVED.md"), build.read_seconds(making.read("tools/crate_seconds.txt"))
    crates = [it for it in build.read_crates(making.read("crates.txt")) if not it.endswith("_tests")]
    said = said_of_rows(crates, rows_in(page), text_of)
    said += [f"tools/crate_seconds.txt has seconds for {it}, which is no crate" for it in measured if it not in crates]
    clauses = [it for _, _, code in making.files_of(("src",), crates=crates) for it in clauses_of(code)]
    told = names_in(clause_cells(page))
    said += [f"the clause {it} of run has no row in a table of the top call" for it in clauses if it not in told]
    making.tell("ledger", said)
    return 1 if said else 0


if __name__ == "__main__":
    sys.exit(main())
