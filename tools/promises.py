#!/usr/bin/env python3
"""Makes the table of the promises in docs/PROVED.md, from the comments in the records that the promises are.

    tools/promises.py           writes it
    tools/promises.py --check   prints where the page doesn't have it, and fails where it prints something

The promise of a command is the record NAMEPromise in specs/Promise.antt of the crate that tools/command_table.py says,
or the record there that extends it; then the rows of both stand in the table.
A row of the table is a comment in it, with the fields that stand below that comment up to the next one. In the comment
`docs/NAME.md` becomes a link; a word in backticks that is written as a definition is (SpeakForAll) has to be one.
"""
from __future__ import annotations

import re
import sys

import commands
import making
from command_table import ROWS, Row

PAGE = "docs/PROVED.md"
HEAD = "| Clause of `run` | In words | Field of the promise |\n|---|---|---|\n"
COMMENT, FIELD = re.compile(r"  -- (.*)"), re.compile(r"  pub (\w+) :")
DEFINED = re.compile(r"(?m)^(?:(?:pub|abbrev|unfoldable|record|data) )+(\w+)")


def groups_in(text: str, record: str) -> list[tuple[str, list[str]]]:
    """Returns the comments of a record, each with the fields below it."""
    start = re.search(rf"(?m)^pub record {record}\b", text)
    if not start:
        raise LookupError(f"there is no record {record}")
    groups: list[tuple[list[str], list[str]]] = []
    is_open = False
    for line in text[start.start():].partition("\n\n")[0].splitlines()[1:]:
        comment, field = COMMENT.match(line), FIELD.match(line)
        if comment and is_open:
            groups[-1][0].append(comment[1])
        elif comment:
            groups.append(([comment[1]], []))
        elif field and not groups:
            raise LookupError(f"the field {field[1]} of {record} has no comment above it")
        elif field:
            groups[-1][1].append(field[1])
        is_open = bool(comment)
    return [(" ".join(said), fields) for said, fields in groups]


def clause_of(row: Row) -> str:
    """Returns the clause of `run` that carries the promise of a command."""
    return f"{row.name}_promise" if row.kind == "serves" else row.name


def records_of(row: Row) -> list[tuple[str, str]]:
    """Returns the crate and the name of each record that the promise of a command is made of: that of the command's
    crate, and the one that extends it, where there is one."""
    whole = (commands.promise_crate(row), commands.promise_of(row))
    return [(commands.crate_of(row), commands.own_promise(row)), whole] if row.promise else [whole]


def undefined_in(comment: str, specs: str) -> list[str]:
    """Returns the names that a comment has in backticks as those of definitions, and that the texts of definitions
    don't define."""
    return [it for it in re.findall(r"`([A-Z][a-z]+(?:[A-Z][a-z]*)+)`", comment) if it not in DEFINED.findall(specs)]


def cell(comment: str) -> str:
    """Returns a comment as it stands in a cell of the table."""
    return re.sub(r"docs/(\w+\.md)", r"[\1](\1)", comment).replace("|", "\\|")


def rows_of(row: Row) -> list[str]:
    """Returns the rows of a command."""
    crate, record = commands.promise_crate(row), commands.promise_of(row)
    groups = [group for crate, record in records_of(row)
              for group in groups_in(making.read(f"crates/{crate}/specs/Promise.antt"), record)]
    specs = "\n".join(text for _, _, text in making.files_of(("specs",), crates={crate, commands.crate_of(row)}))
    wrong = [it for comment, _ in groups for it in undefined_in(comment, specs)]
    if wrong:
        raise LookupError(f"a comment of {record} names {', '.join(wrong)}, which {crate} doesn't define")
    clauses = [f" `{clause_of(row)}`"] + [""] * (len(groups) - 1)
    cells = [(cell(comment), ", ".join(f"`{it}`" for it in fields)) for comment, fields in groups]
    return [f"|{clause} | {comment} | {fields} |\n" for clause, (comment, fields) in zip(clauses, cells)]


def make() -> making.Made:
    """Returns the text of the page with the table."""
    table = HEAD + "".join(line for row in ROWS for line in rows_of(row))
    return {PAGE: making.with_part(making.read(PAGE), "promises", f"\n{table}", PAGE)}, []


if __name__ == "__main__":
    sys.exit(making.run("promises", sys.argv[1:], __doc__, make))
