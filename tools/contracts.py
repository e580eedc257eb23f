#!/usr/bin/env python3
"""Counts, crate by crate, the lines of contracts that are longer than 100 columns and the functions of more than six
arguments, and holds them against tools/long_contracts.txt: a crate that isn't listed there has none, and one that is
listed has no more than it says. Contracts are clauses, and what contracts see of a type and keep of it (its ghost view
and invariant).

    tools/contracts.py            prints each such line and function
    tools/contracts.py --check    prints where a crate has more, or fewer, than is listed, and fails where it prints
                                  something
    tools/contracts.py --write    writes the list anew
"""
from __future__ import annotations

import re
import sys

import making

LISTED = "tools/long_contracts.txt"
HEAD = (
    "# Crates whose contracts aren't broken into lines of 100 columns yet: so many long lines, so many functions of "
    "more than six arguments.\n"
)
MOST_COLUMNS, MOST_ARGUMENTS = 100, 6
# What is counted of a crate, and both numbers.
COUNTED = ("long contract lines", "functions of more than six arguments")
Counts = tuple[int, int]
CLAUSE = re.compile(r"\s*((requires|ensures)\*?|ghost (view|invariant))\b.*\{")
FUNCTION = re.compile(r"\bfn\s+(\w+)\s*(?=[<(])")


def long_lines(code: str) -> list[int]:
    """Returns the numbers, from 1, of the lines of clauses that are too long."""
    found, open_braces = [], 0
    for number, line in enumerate(code.split("\n"), 1):
        if open_braces or CLAUSE.match(line):
            open_braces = max(0, open_braces + line.count("{") - line.count("}"))
            if len(line) > MOST_COLUMNS:
                found.append(number)
    return found


def ends_generics(code: str, at: int) -> bool:
    """Whether a `>` there closes type parameters: that of an arrow closes nothing."""
    return code[at] == ">" and code[at - 1] != "-"


def arguments_of(code: str, start: int) -> int:
    """Returns how many arguments stand between the bracket before `start` and the one that closes it."""
    depth, count, is_empty = 1, 0, True
    for at in range(start, len(code)):
        letter = code[at]
        if letter in "([{<":
            depth += 1
        elif letter in ")]}" or ends_generics(code, at):
            depth -= 1
        if depth == 0:
            break
        if letter == "," and depth == 1:
            count, is_empty = count + 1, True
        elif not letter.isspace():
            is_empty = False
    return count + (not is_empty)


def behind_generics(code: str, start: int) -> int:
    """Returns where the bracket of the arguments opens: behind the type parameters, if there are some at `start`, whose
    bounds may hold brackets too."""
    depth = 0
    for at in range(start, len(code)):
        if code[at] == "(" and depth == 0:
            return at
        if code[at] == "<":
            depth += 1
        elif ends_generics(code, at):
            depth -= 1
    return len(code)


def wide_functions(code: str) -> list[str]:
    """Returns the names of the functions of too many arguments."""
    bare = re.sub(r"//[^\n]*", "", code)
    counts = [(it[1], arguments_of(bare, behind_generics(bare, it.end()) + 1)) for it in FUNCTION.finditer(bare)]
    return [name for name, count in counts if count > MOST_ARGUMENTS]


def counted() -> dict[str, Counts]:
    """Returns for each crate that has some how many long lines and how many wide functions it has."""
    found: dict[str, Counts] = {}
    for crate, _, text in making.files_of(("src",)):
        lines, functions = found.get(crate, (0, 0))
        found[crate] = lines + len(long_lines(text)), functions + len(wide_functions(text))
    return {crate: counts for crate, counts in found.items() if counts != (0, 0)}


def read_listed(text: str) -> dict[str, Counts]:
    """Returns the two numbers that the list has for each crate."""
    rows = [line.split() for line in text.splitlines() if line.strip() and not line.startswith("#")]
    return {crate: (int(lines), int(functions)) for crate, lines, functions in rows}


def differences(found: dict[str, Counts], listed: dict[str, Counts]) -> list[str]:
    """Returns a sentence for each crate whose numbers aren't those of the list."""
    said = []
    for crate in sorted({*found, *listed}):
        for what, now, most in zip(COUNTED, found.get(crate, (0, 0)), listed.get(crate, (0, 0))):
            if now > most:
                said.append(f"{crate} has {now} {what}, {most} at most are listed: break the new ones")
            elif now < most:
                said.append(f"{crate} has {now} {what}, and {most} are listed: run tools/contracts.py --write")
    return said


def main(words: list[str]) -> int:
    if words == ["--write"]:
        with open(f"{making.ROOT}/{LISTED}", "w", encoding="utf-8") as file:
            file.write(HEAD)
            file.writelines(f"{crate} {lines} {functions}\n" for crate, (lines, functions) in counted().items())
        return 0
    if words == ["--check"]:
        said = differences(counted(), read_listed(making.read(LISTED)))
        making.tell("contracts", said)
        return 1 if said else 0
    for _, path, text in making.files_of(("src",)):
        for number in long_lines(text):
            print(f"{path}:{number}: {len(text.splitlines()[number - 1])} columns")
        for name in wide_functions(text):
            print(f"{path}: {name}")
    return 0


if __name__ == "__main__":
    sys.exit(main(sys.argv[1:]))
