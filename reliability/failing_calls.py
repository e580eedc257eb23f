#!/usr/bin/env python3
"""Runs each command over the example files with one call of the system failing: the first opening of a file, the
second, and so on until a run meets none; then each read and each write. A run in which an opening or a read fails has
to end with status 6 and nothing written, one in which a write fails with status 7 and a front of the text, or either
with the answer of a run in which nothing fails. Writes are tried also where each of them takes one byte only, so that
the front is one of every length. Prints what it found; the exit status is 1 where a run ended otherwise.

    PLANNER=.. reliability/failing_calls.py"""
from __future__ import annotations

import collections
import itertools
import pathlib
import sys
import tempfile

import runs

TYPE_CHECKING = False
if TYPE_CHECKING:
    from typing import Sequence

# What fails, whether all later calls fail too, and whether each write takes one byte only.
WAYS = [
    ("open", False, False), ("open", True, False), ("read", False, False), ("read", True, False),
    ("write", False, False), ("write", True, True),
]


def kind_of(what: str, ample: runs.Answer, answer: runs.Answer) -> str:
    """What a run in which a call failed shows."""
    if answer == ample:
        return "answered"
    if what != "write" and answer == runs.Answer(runs.READING_FAILED, b""):
        return "unread"
    if (
        what == "write"
        and answer.status == runs.WRITING_FAILED
        and not answer.errors
        and ample.text.startswith(answer.text)
    ):
        return "front"
    return "changed"


def fail_each(
    program: str, words: Sequence[str], folder: pathlib.Path, library: str, way: tuple[str, bool, bool]
) -> collections.Counter[str]:
    """All runs of one command in one way: how many of each kind."""
    ample = runs.plain_run(program, words, folder)
    found: collections.Counter[str] = collections.Counter()
    for at in itertools.count(1):
        answer, met = runs.refused_run(program, words, folder, library, way[0], at, *way[1:])
        if not met:
            found["changed"] += answer != ample
            return found
        kind = kind_of(way[0], ample, answer)
        found["runs"] += 1
        found[kind] += 1
        if kind == "changed":
            print(f"  {runs.title(words)}, {way[0]} {at}: status {answer.status}, {len(answer.text)} bytes")
    raise AssertionError("calls are counted without an end")


def attack(program: str, commands: Sequence[Sequence[str]], folder: pathlib.Path) -> collections.Counter[str]:
    """Runs all commands in all ways; prints a line for each way, and the sum, which it answers."""
    library = runs.library(folder)
    total: collections.Counter[str] = collections.Counter()
    for way in WAYS:
        found: collections.Counter[str] = collections.Counter()
        for words in commands:
            found += fail_each(program, words, folder, library, way)
        what, stay, short = way
        title = f"{what} fails{', all later ones too' if stay else ''}{', each takes one byte' if short else ''}"
        print(
            (
                f"{title}: {found['runs']} runs, {found['unread']} status 6 and nothing written,"
                f" {found['front']} status 7 and a front of the text, {found['answered']} with the answer; answers"
                f" changed {found['changed']}"
            ),
            flush=True,
        )
        total += found
    print(f"all: {total['runs']} runs, answers changed {total['changed']}", flush=True)
    return total


def main() -> None:
    with tempfile.TemporaryDirectory() as name:
        folder = pathlib.Path(name)
        runs.example_folder(folder)
        total = attack(runs.program(), runs.example_commands(), folder)
    sys.exit(1 if total["changed"] or not total["runs"] else 0)


if __name__ == "__main__":
    main()
