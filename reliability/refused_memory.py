#!/usr/bin/env python3
"""Runs each command over the example files with one allocation refused: the first, the second, and so on until a run
meets none; each time once with that allocation alone refused, and once with all later ones refused too. A run has to
end with status 9 and nothing written, or with the answer of a run in which nothing is refused. Prints what it found;
the exit status is 1 where a run ended otherwise.

    PLANNER=.. reliability/refused_memory.py [--every N] [--workers N]

Up to allocation --every (5000) each one is refused; above it the number grows by a hundredth from run to run."""
from __future__ import annotations

import argparse
import collections
import concurrent.futures
import pathlib
import sys
import tempfile

import runs

TYPE_CHECKING = False
if TYPE_CHECKING:
    from typing import Iterator, Sequence

MORE = [["sample", "16"], ["check", *runs.update("leaf-spine", "plan.json")], ["plan", *runs.update("leaf-spine")]]
WANTING = runs.Answer(runs.MEMORY_WANTING, b"")


def places(every: int) -> Iterator[int]:
    """The numbers of the allocations that are refused."""
    at = 1
    while True:
        yield at
        at += 1 if at < every else max(1, at // 100)


def kind_of(ample: runs.Answer, answer: runs.Answer) -> str:
    """What a run in which an allocation was refused shows."""
    if answer == ample:
        return "answered"
    return "wanting" if answer == WANTING else "changed"


def refuse_each(
    program: str, words: Sequence[str], folder: pathlib.Path, library: str, every: int
) -> collections.Counter[str]:
    """All runs of one command: how many of each kind, the bytes written too many, and the last allocation that was
    refused."""
    ample = runs.plain_run(program, words, folder)
    found: collections.Counter[str] = collections.Counter()
    for at in places(every):
        for stay in (False, True):
            answer, met = runs.refused_run(program, words, folder, library, "memory", at, stay)
            if not met:
                found["changed"] += answer != ample
                return found
            kind = kind_of(ample, answer)
            found["runs"] += 1
            found[kind] += 1
            found["last"] = at
            if kind == "changed":
                found["bytes"] += len(answer.text) + len(answer.errors)
                print(f"  {runs.title(words)}, allocation {at}: status {answer.status}, {len(answer.text)} bytes")
    raise AssertionError("allocations are counted without an end")


def line(title: str, found: collections.Counter) -> str:
    return (
        f"{title}: {found['runs']} runs, {found['wanting']} status 9 and nothing written, {found['answered']} with the"
        f" answer; answers changed {found['changed']}, bytes written too many {found['bytes']}"
    )


def attack(
    program: str, commands: Sequence[Sequence[str]], folder: pathlib.Path, every: int, workers: int
) -> collections.Counter[str]:
    """Runs all commands; prints a line for each, and the sum, which it answers."""
    library = runs.library(folder)
    total: collections.Counter[str] = collections.Counter()
    with concurrent.futures.ThreadPoolExecutor(workers) as pool:
        tasks = [pool.submit(refuse_each, program, words, folder, library, every) for words in commands]
        for words, task in zip(commands, tasks):
            found = task.result()
            reach = "" if found["last"] <= every else f", from {every} on in growing steps"
            print(line(f"{runs.title(words)} (to allocation {found['last']}{reach})", found), flush=True)
            total += found
    print(line("all", total), flush=True)
    return total


def main() -> None:
    parser = argparse.ArgumentParser()
    parser.add_argument("--every", type=int, default=5000)
    parser.add_argument("--workers", type=int, default=2)
    chosen = parser.parse_args()
    with tempfile.TemporaryDirectory() as name:
        folder = pathlib.Path(name)
        runs.example_folder(folder)
        total = attack(runs.program(), runs.example_commands() + MORE, folder, chosen.every, chosen.workers)
    sys.exit(1 if total["changed"] or not total["runs"] else 0)


if __name__ == "__main__":
    main()
