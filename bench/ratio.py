#!/usr/bin/env python3
"""Compares two programs with the planner's words, as two builds of the planner: for each workload the seconds of both, those of the user and of the
system together, and their ratio.

    bench/ratio.py [-n TIMES] [-t SECONDS] FIRST SECOND [NAME..]

NAME is the name of a workload or the begin of one; without, all of bench/workloads.py are run. For FIRST or SECOND the word `release` stands for the program
of the last release, as the history of this checkout has it. Both programs run TIMES times, 7 if nothing is said, in
turns; the median of each counts. One whose median is below 20 ms runs on, since chance makes more of so short a time: until its runs took 0.2 s together,
and 15 times at most. A program that takes longer than SECONDS, 300 if nothing is said, is ended. Plans that are read and aren't among
the files of a workload are made by the second program. It builds nothing, and where the texts or the statuses of the two differ it says so and ends with
status 1."""
from __future__ import annotations

import argparse
import os
import pathlib
import resource
import statistics
import subprocess
import sys
import tempfile

import release
from workloads import PLAN, WORKLOADS

TYPE_CHECKING = False
if TYPE_CHECKING:
    import types
    from typing import Any, Sequence
    from workloads import Workload

ROOT = pathlib.Path(__file__).resolve().parent.parent
# A program whose median is below so many seconds is run more often, ...
QUICK = 0.02
# ... until its runs took so many seconds together, ...
ENOUGH = 0.2
# ... and so many times at most.
MOST = 15


class TooLong(Exception):
    """A program took longer than it may."""


def spent(usage: resource.struct_rusage | types.SimpleNamespace) -> float:
    """The seconds of the user and of the system together."""
    return usage.ru_utime + usage.ru_stime


def timed(program: str, words: Sequence[str], folder: str, limit: float) -> tuple[float, int, bytes]:
    """Runs a program, and returns its seconds, its status and its text. Raises TooLong."""
    before = spent(resource.getrusage(resource.RUSAGE_CHILDREN))
    try:
        done = subprocess.run([program, *words], cwd=folder, stdout=subprocess.PIPE, timeout=limit)
    except subprocess.TimeoutExpired:
        raise TooLong from None
    return spent(resource.getrusage(resource.RUSAGE_CHILDREN)) - before, done.returncode, done.stdout


def prepare(workload: Workload, folder: pathlib.Path, program: str) -> None:
    """Writes the files of a workload, and the plan that the program makes where one is read that isn't among them."""
    workload.write(folder)
    if workload.needs_plan():
        plan = subprocess.run([program, *PLAN], cwd=folder, stdout=subprocess.PIPE, check=True).stdout
        (folder / "plan.json").write_bytes(plan)


def is_told(taken: Sequence[float], times: int) -> bool:
    """Whether a program has run often enough, if its runs took these seconds and so many are wanted at least."""
    if len(taken) < max(times, 1):
        return False
    return statistics.median(taken) >= QUICK or sum(taken) > ENOUGH or len(taken) >= MOST


def next_turn(turn: int, taken: Sequence[Sequence[float] | None], times: int) -> list[int]:
    """Which programs run in a turn, in their order: those that haven't run often enough. They are first by turns. For
    one that took too long None stands."""
    order = (0, 1) if turn % 2 == 0 else (1, 0)
    return [
        which for which in order for seconds in [taken[which]] if seconds is not None and not is_told(seconds, times)
    ]


def compare(
    programs: Sequence[str], workload: Workload, folder: str, limit: float, times: int
) -> tuple[list[float | None], bool]:
    """Runs both programs in turns. Returns the median of the seconds of each, None for one that took too long, and
    whether they answered the same."""
    taken: list[Any] = [[], []]      # of each program the seconds, or None where it took too long
    answers: list[Any] = [None, None]
    turn = 0
    while due := next_turn(turn, taken, times):
        for which in due:
            try:
                seconds, *answers[which] = timed(programs[which], workload.words, folder, limit)
                taken[which].append(seconds)
            except TooLong:
                taken[which] = None
        turn += 1
    medians = [statistics.median(it) if it else None for it in taken]
    return medians, None in medians or answers[0] == answers[1]


def row(title: str, medians: Sequence[float | None]) -> str:
    """The row of the table. There is no ratio to a time that couldn't be measured."""
    cells = ["too long" if it is None else f"{it:.3f}" for it in medians]
    first, second = medians
    ratio = f"{first / second:.1f}" if first is not None and second else ""
    return f"| {title} | {cells[0]} | {cells[1]} | {ratio} |"


def program_of(word: str, room: str) -> str:
    """The path of a program that is named by its path or by the word for the last release, which is put into the
    folder. Raises NoRelease."""
    if word != "release":
        return os.path.abspath(word)
    path = pathlib.Path(room) / "release"
    print(f"the last release is {release.write_program(ROOT, path)}", file=sys.stderr)
    return str(path)


def compare_all(programs: Sequence[str], names: Sequence[str], limit: float, times: int) -> bool:
    """Prints the row of each workload whose name begins with one of these, and returns whether some answers differ."""
    print("| Work | first, s | second, s | ratio |\n|---|---|---|---|")
    differ = False
    for name, (title, make) in WORKLOADS.items():
        if names and not any(name.startswith(it) for it in names):
            continue
        with tempfile.TemporaryDirectory() as folder:
            workload = make()
            prepare(workload, pathlib.Path(folder), programs[1])
            medians, same = compare(programs, workload, folder, limit, times)
        print(row(title, medians) + ("" if same else " other answers |"), flush=True)
        differ = differ or not same
    return differ


def main() -> int:
    parser = argparse.ArgumentParser(description=__doc__, formatter_class=argparse.RawDescriptionHelpFormatter)
    parser.add_argument("-n", type=int, default=7, metavar="TIMES")
    parser.add_argument("-t", type=float, default=300, metavar="SECONDS")
    parser.add_argument("first", metavar="FIRST")
    parser.add_argument("second", metavar="SECOND")
    parser.add_argument("names", nargs="*", metavar="NAME")
    args = parser.parse_args()
    with tempfile.TemporaryDirectory() as room:
        try:
            programs = [program_of(it, room) for it in (args.first, args.second)]
        except release.NoRelease as why:
            parser.error(str(why))
        return int(compare_all(programs, args.names, args.t, args.n))


if __name__ == "__main__":
    sys.exit(main())
