#!/usr/bin/env python3
"""How the planner's time grows with the work: for each kind of work a row of sizes, each twice the one before, the
seconds of user and system at each, and the exponent between the last two, 1 where twice the work takes twice as long.

    bench/growth.py [-n TIMES] [NAME..]

NAME is the name of a kind or the begin of one; without, all are run. The program is that of the variable PLANNER, or
the repository's own. It runs TIMES times at each size, 3 if nothing is said, and the median counts."""
from __future__ import annotations

import argparse
import math
import pathlib
import statistics
import sys
import tempfile

import ratio
from workloads import (
    CERTIFY, CHECK, CONFIG, PACK, PLAN, SIMULATE, Workload, chains, far_rounds, idle_rounds, inserted_above,
    line_of_chains, long_lists, mesh, one_switch, parallel_links, ranked_rules, recorded_changes, rekeyed_rules,
    replaced_in_turns, replaced_rules, routes, routing_table, single_addresses, toggled_rules, turned_line, turned_ring,
)

TYPE_CHECKING = False
if TYPE_CHECKING:
    from typing import Callable, Sequence
    # What is done, the work of a size, the least size, and how often it is doubled.
    Kind = tuple[str, Callable[[int], Workload], int, int]


def table(rules: int) -> Workload:
    """A routing table of so many prefixes."""
    topology = {**one_switch(["untagged"]), "hosts": ["s0:1", "s0:2"]}
    return Workload(CONFIG, topology=topology, config={"rules": routes(rules, 1)})


def simulated(changes: int) -> Workload:
    """A run of two rounds of so many changes at one switch."""
    return toggled_rules(2, ranked_rules(changes, 1), words=SIMULATE)


KINDS: dict[str, Kind] = {
    "config-routes": ("config, prefixes of 25 lengths at one switch", table, 255, 3),
    "config-single": ("config, single addresses at one switch", single_addresses, 256, 3),
    "check-routes": ("check, prefixes of 25 lengths, all replaced", lambda n: routing_table(CHECK, n), 255, 3),
    "plan-routes": ("plan of that update", lambda n: routing_table(PLAN, n), 255, 3),
    "pack-routes": ("pack of that update", lambda n: routing_table(PACK, n), 255, 3),
    "plan-rekeyed": ("plan, rules of one prefix, each with another priority", lambda n: rekeyed_rules(PLAN, n), 255, 3),
    "check-rekeyed": ("check of that plan", lambda n: rekeyed_rules(CHECK, n), 255, 3),
    "pack-replaced": ("pack, rules of equal priority, all replaced", lambda n: replaced_rules(PACK, n), 256, 3),
    "check-few-replaced": (
        "check, 1000 rounds that replace 17 of so many rules", lambda n: replaced_in_turns(1000, 17, n), 1000, 3,
    ),
    "check-many-replaced": (
        "check, so many rounds that replace 17 of 8000 rules", lambda n: replaced_in_turns(n, 17, 8000), 500, 3,
    ),
    "check-few-above": (
        "check, 1000 rounds of 4 changes above so many rules", lambda n: inserted_above(1000, 4, n), 1000, 3,
    ),
    "check-large-round": (
        "check, 2 rounds of so many changes at one switch", lambda n: toggled_rules(2, ranked_rules(n, 1)), 1000, 3,
    ),
    "replay-changes": ("replay, changes at a table of so many rules", lambda n: recorded_changes(8, n), 1000, 3),
    "simulate-round": ("simulate, 2 rounds of so many changes", simulated, 1000, 3),
    "check-idle": ("check, so many rounds of one change, 7900 classes", idle_rounds, 500, 3),
    "check-far": ("check, so many rounds that no packet meets, 8192 classes", far_rounds, 500, 3),
    "check-chains": ("check, so many classes with 512 chains", lambda n: chains(CHECK, n), 1023, 3),
    "plan-chains": ("plan of that update", lambda n: chains(PLAN, n), 132, 3),
    "check-other-chains": ("check, so many prefixes with 8 chains by turns", lambda n: line_of_chains(CHECK, n), 30, 3),
    "plan-other-chains": ("plan of that update", lambda n: line_of_chains(PLAN, n), 30, 3),
    "certify-other-chains": ("certify of that plan", lambda n: line_of_chains(CERTIFY, n), 30, 3),
    "pack-other-chains": ("pack of that update", lambda n: line_of_chains(PACK, n), 30, 3),
    "check-parallel": (
        "check, 62 rules a switch over parallel links between so many switches", lambda n: parallel_links(n, 62), 4, 3,
    ),
    "check-parallel-apart": (
        "check, the same with numbers of ports 512 apart", lambda n: parallel_links(n, 62, 512), 4, 3,
    ),
    "config-lists": ("config, 512 demands with lists of so many host ports", lambda n: long_lists(512, n), 128, 3),
    "plan-mesh": ("plan, ring of so many switches, each sends to each, with lists", lambda n: mesh(PLAN, n), 5, 3),
    "plan-ring": ("plan, ring of so many switches that turns", lambda n: turned_ring(PLAN, n, 4), 16, 3),
    "pack-ring": ("pack of that update", lambda n: turned_ring(PACK, n, 4), 16, 3),
    "check-ring": ("check of plan's plan", lambda n: turned_ring(CHECK, n, 4), 16, 3),
    "plan-line": ("plan, line of so many switches that turns", lambda n: turned_line(PLAN, n), 16, 3),
    "pack-line": ("pack of that update", lambda n: turned_line(PACK, n), 16, 3),
}


def seconds(program: str, workload: Workload, times: int) -> float:
    """The median of the seconds of the program's runs."""
    with tempfile.TemporaryDirectory() as folder:
        ratio.prepare(workload, pathlib.Path(folder), program)
        return statistics.median(ratio.timed(program, workload.words, folder, 600)[0] for _ in range(times))


def exponent(first: float, second: float) -> str:
    """By which power of the size the time grew, where the size was doubled; nothing where the first took next to no
    time."""
    return f"{math.log2(second / first):.1f}" if first >= ratio.QUICK and second > 0 else ""


def row(title: str, first: int, taken: Sequence[float]) -> str:
    last = f"{first << len(taken) - 1}"
    return f"| {title} | {first} to {last} | {', '.join(f'{it:.3f}' for it in taken)} | {exponent(*taken[-2:])} |"


def main() -> int:
    parser = argparse.ArgumentParser(description=__doc__, formatter_class=argparse.RawDescriptionHelpFormatter)
    parser.add_argument("-n", type=int, default=3, metavar="TIMES")
    parser.add_argument("names", nargs="*", metavar="NAME")
    args = parser.parse_args()
    from measure import program_path   # which looks for the program at once
    print("| Work | sizes | seconds | exponent |\n|---|---|---|---|")
    for name, (title, make, first, times) in KINDS.items():
        if args.names and not any(name.startswith(it) for it in args.names):
            continue
        taken = [seconds(str(program_path), make(first << i), args.n) for i in range(times + 1)]
        print(row(title, first, taken), flush=True)
    return 0


if __name__ == "__main__":
    sys.exit(main())
