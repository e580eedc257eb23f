#!/usr/bin/env python3
"""Times `emit` on a plan of one round with 2,200,000 changes at 128 switches, and on one of 4200 rounds with a change
at each of 128 switches. Prints time and memory; tests nothing."""
from __future__ import annotations

import json
import pathlib
import tempfile

import measure
import plans


def many_rounds(folder: pathlib.Path) -> None:
    """Writes a plan in format 2 of 4200 rounds, each with one change at each switch, to plan.json."""
    rules = [{"dst": "10.0.0.0/24", "out": 1, "priority": 1, "switch": f"r{i}"} for i in range(128)]
    turns = (
        json.dumps([["insert" if k % 2 == 0 else "delete", i] for i in range(128)], separators=(",", ":"))
        for k in range(4200)
    )
    back = f'],"rules":{json.dumps(rules)},"tried":[]}}'
    plans.write(folder / "plan.json", '{"format":2,"kind":"two-phase","labels":[],"picks":[],"rounds":[', turns, back)
    measure.sizes(folder, "plan.json")


def main() -> None:
    with tempfile.TemporaryDirectory() as name:
        folder = pathlib.Path(name)
        plans.great_changes(folder)
        measure.run("one round, 2,200,000 changes", ["emit", "topology.json", "plan.json"], folder)
        many_rounds(folder)
        measure.run("4200 rounds, 537,600 changes", ["emit", "topology.json", "plan.json"], folder)


if __name__ == "__main__":
    main()
