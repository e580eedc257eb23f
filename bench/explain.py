#!/usr/bin/env python3
"""Times `explain` beside `check`: the ordered plan of 508 rounds in a ring of 128 switches, the same changes in one
round, and a lattice of 128 switches in which every switch changes at once, so that walks part and meet at each stage.
Prints time and memory; tests nothing."""
from __future__ import annotations

import json
import pathlib
import tempfile

import measure
from rings import Ring

TYPE_CHECKING = False
if TYPE_CHECKING:
    from typing import Any, Sequence

FILES = ["topology.json", "old.json", "new.json", "policy.json", "plan.json"]
STAGES = 64
DST = "10.0.0.0/24"


def write(folder: pathlib.Path, *values: dict[str, Any]) -> None:
    for name, value in zip(FILES, values):
        (folder / name).write_text(json.dumps(value))


def both(title: str, folder: pathlib.Path) -> None:
    measure.run(f"{title}, check", ["check", *FILES], folder)
    measure.run(f"{title}, explain", ["explain", *FILES], folder)


def at_once(changes: Sequence[Any]) -> Any:
    """A plan without evidence that makes all changes in one round."""
    return {"format": 1, "kind": "ordered", "rounds": [changes], "numberings": [], "befores": [], "picks": []}


def lattice() -> Any:
    """Stages of two switches a and b, each linked to both of the next stage. Packets go straight on before, and cross
    over afterwards."""
    names = [f"{row}{stage}" for stage in range(STAGES) for row in "ab"]
    links = [
        [f"{row}{stage}:{2 if row == to else 3}", f"{to}{stage + 1}:{4 if row == to else 5}"]
        for stage in range(STAGES - 1)
        for row in "ab"
        for to in "ab"
    ]
    ends = [f"{row}{stage}:1" for stage in (0, STAGES - 1) for row in "ab"]
    topology = {
        "switches": [{"name": name, "capacity": 8} for name in names], "links": links, "hosts": ends,
        "vlans": ["untagged"], "tags": [3000, 3001],
    }

    def config(port: int) -> Any:
        return {
            "rules": [
                {"switch": f"{row}{stage}", "priority": 100, "dst": DST, "out": port if stage < STAGES - 1 else 1}
                for stage in range(STAGES)
                for row in "ab"
            ]
        }

    changes = [
        {"do": "replace", "switch": f"{row}{stage}", "priority": 100, "dst": DST, "out": 3}
        for stage in range(STAGES - 1)
        for row in "ab"
    ]
    return topology, config(2), config(3), changes


def main() -> None:
    with tempfile.TemporaryDirectory() as name:
        folder = pathlib.Path(name)
        ring = Ring(128, 4)
        plan = ring.ordered_plan()
        write(folder, ring.topology(), ring.config(2), ring.config(3), ring.policy(), plan)
        both("ring, 508 rounds", folder)
        write(
            folder, ring.topology(), ring.config(2), ring.config(3), ring.policy(),
            at_once([change for round_ in plan["rounds"] for change in round_]),
        )
        both("ring, in one round", folder)
        topology, old, new, changes = lattice()
        write(
            folder, topology, old, new, {"demands": [{"from": "a0:1", "dst": DST, "deliver": True}]}, at_once(changes)
        )
        both("lattice, in one round", folder)
        chain = [f"a{stage}" for stage in range(0, 32, 2)]
        write(
            folder, topology, old, new, {"demands": [{"from": "a0:1", "dst": DST, "through": chain}]}, at_once(changes)
        )
        both("lattice, a chain of 16", folder)


main()
