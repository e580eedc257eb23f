#!/usr/bin/env python3
"""Times `check`: an ordered plan of 508 rounds in a ring of 128 switches with 768 classes, and a two-phase plan with 64
VLANs, 2048 rules and about 8000 classes. Prints time and memory; tests nothing."""
from __future__ import annotations

import json
import pathlib
import tempfile

import measure
from rings import Ring

TYPE_CHECKING = False
if TYPE_CHECKING:
    from typing import Any

WORDS = ["check", "topology.json", "old.json", "new.json", "policy.json", "plan.json"]


def write(folder: pathlib.Path, ring: Ring, plan: dict[str, Any], policy: dict[str, Any]) -> None:
    files = {"topology": ring.topology(), "old": ring.config(2), "new": ring.config(3), "policy": policy, "plan": plan}
    for name, value in files.items():
        (folder / f"{name}.json").write_text(json.dumps(value))
    measure.sizes(folder, "topology.json", "old.json", "plan.json")


def main() -> None:
    with tempfile.TemporaryDirectory() as name:
        folder = pathlib.Path(name)
        ring = Ring(128, 4)
        write(folder, ring, ring.ordered_plan(), ring.policy())
        measure.run("ordered, 128 switches", WORDS, folder)
        ring = Ring(128, 16, hosts=range(7), vlans=range(1, 65), tags=(3000, 3063), capacity=8192)
        write(folder, ring, ring.two_phase_plan(), {"demands": []})
        measure.run(f"two phases, 64 VLANs, {ring.classes()} classes", WORDS, folder)


main()
