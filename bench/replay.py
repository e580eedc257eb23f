#!/usr/bin/env python3
"""Times `replay`: a schedule of a million lines over a ring of 128 switches with a plan of 508 rounds. Packets go round
the ring one after the other, and then the rounds are made. Prints time and memory; tests nothing."""
from __future__ import annotations

import json
import pathlib
import tempfile

import measure
from rings import Ring

TYPE_CHECKING = False
if TYPE_CHECKING:
    from typing import Any

WORDS = ["replay", "topology.json", "old.json", "plan.json", "schedule"]


def schedule(ring: Ring, rounds: int, most: int) -> Any:
    """At most so many lines: packets from each switch in turn to destination 0, and then each round with its one
    change."""
    lines: list[str] = []
    packet, switch = 0, 1
    while True:
        hops = (ring.home(0) - switch) % ring.switches + 1
        if len(lines) + 1 + hops + 3 * rounds > most:
            break
        lines.append(f"enter r{switch}:1 untagged 10.0.0.1")
        lines += [f"hop {packet}"] * hops
        packet, switch = packet + 1, switch % ring.switches + 1 if switch + 1 < ring.switches else 1
    lines += ["start", "change 0", "settle"] * rounds
    return "\n".join(lines) + "\n"


def main() -> None:
    with tempfile.TemporaryDirectory() as name:
        folder = pathlib.Path(name)
        ring = Ring(128, 4)
        plan = ring.ordered_plan()
        for file, value in {"topology": ring.topology(), "old": ring.config(2), "plan": plan}.items():
            (folder / f"{file}.json").write_text(json.dumps(value))
        (folder / "schedule").write_text(schedule(ring, len(plan["rounds"]), 1_000_000))
        measure.sizes(folder, "topology.json", "old.json", "plan.json", "schedule")
        measure.run("a million lines", WORDS, folder)


main()
