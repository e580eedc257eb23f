#!/usr/bin/env python3
"""Times `simulate`: a run of an ordered plan of 508 rounds in a ring of 128 switches, with a thousand packets. Prints
time and memory; tests nothing."""
from __future__ import annotations

import json
import pathlib
import tempfile

import measure
from rings import Ring

WORDS = ["simulate", "topology.json", "old.json", "new.json", "policy.json", "plan.json"]


def main() -> None:
    with tempfile.TemporaryDirectory() as name:
        folder = pathlib.Path(name)
        ring = Ring(128, 4)
        files = {
            "topology": ring.topology(),
            "old": ring.config(2),
            "new": ring.config(3),
            "policy": ring.policy(),
            "plan": ring.ordered_plan(),
        }
        for file, value in files.items():
            (folder / f"{file}.json").write_text(json.dumps(value))
        measure.sizes(folder, "topology.json", "old.json", "plan.json")
        for start in ["0", "18446744073709551615"]:
            measure.run(f"a thousand packets, START {start}", WORDS + [start, "1000"], folder)


main()
