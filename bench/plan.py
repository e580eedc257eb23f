#!/usr/bin/env python3
"""Times `plan`: an ordered plan in a ring of 128 switches with 768 classes, and a two-phase plan of two configurations
of about 2000 rules between which no single change is safe. Prints time and memory, and what `check` says; tests
nothing."""
from __future__ import annotations

import json
import pathlib
import tempfile

import measure
from rings import Ring
from workloads import PLAN as WORDS, detours

TYPE_CHECKING = False
if TYPE_CHECKING:
    from typing import Any, Sequence


def plan_and_check(title: str, files: Sequence[Any]) -> None:
    with tempfile.TemporaryDirectory() as name:
        folder = pathlib.Path(name)
        for name, value in zip(("topology", "old", "new", "policy"), files):
            (folder / f"{name}.json").write_text(json.dumps(value))
        measure.sizes(folder, "topology.json", "old.json", "new.json")
        (folder / "plan.json").write_bytes(measure.run(f"plan, {title}", WORDS, folder, shown=40))
        measure.run(f"check, {title}", ["check", *WORDS[1:], "plan.json"], folder)


def main() -> None:
    ring = Ring(128, 4)
    plan_and_check("ring of 128", (ring.topology(), ring.config(2), ring.config(3), ring.policy()))
    plan_and_check("400 detours", detours(400))


main()
