#!/usr/bin/env python3
"""Times `upgrade`, which reads a plan and writes it again, on great plans: 2,200,000 changes, and 3,000,000 picks.
Prints time and memory; tests nothing."""
from __future__ import annotations

import json
import pathlib
import tempfile

import measure

TYPE_CHECKING = False
if TYPE_CHECKING:
    from typing import Any


def write(path: pathlib.Path, front: str, items: Any, back: str) -> None:
    """A file of many equal parts, written piece by piece."""
    with open(path, "w") as out:
        out.write(front)
        for i, item in enumerate(items):
            out.write(item if i == 0 else "," + item)
        out.write(back)


def change(i: int) -> Any:
    return json.dumps(
        {
            "do": "insert", "switch": f"r{i % 128}", "priority": 1 + i % 16383,
            "dst": f"10.{i >> 8 & 255}.{i & 255}.0/24", "out": 1 + i % 1000, "in_port": 1 + (i >> 16),
        },
        separators=(",", ":"),
    )


def great_changes(folder: pathlib.Path) -> None:
    """Writes a topology of 128 switches, and a plan of it with one round of 2,200,000 changes, to topology.json and
    plan.json."""
    switches = [{"name": f"r{i}", "capacity": 8192} for i in range(128)]
    (folder / "topology.json").write_text(
        json.dumps({"switches": switches, "links": [], "hosts": [], "vlans": [], "tags": []})
    )
    write(
        folder / "plan.json", '{"format":1,"kind":"two-phase","labels":[],"picks":[],"tried":[],"rounds":[[',
        (change(i) for i in range(2_200_000)), "]]}",
    )
    measure.sizes(folder, "plan.json")


def great_picks(folder: pathlib.Path) -> None:
    """Writes an ordered plan of 4200 empty rounds with 3,000,000 picks to plan.json."""
    front = (
        f'{{"format":1,"kind":"ordered","numberings":[{json.dumps([0] * 128)}],"befores":[[0],[1]],'
        f'"rounds":[{",".join(["[]"] * 4200)}],"picks":['
    )
    write(folder / "plan.json", front, (f"[{1 + i // 1000},{i % 1000},0,[{i % 2}]]" for i in range(3_000_000)), "]}")
    measure.sizes(folder, "plan.json")


def main() -> None:
    with tempfile.TemporaryDirectory() as name:
        folder = pathlib.Path(name)
        great_changes(folder)
        measure.run("2,200,000 changes", ["upgrade", "topology.json", "plan.json"], folder)
        great_picks(folder)
        measure.run("3,000,000 picks", ["upgrade", "topology.json", "plan.json"], folder)


if __name__ == "__main__":
    main()
