#!/usr/bin/env python3
"""Times `drive`: the square network's plan with much that comes from one switch, in pieces of one byte and in long
ones, and a whole update of a ring of 128 switches. Prints time and memory; tests nothing."""
from __future__ import annotations

import json
import pathlib
import shutil
import tempfile

import measure
from rings import Ring

TYPE_CHECKING = False
if TYPE_CHECKING:
    from typing import Any

WORDS = ["drive", "topology.json", "old.json", "new.json", "policy.json", "plan.json", "input"]
HELLO = "0100000800000000"
ECHO = "0102000800000007"


def pieces(text: str, digits: Any) -> str:
    """The digits, in lines of so many."""
    return "".join(f"feed s1 {text[i:i + digits]}\n" for i in range(0, len(text), digits))


def updated(ring: Ring, plan: dict[str, Any]) -> str:
    """What a ring's switches answer in a whole update: HELLO, and each barrier request of `emit`'s lines."""
    lines = [f"feed r{i} {HELLO}\n" for i in range(128)]
    xid = 0
    for round_ in plan["rounds"]:
        lines.append("start\n")
        xid += len(round_)
        for switch in sorted({change["switch"] for change in round_}, key=lambda name: int(name[1:])):
            xid += 1
            lines.append(f"feed {switch} 01130008{xid:08x}\n")
    return "".join(lines)


def main() -> None:
    with tempfile.TemporaryDirectory() as name:
        folder = pathlib.Path(name)
        for file in ("topology", "old", "new", "policy", "plan"):
            shutil.copy(measure.ROOT / "examples" / "square" / f"{file}.json", folder)
        inputs = {
            "a million pieces of one byte": pieces(HELLO + ECHO * 124999, 2),
            "echo requests of 1 KiB in pieces of 1460 bytes, 64 MiB": pieces(
                HELLO + ("01020400" + "0" * 2040) * 32600, 2920
            ),
            "one piece of 32 MiB": pieces(HELLO + ECHO * 4194000, 1 << 30),
        }
        for title, text in inputs.items():
            (folder / "input").write_text(text)
            measure.sizes(folder, "input")
            measure.run(title, WORDS, folder)
        ring = Ring(128, 4)
        plan = ring.ordered_plan()
        files = {
            "topology": ring.topology(), "old": ring.config(2), "new": ring.config(3), "policy": ring.policy(),
            "plan": plan,
        }
        for file, value in files.items():
            (folder / f"{file}.json").write_text(json.dumps(value))
        (folder / "input").write_text(updated(ring, plan))
        measure.run("a whole update of 508 rounds", WORDS, folder)


main()
