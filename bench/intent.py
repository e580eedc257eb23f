#!/usr/bin/env python3
"""Times `diff`, `links`, `policy` and `route` of the front end over the largest networks beside `paths` of the program:
seconds of a processor with those of the program's runs, and memory. PLANNER names the program; it has to be built.
Tests nothing.

    bench/intent.py [NAME]..
"""
from __future__ import annotations

import json
import os
import pathlib
import subprocess
import sys
import tempfile

from rings import Ring, prefix

TYPE_CHECKING = False
if TYPE_CHECKING:
    from typing import Any, Sequence

ROOT = pathlib.Path(__file__).resolve().parent.parent
FRONT_END = [sys.executable, "-B", str(ROOT / "planner")]
# A ring turned round, as the names of its files; how many switches, destinations and VLANs it has.
RINGS = {
    "long": ("128 switches, 16 prefixes, 3 VLANs, paths of up to 128 switches", 128, 16, 3),
    "wide": ("16 switches, 126 prefixes, 4 VLANs", 16, 126, 4),
}


def timed(title: str, words: Sequence[str], folder: pathlib.Path) -> None:
    """Runs a command, and prints what it took."""
    with open(os.devnull, "wb") as nowhere:
        child = subprocess.Popen(words, cwd=folder, stdout=subprocess.PIPE, stderr=nowhere)
        assert child.stdout is not None
        size = len(child.stdout.read())
        _, status, usage = os.wait4(child.pid, 0)
    child.returncode = os.waitstatus_to_exitcode(status)
    print(
        (
            f"  {title}: status {child.returncode}, {usage.ru_utime + usage.ru_stime:.2f} s,"
            f" {usage.ru_maxrss / 1024:.0f} MB, {size} bytes"
        ),
        flush=True,
    )


def files(folder: pathlib.Path, switches: int, destinations: int, vlans: int) -> int:
    ring = Ring(switches, destinations, vlans=("untagged", 10, 20, 30)[:vlans], capacity=200)
    for name, value in (
        ("topology", ring.topology()), ("old", ring.config(2)), ("new", ring.config(3)), ("policy", ring.policy()),
    ):
        (folder / f"{name}.json").write_text(json.dumps(value))
    (folder / "prefixes").write_text("".join(f"{prefix(at)} r{ring.home(at)}:1\n" for at in range(destinations)))
    return ring.classes()


def main(names: Any) -> None:
    for name in names or RINGS:
        title, *sizes = RINGS[name]
        with tempfile.TemporaryDirectory() as at:
            folder = pathlib.Path(at)
            print(f"{title}: {files(folder, *sizes)} classes")
            for config in ("old", "new"):
                timed(f"paths of {config}", [os.environ["PLANNER"], "paths", "topology.json", f"{config}.json"], folder)
            for words in (
                "diff . old.json new.json policy.json", "diff . --json", "links .", "links . --empty r0:2", "policy .",
                "policy . --through r1,r2,r3", "route .", "route . --from old.json --drain r0-r1",
            ):
                timed(words.replace(" .", ""), [*FRONT_END, *words.split()], folder)


if __name__ == "__main__":
    main(sys.argv[1:])
