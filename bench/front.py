#!/usr/bin/env python3
"""Times the front end alone: how long it takes to start, and to look at files before `check`, with 512 demands and
8,151 classes of packets and with fewer. The program's part is played by a script that writes what the program wrote
before. Prints milliseconds of processor time, beside those of `python3 -c pass`; tests nothing.

    PLANNER=PROGRAM bench/front.py
"""
from __future__ import annotations

import json
import os
import pathlib
import resource
import statistics
import subprocess
import sys
import tempfile

TYPE_CHECKING = False
if TYPE_CHECKING:
    from typing import Any, Sequence

ROOT = pathlib.Path(__file__).resolve().parent.parent
FILES = ("topology", "old", "new", "policy", "plan")
# How often each run is made.
TURNS = 9
STAND_IN = '#!/bin/sh\ncat "{folder}/$1.text"\nexit "$(cat "{folder}/$1.status")"\n'
# Switches, prefixes with rules, and demands: the first of each row are those of the greatest.
SIZES = ((13, 154, 512), (13, 77, 256), (13, 38, 128))


def update_of(switches: int, ruled: int, demands: int) -> tuple[Any, Any, Any, Any]:
    """A ring that turns: rules for some prefixes, and demands for others and a few of these, so that there are classes
    of all kinds."""
    names, spans = [f"r{i}" for i in range(switches)], demands + ruled * 113 // 154
    links = [[f"{names[i]}:2", f"{names[(i + 1) % switches]}:3"] for i in range(switches)]
    topology = {
        "switches": [{"name": name, "capacity": 4096} for name in names], "links": links,
        "hosts": [f"{name}:1" for name in names], "vlans": ["untagged"], "tags": [],
    }
    prefixes = [f"10.{at // 256}.{at % 256}.0/24" for at in range(spans)]

    def rules(port: int) -> dict[str, list[dict[str, Any]]]:
        return {
            "rules": [
                {"switch": name, "priority": 100, "dst": prefixes[-1 - at], "out": 1 if at % switches == i else port}
                for i, name in enumerate(names)
                for at in range(ruled)
            ]
        }

    policy = {
        "demands": [{"from": f"{names[at % switches]}:1", "dst": prefixes[at], "through": []} for at in range(demands)]
    }
    return topology, rules(2), rules(3), policy


def record(program: str, folder: pathlib.Path, *words: str) -> str:
    """Keeps what the program answers."""
    done = subprocess.run([program, *words], cwd=folder, stdout=subprocess.PIPE, check=False)
    (folder / f"{words[0]}.text").write_bytes(done.stdout)
    (folder / f"{words[0]}.status").write_text(str(done.returncode))
    return done.stdout.decode()


def milliseconds(words: Sequence[str], **more: Any) -> Any:
    """The median of the processor time of some runs, with the runs that they make."""
    found = []
    for _ in range(TURNS):
        before = resource.getrusage(resource.RUSAGE_CHILDREN)
        subprocess.run(words, stdout=subprocess.DEVNULL, stderr=subprocess.DEVNULL, check=False, **more)
        after = resource.getrusage(resource.RUSAGE_CHILDREN)
        found.append(after.ru_utime + after.ru_stime - before.ru_utime - before.ru_stime)
    return 1000 * statistics.median(found)


def show(title: str, took: Any, beside: Any) -> None:
    print(f"{title}: {took:.0f} ms, {took / beside:.1f} times `python3 -c pass`")
    sys.stdout.flush()


def main() -> None:
    program, front = os.path.abspath(os.environ["PLANNER"]), str(ROOT / "planner")
    nothing = milliseconds(["python3", "-c", "pass"])
    print(
        f"`python3 -c pass`: {nothing:.0f} ms; `python3 -IS -c pass`:"
        f" {milliseconds(['python3', '-IS', '-c', 'pass']):.0f} ms"
    )
    idle = {**os.environ, "PLANNER": "/bin/true"}
    show("start, `sample 4`", milliseconds([front, "sample", "4"], env=idle), nothing)
    show(
        "start, `check examples/square`", milliseconds([front, "check", str(ROOT / "examples" / "square")], env=idle),
        nothing,
    )
    for size in SIZES:
        with tempfile.TemporaryDirectory() as name:
            folder = pathlib.Path(name)
            for file, value in zip(FILES, update_of(*size)):
                (folder / f"{file}.json").write_text(json.dumps(value))
            update = [f"{file}.json" for file in FILES]
            (folder / "plan.json").write_text(record(program, folder, "pack", *update[:4]))
            classes = record(program, folder, "paths", update[0], *update[2:4]).splitlines()[-1].split(" ")[0]
            record(program, folder, "check", *update)
            stand_in = folder / "program"
            stand_in.write_text(STAND_IN.format(folder=folder))
            stand_in.chmod(0o755)
            played = sum(milliseconds([str(stand_in), word], cwd=folder) for word in ("paths", "check"))
            took = (
                milliseconds([front, "check", "."], cwd=folder, env={**os.environ, "PLANNER": str(stand_in)}) - played
            )
            show(f"`check` with {size[2]} demands and {classes} classes", took, nothing)


if __name__ == "__main__":
    main()
