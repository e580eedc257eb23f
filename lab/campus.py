#!/usr/bin/env python3
"""The files of a campus: campus.py ACCESS FOLDER [star]. Each of so many access switches has a host port and a prefix,
and a link to each of two cores. Packets go by the first core before the update, and by the second one after it. Of a
star there is one core, no two ways, and the update lets packets to one prefix in from everywhere that were dropped."""
from __future__ import annotations

import json
import pathlib
import sys

TYPE_CHECKING = False
if TYPE_CHECKING:
    from typing import Any, Sequence

count, folder, is_star = int(sys.argv[1]), pathlib.Path(sys.argv[2]), sys.argv[3:] == ["star"]
access = {f"a{at}": at for at in range(1, count + 1)}
cores = ["c1"] if is_star else ["c1", "c2"]


def rule(switch: str, at: int, out: int) -> dict[str, Any]:
    return {"switch": switch, "priority": 100, "dst": f"10.0.{at}.0/24", "out": out}


def config(core: str, shut: Sequence[str] = ()) -> dict[str, Any]:
    """The rules by which packets go over a core, but those to prefixes that are shut."""
    up = 2 + cores.index(core)
    rules = [rule(name, at, 1 if one == at else up) for name, one in access.items() for at in access.values()]
    rules += [rule(core, at, at) for at in access.values()]
    return {"rules": [one for one in rules if one["dst"] not in shut]}


last = f"10.0.{count}.0/24"
topology = {
    "switches": [{"name": name, "capacity": 64} for name in (*cores, *access)],
    "links": [[f"{core}:{at}", f"{name}:{2 + cores.index(core)}"] for core in cores for name, at in access.items()],
    "hosts": [f"{name}:1" for name in access], "vlans": ["untagged"], "tags": [3000, 3009],
}
demands = [
    {"from": f"{name}:1", "dst": f"10.0.{at}.0/24", "deliver": True}
    for name, one in access.items()
    for at in access.values()
    if at != one and not (is_star and at == count)
]
for name, value in (
    ("topology", topology), ("old", config("c1", (last,) if is_star else ())),
    ("new", config("c1" if is_star else "c2")), ("policy", {"demands": demands}),
):
    (folder / f"{name}.json").write_text(json.dumps(value))
