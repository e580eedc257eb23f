#!/usr/bin/env python3
"""Times `config` on the greatest files that it takes: a topology of 128 switches with 64 used ports each, filled up to
16 MiB; 2048 rules; 8192 classes. Prints time and memory; tests nothing."""
from __future__ import annotations

import json
import pathlib
import tempfile

import measure

TYPE_CHECKING = False
if TYPE_CHECKING:
    from typing import Any

LIMIT = 16 * 2**20


def filled(value: dict[str, Any]) -> str:
    """The JSON text of the value, filled up to the limit with a member that is ignored."""
    text = json.dumps({**value, "comment": ""})
    return text[:-2] + "x" * (LIMIT - len(text)) + '"}'


def switches(count: int, capacity: int) -> list[dict[str, Any]]:
    return [{"name": f"switch-{i}", "capacity": capacity} for i in range(count)]


def ring_of_many_ports() -> dict[str, Any]:
    """128 switches, each with 62 host ports and two links; the classes are too many, so one host a switch is kept as
    a host and the others are links from a switch to the one half way round."""
    names = [f"switch-{i}" for i in range(128)]
    links = [[f"{names[i]}:1", f"{names[(i + 1) % 128]}:2"] for i in range(128)]
    for port in range(3, 64):
        links += [[f"{names[i]}:{port}", f"{names[i + 64]}:{port}"] for i in range(64)]
    hosts = [f"{name}:64" for name in names]
    return {
        "switches": switches(128, 8192), "links": links, "hosts": hosts, "vlans": ["untagged"], "tags": [3000, 3009],
    }


def trees(prefixes: int) -> dict[str, Any]:
    """A rule for each prefix at each switch: round the ring to the switch where it leaves."""
    rules = []
    for i in range(128):
        for j in range(prefixes):
            home = j * (128 // prefixes)
            rules.append(
                {"switch": f"switch-{i}", "priority": 100, "dst": f"10.0.{j}.0/24", "out": 64 if i == home else 1}
            )
    return {"rules": rules}


def main() -> None:
    with tempfile.TemporaryDirectory() as name:
        folder = pathlib.Path(name)
        (folder / "topology.json").write_text(filled(ring_of_many_ports()))
        (folder / "config.json").write_text(filled(trees(16)))
        measure.sizes(folder, "topology.json", "config.json")
        measure.run(
            "128 switches of 64 ports, 2048 rules, long paths", ["config", "topology.json", "config.json"], folder
        )

        one = {"switches": switches(1, 8192), "links": [], "hosts": [f"switch-0:{p}" for p in range(1, 65)],
               "vlans": list(range(1, 65)), "tags": []}
        (folder / "topology.json").write_text(json.dumps(one))
        rules = [
            {
                "switch": "switch-0", "priority": 16383 - i, "in_port": 1 + i % 64, "vlan": 1 + i // 64 % 64,
                "dst": "128.0.0.0/1", "out": 1 + (i + 1) % 64,
            }
            for i in range(2048)
        ]
        (folder / "config.json").write_text(json.dumps({"rules": rules}))
        measure.run("one switch with 2048 rules, 8192 classes", ["config", "topology.json", "config.json"], folder)
        rules = [{**rule, "priority": 100} for rule in rules]
        (folder / "config.json").write_text(json.dumps({"rules": rules}))
        measure.run("the same with equal priorities", ["config", "topology.json", "config.json"], folder)


if __name__ == "__main__":
    main()
