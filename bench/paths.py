#!/usr/bin/env python3
"""Times `paths` beside `config` over the same files: a ring of 128 switches with 8192 classes and long paths, without a
policy, under the most demands that cover every class, and under the most that cover none. Prints time and memory, how
many times the time of `config` the time of `paths` is, and the time to write as long a text; tests nothing."""
from __future__ import annotations

import json
import pathlib
import tempfile
import time

import measure

TYPE_CHECKING = False
if TYPE_CHECKING:
    from typing import Any, Sequence

PREFIXES = 15
VLANS = 4


def ring() -> Any:
    """128 switches in a ring, with a host port each: 16 ranges of addresses and four VLANs make 8192 classes."""
    names = [f"switch-{i}" for i in range(128)]
    links = [[f"{names[i]}:1", f"{names[(i + 1) % 128]}:2"] for i in range(128)]
    return {
        "switches": [{"name": it, "capacity": 8192} for it in names], "links": links,
        "hosts": [f"{it}:3" for it in names], "vlans": list(range(1, VLANS + 1)), "tags": [],
    }


def round_the_ring() -> Any:
    """A rule for each prefix at each switch: round the ring to the switch where it leaves."""
    rules = []
    for i in range(128):
        rules += [
            {"switch": f"switch-{i}", "priority": 100, "dst": f"0.0.{j}.0/24", "out": 3 if i == 8 * j else 1}
            for j in range(PREFIXES)
        ]
    return {"rules": rules}


def demands(vlans: Sequence[int]) -> Any:
    """512 demands of all addresses: from each switch one with each of four VLANs."""
    return {
        "demands": [{"from": f"switch-{i}:3", "vlan": vlan, "dst": "0.0.0.0/0"} for i in range(128) for vlan in vlans]
    }


def timed(title: str, words: Sequence[str], folder: pathlib.Path) -> Any:
    before = time.monotonic()
    text = measure.run(title, words, folder)
    return time.monotonic() - before, text


def compare(title: str, words: Sequence[str], folder: pathlib.Path) -> None:
    """Runs both commands over the same files."""
    config, _ = timed(f"{title}, config", ["config", *words], folder)
    paths, text = timed(f"{title}, paths", ["paths", *words], folder)
    before = time.monotonic()
    (folder / "copy").write_bytes(text)
    print(
        f"{title}: paths takes {paths / config:.1f} times as long as config; a file of its text is written in"
        f" {time.monotonic() - before:.3f} s"
    )


def main() -> None:
    with tempfile.TemporaryDirectory() as name:
        folder = pathlib.Path(name)
        (folder / "topology.json").write_text(json.dumps(ring()))
        (folder / "config.json").write_text(json.dumps(round_the_ring()))
        (folder / "covering.json").write_text(json.dumps(demands(range(1, VLANS + 1))))
        (folder / "other.json").write_text(json.dumps(demands(range(101, 101 + VLANS))))
        files = ["topology.json", "config.json"]
        compare("8192 classes of 128 switches", files, folder)
        compare("under 512 demands", [*files, "covering.json"], folder)
        compare("under 512 demands of other VLANs", [*files, "other.json"], folder)


if __name__ == "__main__":
    main()
