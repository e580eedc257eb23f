#!/usr/bin/env python3
"""Times `pack` beside `plan` over the same files: rings that turn round, trees and new link weights in a plane graph, a
ring whose traffic may mostly be dropped, and thousands of changes at one switch. Prints rounds, seconds and memory of
both, and for `pack` between which numbers its tries of a change are: the program doesn't tell how many there were, and
the plan bounds them. Tests nothing."""
from __future__ import annotations

import heapq
import json
import pathlib
import random
import tempfile

import measure
import tries
from rings import Ring, prefix
from workloads import PACK, PLAN, WORKLOADS

TYPE_CHECKING = False
if TYPE_CHECKING:
    from typing import Any, Sequence


def rounds_of(text: bytes) -> str:
    """The kind and the number of rounds of a plan, or what else was said."""
    try:
        plan = json.loads(text)
        return f"{plan['kind']}, {len(plan['rounds'])} rounds"
    except ValueError:
        return text.decode().split("\n")[0]


def tries_of(text: bytes) -> str:
    """Between which numbers the tries of an ordered plan are, or nothing."""
    try:
        plan = json.loads(text)
    except ValueError:
        return ""
    if plan["kind"] != "ordered":
        return ""
    least, greatest = tries.bounds(plan["rounds"])
    return f", {least} tries" if least == greatest else f", {least} to {greatest} tries"


def both(title: str, files: Sequence[Any]) -> None:
    """Runs both commands over the same files."""
    with tempfile.TemporaryDirectory() as name:
        folder = pathlib.Path(name)
        for file, value in zip(("topology", "old", "new", "policy"), files):
            (folder / f"{file}.json").write_text(json.dumps(value))
        for words in (PLAN, PACK):
            text = measure.run(f"{title}, {words[0]}", words, folder, shown=0)
            print(f"    {rounds_of(text)}{tries_of(text) if words is PACK else ''}")


def without_tags(topology: dict[str, Any]) -> Any:
    return {**topology, "tags": []}


def turned(switches: int, destinations: int) -> Any:
    ring = Ring(switches, destinations)
    return without_tags(ring.topology()), ring.config(2), ring.config(3), ring.policy()


def free(switches: int, destinations: int) -> Any:
    """The ring, where nothing must arrive."""
    topology, old, new, _ = turned(switches, destinations)
    return topology, old, new, {"demands": []}


class Grid:
    """Switches in rows and columns, each linked to those beside it, each with a host at port 1."""

    def __init__(self, rows: int, columns: int) -> None:
        self.size = rows * columns
        self.links: list[list[str]] = []
        self.port: dict[tuple[int, int], int] = {}
        used = [1] * self.size
        for one in range(self.size):
            beside = [one + 1] if (one + 1) % columns else []
            for other in beside + ([one + columns] if one + columns < self.size else []):
                used[one] += 1
                used[other] += 1
                self.port[one, other], self.port[other, one] = used[one], used[other]
                self.links.append([f"g{one}:{used[one]}", f"g{other}:{used[other]}"])

    def topology(self) -> Any:
        return {"switches": [{"name": f"g{i}", "capacity": 64} for i in range(self.size)], "links": self.links,
                "hosts": [f"g{i}:1" for i in range(self.size)], "vlans": ["untagged"], "tags": []}

    def config(self, homes: list[int], draw: random.Random) -> dict[str, Any]:
        """For each destination the shortest paths to its switch, under weights that are drawn."""
        weights = {pair: draw.randint(1, 20) for pair in sorted(self.port)}
        rules = []
        for j, home in enumerate(homes):
            found: dict[int, int] = {}
            queue: list[tuple[int, int, Any]] = [(0, home, None)]
            while queue:
                length, one, after = heapq.heappop(queue)
                if one in found:
                    continue
                found[one] = self.port[one, after] if after is not None else 1
                for other in range(self.size):
                    if (other, one) in self.port and other not in found:
                        heapq.heappush(queue, (length + weights[other, one], other, one))
            rules += [
                {"switch": f"g{one}", "priority": 100, "dst": prefix(j), "out": out}
                for one, out in sorted(found.items())
            ]
        return {"rules": rules}


def new_weights(rows: int, columns: int, destinations: int) -> Any:
    grid, draw = Grid(rows, columns), random.Random(1)
    homes = draw.sample(range(grid.size), destinations)
    demands = [
        {"from": f"g{i}:1", "dst": prefix(j), "deliver": True}
        for j, home in enumerate(homes)
        for i in range(grid.size)
        if i != home
    ]
    policy = {"demands": demands}
    return grid.topology(), grid.config(homes, draw), grid.config(homes, draw), policy


def of_workload(name: str) -> Any:
    files: dict[str, Any] = WORKLOADS[name][1]().files
    return without_tags(files["topology"]), files["old"], files["new"], files["policy"]


def main() -> None:
    both("ring of 128, 4 destinations", turned(128, 4))
    both("ring of 128, 15 destinations, most traffic may be dropped", turned(128, 15))
    both("grid of 8 by 8, new weights, 8 destinations", new_weights(8, 8, 8))
    both("grid of 8 by 16, new weights, 4 destinations", new_weights(8, 16, 4))
    both("reversed ring of 64", of_workload("plan-reversed-64"))
    both("ring of 128, nothing must arrive", free(128, 4))
    both("ring of 128 with 2048 rules, most traffic may be dropped", of_workload("plan-rules"))
    both("2048 rules of one priority at one switch, all replaced", of_workload("plan-replaced"))
    both("2047 rules of one switch, each with another priority", of_workload("plan-rekeyed"))


if __name__ == "__main__":
    main()
