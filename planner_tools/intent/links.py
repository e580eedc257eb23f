"""`planner links`: how many classes of packets use each link and each switch, and for which prefixes.

    planner links TOPO CONFIG [--empty LINK].. [--json]

A class uses a link where its path goes over it, in the direction of the path, and a switch where its path has it, unless its packets are dropped where they
enter. `--empty` asks whether nothing uses a link or a switch, and may stand several times; a link is named by one of its ends (s1:2), or by its switches (s1-s2).

Exit status: 0 said, and each link or switch that was asked for is empty; 1 some is used; 2 wrong words; 3, 6 and 9 as `paths`.
"""
from __future__ import annotations

import argparse
import json

from planner_tools.files import counted
from planner_tools.intent.asking import asked, done, files_of, network_of
from planner_tools.intent.classes import Paths, prefixes, range_words, ranges, shortened
from planner_tools.intent.places import Places, link_words, links_of, switch_of

TYPE_CHECKING = False
if TYPE_CHECKING:
    from typing import Any, Sequence

    from planner_tools.intent.asking import Told
    from planner_tools.intent.classes import Way
    from planner_tools.network import Network

TOLD = 8
EMPTY, USED = 0, 1


class Load:
    """What uses each link, in each direction, and each switch: how many classes, and which atoms."""

    def __init__(self, paths: Paths, network: Network) -> None:
        self.network, self.firsts = network, paths.firsts
        self.classes = sum(len(ways) for ways in paths.ways.values())
        self.links: dict[str, Any] = {}
        self.switches: dict[str, Any] = {}
        going: dict[Way, list[int]] = {}
        for ways in paths.ways.values():
            for atom, way in enumerate(ways):
                going.setdefault(way, []).append(atom)
        for way, atoms in going.items():
            self.take(way, atoms)

    def take(self, way: Way, atoms: Sequence[int]) -> None:
        """Counts the classes of a path: for each stop but the first the link by which it came there, by the end that it
        came in at."""
        places = way.places()
        for place in places[1:]:
            add(self.links, place, atoms)
        if len(places) > 1 or way.has_left():
            for switch in dict.fromkeys(map(switch_of, places)):
                add(self.switches, switch, atoms)

    def over(self, link: tuple[str, str]) -> list[tuple[str, str, int, list[tuple[int, int]]]]:
        """Of a link both directions, each as the end where packets leave, the end where they come in, how many classes,
        and the ranges of their addresses."""
        return [(one, other, *self.of(self.links, other)) for one, other in (link, link[::-1])]

    def of(self, found: dict[str, tuple[int, set[int]]], name: str) -> tuple[int, list[tuple[int, int]]]:
        """How many classes use something, and the ranges of their addresses."""
        count, atoms = found.get(name, (0, ()))
        return count, ranges(sorted(atoms), self.firsts)

    def of_switch(self, switch: str) -> tuple[int, list[tuple[int, int]]]:
        return self.of(self.switches, switch)

    # ---- for machines

    def values(self) -> dict[str, Any]:
        return {"classes": self.classes, "links": [self.link_values(link) for link in links_of(self.network)],
                "switches": [{"switch": name, **use_values(*self.of_switch(name))} for name in self.network.names]}

    def link_values(self, link: tuple[str, str]) -> dict[str, list[dict[str, Any] | str]]:
        return {
            "link": list(link),
            "directions": [
                {"from": one, "to": other, **use_values(count, found)} for one, other, count, found in self.over(link)
            ],
        }

    # ---- in words

    def lines(self) -> list[str]:
        lines = [f"{counted(self.classes, 'class', 'classes')} of packets", "", "links"]
        for link in links_of(self.network):
            lines += self.link_lines(link)
        lines += ["", "switches"]
        return lines + [f"  {name}: {use_words(*self.of_switch(name))}" for name in self.network.names]

    def link_lines(self, link: tuple[str, str]) -> list[str]:
        """A line for each direction that is used, or one that says that it is empty."""
        used = [
            f"  {one} to {other}: {use_words(count, found)}" for one, other, count, found in self.over(link) if count
        ]
        return used or [f"  {link_words(link)}: empty"]


def add(found: dict[str, tuple[int, set[int]]], name: str, more: Sequence[int]) -> None:
    """Classes of some atoms use something too."""
    count, atoms = found.get(name) or (0, set())
    atoms.update(more)
    found[name] = (count + len(more), atoms)


def use_values(count: int, found: Sequence[tuple[int, int]]) -> dict[str, Any]:
    return {"classes": count, "prefixes": prefixes(found)}


def use_words(count: int, found: Sequence[tuple[int, int]]) -> str:
    return f"{counted(count, 'class', 'classes')}, {shortened(range_words(found), TOLD)}" if count else "empty"


def look_at(load: Load, words: Sequence[str]) -> tuple[list[dict[str, Any]], list[str]]:
    """Whether what some words name is empty: the values for machines, and the lines."""
    places, values, lines = Places(load.network), [], []
    for word in words:
        links, switches = places.named(word)
        uses = [one for link in links for one in load.over(link)]
        of_switches = [(name, *load.of_switch(name)) for name in switches]
        count = sum(one[2] for one in uses) + sum(one[1] for one in of_switches)
        values.append(
            {
                "named": word, "empty": count == 0, "links": [load.link_values(link) for link in links],
                "switches": [{"switch": name, **use_values(number, found)} for name, number, found in of_switches],
            }
        )
        shown = ", ".join([*map(link_words, links), *switches])
        lines.append(f"empty: {shown}" if count == 0 else f"used: {shown}")
        lines += [f"  {one} to {other}: {use_words(number, found)}" for one, other, number, found in uses if number]
        lines += [f"  {use_words(number, found)}" for _, number, found in of_switches if number]
    return values, lines


def parser_of() -> argparse.ArgumentParser:
    parser = argparse.ArgumentParser(
        prog="planner links", description=__doc__.partition("\n\n")[2],
        formatter_class=argparse.RawDescriptionHelpFormatter,
    )
    parser.add_argument(
        "files", metavar="FILE", nargs="+",
        help="TOPO CONFIG, or a folder, which stands for its topology.json and old.json",
    )
    parser.add_argument(
        "--empty", metavar="LINK", action="append", default=[],
        help="asks whether nothing uses this link or switch; exit status 1 where something does",
    )
    parser.add_argument("--json", action="store_true", help="writes JSON, for machines")
    return parser


def work(words: Sequence[str], voice: Told) -> tuple[int, str]:
    given = parser_of().parse_intermixed_args(words)
    files = files_of("links", given.files, voice)
    load = Load(Paths(asked("paths", (0, 1), TOPO=files["TOPO"], CONFIG=files["CONFIG"])), network_of(files["TOPO"]))
    looked, lines = look_at(load, given.empty) if given.empty else ([], load.lines())
    values = looked if given.empty else load.values()
    is_used = not all(one["empty"] for one in looked)
    return USED if is_used else EMPTY, (json.dumps(values, indent=1) if given.json else "\n".join(lines)) + "\n"


def main(words: Sequence[str]) -> int:
    return done(work, words)
