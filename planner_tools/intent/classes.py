"""Where every class of packets goes, as `paths` of the program says it; and the classes of two configurations side by
side.

The classes of a configuration are those that its own rules tell apart, and the demands of the policy that is given. Two
configurations side by side have the boundaries of both, as the classes of `check` have.
"""
from __future__ import annotations

import bisect

from planner_tools import network as nets

TYPE_CHECKING = False
if TYPE_CHECKING:
    from typing import Any, Sequence

ENDS = ("left", "dropped", "again")
LAST = (1 << 32) - 1
# A range of addresses that is made of more prefixes than this, or of greater ones, is told by its first and its last
# address.
FEW, GREATEST = 3, 8


def number_of(address: str) -> int:
    """An address as a number."""
    one, two, three, four = address.split(".")
    return int(one) << 24 | int(two) << 16 | int(three) << 8 | int(four)


class Way:
    """A path: the text of its stops, how it ends, and where: the host port of `left`, the switch of `dropped` and
    `again`."""

    __slots__ = ("stops", "end", "at", "key")

    def __init__(self, stops: str, end: str, at: str) -> None:
        self.stops, self.end, self.at = stops, end, at
        first, _, rest = stops.partition(" ")
        # Host ports of one switch whose packets go the same way have equal keys.
        self.key = (first.rpartition(":")[0], rest, end, at)

    def places(self) -> list[str]:
        return self.stops.split(" ")

    def switches(self) -> list[str]:
        """The names of the switches in the order of the visit."""
        return [stop.rpartition(":")[0] for stop in self.places()]

    def has_left(self) -> bool:
        return self.end == "left"

    def following(self) -> dict[str, Any]:
        """Behind each stop what follows: the next stop, or the end. Of a path that comes to a switch again the last
        stop has nothing behind it."""
        places = self.places()
        after: dict[str, Any] = dict(zip(places, places[1:]))
        if self.end != "again":
            after[places[-1]] = (self.end, self.at)
        return after


class Paths:
    """What `paths` wrote: the host ports with their VLANs, the first addresses of the atoms, and for each host port and
    VLAN the way and the mark of each."""

    def __init__(self, text: str) -> None:
        self.ways: dict[tuple[str, str], list[Way]] = {}
        self.marks: dict[tuple[str, str], list[str]] = {}
        self.firsts: list[int] = []
        self.kept: dict[str, tuple[Way, str]] = {}
        for line in text.splitlines()[:-1]:
            self.take(line)
        starts: dict[str, list[str]] = {}
        for host, vlan in self.ways:
            starts.setdefault(host, []).append(vlan)
        self.hosts = list(starts)
        self.vlans: list[str] = next(iter(starts.values()), [])

    def take(self, line: str) -> None:
        name, _, rest = line.partition(": ")
        host, vlan, address = name.split(" ")
        entry = (host, vlan)
        ways = self.ways.get(entry)
        if ways is None:
            ways = self.ways[entry] = []
            self.marks[entry] = []
        if len(ways) == len(self.firsts):
            self.firsts.append(number_of(address))
        way, mark = self.way_and_mark(rest)
        ways.append(way)
        self.marks[entry].append(mark)

    def way_and_mark(self, rest: str) -> tuple[Way, str]:
        found = self.kept.get(rest)
        if found is None:
            end, at = next((word, place) for word in ENDS if (place := rest.find(f" {word} ")) >= 0)
            parts = rest[at + 1:].split(" ")
            found = self.kept[rest] = Way(rest[:at], end, parts[1]), " ".join(parts[3 if end == "left" else 2:])
        return found


class Beside:
    """The classes of two configurations side by side."""

    def __init__(self, old: Paths, new: Paths) -> None:
        self.old, self.new = old, new
        self.firsts = sorted({*old.firsts, *new.firsts})
        self.at_old = [bisect.bisect_right(old.firsts, first) - 1 for first in self.firsts]
        self.at_new = [bisect.bisect_right(new.firsts, first) - 1 for first in self.firsts]
        self.hosts, self.vlans, self.entries = old.hosts, old.vlans, list(old.ways)

    def count(self) -> int:
        return len(self.entries) * len(self.firsts)

    def last(self, atom: int) -> Any:
        """The last address of an atom."""
        return self.firsts[atom + 1] - 1 if atom + 1 < len(self.firsts) else LAST

    def of_entry(self, entry: tuple[str, str]) -> list[tuple[Way, Way]]:
        """For each atom the way under the old and the new configuration."""
        old, new = self.old.ways[entry], self.new.ways[entry]
        return [(old[one], new[other]) for one, other in zip(self.at_old, self.at_new)]

    def marks_of_entry(self, entry: tuple[str, str]) -> list[tuple[str, str]]:
        old, new = self.old.marks[entry], self.new.marks[entry]
        return [(old[one], new[other]) for one, other in zip(self.at_old, self.at_new)]

    def ranges(self, atoms: Sequence[int]) -> Any:
        return ranges(atoms, self.firsts)


# ---- addresses

def ranges(atoms: Sequence[int], firsts: Sequence[int]) -> list[tuple[int, int]]:
    """The ranges of addresses, first and last, of some atoms in ascending order: neighbours become one."""
    end = len(firsts)
    found: list[list[int]] = []
    for atom in atoms:
        last = firsts[atom + 1] - 1 if atom + 1 < end else LAST
        if found and found[-1][1] + 1 == firsts[atom]:
            found[-1][1] = last
        else:
            found.append([firsts[atom], last])
    return [(first, last) for first, last in found]


def joined(some: Sequence[tuple[int, int]]) -> list[tuple[int, int]]:
    """Ranges in ascending order, where neighbours are one."""
    found: list[tuple[int, int]] = []
    for first, last in sorted(some):
        if found and found[-1][1] + 1 == first:
            found[-1] = (found[-1][0], last)
        else:
            found.append((first, last))
    return found


def blocks(first: int, last: int) -> list[tuple[int, int]]:
    """The fewest prefixes that make up a range, as first addresses and lengths."""
    found = []
    while first <= last:
        size = min(first & -first or 1 << 32, 1 << (last - first + 1).bit_length() - 1)
        found.append((first, 33 - size.bit_length()))
        first += size
    return found


def prefix_text(first: int, length: int) -> str:
    return f"{nets.address(first)}/{length}"


def prefixes(some: Sequence[tuple[int, int]]) -> list[str]:
    """The prefixes of some ranges, as texts."""
    return [prefix_text(*block) for one in some for block in blocks(*one)]


def range_words(some: Sequence[tuple[int, int]]) -> list[str]:
    """Words for some ranges: each by its prefixes where these are few, otherwise by its first and its last address."""
    found = []
    for first, last in some:
        mine = blocks(first, last)
        is_told = len(mine) == 1 or len(mine) <= FEW and min(length for _, length in mine) >= GREATEST
        found += (
            [prefix_text(*block) for block in mine] if is_told else [f"{nets.address(first)} to {nets.address(last)}"]
        )
    return found


# ---- host ports and VLANs

def grouped(by_entry: dict[tuple[str, str], Any]) -> list[tuple[list[str], list[str], Any]]:
    """Host ports with VLANs that have the same value, put together: lists of host ports, VLANs and the value, each host
    port with each of the VLANs. The values are given by (host port, VLAN)."""
    by_value: dict[tuple[int | tuple[int, int], ...], Any] = {}
    for (host, vlan), value in by_entry.items():
        by_value.setdefault(value, {}).setdefault(host, []).append(vlan)
    found = []
    for value, hosts in by_value.items():
        alike: dict[tuple[str, ...], list[str]] = {}
        for host, vlans in hosts.items():
            alike.setdefault(tuple(vlans), []).append(host)
        found += [(mine, list(vlans), value) for vlans, mine in alike.items()]
    return found


def vlan_value(vlan: str) -> int | str:
    """A VLAN as the files have it."""
    return vlan if vlan == "untagged" else int(vlan)


def vlan_words(vlans: Sequence[str], of: Sequence[str]) -> str:
    """Words for VLANs among those of a network, or none where the network has one alone."""
    if len(of) == 1:
        return ""
    if len(vlans) == len(of):
        return "any VLAN"
    return " and ".join(
        filter(
            None,
            (
                "untagged" if "untagged" in vlans else "",
                ", ".join(f"VLAN {vlan}" for vlan in vlans if vlan != "untagged"),
            ),
        )
    )


def shortened(names: Sequence[str], most: int) -> str:
    """Names, of which no more than some are told."""
    return ", ".join(names[:most]) + (f" and {len(names) - most} more" if len(names) > most else "")
