"""`planner from-mininet`: makes a topology of what Mininet's commands `net`, `links` and `ports` print.

In Mininet the interface `s1-eth2` is port 2 of s1; where `ports` is there, what it says counts. The interfaces of a
host begin with `eth0`, those of a switch with `eth1` (and `net` shows `lo` of a switch).
"""
from __future__ import annotations

import argparse
import re

from planner_tools.convert.common import (
    MOST_CAPACITY, UNTAGGED, NotConverted, Topology, capacity, checked, name_list, nearest, read_text, run, say,
    tag_range, vlan_list,
)

TYPE_CHECKING = False
if TYPE_CHECKING:
    from typing import Any, Sequence

PROMPT = re.compile(r"\s*mininet>\s*")
WORDS = {"net", "links", "ports", "nodes", "dump"}
LINK = re.compile(r"([^\s<>]+)<->([^\s<>]+)\s+\(([^()]*)\)")
INTERFACE = re.compile(r"(?P<node>[^\s:]+)-(?P<name>[^\s:-]+)")


class MininetText:
    """What the text says: nodes that `net` names, links between interfaces, and port numbers."""

    def __init__(self, path: str) -> None:
        self.path = path
        # each as a pair in the order of the first line that has it, with that line's number
        self.links: dict[tuple[str, str], int] = {}
        self.switches: list[str] = []
        self.nodes: list[str] = []
        self.ports: dict[str, int] = {}
        self.down: list[str] = []
        self.faults: list[str] = []
        self.from_net: set[tuple[str, str]] = set()
        self.from_links: set[tuple[str, str]] = set()
        for number, line in enumerate(read_text(path).splitlines(), 1):
            words = PROMPT.sub("", line).split()
            if (
                not words
                or words == ["***"]
                or len(words) == 1
                and words[0] in WORDS
                or line.lstrip().startswith(("#", "***"))
            ):
                continue
            self.read(number, " ".join(words))

    def read(self, number: int, line: str) -> None:
        link = LINK.fullmatch(line)
        if link:
            self.from_links.add(self.link(number, link[1], link[2]))
            if link[3].split() != ["OK", "OK"]:
                self.faults.append(f"{self.path}:{number}: the link {link[1]}<->{link[2]} is down ({link[3]})")
            return
        name, *pairs = line.split()
        if not pairs and re.fullmatch(r"[A-Za-z]\w*", name):
            self.nodes.append(name)
        elif pairs and all(re.fullmatch(r"[^\s:]+:\d+", pair) for pair in pairs):
            self.ports |= {pair.rpartition(":")[0]: int(pair.rpartition(":")[2]) for pair in pairs}
        elif pairs and all(re.fullmatch(r"[^\s:]+:[^\s:]*", pair) for pair in pairs):
            self.read_net(number, name, pairs)
        else:
            self.faults.append(
                f"{self.path}:{number}: no line as Mininet's `net`, `links` and `ports` print them: {line}"
            )

    def read_net(self, number: int, name: str, pairs: Sequence[str]) -> None:
        """A line of `net`: a node, and what each of its interfaces is joined to."""
        self.nodes.append(name)
        if "lo:" in pairs:
            self.switches.append(name)
        for one, _, other in (pair.partition(":") for pair in pairs):
            if other:
                self.from_net.add(self.link(number, one, other))

    def link(self, number: int, one: str, other: str) -> tuple[str, str]:
        key = (other, one) if (other, one) in self.links else (one, other)
        self.links.setdefault(key, number)
        return key

    def node_of(self, interface: str) -> str | None:
        """The node of an interface: what stands before its last hyphen, or the node that `net` names with it."""
        found = INTERFACE.fullmatch(interface)
        return found["node"] if found else None


class Nodes:
    """Which nodes are switches, and which port an interface is."""

    def __init__(self, text: MininetText, hosts: Sequence[Any]) -> None:
        self.text = text
        self.ends = [end for pair in text.links for end in pair]
        nodes = list(dict.fromkeys([*text.nodes, *(node for node in map(text.node_of, self.ends) if node)]))
        unknown = [name for name in hosts if name not in nodes]
        if unknown:
            raise NotConverted([f"{text.path} has no node {name}{nearest(name, nodes)}" for name in unknown], status=2)
        joined = {text.node_of(end) for end in self.ends}
        with_zero = {text.node_of(end) for end in self.ends if end.endswith("-eth0")}
        is_switch: set[str | None] = set(text.switches) if text.switches else joined - with_zero
        self.switches = sorted((name for name in nodes if name in is_switch and name not in hosts), key=natural)

    def port_of(self, interface: str) -> int | None:
        """The number of an interface's port, or None."""
        if interface in self.text.ports:
            return self.text.ports[interface]
        found = re.fullmatch(r".+-eth(\d+)", interface)
        return int(found[1]) if found and not self.text.ports else None


def natural(name: str) -> list[int | str]:
    """A key by which s2 stands before s10."""
    return [int(part) if part.isdigit() else part for part in re.split(r"(\d+)", name)]


def topology_of(text: MininetText, options: argparse.Namespace) -> Topology:
    nodes = Nodes(text, options.hosts)
    faults = list(text.faults)
    if text.from_net and text.from_links and text.from_net != text.from_links:
        faults += [
            f"{text.path}:{text.links[key]}: only one of `net` and `links` has the link {'<->'.join(key)}"
            for key in text.from_net ^ text.from_links
        ]
    if not text.links:
        faults.append(f"{text.path}: there is no link in it: give what Mininet's `net` or `links` prints")
    topology = Topology(options.vlans, options.tags)
    for name in nodes.switches:
        topology.add_switch(name, options.capacity)
    links: list[list[tuple[str, Any]]] = []
    hosts: list[list[tuple[str, Any]]] = []
    for (one, other), number in text.links.items():
        ends = [(text.node_of(end), end) for end in (one, other)]
        at_switches = [(name, nodes.port_of(end), end) for name, end in ends if name in topology.capacities]
        bad = [
            f"{text.path}:{number}: which port of {name} {end} is isn't said: add what Mininet's `ports` prints"
            for name, port, end in at_switches
            if port is None
        ]
        bad += [f"{text.path}:{number}: {end} isn't NODE-INTERFACE" for name, end in ends if name is None]
        faults += bad
        if not at_switches and not bad:
            say(f"{text.path}:{number}: note: {one}<->{other} joins two hosts, and no switch: it is left out")
        if not bad:
            (links if len(at_switches) == 2 else hosts).extend(
                [[(name, port) for name, port, _ in at_switches]] if at_switches else []
            )
    if faults:
        raise NotConverted(faults)
    for pair in sorted(links, key=lambda pair: sorted((natural(name), port) for name, port in pair)):
        topology.add_link(*sorted(pair, key=lambda end: (natural(end[0]), end[1])))
    for [end] in sorted(hosts, key=lambda ends: (natural(ends[0][0]), ends[0][1])):
        topology.add_host(*end)
    return topology


def convert(words: Sequence[str]) -> str:
    parser = argparse.ArgumentParser(
        prog="planner from-mininet",
        description="Makes a topology of what Mininet's commands `net`, `links` and `ports` print, and writes it.",
    )
    parser.add_argument(
        "file", metavar="FILE", help="the text of one or more of these commands; - is the standard input"
    )
    parser.add_argument(
        "--hosts", metavar="NAME,..", type=name_list, default=[],
        help="nodes that are hosts, where the text doesn't show it",
    )
    parser.add_argument(
        "--vlans", metavar="VLAN,..", type=vlan_list, default=[UNTAGGED],
        help="the VLANs with which packets of hosts come: untagged",
    )
    parser.add_argument(
        "--tags", metavar="FIRST-LAST", type=tag_range, default=[],
        help="VLAN ids that the planner may use as tags: none",
    )
    parser.add_argument(
        "--capacity", metavar="N", type=capacity, default=MOST_CAPACITY,
        help=f"how many rules a switch can hold: {MOST_CAPACITY}, fewer than Open vSwitch can",
    )
    options = parser.parse_args(words)
    return checked(topology_of(MininetText(options.file), options), options.file)


def main(words: Sequence[str]) -> int:
    return run(convert, words)
