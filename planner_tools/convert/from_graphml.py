"""`planner from-graphml`: makes a topology of a graph in GraphML, as the Internet Topology Zoo has them.

A graph has nodes and edges. What it hasn't are port numbers, hosts, VLANs, tags and the capacities of switches. Ports
are numbered from 1 at each switch: those of its links in the order of the edges, then its host port; the rest is asked
for.
"""
from __future__ import annotations

import argparse
import re
import unicodedata
import xml.etree.ElementTree as xml

from planner_tools.convert.common import (
    NAME, UNWRITABLE, NotConverted, Topology, capacity, checked, name_list, nearest, read_bytes, run, say, tag_range,
    vlan_list,
)
from planner_tools.convert.weights import distance, speed, weights_text

TYPE_CHECKING = False
if TYPE_CHECKING:
    from typing import Any, Callable, Sequence

LONGEST_NAME = 32
# Switches without a host port, for `--hosts`.
ALL = "all"


class Graph:
    """The nodes of a graph, each with its label and its further values, and its edges."""

    def __init__(self, path: str) -> None:
        try:
            root = xml.fromstring(read_bytes(path))
        except xml.ParseError as fault:
            raise NotConverted(
                f"{path}:{fault.position[0]}:{fault.position[1] + 1}: it is no XML: {str(fault).split(':')[0]}"
            ) from fault
        graphs = children(root, "graph")
        if local(root) != "graphml" or len(graphs) != 1:
            raise NotConverted(f"{path}: it isn't GraphML with one graph")
        self.path, graph = path, graphs[0]
        if graph.get("edgedefault") == "directed" or any(
            edge.get("directed") == "true" for edge in children(graph, "edge")
        ):
            raise NotConverted(
                f"{path}: its edges are directed, and links go both ways",
                "make the graph undirected, with one edge for each link",
            )
        if children(graph, "hyperedge"):
            raise NotConverted(f"{path}: it has hyperedges, and a link joins two switches")
        keys = {key.get("id"): key.get("attr.name") for key in children(root, "key")}
        self.nodes: dict[str, dict[str, str]] = {}
        for node in children(graph, "node"):
            name = node.get("id")
            if name is None or name in self.nodes:
                raise NotConverted(f"{path}: node {name!r} has no id, or stands twice")
            self.nodes[name] = values_of(node, keys)
        self.edges: list[tuple[Any, Any]]
        self.edges = [(edge.get("source"), edge.get("target")) for edge in children(graph, "edge")]
        self.edge_values = [values_of(edge, keys) for edge in children(graph, "edge")]
        unknown = [end for edge in self.edges for end in edge if end not in self.nodes]
        if unknown:
            raise NotConverted(f"{path}: an edge names node {unknown[0]!r}, which isn't there")

    def label(self, node: str) -> str:
        return self.nodes[node].get("label") or ""


def values_of(element: xml.Element, keys: dict[str | None, str | None]) -> dict[Any, str]:
    """What a node or an edge says of itself, by names."""
    return {keys.get(data.get("key"), data.get("key")): (data.text or "").strip() for data in children(element, "data")}


def local(element: xml.Element) -> str:
    return element.tag.rpartition("}")[2]


def children(element: xml.Element, name: str) -> list[xml.Element]:
    return [child for child in element if local(child) == name]


def plain(text: str) -> str:
    """A label in the letters that a switch's name may have: accents are taken from letters, and other signs become
    `_`."""
    bare = unicodedata.normalize("NFKD", text).encode("ascii", "ignore").decode()
    return re.sub(r"[^A-Za-z0-9-]+", "_", bare).strip("_")[:LONGEST_NAME]


def names_of(graph: Graph) -> dict[str, str]:
    """The name of each node: its label, where it has one that no other node has, otherwise the label with the node's
    id, or the id alone."""
    wanted = {node: plain(graph.label(node)) if graph.label(node) != "None" else "" for node in graph.nodes}
    count: dict[str, int] = {}
    for name in wanted.values():
        count[name.lower()] = count.get(name.lower(), 0) + 1
    names, taken = {}, set()
    for node, name in wanted.items():
        ending = re.sub(r"[^A-Za-z0-9_-]", "_", node)
        if not name:
            name = f"n{ending}" if ending[:1].isdigit() else ending
        elif count[name.lower()] > 1:
            name = f"{name[:LONGEST_NAME - 1 - len(ending)]}_{ending}"
        if name in taken or not NAME.fullmatch(name):
            raise NotConverted(
                f"{graph.path}: node {node!r} can't be given a name of its own", "--names ids takes the ids"
            )
        names[node] = name
        taken.add(name)
    return names


def host_switches(graph: Graph, names: dict[str, str], wanted: Sequence[str], switches: list[str]) -> list[str]:
    """The nodes that get a host port."""
    if wanted == [ALL]:
        return switches
    by_word = {name: node for node, name in names.items()} | {node: node for node in graph.nodes}
    unknown = [word for word in wanted if by_word.get(word) not in switches]
    if unknown:
        raise NotConverted(
            [f"{graph.path} has no switch {word}{nearest(word, [names[one] for one in switches])}" for word in unknown],
            "name switches by name or id, or --hosts all", 2,
        )
    return [by_word[word] for word in dict.fromkeys(wanted)]


def topology_of(graph: Graph, options: argparse.Namespace) -> Topology:
    names = (
        names_of(graph)
        if options.names == "labels"
        else {node: re.sub(r"[^A-Za-z0-9_-]", "_", node) for node in graph.nodes}
    )
    outside = (
        {node for node, values in graph.nodes.items() if values.get("Internal") == "0"}
        if options.external == "hosts"
        else set()
    )
    for node, name in names.items():
        if name != graph.label(node) and node not in outside:
            say(
                f"{graph.path}: note: node {node}{f', {graph.label(node)!r},' if graph.label(node) else ''} is the"
                f" switch {name}"
            )
    for node, values in graph.nodes.items():
        if values.get("hyperedge") == "1" and node not in outside:
            say(
                f"{graph.path}: note: node {node} stands for a link of several nodes, and is taken as the switch"
                f" {names[node]}"
            )
    topology = Topology(options.vlans, options.tags)
    for node, name in names.items():
        if node not in outside:
            topology.add_switch(name, options.capacity)
    hosts = []
    for at, (one, other) in enumerate(graph.edges):
        if one in outside and other in outside:
            continue
        if one == other:
            say(
                f"{graph.path}: note: an edge joins the switch {names[one]} to itself: a packet that takes it visits"
                " the switch twice"
            )
        ends = []
        for node in (one, other):
            if node not in outside:
                ends.append((names[node], topology.free_port(names[node])))
                topology.take_port(*ends[-1])
        if len(ends) == 2:
            topology.add_link(*ends)
            topology.edge_of.append(at)
        else:
            hosts += ends
    for node in host_switches(graph, names, options.hosts, [node for node in graph.nodes if node not in outside]):
        hosts.append((names[node], topology.free_port(names[node])))
        topology.take_port(*hosts[-1])
    for end in hosts:
        topology.add_host(*end)
    return topology


def write_weights(path: str, measure: Callable[..., Any], graph: Graph, topology: Topology) -> None:
    """Writes the weights of the links into a file, and tells which links have none."""
    text, lacking = weights_text(measure, graph, list(zip(topology.links, topology.edge_of)))
    try:
        with open(path, "w", encoding="utf-8") as file:
            file.write(text)
    except OSError as fault:
        raise NotConverted(f"{path}: it can't be written: {fault.strerror}", status=UNWRITABLE) from fault
    if lacking:
        say(
            f"{graph.path}: note: {len(lacking)} of {len(topology.links)} links have no weight in {path}, as the graph"
            f" doesn't tell it: {', '.join(lacking[:8])}{' and more' if len(lacking) > 8 else ''}"
        )


def convert(words: Sequence[str]) -> str:
    parser = argparse.ArgumentParser(
        prog="planner from-graphml",
        description="Makes a topology of a graph in GraphML, as the Internet Topology Zoo has them, and writes it.",
    )
    parser.add_argument("file", metavar="FILE", help="- is the standard input")
    parser.add_argument(
        "--hosts", metavar="NAME,..", type=name_list,
        help="the switches that have a host port, by name or id of the node; `all`",
    )
    parser.add_argument(
        "--external", choices=("switches", "hosts"), default="switches",
        help="hosts: nodes that the graph says aren't internal are no switches, and the ports to them are host ports",
    )
    parser.add_argument(
        "--vlans", metavar="VLAN,..", type=vlan_list, help="the VLANs with which packets of hosts come, as untagged,10"
    )
    parser.add_argument(
        "--tags", metavar="FIRST-LAST", type=tag_range,
        help="VLAN ids that the planner may use as tags, as 3000-3009; `none`",
    )
    parser.add_argument("--capacity", metavar="N", type=capacity, help="how many rules each switch can hold")
    parser.add_argument(
        "--names", choices=("labels", "ids"), default="labels", help="what the switches are named by: labels"
    )
    parser.add_argument(
        "--distances", metavar="FILE",
        help=(
            "write into FILE how long the links are, as weights for `planner route`: what the edges say, otherwise the"
            " way between the coordinates of their nodes"
        ),
    )
    parser.add_argument(
        "--speeds", metavar="FILE", help="write into FILE weights by the speeds of the links: 100 Gbit/s over the speed"
    )
    options = parser.parse_args(words)
    lacking = [
        word
        for word, value in (
            ("--hosts", options.hosts or options.external == "hosts"), ("--vlans", options.vlans),
            ("--tags", options.tags is not None), ("--capacity", options.capacity),
        )
        if not value
    ]
    if lacking:
        raise NotConverted(
            f"a graph doesn't say which hosts, VLANs, tags and capacities there are: {', '.join(lacking)} is wanting",
            (
                "as --hosts all --vlans untagged --tags 3000-3009 --capacity 1000; `planner from-graphml --help`"
                " explains them"
            ),
            2,
        )
    options.hosts = options.hosts or []
    graph = Graph(options.file)
    topology = topology_of(graph, options)
    text = checked(topology, options.file)
    for path, measure in ((options.distances, distance), (options.speeds, speed)):
        if path is not None:
            write_weights(path, measure, graph, topology)
    return text


def main(words: Sequence[str]) -> int:
    return run(convert, words)
