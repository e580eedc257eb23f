"""`planner route`: a first draft of new rules.

    planner route TOPO PREFIXES [--drain LINK|SWITCH].. [--weights FILE] [--from CONFIG]

PREFIXES has a line for each prefix, with the host port where it leaves, or several, of which the nearest counts: `10.0.0.0/24 s4:3`. Each prefix gets rules on
shortest paths from all switches with a host port to there, without the links and switches behind --drain. FILE has a line for each link, its two ends and its
weight, as `s1:2 s2:1 40.5`; without it each link counts 1. Lines that are empty or begin with # are comments.

With --from the draft is CONFIG with as little changed as can be: of paths of one length that of CONFIG is taken, then one over a switch that has a rule for the
prefix already, then the least port. Its priorities are taken over, and its rules for other prefixes, for single VLANs or ports, and at switches that no
shortest path needs stay as they are.

Before the draft is written, `config` has accepted it. What it can't do is said on the error stream: hosts that have no way to a prefix, and what kept rules
still send over what is drained.

Exit status: 0 written; 1 packets would come to a switch twice, by rules of CONFIG that stay; 2 wrong words; 3, 6 and 9 as `config`.
"""
from __future__ import annotations

import argparse
import bisect
import collections
import decimal
import heapq
import json
import tempfile

from planner_tools import network as nets
from planner_tools.files import counted, did_you_mean
from planner_tools.intent.asking import (
    BAD_FILE, asked, beside, done, files_of, network_of, rules_of, text_of, warn_of,
)
from planner_tools.intent.classes import Paths, shortened
from planner_tools.intent.links import Load, use_words
from planner_tools.intent.places import Places, link_words, links_of, switch_of
from planner_tools.proved import Given, Unable

TYPE_CHECKING = False
if TYPE_CHECKING:
    from typing import Any, Iterator, Sequence

    from planner_tools.intent.asking import Told
    from planner_tools.network import Network

# The priority of rules where CONFIG says none, and the least and the greatest that a configuration may have.
PRIORITY, LEAST, GREATEST = 100, 1, 16383
# How far a priority lies above another, where there is room.
GAP = 10
# Weights are counted in thousandths, so that sums are exact.
UNIT, MOST_WEIGHT = 1000, 10 ** 9
TOLD = 8
# Of a prefix that has no rules: no priorities of rules for all packets, and none of others.
NONE: dict[bool, list[int]] = {True: [], False: []}


# ---- files of lines

def lines_of(file: Given, form: str) -> Iterator[tuple[str, list[str]]]:
    """The lines of a file that are no comments: where each stands, and its words. `form` is such a line."""
    for number, line in enumerate(text_of(file, form).splitlines(), 1):
        words = line.split()
        if words and not words[0].startswith("#"):
            yield f"{file.shown}, line {number}", words


def prefixes_of(file: Given, network: Network) -> dict[str, list[str]]:
    """Where each prefix leaves: its host ports by the prefix, in the order of the file."""
    found = {}
    for where, (dst, *hosts) in lines_of(file, "10.0.0.0/24 s4:3"):
        if nets.prefix(dst) is None:
            raise Unable(
                f"{where}: {dst} is no prefix{right_prefix(dst)}", BAD_FILE,
                ["a line has a prefix and a host port, as 10.0.0.0/24 s4:3"],
            )
        if dst in found:
            raise Unable(f"{where}: {dst} stands twice", BAD_FILE)
        if not hosts:
            raise Unable(
                f"{where}: the host port where {dst} leaves is missing", BAD_FILE,
                ["a line has a prefix and a host port, as 10.0.0.0/24 s4:3"],
            )
        for host in hosts:
            if host not in network.hosts:
                raise Unable(
                    f"{where}: the network has no host port {host}{did_you_mean(host, network.hosts)}", BAD_FILE
                )
        found[dst] = hosts
    return found


def right_prefix(text: str) -> str:
    """A guess at what was meant by a text that is no prefix: the same without bits of the host."""
    found = nets.PREFIX.fullmatch(text)
    if not found or max(map(int, found.groups()[:4])) > 255 or int(found[5]) > 32:
        return ""
    first, length = int.from_bytes(bytes(map(int, found.groups()[:4])), "big"), int(found[5])
    return (
        f": its address has bits behind the first {length}; did you mean"
        f" `{nets.address(first >> 32 - length << 32 - length)}/{length}`?"
    )


def weights_of(file: Given, network: Network, voice: Told) -> dict[tuple[str, str], int]:
    """The weight of each link, in thousandths. A link that the file doesn't name has the greatest weight of the
    file."""
    links, found = {end: link for link in links_of(network) for end in link}, {}
    for where, words in lines_of(file, "s1:2 s2:1 40.5"):
        if (
            len(words) != 3
            or links.get(words[0]) != links.get(words[1])
            or words[0] == words[1]
            or words[0] not in links
        ):
            raise Unable(
                f"{where}: it isn't the two ends of a link, and its weight", BAD_FILE,
                ["a line is like: s1:2 s2:1 40.5"],
            )
        found[links[words[0]]] = weight_of(words[2], where)
    lacking = [link for link in links_of(network) if link not in found]
    if lacking and found:
        voice.note(
            f"{file.shown} has no weight for {counted(len(lacking), 'link')}, which count as its heaviest one:"
            f" {shortened(list(map(link_words, lacking)), TOLD)}"
        )
    return {link: found.get(link, max(found.values(), default=UNIT)) for link in links_of(network)}


def weight_of(text: str, where: str) -> int:
    try:
        weight = decimal.Decimal(text)
        thousandths = int(weight * UNIT) if weight.is_finite() and weight <= MOST_WEIGHT else 0
    except decimal.InvalidOperation:
        thousandths = 0
    if thousandths < 1:
        raise Unable(
            f"{where}: {text} is no weight", BAD_FILE, [f"a weight is a decimal number from 0.001 to {MOST_WEIGHT}"]
        )
    return thousandths


# ---- shortest paths

class Graph:
    """The switches and links of a network that aren't drained."""

    def __init__(
        self, network: Network, weights: dict[tuple[str, str], int], without_links: set[tuple[str, str]],
        without_switches: set[str],
    ) -> None:
        self.steps: dict[str, list[tuple[int, str, int]]] = {
            name: [] for name in network.names if name not in without_switches
        }
        for link in links_of(network):
            if (
                link in without_links
                or {*map(switch_of, link)} & without_switches
                or switch_of(link[0]) == switch_of(link[1])
            ):
                continue
            for one, other in (link, link[::-1]):
                self.steps[switch_of(one)].append((int(one.rpartition(":")[2]), switch_of(other), weights[link]))
        for steps in self.steps.values():
            steps.sort()
        self.kept: dict[tuple[str, ...], dict[str, int]] = {}

    def distances(self, exits: set[str]) -> dict[str, int]:
        """How far each switch is from the nearest of some, where there is a way."""
        key = tuple(sorted(exits))
        if key not in self.kept:
            far, next_ones = {}, [(0, name) for name in key if name in self.steps]
            while next_ones:
                length, name = heapq.heappop(next_ones)
                if name not in far:
                    far[name] = length
                    for _, other, weight in self.steps[name]:
                        if other not in far:
                            heapq.heappush(next_ones, (length + weight, other))
            self.kept[key] = far
        return self.kept[key]

    def nearer(self, name: str, far: dict[str, int]) -> list[tuple[int, str]]:
        """The ports of a switch, and the switches behind them, by which a shortest path may go on."""
        return [
            (port, other)
            for port, other, weight in self.steps[name]
            if other in far and far[other] + weight == far[name]
        ]


# ---- rules

def is_plain(rule: dict[str, Any]) -> bool:
    """Whether a rule is for all packets to a prefix."""
    return rule.get("in_port", "any") == "any" and rule.get("vlan", "any") == "any"


class Draft:
    """The rules that are made. `rules` has those of CONFIG, in which those of the prefixes are replaced."""

    def __init__(
        self, network: Network, graph: Graph, exits: dict[str, list[str]], before: Sequence[dict[str, Any]]
    ) -> None:
        self.network, self.graph, self.exits = network, graph, exits
        self.unreached: dict[str, list[str]] = {}
        self.before = before
        self.rules: list[Any] = list(before)
        self.has_hosts = {switch_of(host) for host in network.hosts}
        # where in `rules` the rule of a switch for a prefix stands: of several the one that counts
        self.place: dict[tuple[str, str], int] = {}
        for at, rule in enumerate(before):
            if is_plain(rule) and rule["dst"] in exits:
                key = rule["switch"], rule["dst"]
                if key not in self.place or before[self.place[key]]["priority"] < rule["priority"]:
                    self.place[key] = at
        self.priorities = Priorities(before)
        for dst in sorted(exits, key=lambda dst: nets.span(dst)[1]):
            self.route(dst)
        self.rules = [rule for rule in self.rules if rule is not None]

    def route(self, dst: str) -> None:
        """Makes the rules for a prefix."""
        far = self.graph.distances({switch_of(host) for host in self.exits[dst]})
        wanted = {name for name in self.has_hosts if name in far}
        for name in sorted(far, key=lambda name: (-far[name], self.network.numbers[name])):
            if name in wanted:
                port, other = self.next_of(name, dst, far, wanted)
                wanted.add(other)
                self.put(name, dst, port)
        for name in self.has_hosts - set(far):
            self.unreached.setdefault(name, []).append(dst)
            self.drop(name, dst)

    def next_of(self, name: str, dst: str, far: dict[str, int], wanted: set[str]) -> tuple[int, str]:
        """The port by which a switch sends a prefix, and the switch behind it."""
        before = self.rule(name, dst)
        out = before["out"] if before is not None else None
        if far[name] == 0:
            ports = [int(host.rpartition(":")[2]) for host in self.exits[dst] if switch_of(host) == name]
            return out if out in ports else ports[0], name
        nearer = self.graph.nearer(name, far)
        kept = [one for one in nearer if one[0] == out]
        return (
            kept or sorted(nearer, key=lambda one: (not (one[1] in wanted or self.is_good(one[1], dst, far)), one[0]))
        )[0]

    def is_good(self, name: str, dst: str, far: dict[str, int]) -> bool:
        """Whether the rule that a switch has for a prefix lies on a shortest path."""
        rule = self.rule(name, dst)
        if rule is None:
            return False
        return (
            f"{name}:{rule['out']}" in self.exits[dst]
            if far[name] == 0
            else any(port == rule["out"] for port, _ in self.graph.nearer(name, far))
        )

    def rule(self, name: str, dst: str) -> dict[str, Any] | None:
        at = self.place.get((name, dst))
        return self.rules[at] if at is not None else None

    def put(self, name: str, dst: str, port: int) -> None:
        before = self.rule(name, dst)
        if before is None:
            self.place[name, dst] = len(self.rules)
            self.rules.append({"switch": name, "priority": self.priorities.of(name, dst), "dst": dst, "out": port})
            self.priorities.add(self.rules[-1])
        elif before["out"] != port:
            self.rules[self.place[name, dst]] = {**before, "out": port}

    def drop(self, name: str, dst: str) -> None:
        """Takes the rules of a switch for a prefix away: there is no way."""
        if (name, dst) in self.place:
            self.rules[self.place.pop((name, dst))] = None

    def counts(self) -> tuple[int, int, int]:
        """How many rules are new, sent elsewhere and taken away."""
        old, new = ({rule_key(rule): rule["out"] for rule in rules} for rules in (self.before, self.rules))
        return (
            len(new.keys() - old.keys()), sum(old[key] != out for key, out in new.items() if key in old),
            len(old.keys() - new.keys()),
        )


def rule_key(rule: dict[str, Any]) -> tuple[str, int, int | str, str, str]:
    return rule["switch"], rule["priority"], rule.get("in_port", "any"), rule.get("vlan", "any"), rule["dst"]


class Priorities:
    """Priorities for new rules: the one that CONFIG gives the prefix at most switches, or most rules, where it stands
    right among the other rules of the switch: above those for all packets to greater prefixes, and below the others
    that share packets with it."""

    def __init__(self, rules: Sequence[dict[str, Any]]) -> None:
        self.all: collections.Counter[int] = collections.Counter()
        self.at_switch: dict[str, tuple[Any, Any]] = {}
        self.of_prefix: dict[str, collections.Counter[int]] = {}
        for rule in rules:
            self.add(rule)
            if is_plain(rule):
                self.of_prefix.setdefault(rule["dst"], collections.Counter())[rule["priority"]] += 1
            self.all[rule["priority"]] += 1

    def add(self, rule: dict[str, Any]) -> None:
        """Keeps of each prefix at a switch the least and the greatest priority: of rules for all packets, and of the
        others."""
        prefixes, ordered = self.at_switch.setdefault(rule["switch"], ({}, []))
        mine = nets.span(rule["dst"])
        if mine not in prefixes:
            prefixes[mine] = {True: [], False: []}
            bisect.insort(ordered, mine)
        found = prefixes[mine][is_plain(rule)]
        found[:] = [min([*found, rule["priority"]]), max([*found, rule["priority"]])]

    def of(self, switch: str, dst: str) -> int:
        mine = nets.span(dst)
        low, high = self.bounds(*self.at_switch.get(switch, ({}, [])), *mine)
        if low + 1 >= high:
            raise Unable(
                f"at {switch} no priority is left for {dst}: it would have to lie above {low} and below {high}",
                BAD_FILE, ["make room between the priorities of CONFIG"],
            )
        wanted, between = most_common(self.of_prefix.get(dst) or self.all), (low + high) // 2
        return wanted if low < wanted < high else min(low + GAP, between) if wanted <= low else between

    @staticmethod
    def bounds(
        prefixes: dict[tuple[int, int], dict[bool, list[int]]], ordered: Sequence[tuple[int, int]], first: int,
        length: int,
    ) -> tuple[int, int]:
        """Above which and below which priority a rule for all packets to a prefix has to lie."""
        low, high = LEAST - 1, GREATEST + 1
        for less in range(length):
            found = prefixes.get((first >> 32 - less << 32 - less, less), NONE)
            low, high = max([low, *found[True]]), min([high, *found[False]])
        begin, end = bisect.bisect_left(ordered, (first, length)), bisect.bisect_left(
            ordered, (first + (1 << 32 - length), 0)
        )
        for inner in ordered[begin:end]:
            if inner[1] >= length:
                high = min([high, *prefixes[inner][True], *prefixes[inner][False]])
        return low, high


def most_common(counter: collections.Counter) -> int:
    return min((-count, priority) for priority, count in counter.items())[1] if counter else PRIORITY


# ---- the answer

def config_text(rules: Sequence[dict[str, Any]]) -> str:
    """The file, a line for each rule."""
    lines = ",\n".join(f"    {json.dumps(one)}" for one in rules)
    return '{\n  "rules": [\n' + lines + "\n  ]\n}\n" if rules else '{\n  "rules": []\n}\n'


def accepted(topology: Given, text: str, shown: str) -> Paths:
    """Sees that the program accepts a configuration, and returns the paths under it."""
    with tempfile.NamedTemporaryFile("w", prefix="planner-", suffix=".json", encoding="utf-8") as file:
        file.write(text)
        file.flush()
        config = Given(file.name, shown)
        asked("config", TOPO=topology, CONFIG=config)
        return Paths(asked("paths", TOPO=topology, CONFIG=config))


def say(
    draft: Draft, paths: Paths, network: Network, drained: tuple[list[tuple[str, str]], list[str]], voice: Told
) -> None:
    """What the draft is, what it can't do, and what it leaves to do."""
    new, other, gone = draft.counts()
    voice.note(
        f"{counted(len(draft.rules), 'rule')}"
        + (f": {new} new, {other} sent elsewhere, {gone} taken away" if draft.before else "")
    )
    by_prefixes: dict[tuple[str, ...], list[str]] = {}
    for name in sorted(draft.unreached, key=lambda name: network.numbers[name]):
        by_prefixes.setdefault(tuple(draft.unreached[name]), []).append(name)
    for dsts, names in by_prefixes.items():
        voice.warn(
            f"there is no way from {shortened(names, TOLD)} to {shortened(list(dsts), TOLD)}: packets from hosts there"
            " are dropped"
        )
    links, switches = drained
    load = Load(paths, network)
    for words, count, found in [
        *((f"{one} to {end}", count, found) for link in links for one, end, count, found in load.over(link)),
        *((name, *load.of_switch(name)) for name in switches),
    ]:
        if count:
            voice.warn(f"{words} is still used, by rules that stay as they are: {use_words(count, found)}")


def drained_of(words: Sequence[str], network: Network) -> tuple[list[tuple[str, str]], list[str]]:
    """The links and the switches that are drained, in the order of the words."""
    places = Places(network)
    links: list[tuple[str, str]] = []
    switches: list[str] = []
    for word in words:
        more, names = places.named(word)
        links, switches = links + more, switches + names
    return list(dict.fromkeys(links)), list(dict.fromkeys(switches))


def parser_of() -> argparse.ArgumentParser:
    parser = argparse.ArgumentParser(
        prog="planner route", description=__doc__.partition("\n\n")[2],
        formatter_class=argparse.RawDescriptionHelpFormatter,
    )
    parser.add_argument(
        "files", metavar="FILE", nargs="+",
        help="TOPO PREFIXES, or a folder, which stands for its topology.json and prefixes",
    )
    parser.add_argument(
        "--drain", metavar="LINK", action="append", default=[],
        help=(
            "a link that is to be empty, by one of its ends (s1:2) or its switches (s1-s2), or a switch by "
            "its name; several may be given"
        ),
    )
    parser.add_argument(
        "--weights", metavar="FILE",
        help="the weight of each link, as `from-graphml --distances` and `--speeds` write them",
    )
    parser.add_argument("--from", metavar="CONFIG", dest="before", help="the rules now")
    return parser


def work(words: Sequence[str], voice: Told) -> tuple[int, str]:
    given = parser_of().parse_intermixed_args(words)
    files, folder = files_of("route", given.files, voice), given.files[0]
    before = beside(folder, given.before) if given.before is not None else None
    if before is not None:
        warn_of("CONFIG", before, voice)
    if before is None:
        accepted(files["TOPO"], config_text([]), "the empty configuration")
    else:
        asked("config", (0, 1), TOPO=files["TOPO"], CONFIG=before)
    network = network_of(files["TOPO"])
    exits = prefixes_of(files["PREFIXES"], network)
    weights = (
        weights_of(beside(folder, given.weights), network, voice)
        if given.weights is not None
        else dict.fromkeys(links_of(network), UNIT)
    )
    drained = drained_of(given.drain, network)
    draft = Draft(
        network, Graph(network, weights, set(drained[0]), set(drained[1])), exits,
        rules_of(before) if before is not None else [],
    )
    text = config_text(draft.rules)
    say(draft, accepted(files["TOPO"], text, "the draft"), network, drained, voice)
    return 0, text


def main(words: Sequence[str]) -> int:
    return done(work, words)
