"""`planner policy`: a policy made of what both configurations of an update do.

    planner policy TOPO OLD NEW [--through SWITCH].. [--changed] [--most N]

Each class of packets that leaves the network under OLD and under NEW must arrive (`deliver`). Of the switches behind `--through` it has to meet those that both
of its paths meet, in the order in which both meet them; where the orders differ, as many as agree, and each other one by itself. The demands are put together to
few: over all host ports or all VLANs where it is so for each, and over the greatest prefixes. In a wide network, one whose topology has format 2, a demand may
have a list of host ports. What else the classes do stays free, and is listed on the error stream. With `--changed` there are demands for the classes alone whose
paths differ.

Before the policy is written, `config` has accepted it over both configurations.

Exit status: 0 written; 1 a configuration has no good path for some class, or it takes more demands than a policy has and --most isn't given; 2 wrong words; 3, 6 and 9 as `config`.
"""
from __future__ import annotations

import argparse
import bisect
import itertools
import json
import tempfile

from planner_tools import network as nets
from planner_tools.files import counted, did_you_mean
from planner_tools.intent.asking import asked, done, files_of, network_of
from planner_tools.intent.classes import (
    Beside, Paths, blocks, grouped, prefix_text, range_words, ranges, shortened, vlan_value, vlan_words,
)
from planner_tools.proved import Given, Unable

TYPE_CHECKING = False
if TYPE_CHECKING:
    from typing import Any, Iterator, Sequence

    from planner_tools.intent.asking import Told
    from planner_tools.intent.classes import Way
    from planner_tools.network import Network

    # What a demand is about: its host ports or `any` alone, its VLAN or `any`, and the first address and the length of
    # its prefix.
    Part = tuple[tuple[str, ...], str, tuple[int, int]]

WRONG_WORDS, REFUSED = 2, 1
MOST_DEMANDS, LONGEST_CHAIN, MOST_PORTS = 512, 16, 1024
# So many host ports of a list are told.
TOLD = 6
WIDER = 'Next: a topology that says `"format": 2` lets a demand have a list of host ports, and it takes {} demands'
ANY = "any"
# What a class does for which no demand speaks, in the order in which it is told.
FREE = {
    "old": "arrive under the old rules alone", "new": "arrive under the new rules alone",
    "neither": "arrive under neither", "same": "go as before, and arrive",
}


# ---- what both paths meet

def longest_common(one: Sequence[str], other: Sequence[str]) -> tuple[str, ...]:
    """The longest list of names that stand in both lists in the same order. Each name stands once in both, and in both
    the same ones."""
    place = {name: at for at, name in enumerate(other)}
    ends: list[int] = []         # for each length the least place at which such a list may end, and the name there
    heads: list[str] = []
    before: dict[str, str | None] = {}
    for name in one:
        length = bisect.bisect_left(ends, place[name])
        before[name] = heads[length - 1] if length else None
        ends[length:length + 1], heads[length:length + 1] = [place[name]], [name]
    found = []
    last = heads[-1] if heads else None
    while last is not None:
        found.append(last)
        last = before[last]
    return tuple(reversed(found))


def chains_of(old: Way, new: Way, through: frozenset[str]) -> list[tuple[str, ...]]:
    """The chains of waypoints that both paths meet in their order, none longer than a demand may have."""
    mine, others = ([name for name in dict.fromkeys(way.switches()) if name in through] for way in (old, new))
    mine, others = [name for name in mine if name in others], [name for name in others if name in mine]
    longest = longest_common(mine, others)
    pieces = (
        [longest[at : at + LONGEST_CHAIN] for at in range(0, max(len(longest) - 1, 1), LONGEST_CHAIN - 1)]
        if longest
        else []
    )
    return [*pieces, *((name,) for name in mine if name not in longest)]


class Wanted:
    """What the classes of two configurations do: which arrive under both, by host port and VLAN, and which of them meet
    which chains."""

    def __init__(self, both: Beside, through: frozenset[str], only_changed: bool) -> None:
        self.both, self.only_changed = both, only_changed
        self.arriving: dict[tuple[str, str], set[int]] = {}
        self.changed: dict[tuple[str, str], set[int]] = {}
        self.chains: dict[tuple[str, ...], dict[tuple[str, str], set[int]]] = {}
        self.free: dict[str, dict[tuple[str, str], list[int]]] = {}
        kept = {}
        for entry in both.entries:
            for atom, (old, new) in enumerate(both.of_entry(entry)):
                if (old, new) not in kept:
                    is_both = old.has_left() and new.has_left()
                    kept[old, new] = (is_both, chains_of(old, new, through) if is_both and through else [])
                self.take(entry, atom, old, new, *kept[old, new])

    def take(
        self, entry: tuple[str, str], atom: int, old: Way, new: Way, is_both: bool, chains: Sequence[tuple[str, ...]]
    ) -> None:
        is_changed = old.key != new.key
        if is_both:
            self.arriving.setdefault(entry, set()).add(atom)
        if is_both and (is_changed or not self.only_changed):
            self.changed.setdefault(entry, set()).add(atom)
        else:
            kind = "same" if is_both else "old" if old.has_left() else "new" if new.has_left() else "neither"
            self.free.setdefault(kind, {}).setdefault(entry, []).append(atom)
        for chain in chains:
            self.chains.setdefault(chain, {}).setdefault(entry, set()).add(atom)

    def needed(self, by_entry: dict[tuple[str, str], set[int]]) -> dict[tuple[str, str], set[int]]:
        """Those of some classes for which a demand is wanted."""
        found = {entry: atoms & self.changed.get(entry, set()) for entry, atoms in by_entry.items()}
        return {entry: atoms for entry, atoms in found.items() if atoms}


# ---- few demands

class Cover:
    """Host ports or any, VLANs or any, and prefixes that cover the needed classes and none that isn't allowed. In a
    wide network several host ports may stand together."""

    def __init__(self, both: Beside, allowed: dict[tuple[str, str], set[int]], is_wide: bool) -> None:
        self.both, self.allowed, self.is_wide = both, allowed, is_wide
        self.kept: dict[Any, Any] = {}

    def fewest(self, needed: dict[tuple[str, str], set[int]]) -> list[Part]:
        """The shortest of the covers that take first the one and then the other kind of groups."""
        ways = [kept for count in (3, 2, 1, 0) for kept in itertools.combinations(("all", "vlan", "host"), count)]
        covers = [self.by((*kept, "entry"), needed) for kept in ways]
        if self.is_wide:
            covers += [self.by_ports(needed), *map(put_together, covers)]
        return min(covers, key=len)

    def by(self, kinds: Sequence[str], needed: dict[tuple[str, str], set[int]]) -> list[Part]:
        left = {entry: set(atoms) for entry, atoms in needed.items()}
        found: list[Part] = []
        for kind in kinds:
            for host, vlan in self.groups(kind, left):
                found += [((host,), vlan, block) for block in self.of_group(host, vlan, left)]
            left = {entry: atoms for entry, atoms in left.items() if atoms}
        return found

    def by_ports(self, needed: dict[tuple[str, str], set[int]]) -> list[Part]:
        """The cover that takes all host ports together for which the same addresses are allowed, for any VLAN and then
        for each."""
        left = {entry: set(atoms) for entry, atoms in needed.items()}
        found: list[Part] = []
        for vlan in (ANY, *self.both.vlans):
            vlans = self.both.vlans if vlan == ANY else [vlan]
            ports: dict[int, list[str]] = {}         # by atom
            wanted: dict[str, set[int]] = {}
            for host in self.both.hosts:
                entries = [(host, one) for one in vlans]
                allowed = self.common(host, vlan, entries)[0]
                for atom in allowed:
                    ports.setdefault(atom, []).append(host)
                mine = [left.setdefault(entry, set()) for entry in entries]
                wanted[host] = set().union(*mine) & allowed
                for atoms in mine:
                    atoms -= allowed
            found += [(hosts, vlan, block) for hosts, block in self.by_same_ports(ports, wanted)]
        return put_together(found)

    def by_same_ports(
        self, ports: dict[int, list[str]], wanted: dict[str, set[int]]
    ) -> Iterator[tuple[tuple[str, ...], tuple[int, int]]]:
        """The greatest prefixes of atoms that have the same host ports, each with those of the ports from which
        something in it is wanted."""
        alike: dict[tuple[str, ...], list[int]] = {}
        for atom in sorted(ports):
            alike.setdefault(tuple(ports[atom]), []).append(atom)
        for hosts, atoms in alike.items():
            for block in (block for one in ranges(atoms, self.both.firsts) for block in blocks(*one)):
                mine = tuple(host for host in hosts if self.touches(block, wanted[host]))
                if mine:
                    yield (ANY,) if len(mine) == len(self.both.hosts) else mine, block

    @staticmethod
    def groups(kind: str, left: dict[tuple[str, str], set[int]]) -> dict[tuple[str, str], None] | list[tuple[str, str]]:
        """The groups of a kind in which something is left."""
        if kind == "all":
            return [(ANY, ANY)] if left else []
        if kind == "entry":
            return list(left)
        if kind == "vlan":
            return dict.fromkeys((ANY, vlan) for _, vlan in left)
        return dict.fromkeys((host, ANY) for host, _ in left)

    def of_group(self, host: str, vlan: str, left: dict[tuple[str, str], set[int]]) -> list[tuple[int, int]]:
        """The greatest prefixes that are allowed for each entry of a group, as far as something that is left lies in
        them; that is left no more."""
        entries = [
            (one, other)
            for one in (self.both.hosts if host == ANY else [host])
            for other in (self.both.vlans if vlan == ANY else [vlan])
        ]
        common, found = self.common(host, vlan, entries)
        wanted = set()
        for entry in entries if common else ():
            if entry in left:
                wanted |= left[entry] & common
                left[entry] -= common
        return [block for block in found if self.touches(block, wanted)] if wanted else []

    def common(
        self, host: str, vlan: str, entries: Sequence[tuple[str, str]]
    ) -> tuple[set[int], list[tuple[int, int]]]:
        """The atoms that are allowed for each entry of a group, and the fewest prefixes of them."""
        if (host, vlan) not in self.kept:
            is_whole = all(entry in self.allowed for entry in entries)
            atoms = (
                set.intersection(*sorted((self.allowed[entry] for entry in entries), key=len)) if is_whole else set()
            )
            self.kept[host, vlan] = atoms, [
                block for one in ranges(sorted(atoms), self.both.firsts) for block in blocks(*one)
            ]
        return self.kept[host, vlan]

    def touches(self, block: tuple[int, int], atoms: set[int]) -> bool:
        first, length = block
        begin, end = (bisect.bisect_right(self.both.firsts, at) for at in (first, first + (1 << 32 - length) - 1))
        return any(atom in atoms for atom in range(begin - 1, end))


def put_together(cover: Sequence[Part]) -> list[Part]:
    """A cover in which host ports stand together whose VLAN and prefix are the same, as many as a demand may have."""
    ports: dict[tuple[bool, str, tuple[int, int]], dict[str, None]] = {}
    for hosts, vlan, block in cover:
        ports.setdefault((hosts == (ANY,), vlan, block), {}).update(dict.fromkeys(hosts))
    return [
        (tuple(hosts)[at : at + MOST_PORTS], vlan, block)
        for (_, vlan, block), hosts in ports.items()
        for at in range(0, len(hosts), MOST_PORTS)
    ]


def demands_of(wanted: Wanted, is_wide: bool) -> list[dict[str, Any]]:
    """The demands of a policy: first those with waypoints, then those of what only has to arrive."""
    found = []
    covered: dict[tuple[str, str], set[int]] = {}
    for chain, by_entry in wanted.chains.items():
        needed = wanted.needed(by_entry)
        found += [(chain, *one) for one in Cover(wanted.both, by_entry, is_wide).fewest(needed)] if needed else []
        for entry, atoms in needed.items():
            covered.setdefault(entry, set()).update(atoms)
    left = {entry: atoms - covered.get(entry, set()) for entry, atoms in wanted.needed(wanted.arriving).items()}
    left = {entry: atoms for entry, atoms in left.items() if atoms}
    found += [((), *one) for one in Cover(wanted.both, wanted.arriving, is_wide).fewest(left)]
    return [demand_value(*one) for one in found]


def demand_value(chain: Sequence[str], hosts: Sequence[str], vlan: str, block: tuple[int, int]) -> dict[str, Any]:
    """A demand as a policy has it."""
    value: dict[str, Any] = {} if ANY in hosts else {"from": hosts[0] if len(hosts) == 1 else list(hosts)}
    value |= {} if vlan == ANY else {"vlan": vlan_value(vlan)}
    value["dst"] = prefix_text(*block)
    value |= {"through": list(chain)} if chain else {}
    return {**value, "deliver": True}


# ---- the answer

def policy_text(demands: Sequence[dict[str, Any]]) -> str:
    """The file, a line for each demand."""
    lines = ",\n".join(f"    {json.dumps(one)}" for one in demands)
    return '{\n  "demands": [\n' + lines + "\n  ]\n}\n" if demands else '{\n  "demands": []\n}\n'


def free_lines(wanted: Wanted) -> list[str]:
    """The classes for which no demand speaks, by what they do, put together where they do the same."""
    lines = []
    for kind, words in FREE.items():
        by_entry = wanted.free.get(kind, {})
        count = sum(map(len, by_entry.values()))
        if not count:
            continue
        lines.append(f"{counted(count, 'class', 'classes')} {words}:")
        for hosts, vlans, atoms in grouped({entry: tuple(atoms) for entry, atoms in by_entry.items()}):
            who = ", ".join(
                filter(
                    None,
                    (
                        f"from {'any host' if len(hosts) == len(wanted.both.hosts) else ', '.join(hosts)}",
                        vlan_words(vlans, wanted.both.vlans),
                    ),
                )
            )
            lines.append(f"  {who}: {', '.join(range_words(ranges(atoms, wanted.both.firsts)))}")
    return lines


def named_switches(given: Sequence[str], network: Network) -> frozenset[str]:
    """The switches behind `--through`."""
    names = [name for one in given for name in one.split(",") if name]
    for name in names:
        if name not in network.numbers:
            raise Unable(
                f"--through {name}: the network has no such switch{did_you_mean(name, network.numbers)}", WRONG_WORDS
            )
    return frozenset(names)


def kept_and_left(
    demands: list[dict[str, Any]], most: int | None, wanted: Wanted, is_wide: bool
) -> tuple[list[dict[str, Any]], list[Any]]:
    """The demands that are written, and those that are left out as there would be too many: of these each speaks of no
    more classes than any that is written. Where it isn't said how many there may be, too many are Unable."""
    if len(demands) <= (most or MOST_DEMANDS):
        return demands, []
    if most is None:
        in_wide = len(demands) if is_wide else len(demands_of(wanted, True))
        raise Unable(
            f"it takes {len(demands)} demands, and a policy has at most {MOST_DEMANDS}: nothing is written", REFUSED,
            [
                "Next: ask with --changed for the classes alone whose paths differ, or with --most N for the N demands"
                " that speak of most classes",
                *([WIDER.format(in_wide)] if in_wide <= MOST_DEMANDS else []),
            ],
        )
    order = sorted(range(len(demands)), key=lambda at: (-classes_of(demands[at], wanted.both), at))
    kept = set(order[:most])
    return [demands[at] for at in sorted(kept)], [demands[at] for at in sorted(order[most:])]


def classes_of(demand: dict[str, Any], both: Beside) -> int:
    """Of how many classes a demand speaks, or of parts of how many."""
    first, length = nets.span(demand["dst"])
    begin, end = (bisect.bisect_right(both.firsts, at) for at in (first, first + (1 << 32 - length) - 1))
    return len(sources_of(demand) or both.hosts) * (1 if "vlan" in demand else len(both.vlans)) * (end - begin + 1)


def sources_of(demand: dict[str, Any]) -> list[str]:
    """The host ports of a demand; none where it speaks of any."""
    source = demand.get("from", [])
    return source if isinstance(source, list) else [source]


def good_paths(topology: Given, config: Given) -> Paths:
    """The paths of a configuration under which no packet comes to a switch twice. Where one does, `config` says
    which."""
    text = asked("paths", (0, 1), TOPO=topology, CONFIG=config)
    if not text.endswith(" 0 break\n"):
        asked("config", TOPO=topology, CONFIG=config)
    return Paths(text)


def judged(files: dict[str, Given], text: str) -> None:
    """Sees that both configurations keep the policy."""
    with tempfile.NamedTemporaryFile("w", prefix="planner-", suffix=".json", encoding="utf-8") as file:
        file.write(text)
        file.flush()
        for word in ("OLD", "NEW"):
            asked("config", TOPO=files["TOPO"], CONFIG=files[word], POLICY=Given(file.name, "the policy that was made"))


def most(text: str) -> int:
    if not text.isascii() or not text.isdigit() or not 1 <= int(text) <= MOST_DEMANDS:
        raise argparse.ArgumentTypeError(f"{text!r} isn't a number from 1 to {MOST_DEMANDS}")
    return int(text)


def parser_of() -> argparse.ArgumentParser:
    parser = argparse.ArgumentParser(
        prog="planner policy", description=__doc__.partition("\n\n")[2],
        formatter_class=argparse.RawDescriptionHelpFormatter,
    )
    parser.add_argument(
        "files", metavar="FILE", nargs="+", help="TOPO OLD NEW, or a folder in place of those that are left out"
    )
    parser.add_argument(
        "--through", metavar="SWITCH", action="append", default=[],
        help=(
            "a switch that a class has to meet where both of its paths meet it; several may be given, also with commas"
        ),
    )
    parser.add_argument(
        "--most", metavar="N", type=most,
        help=(
            f"where it takes more demands than N, which is at most {MOST_DEMANDS}, those that speak of most classes are"
            " written, and the others are listed"
        ),
    )
    parser.add_argument("--changed", action="store_true", help="demands for those classes alone whose paths differ")
    return parser


def work(words: Sequence[str], voice: Told) -> tuple[int, str]:
    given = parser_of().parse_intermixed_args(words)
    files = files_of("policy", given.files, voice)
    both = Beside(*(good_paths(files["TOPO"], files[word]) for word in ("OLD", "NEW")))
    network = network_of(files["TOPO"])
    through = named_switches(given.through, network)
    wanted = Wanted(both, through, given.changed)
    demands, left = kept_and_left(demands_of(wanted, network.is_wide), given.most, wanted, network.is_wide)
    text = policy_text(demands)
    judged(files, text)
    say(wanted, demands, through, voice)
    if left:
        voice.warn(
            f"{counted(len(left), 'demand')} more would be needed, and {'is' if len(left) == 1 else 'are'} left out:",
            ["  " + demand_words(one) for one in left],
        )
    return 0, text


def demand_words(demand: dict[str, Any]) -> str:
    """For which packets a demand speaks, and what it asks, in words."""
    through = f", by {', '.join(demand['through'])}" if "through" in demand else ""
    vlan = f", {nets.vlan_words(demand['vlan'])}" if "vlan" in demand else ""
    return f"from {shortened(sources_of(demand), TOLD) or 'any host'}{vlan}: {demand['dst']}{through}"


def say(wanted: Wanted, demands: Sequence[dict[str, Any]], through: frozenset[str], voice: Told) -> None:
    """What the policy asks for, and what stays free."""
    asked_for = sum(map(len, wanted.changed.values()))
    voice.note(
        (
            f"{counted(len(demands), 'demand')}: {asked_for} of {counted(wanted.both.count(), 'class', 'classes')} of"
            " packets must arrive; the others stay free"
        ),
        free_lines(wanted),
    )
    unmet = sorted(through - {name for chain in wanted.chains for name in chain})
    if unmet:
        voice.warn(
            f"no class that arrives under both meets {', '.join(unmet)} under both: nothing is demanded of"
            f" {'it' if len(unmet) == 1 else 'them'}"
        )


def main(words: Sequence[str]) -> int:
    return done(work, words)
