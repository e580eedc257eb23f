"""Updates by which the speed of the planner is told: the files of each, and the words of the run that is timed."""
from __future__ import annotations

import ipaddress
import json
import random

from rings import Ring, prefix

TYPE_CHECKING = False
if TYPE_CHECKING:
    import pathlib
    from typing import Any, Callable, Sequence

CONFIG = ["config", "topology.json", "config.json"]
PLAN = ["plan", "topology.json", "old.json", "new.json", "policy.json"]
PACK = ["pack", *PLAN[1:]]
CHECK = ["check", "topology.json", "old.json", "new.json", "policy.json", "plan.json"]
EXPLAIN = ["explain", *CHECK[1:]]
CERTIFY = ["certify", *CHECK[1:]]
REPLAY = ["replay", "topology.json", "old.json", "plan.json", "schedule.json"]
# Runs with a hundred packets, whose events are named by 1.
SIMULATE = ["simulate", *CHECK[1:], "1", "100"]
# The greatest size of a topology and of a configuration, in bytes.
GREATEST_FILE = 16 * 2**20


def compact(value: dict[str, Any] | Sequence[Sequence[int | str]]) -> str:
    """The JSON text of a value, without white space."""
    return json.dumps(value, separators=(",", ":"))


class Workload:
    """The words of a run and its files, by their names without `.json`: values, or texts as they are. A plan that is
    read is made by the planner where it isn't among them."""

    def __init__(self, words: Sequence[str], **files: dict[str, Any] | str) -> None:
        self.words, self.files = words, files

    def needs_plan(self) -> bool:
        return "plan.json" in self.words and "plan" not in self.files

    def write(self, folder: pathlib.Path) -> None:
        for name, value in self.files.items():
            (folder / f"{name}.json").write_text(value if isinstance(value, str) else compact(value))


def updating(
    words: Sequence[str], topology: dict[str, Any], old: dict[str, list[dict[str, Any]]],
    new: dict[str, list[dict[str, Any]]], policy: dict[str, list[dict[str, Any]]],
) -> Workload:
    return Workload(words, topology=topology, old=old, new=new, policy=policy)


# ---- plans that are written here

def moves(word: str, numbers: range | Sequence[int]) -> str:
    """The text of a round: one change of each of the plan's rules with these numbers."""
    return compact([[word, i] for i in numbers])


def plan_text(rules: Sequence[dict[str, Any]], rounds: Sequence[str], classes: int, numbering: Sequence[int]) -> str:
    """An ordered plan in format 2, with rounds that are texts already. The one numbering serves so many classes in all
    rounds."""
    head = compact(
        {
            "format": 2, "kind": "ordered", "rules": rules, "uses": [[0, []]],
            "picks": [[1, c, 0] for c in range(classes)], "numberings": [numbering], "befores": [],
        }
    )
    return f'{head[:-1]},"rounds":[{",".join(rounds)}]}}'


# ---- rings

def turned_ring(words: Sequence[str], switches: int, destinations: int) -> Workload:
    """All packets go round a ring in one direction, and then in the other; each switch has a destination at home."""
    ring = Ring(switches, destinations)
    return updating(words, ring.topology(), ring.config(2), ring.config(3), ring.policy())


class OneHome(Ring):
    """A ring all of whose destinations leave at one switch."""

    def home(self, destination: int) -> int:
        return 0


def reversed_ring(switches: int) -> Workload:
    """All destinations leave at one switch, and only the last of the switches that remain can turn."""
    ring = OneHome(switches, 16)
    demands = [{"from": f"r{i}:1", "dst": "10.0.0.0/20", "deliver": True} for i in range(1, switches)]
    return updating(PLAN, ring.topology(), ring.config(3), ring.config(2), {"demands": demands})


def tagged_ring() -> Workload:
    """A two-phase plan of a ring with 64 VLANs and 16 destinations: about 8000 classes."""
    ring = Ring(128, 16, hosts=range(7), vlans=range(1, 65), tags=(3000, 3063), capacity=8192)
    return Workload(
        CHECK, topology=ring.topology(), old=ring.config(2), new=ring.config(3), policy={"demands": []},
        plan=ring.two_phase_plan(),
    )


# ---- lists of host ports, in wide networks

def mesh(words: Sequence[str], switches: int) -> Workload:
    """A ring that turns, in which each switch sends to each other one: a destination has one demand, from all other
    switches."""
    ring = Ring(switches, switches)
    demands = [
        {"from": [f"r{i}:1" for i in ring.hosts if i != ring.home(j)], "dst": prefix(j), "deliver": True}
        for j in range(switches)
    ]
    topology: dict[str, Any] = {"format": 2, **ring.topology()}
    return updating(words, topology, ring.config(2), ring.config(3), {"demands": demands})


def long_lists(demands: int, ports: int) -> Workload:
    """8192 host ports of 128 switches without rules, so that there are as many classes, and so many demands for all
    addresses, each from so many of the ports by chance."""
    chance = random.Random(1)
    hosts = [f"s{i}:{port}" for i in range(128) for port in range(1, 65)]
    topology: dict[str, Any] = {
        "format": 2, "switches": [{"name": f"s{i}", "capacity": 1} for i in range(128)], "links": [], "hosts": hosts,
        "vlans": ["untagged"], "tags": [],
    }
    policy = {"demands": [{"from": chance.sample(hosts, ports), "dst": "0.0.0.0/0"} for _ in range(demands)]}
    return Workload([*CONFIG, "policy.json"], topology=topology, config={"rules": []}, policy=policy)


# ---- detours

LINKS = [["s:2", "x:1"], ["x:2", "w:1"], ["w:2", "y:1"], ["y:2", "d:1"], ["s:3", "y:3"], ["x:3", "d:2"]]
OLD = {"s": 2, "x": 2, "w": 2, "y": 2, "d": 3}
NEW = {"s": 3, "x": 3, "w": 1, "y": 1, "d": 3}


def detours(count: int, priority: Callable[..., Any] = lambda i: 100) -> tuple[dict[str, Any], Any, Any, Any]:
    """Traffic to each of so many prefixes passes w in the one direction, and then in the other; no single change is
    safe."""
    prefixes = [f"10.{i // 256}.{i % 256}.0/24" for i in range(count)]

    def config(ports: dict[str, int]) -> dict[str, list[dict[str, Any]]]:
        return {
            "rules": [
                {"switch": s, "priority": priority(i), "dst": p, "out": out}
                for s, out in ports.items()
                for i, p in enumerate(prefixes)
            ]
        }

    topology = {"switches": [{"name": s, "capacity": 8192} for s in OLD], "links": LINKS, "hosts": ["s:1", "d:3"],
                "vlans": ["untagged"], "tags": [3000, 3009]}
    demands = [{"from": "s:1", "dst": "10.0.0.0/8", "through": ["w"], "deliver": False}]
    demands += [{"from": "s:1", "dst": p, "deliver": True} for p in prefixes]
    return topology, config(OLD), config(NEW), {"demands": demands}


# ---- one switch

def one_switch(vlans: Sequence[int | str]) -> dict[str, Any]:
    return {
        "switches": [{"name": "s0", "capacity": 8192}], "links": [], "hosts": [f"s0:{port}" for port in range(1, 65)],
        "vlans": vlans, "tags": [],
    }


def rules_by_port(count: int, priority: Callable[..., Any]) -> list[dict[str, Any]]:
    """So many rules of one switch, each for a port and a VLAN of its own."""
    return [
        {
            "switch": "s0", "priority": priority(i), "in_port": 1 + i % 64, "vlan": 1 + i // 64, "dst": "128.0.0.0/1",
            "out": 1 + (i + 1) % 64,
        }
        for i in range(count)
    ]


def next_port(rule: dict[str, Any]) -> dict[str, Any]:
    """Another port to send to, which is not the one that the packets come from."""
    out = 1 + (rule["out"] + 1) % 64
    return {**rule, "out": out if out != rule["in_port"] else 1 + out % 64}


def replaced_rules(words: Sequence[str], count: int) -> Workload:
    """Rules of equal priority at one switch, each replaced."""
    old = rules_by_port(count, lambda i: 100)
    vlans = list(range(1, 2 + (count - 1) // 64))
    return updating(
        words, one_switch(vlans), {"rules": old}, {"rules": [next_port(rule) for rule in old]}, {"demands": []}
    )


def routes(count: int, out: int) -> list[dict[str, Any]]:
    """So many rules of one switch as a router has them: prefixes of 25 lengths, the longer the higher its priority."""
    chance, found = random.Random(1), dict[str, int]()
    while len(found) < count:
        length = 8 + len(found) % 25
        found.setdefault(str(ipaddress.ip_network((chance.getrandbits(32), length), strict=False)), length)
    return [
        {"switch": "s0", "priority": 100 + length, "dst": prefix, "out": out} for prefix, length in found.items()
    ]


def routing_table(words: Sequence[str], count: int) -> Workload:
    """A routing table of one switch with two hosts, of which each rule is replaced."""
    topology = {**one_switch(["untagged"]), "hosts": ["s0:1", "s0:2"]}
    return updating(
        words, topology, {"rules": routes(count, 1)}, {"rules": routes(count, 2)}, {"demands": []}
    )


def single_addresses(count: int) -> Workload:
    """A table of one switch with a rule for each of so many single addresses, which lie 2^21 apart."""
    topology = {**one_switch(["untagged"]), "hosts": ["s0:1", "s0:2"]}
    rules = [
        {"switch": "s0", "priority": 100, "dst": f"{ipaddress.ip_address(i << 21)}/32", "out": 1} for i in range(count)
    ]
    return Workload(CONFIG, topology=topology, config={"rules": rules})


def rekeyed_rules(words: Sequence[str], count: int) -> Workload:
    """Rules of one switch that all give way to rules of other priorities: twice as many changes. All are for one
    prefix."""
    topology = {**one_switch(["untagged"]), "hosts": ["s0:1", "s0:2"]}
    rules = [
        [{"switch": "s0", "priority": first + i, "dst": "10.0.0.0/24", "out": out} for i in range(count)]
        for first, out in ((1, 1), (3001, 2))
    ]
    return updating(words, topology, {"rules": rules[0]}, {"rules": rules[1]}, {"demands": []})


def rules_for_all() -> list[dict[str, Any]]:
    """1024 rules of one switch and one priority, one for each of 64 ports and 16 VLANs."""
    return [{**rule, "dst": "0.0.0.0/0"} for rule in rules_by_port(1024, lambda i: 100)]


def touching(rules: Sequence[dict[str, Any]], turns: Sequence[str], rounds: int) -> Workload:
    """The check of a plan that takes turns with two rounds, at a switch with the rules of `rules_for_all`. Each of 8192
    classes is covered by one of them: the demands tell eight ranges of addresses apart."""
    config = {"rules": rules_for_all()}
    plan = plan_text(rules, [turns[k % 2] for k in range(rounds)], 8192, [0])
    policy = {"demands": [{"dst": f"0.0.0.{i}/32"} for i in range(7)]}
    return Workload(CHECK, topology=one_switch(list(range(1, 17))), old=config, new=config, policy=policy, plan=plan)


def replaced_together(rounds: int) -> Workload:
    """Rounds that each replace all of the rules."""
    old = rules_for_all()
    count = len(old)
    turns = [moves("replace", range(count, 2 * count)), moves("replace", range(count))]
    return touching(old + [next_port(rule) for rule in old], turns, rounds)


def two_below_all(rounds: int) -> Workload:
    """Rounds of two changes, by which rules below the others come and go that cover all packets."""
    rules = [{"switch": "s0", "priority": priority, "dst": "0.0.0.0/0", "out": "drop"} for priority in (1, 2)]
    return touching(rules, [moves(word, [0, 1]) for word in ("insert", "delete")], rounds)


# ---- rules that no packet meets

def unmet(
    switches: int, rules: Sequence[dict[str, Any]], rounds: Sequence[str], words: Sequence[str] = CHECK
) -> Workload:
    """The check of a plan with these rounds, or what the words ask, in a network where the first rule drops each
    packet. There are eight classes at most."""
    topology = {
        "switches": [{"name": f"r{i}", "capacity": 8192} for i in range(switches)], "links": [],
        "hosts": ["r0:1", "r0:2"], "vlans": ["untagged"], "tags": [],
    }
    config = {"rules": [{"switch": "r0", "priority": 16383, "dst": "0.0.0.0/0", "out": "drop"}]}
    plan = plan_text(rules, rounds, 8, [0] * switches)
    return Workload(words, topology=topology, old=config, new=config, policy={"demands": []}, plan=plan)


def ranked_rules(count: int, switches: int) -> list[dict[str, Any]]:
    """So many rules, spread over the switches. Those of a switch have priorities of their own, and one prefix."""
    return [
        {"switch": f"r{i % switches}", "priority": 1 + i // switches, "dst": "10.0.0.0/24", "out": "drop"}
        for i in range(count)
    ]


def two_kinds(count: int) -> list[dict[str, Any]]:
    """So many rules of one switch and one priority, in turns for a VLAN and the lower half of the addresses, and for an
    ingress port and the upper half. No two of them cover a common packet, but the addresses alone don't tell those of a
    kind apart."""
    tests = [
        ({"vlan": 1 + i // 2, "dst": "0.0.0.0/1"}, {"in_port": 1 + i // 2, "dst": "128.0.0.0/1"})[i % 2]
        for i in range(count)
    ]
    return [{"switch": "r0", "priority": 100, "out": "drop", **test} for test in tests]


def toggled_rules(
    rounds: int, rules: Sequence[dict[str, Any]], switches: int = 1, words: Sequence[str] = CHECK
) -> Workload:
    """A plan in which the rules come in each odd round and go in each even one."""
    texts = [moves(word, range(len(rules))) for word in ("insert", "delete")]
    return unmet(switches, rules, [texts[k % 2] for k in range(rounds)], words)


def grown_table(rounds: int, rules: Sequence[dict[str, Any]]) -> Workload:
    """A plan whose first round makes a table of more rules than a configuration may have, and whose last one takes it
    away. In the rounds between, so many, the last two rules go and come in turns."""
    count = len(rules)
    turns = [moves(word, [count - 2, count - 1]) for word in ("delete", "insert")]
    return unmet(
        1, rules, [moves("insert", range(count)), *(turns[k % 2] for k in range(rounds)), moves("delete", range(count))]
    )


def replaced_in_turns(rounds: int, each: int, count: int) -> Workload:
    """A plan whose first round makes a table of so many rules. Each of the rounds behind it, so many, replaces a few of
    these, in turns, and the last one takes the table away."""
    rules = ranked_rules(count, 1)
    others = [{**rule, "out": 1} for rule in rules]
    present, texts, at = list(range(count)), [], 0
    for _ in range(rounds):
        for i in range(at, at + each):
            present[i] = (present[i] + count) % (2 * count)
        texts.append(moves("replace", present[at : at + each]))
        at = at + each if at + 2 * each <= count else 0
    return unmet(1, rules + others, [moves("insert", range(count)), *texts, moves("delete", present)])


def inserted_above(rounds: int, each: int, count: int) -> Workload:
    """A plan whose first round makes a table of so many rules. In the rounds between, so many, a few rules above all of
    these come and go in turns, and the last one takes the table away."""
    turns = [moves(word, range(count, count + each)) for word in ("insert", "delete")]
    return unmet(
        1, ranked_rules(count + each, 1),
        [moves("insert", range(count)), *(turns[k % 2] for k in range(rounds)), moves("delete", range(count))],
    )


def recorded_changes(rounds: int, count: int) -> Workload:
    """A schedule of all changes of such rounds, in which so many rules of one switch come and go in turns."""
    plan = toggled_rules(rounds, ranked_rules(count, 1))
    events = ["start", *(f"change {i}" for i in range(count)), "settle"]
    files = {name: plan.files[name] for name in ("topology", "old", "plan")}
    return Workload(REPLAY, **files, schedule="\n".join(events * rounds) + "\n")


def rules_apart(count: int) -> list[dict[str, Any]]:
    """So many rules of one switch, one priority and one prefix, each for an ingress port and a VLAN of its own."""
    return [
        {
            "switch": "r0", "priority": 100, "in_port": 1 + i // 4000, "vlan": 1 + i % 4000, "dst": "10.0.0.0/24",
            "out": "drop",
        }
        for i in range(count)
    ]


def clashing_round(count: int) -> Workload:
    """A round of so many inserts at one switch. The last two rules have one priority and cover common packets, and no
    others do. That they are more than the switch can hold is a later reason to refuse them."""
    rules = rules_apart(count)
    rules[-1] = {**rules[-2], "dst": "10.0.0.0/25"}
    return unmet(1, rules, [moves("insert", range(count))])


def repeating_round(count: int) -> Workload:
    """A round of so many inserts at one switch. The last one is the one before once more, and all others name entries
    of their own."""
    return unmet(1, rules_apart(count - 1), [moves("insert", [*range(count - 1), count - 2])])


# ---- many classes

def idle_rounds(rounds: int) -> Workload:
    """Rounds of one change that few packets meet, over about 7900 classes with long paths."""
    ring = Ring(128, 15)
    quarters = [f"10.0.{j}.{64 * q}" for j in range(15) for q in range(4)]
    atoms = sorted({0, int(ipaddress.ip_address("10.0.15.0")), *(int(ipaddress.ip_address(it)) for it in quarters)})
    homes = {int(ipaddress.ip_address(it)): 1 + int(it.split(".")[2]) for it in quarters}
    plan = {
        "format": 2, "kind": "ordered", "rules": [{"switch": "r0", "priority": 1, "dst": "10.0.0.0/24", "out": "drop"}],
        "rounds": [[["insert" if k % 2 == 0 else "delete", 0]] for k in range(rounds)],
        "numberings": [[0] * 128, *(ring.numbers(j, 0, False) for j in range(15))], "befores": [],
        "uses": [[i, []] for i in range(16)],
        "picks": [
            [1, host * len(atoms) + i, homes.get(atom, 0)] for host in range(128) for i, atom in enumerate(atoms)
        ],
    }
    config = ring.config(2)
    policy = {"demands": [{"dst": f"{it}/26"} for it in quarters]}
    return Workload(CHECK, topology=ring.topology(), old=config, new=config, policy=policy, plan=plan)


def chains(words: Sequence[str], classes: int) -> Workload:
    """A line of 128 switches with so many classes, and 512 chains of 16 waypoints that each packet meets."""
    dice = random.Random(1)
    found: set[tuple[int, ...]] = set()
    while len(found) < 512:
        found.add(tuple(sorted(dice.sample(range(128), 16))))
    topology = {
        "switches": [{"name": f"r{i}", "capacity": 8192} for i in range(128)],
        "links": [[f"r{i}:2", f"r{i + 1}:3"] for i in range(127)],
        "hosts": [*(f"r0:{port}" for port in range(10, 42)), "r127:1"], "vlans": ["untagged"], "tags": [3000, 3000],
    }
    # The rules for single prefixes are never reached. They tell the classes apart: there are 33 hosts, and two ranges
    # of addresses for each prefix.
    rules = [{"switch": f"r{i}", "priority": 100, "dst": "0.0.0.0/0", "out": 2 if i < 127 else 1} for i in range(128)]
    rules += [
        {"switch": "r127", "priority": 1, "dst": f"0.{i // 128}.{2 * (i % 128)}.0/24", "out": "drop"}
        for i in range(classes // 66)
    ]
    more = [{"switch": "r64", "priority": 200, "dst": "0.0.0.0/0", "out": 2}]
    demands = [{"dst": "0.0.0.0/0", "through": [f"r{s}" for s in chain]} for chain in sorted(found)]
    return updating(words, topology, {"rules": rules}, {"rules": rules + more}, {"demands": demands})


def line_of_chains(words: Sequence[str], prefixes: int) -> Workload:
    """A line of 128 switches on which the packets to each of so many prefixes have a chain of 16 waypoints. Prefixes
    side by side have other chains; there are eight. Of each prefix there are 33 classes."""
    dice = random.Random(1)
    some = [sorted(dice.sample(range(128), 16)) for _ in range(8)]
    topology = {
        "switches": [{"name": f"r{i}", "capacity": 8192} for i in range(128)],
        "links": [[f"r{i}:2", f"r{i + 1}:3"] for i in range(127)],
        "hosts": [*(f"r0:{port}" for port in range(10, 42)), "r127:1"], "vlans": ["untagged"], "tags": [3000, 3000],
    }
    rules = [{"switch": f"r{i}", "priority": 100, "dst": "0.0.0.0/0", "out": 2 if i < 127 else 1} for i in range(128)]
    more = [{"switch": "r64", "priority": 200, "dst": "0.0.0.0/0", "out": 2}]
    demands = [
        {"dst": f"0.{i // 256}.{i % 256}.0/24", "through": [f"r{s}" for s in some[i % 8]]} for i in range(prefixes)
    ]
    return updating(words, topology, {"rules": rules}, {"rules": rules + more}, {"demands": demands})


def turned_line(words: Sequence[str], switches: int) -> Workload:
    """All packets go along a line of switches, each of which has a host, to its last one, and then to its first one."""
    last = switches - 1
    topology = {
        "switches": [{"name": f"r{i}", "capacity": 64} for i in range(switches)],
        "links": [[f"r{i}:2", f"r{i + 1}:3"] for i in range(last)], "hosts": [f"r{i}:1" for i in range(switches)],
        "vlans": ["untagged"], "tags": [3000, 3009],
    }

    def config(end: int, out: int) -> dict[str, list[dict[str, Any]]]:
        ports = [1 if i == end else out for i in range(switches)]
        return {
            "rules": [{"switch": f"r{i}", "priority": 100, "dst": "10.0.0.0/24", "out": p} for i, p in enumerate(ports)]
        }

    return updating(words, topology, config(last, 2), config(0, 3), {"demands": []})


def far_rounds(rounds: int) -> Workload:
    """Rounds of 127 changes at switches to which no packet comes, beside one with 8192 classes."""
    here = one_switch(list(range(1, 17)))
    topology = {**here, "switches": [*here["switches"], *({"name": f"r{i}", "capacity": 64} for i in range(127))]}
    rules = [{"switch": f"r{i}", "priority": 100, "dst": "0.0.0.0/0", "out": "drop"} for i in range(127)]
    turns = [moves(word, range(127)) for word in ("insert", "delete")]
    plan = plan_text(rules, [turns[k % 2] for k in range(rounds)], 8192, [0] * 128)
    config = {"rules": rules_for_all()}
    policy = {"demands": [{"dst": f"0.0.0.{i}/32"} for i in range(7)]}
    return Workload(CHECK, topology=topology, old=config, new=config, policy=policy, plan=plan)


def parallel_links(switches: int, rules: int, apart: int = 1) -> Workload:
    """A line of switches with 31 links each to the next, and so many rules at each that send over them; in the one
    round a packet may meet any. From 31 hosts come about 8000 classes. The numbers of ports lie so far apart."""
    names = [f"r{i}" for i in range(switches + 1)]
    links = [
        [f"{names[i]}:{apart * (1 + p)}", f"{names[i + 1]}:{apart * (32 + p)}"]
        for i in range(switches)
        for p in range(31)
    ]
    topology = {
        "switches": [{"name": name, "capacity": max(64, rules)} for name in names], "links": links,
        "hosts": [f"r0:{apart * (32 + p)}" for p in range(31)], "vlans": ["untagged"], "tags": [3000, 3000],
    }
    sending = [
        {"switch": names[i], "priority": 1 + p, "dst": "10.0.0.0/24", "out": apart * (1 + p % 31)}
        for i in range(switches)
        for p in range(rules)
    ]
    plan = plan_text(
        sending, [moves(word, range(len(sending))) for word in ("insert", "delete")], 31 * 258,
        list(range(switches, -1, -1)),
    )
    nothing: dict[str, Any] = {"rules": []}
    policy = {"demands": [{"dst": f"10.0.0.{p}/32"} for p in range(255)]}
    return Workload(CHECK, topology=topology, old=nothing, new=nothing, policy=policy, plan=plan)


# ---- runs that break a policy

def either_way(switches: int, rounds: int) -> Workload:
    """A ring with many hosts at its first switch, from which packets go up the ring before a round and down after it,
    or the other way round. The switches behind it send each packet on the way that it came, so none comes to a switch
    twice, though some go from each of these switches to the next one and others from that one back. For other addresses
    the rules lead round the whole ring, but send on only packets that come from the ring, and so none that enters.
    There are 1024 classes."""
    ring, last = Ring(switches, 0), switches - 1
    topology = {**ring.topology(), "hosts": [*(f"r0:{port}" for port in range(10, 72)), "r1:1", f"r{last}:1"]}

    def rule(switch: int, dst: str, out: int, **test: int) -> dict[str, Any]:
        return {"switch": f"r{switch}", "priority": 100, "dst": dst, "out": out, **test}

    up = [rule(i, "10.0.0.0/8", 2 if i < last else 1, in_port=3) for i in range(1, switches)]
    down = [rule(i, "10.0.0.0/8", 3 if i > 1 else 1, in_port=2) for i in range(1, switches)]
    whole = [rule(i, "192.168.0.0/16", 2, in_port=3) for i in range(switches)]
    first = [rule(0, "10.0.0.0/8", out) for out in (2, 3)]
    config = {"rules": [first[0], *up, *down, *whole]}
    policy = {"demands": [{"dst": f"10.0.{j}.0/24"} for j in range(11)]}
    # No evidence: `explain` looks at none.
    plan = plan_text(first, [moves("replace", [1 - k % 2]) for k in range(rounds)], 0, [0] * switches)
    return Workload(EXPLAIN, topology=topology, old=config, new=config, policy=policy, plan=plan)


# ---- long files

def filled(value: dict[str, Any]) -> str:
    """The text of the value, filled up to the greatest size with a member that is ignored."""
    text = json.dumps({**value, "comment": ""})
    return text[:-2] + "x" * (GREATEST_FILE - len(text)) + '"}'


def long_files() -> Workload:
    """A topology of 128 switches with 64 used ports each and a configuration of 2048 rules, both filled up to the
    limit."""
    names = [f"switch-{i}" for i in range(128)]
    links = [[f"{names[i]}:1", f"{names[(i + 1) % 128]}:2"] for i in range(128)]
    links += [[f"{names[i]}:{port}", f"{names[i + 64]}:{port}"] for port in range(3, 64) for i in range(64)]
    topology = {
        "switches": [{"name": name, "capacity": 8192} for name in names], "links": links,
        "hosts": [f"{name}:64" for name in names], "vlans": ["untagged"], "tags": [3000, 3009],
    }
    rules = [
        {"switch": f"switch-{i}", "priority": 100, "dst": f"10.0.{j}.0/24", "out": 64 if i == j * 8 else 1}
        for i in range(128)
        for j in range(16)
    ]
    return Workload(CONFIG, topology=filled(topology), config=filled({"rules": rules}))


# The workloads by their names, each with what is done.
WORKLOADS = {
    "config-long": ("config, two files of 16 MiB", long_files),
    "config-one": (
        "config, 2048 rules at one switch, 8192 classes",
        lambda: Workload(
            CONFIG, topology=one_switch(list(range(1, 65))), config={"rules": rules_by_port(2048, lambda i: 16383 - i)}
        ),
    ),
    "check-ring": ("check, ring of 128 switches (508 rounds, 768 classes)", lambda: turned_ring(CHECK, 128, 4)),
    "plan-ring": ("plan, ring of 128 switches", lambda: turned_ring(PLAN, 128, 4)),
    "check-rules": ("check, ring of 128 switches with 2048 rules", lambda: turned_ring(CHECK, 128, 16)),
    "plan-rules": ("plan, ring of 128 switches with 2048 rules", lambda: turned_ring(PLAN, 128, 16)),
    "plan-mesh": (
        "plan, ring of 45 switches each of which sends to each other one, with lists of host ports",
        lambda: mesh(PLAN, 45),
    ),
    "config-lists": (
        "config, 8192 classes, 512 demands with lists of 1024 host ports", lambda: long_lists(512, 1024),
    ),
    "plan-reversed": ("plan, reversed ring of 32 switches", lambda: reversed_ring(32)),
    "plan-reversed-64": ("plan, reversed ring of 64 switches", lambda: reversed_ring(64)),
    "check-tagged": ("check, two phases, 64 VLANs, 8000 classes", tagged_ring),
    "plan-detours": ("plan, 400 detours", lambda: updating(PLAN, *detours(400))),
    "check-ranks": (
        "check, two phases, 400 priorities, 806 rounds", lambda: updating(CHECK, *detours(400, lambda i: 100 + i)),
    ),
    "plan-replaced": (
        "plan, 2048 rules of equal priority at one switch, all replaced", lambda: replaced_rules(PLAN, 2048),
    ),
    "check-replaced": ("check of that plan", lambda: replaced_rules(CHECK, 2048)),
    "config-routes": (
        "config, 2040 prefixes of 25 lengths at one switch",
        lambda: Workload(
            CONFIG, topology={**one_switch(["untagged"]), "hosts": ["s0:1", "s0:2"]}, config={"rules": routes(2040, 1)}
        ),
    ),
    "check-routes": ("check, 2040 prefixes of 25 lengths, all replaced", lambda: routing_table(CHECK, 2040)),
    "plan-routes": ("plan of that update", lambda: routing_table(PLAN, 2040)),
    "pack-routes": ("pack of that update", lambda: routing_table(PACK, 2040)),
    "config-single": ("config, 2048 single addresses at one switch", lambda: single_addresses(2048)),
    "plan-rekeyed": ("plan, 2047 rules of one prefix, each with another priority", lambda: rekeyed_rules(PLAN, 2047)),
    "check-rekeyed": ("check of that plan", lambda: rekeyed_rules(CHECK, 2047)),
    "pack-ring": ("pack, ring of 128 switches", lambda: turned_ring(PACK, 128, 4)),
    "pack-rules": ("pack, ring of 128 switches with 2048 rules", lambda: turned_ring(PACK, 128, 16)),
    "pack-replaced": (
        "pack, 2048 rules of equal priority at one switch, all replaced", lambda: replaced_rules(PACK, 2048),
    ),
    "pack-chains": ("pack, 1056 classes with 512 chains", lambda: chains(PACK, 1056)),
    "check-touched": (
        "check, 1024 rules of one priority, 64 rounds that replace all and touch all of 8192 classes",
        lambda: replaced_together(64),
    ),
    "check-touched-few": (
        "check, 1024 rules of one priority, 64 rounds of 2 changes that touch all of 8192 classes",
        lambda: two_below_all(64),
    ),
    "check-big-rounds": (
        "check, 268 rounds of 8190 changes at one switch", lambda: toggled_rules(268, ranked_rules(8190, 1)),
    ),
    "check-spread": (
        "check, 4200 rounds of 523 changes at 128 switches", lambda: toggled_rules(4200, ranked_rules(523, 128), 128),
    ),
    "check-long-table": (
        "check, 8000 rules of 8000 priorities at one switch, 4198 rounds of 2 changes",
        lambda: grown_table(4198, ranked_rules(8000, 1)),
    ),
    "check-kinds": (
        "check, 8000 rules of one priority and two kinds of tests, 1000 rounds of 2 changes",
        lambda: grown_table(1000, two_kinds(8000)),
    ),
    "check-kinds-big": (
        "check, 8000 rules of one priority and two kinds of tests, 268 rounds of 8000 changes",
        lambda: toggled_rules(268, two_kinds(8000)),
    ),
    "check-clash": (
        "check, refused: 128,000 inserts in one round, of which the last two clash", lambda: clashing_round(128_000),
    ),
    "check-repeat": (
        "check, refused: 128,000 inserts in one round, of which the last two name one key",
        lambda: repeating_round(128_000),
    ),
    "check-few-replaced": (
        "check, 8000 rules at one switch, 4198 rounds that replace 17", lambda: replaced_in_turns(4198, 17, 8000),
    ),
    "check-few-above": (
        "check, 8000 rules at one switch, 4198 rounds of 4 changes above them", lambda: inserted_above(4198, 4, 8000),
    ),
    "check-far": ("check, 4200 rounds of 127 changes that no packet meets, 8192 classes", lambda: far_rounds(4200)),
    "replay-long-table": ("replay, 245,700 changes at one switch with 8190 rules", lambda: recorded_changes(30, 8190)),
    "check-idle": ("check, 4200 rounds of one change over 7900 classes", lambda: idle_rounds(4200)),
    "check-chains": ("check, 8184 classes with 512 chains", lambda: chains(CHECK, 8184)),
    "explain-chains": ("explain, 8184 classes with 512 chains", lambda: chains(EXPLAIN, 8184)),
    "plan-chains": ("plan, 1056 classes with 512 chains", lambda: chains(PLAN, 1056)),
    "check-other-chains": (
        "check, 8184 classes with 8 chains, other ones side by side", lambda: line_of_chains(CHECK, 247),
    ),
    "plan-other-chains": ("plan of that update", lambda: line_of_chains(PLAN, 247)),
    "certify-other-chains": ("certify of that plan", lambda: line_of_chains(CERTIFY, 247)),
    "pack-other-chains": ("pack of that update", lambda: line_of_chains(PACK, 247)),
    "pack-line": ("pack, line of 128 switches that turns", lambda: turned_line(PACK, 128)),
    "check-parallel": ("check, 31 parallel links between 16 switches, 8000 classes", lambda: parallel_links(16, 31)),
    "check-parallel-wide": (
        "check, 500 rules a switch over 31 parallel links between 16 switches, 8000 classes",
        lambda: parallel_links(16, 500),
    ),
    "check-parallel-apart": (
        "check, the same with numbers of ports that lie 512 apart", lambda: parallel_links(16, 500, 512),
    ),
    "simulate-ring": ("simulate, ring of 128 switches (508 rounds)", lambda: turned_ring(SIMULATE, 128, 4)),
    "simulate-round": (
        "simulate, 2 rounds of 8190 changes at one switch",
        lambda: toggled_rules(2, ranked_rules(8190, 1), words=SIMULATE),
    ),
    "simulate-spread": (
        "simulate, 2 rounds of 1,048,320 changes at 128 switches",
        lambda: toggled_rules(2, ranked_rules(1_048_320, 128), 128, words=SIMULATE),
    ),
    "explain-cycles": (
        "explain, 4 rounds in a ring of 128 switches, cycles of switches and no repeat, 1024 classes",
        lambda: either_way(128, 4),
    ),
}
