"""Updates for the tests: those of examples/, rings, and small random ones. An update is a topology, an old and a new
configuration and a policy."""
import collections
import json
import os
import random

ROOT = os.path.realpath(os.path.join(os.path.dirname(os.path.realpath(__file__)), "..", "..", ".."))
FILES = ("topology", "old", "new", "policy")

Update = collections.namedtuple("Update", FILES)


def example(name):
    """Returns the update of an example."""
    return Update(*(read(os.path.join(ROOT, "examples", name, f"{it}.json")) for it in FILES))


def read(path):
    with open(path, encoding="utf-8") as file:
        return json.load(file)


def write(folder, name, value):
    path = os.path.join(folder, name)
    with open(path, "w", encoding="utf-8") as file:
        file.write(value if isinstance(value, str) else json.dumps(value))
    return path


def ring(count):
    """Returns the update of a ring: to each of four destinations packets go round one way before, and the other way
    after."""
    switches, destinations = range(count), range(4)

    def rules(port):
        return {
            "rules": [
                {"switch": f"r{i}", "priority": 100, "dst": f"10.0.{j}.0/24", "out": 1 if i == j else port}
                for i in switches
                for j in destinations
            ]
        }

    topology = {
        "switches": [{"name": f"r{i}", "capacity": 64} for i in switches],
        "links": [[f"r{i}:2", f"r{(i + 1) % count}:3"] for i in switches], "hosts": [f"r{i}:1" for i in switches],
        "vlans": ["untagged"], "tags": [3000, 3000],
    }
    demands = [
        {"from": f"r{i}:1", "dst": f"10.0.{j}.0/24", "deliver": True} for i in switches for j in destinations if i != j
    ]
    return Update(topology, rules(2), rules(3), {"demands": demands})


def wide_ring(count):
    """Returns the update of a ring as a wide network, with one demand for each destination."""
    return wide(ring(count))


def wide(update):
    """Returns the same update of a wide network, in which demands that are alike but for their host ports are one."""
    together = {}
    for demand in update.policy["demands"]:
        about = {name: value for name, value in demand.items() if name != "from"}
        together.setdefault(json.dumps(about), []).append(demand["from"])
    return update._replace(
        topology={**update.topology, "format": 2},
        policy={"demands": [{"from": hosts, **json.loads(about)} for about, hosts in together.items()]},
    )


def careless(update, seed):
    """Returns a plan without evidence: all rules that differ are changed in one round or in two, by chance."""
    def by_key(config):
        return {
            (rule["switch"], rule["priority"], rule["dst"], rule.get("in_port"), rule.get("vlan")): rule
            for rule in config["rules"]
        }

    chance = random.Random(seed)
    old, new = by_key(update.old), by_key(update.new)
    changes = [("delete", old[key]) for key in old if key not in new]
    changes += [("replace" if key in old else "insert", new[key]) for key in new if old.get(key) != new[key]]
    chance.shuffle(changes)
    numbered = [[what, number] for number, (what, _) in enumerate(changes)]
    cut = chance.choice([0, len(changes) // 2])
    return {
        "format": 2, "kind": "ordered", "numberings": [], "befores": [], "uses": [], "picks": [],
        "rules": [rule for _, rule in changes],
        "rounds": [round_ for round_ in (numbered[:cut], numbered[cut:]) if round_],
    }


def some_crossing(seed):
    """Returns a random update that no order of single changes carries out: packets pass a waypoint in the middle of a
    chain in the other direction."""
    chance = random.Random(seed)
    first, second = chance.randint(1, 2), chance.randint(1, 2)
    names = [f"n{i}" for i in range(first + second + 3)]
    start, middle, end = names[0], names[first + 1], names[-1]
    before, behind = names[1:first + 1], names[first + 2:-1]
    chance.shuffle(names)
    vlans = ["untagged", 10] if chance.random() < 0.5 else ["untagged"]
    old = [start, *before, middle, *behind, end]
    new = [start, *reversed(behind), middle, *reversed(before), end]
    next_port, port, links = dict.fromkeys(names, 2), {}, []
    for one, other in [*zip(old, old[1:]), *zip(new, new[1:])]:
        if (one, other) not in port:
            port[one, other], port[other, one] = next_port[one], next_port[other]
            links.append([f"{one}:{next_port[one]}", f"{other}:{next_port[other]}"])
            next_port[one] += 1
            next_port[other] += 1
    topology = {
        "switches": [{"name": name, "capacity": 40} for name in names], "links": links,
        "hosts": [f"{start}:1", f"{end}:1"], "vlans": vlans, "tags": [3000, 3003],
    }
    sides = [
        {
            "rules": [
                {"switch": one, "priority": 100, "dst": "10.0.0.0/24", "out": port[one, other]}
                for one, other in zip(way, way[1:])
            ]
            + [{"switch": end, "priority": 100, "dst": "10.0.0.0/24", "out": 1}]
        }
        for way in (old, new)
    ]
    return Update(
        topology, *sides,
        {"demands": [{"from": f"{start}:1", "dst": "10.0.0.0/24", "through": [middle], "deliver": True}]},
    )


def some_update(seed):
    """Returns a random small update: on both sides trees lead to each destination, for one VLAN and for half of the
    addresses sometimes another tree; some packets must arrive, and some have a waypoint that lies on both paths."""
    chance = random.Random(seed)
    count = chance.randint(5, 7)
    pairs = [(i, chance.randrange(i)) for i in range(1, count)]
    others = [(i, j) for i in range(count) for j in range(i) if (i, j) not in pairs]
    pairs += chance.sample(others, min(len(others), chance.randint(3, 6)))
    next_port, ports, links = [2] * count, {}, []
    for one, other in pairs:
        ports[one, other], ports[other, one] = next_port[one], next_port[other]
        links.append([f"n{one}:{next_port[one]}", f"n{other}:{next_port[other]}"])
        next_port[one] += 1
        next_port[other] += 1
    vlans = ["untagged", 10] if chance.random() < 0.5 else ["untagged"]
    topology = {
        "switches": [{"name": f"n{i}", "capacity": 40} for i in range(count)], "links": links,
        "hosts": [f"n{i}:1" for i in range(count)], "vlans": vlans, "tags": [3000, 3003],
    }
    sides, demands = ([], []), []  # the old and the new rules
    for destination, home in enumerate(chance.sample(range(count), 2)):
        trees = [tree(chance, count, ports, home) for _ in sides]
        for side, toward in zip(sides, trees):
            side += rules_of(toward, ports, count, 100, {"dst": f"10.0.{destination}.0/24"})
        if len(vlans) > 1 and destination == 0:
            for side in sides:
                side += rules_of(
                    tree(chance, count, ports, home), ports, count, 200, {"dst": "10.0.0.0/24", "vlan": 10}
                )
        if destination == 1:
            # Half of the addresses have rules of their own, on one side only: so there are inserts or deletes.
            chance.choice(sides).extend(
                rules_of(tree(chance, count, ports, home), ports, count, 150, {"dst": "10.0.1.0/25"})
            )
        for start in chance.sample([it for it in range(count) if it != home], 2):
            both = set(path(trees[0], start)) & set(path(trees[1], start)) - {start, home}
            through = [f"n{chance.choice(sorted(both))}"] if both and chance.random() < 0.7 else []
            demands.append(
                {
                    "from": f"n{start}:1", "vlan": "untagged", "dst": f"10.0.{destination}.0/24", "through": through,
                    "deliver": chance.random() < 0.8,
                }
            )
    return Update(topology, {"rules": sides[0]}, {"rules": sides[1]}, {"demands": demands})


def tree(chance, count, ports, home):
    """Returns for each switch the next one on its way to a destination."""
    toward, edge = {home: None}, [home]
    while edge:
        at = edge.pop(chance.randrange(len(edge)))
        beside = [it for it in range(count) if (it, at) in ports and it not in toward]
        for other in chance.sample(beside, len(beside)):
            toward[other] = at
            edge.append(other)
    return toward


def path(toward, start):
    while start is not None:
        yield start
        start = toward[start]


def rules_of(toward, ports, count, priority, packets):
    return [
        {"switch": f"n{at}", "priority": priority, **packets, "out": 1 if toward[at] is None else ports[at, toward[at]]}
        for at in range(count)
    ]


def leaves(count):
    """Returns the update of a network of leaves and two spines: all traffic between leaves goes by the first spine
    before, and by the second one after."""
    names = [f"l{i}" for i in range(count)]
    links = [
        [f"{name}:{2 + at}", f"{spine}:{i + 1}"]
        for i, name in enumerate(names)
        for at, spine in enumerate(("p1", "p2"))
    ]

    def rules(up):
        own = [
            {"switch": name, "priority": 100, "dst": f"10.1.{j}.0/24", "out": 1 if i == j else up}
            for i, name in enumerate(names)
            for j in range(count)
        ]
        return {
            "rules": own
            + [
                {"switch": spine, "priority": 100, "dst": f"10.1.{j}.0/24", "out": j + 1}
                for spine in ("p1", "p2")
                for j in range(count)
            ]
        }

    topology = {
        "switches": [{"name": name, "capacity": 100} for name in ("p1", "p2", *names)], "links": links,
        "hosts": [f"{name}:1" for name in names], "vlans": ["untagged"], "tags": [],
    }
    demands = [
        {"from": f"{names[i]}:1", "dst": f"10.1.{j}.0/24", "deliver": True}
        for i in range(count)
        for j in range(count)
        if i != j
    ]
    return Update(topology, rules(2), rules(3), {"demands": demands})


def ladder(count):
    """Returns the update of two rows of switches: before packets stay in their row, and after each step leads to the
    other row. Each step leads on, so all may change at once, and packets may come to each switch of both rows."""
    names = [["in"]] + [[f"a{i}", f"b{i}"] for i in range(1, count + 1)] + [["out"]]
    links = [
        [f"{one}:{2 + to}", f"{other}:{10 + at}"]
        for before, behind in zip(names, names[1:])
        for at, one in enumerate(before)
        for to, other in enumerate(behind)
    ]

    def rules(turn):
        return {
            "rules": [
                {
                    "switch": one, "priority": 100, "dst": "10.0.0.0/24",
                    "out": 2 + ((at + turn) % 2 if len(behind) > 1 else 0),
                }
                for before, behind in zip(names, names[1:])
                for at, one in enumerate(before)
            ]
            + [{"switch": "out", "priority": 100, "dst": "10.0.0.0/24", "out": 1}]
        }

    topology = {
        "switches": [{"name": name, "capacity": 10} for row in names for name in row], "links": links,
        "hosts": ["in:1", "out:1"], "vlans": ["untagged"], "tags": [],
    }
    return Update(topology, rules(0), rules(1), {"demands": [{"from": "in:1", "dst": "10.0.0.0/24", "deliver": True}]})


def at_once(update):
    """Returns a plan without evidence: all rules that differ are changed in one round, in the order of the new
    configuration."""
    def key(rule):
        return rule["switch"], rule["priority"], rule["dst"], rule.get("in_port"), rule.get("vlan")

    old = {key(rule): rule for rule in update.old["rules"]}
    kept = {key(rule) for rule in update.new["rules"]}
    changes = [
        ("replace" if key(rule) in old else "insert", rule)
        for rule in update.new["rules"]
        if old.get(key(rule)) != rule
    ]
    changes += [("delete", rule) for rule in update.old["rules"] if key(rule) not in kept]
    return {
        "format": 2, "kind": "ordered", "numberings": [], "befores": [], "uses": [], "picks": [],
        "rules": [rule for _, rule in changes],
        "rounds": [[[what, number] for number, (what, _) in enumerate(changes)]],
    }
