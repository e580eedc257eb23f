"""Warnings about demands and rules beside a plain look at every class of packets, and when `paths` of the program is
asked for them."""
import json
import os
import random
import sys
import tempfile
import unittest

import fake_program
import rows

sys.path.insert(0, rows.ROOT)
from planner_tools import cautions, words  # noqa: E402
from planner_tools.cautions import Files, path_cautions  # noqa: E402
from planner_tools.first_tables import free_classes  # noqa: E402
from planner_tools.proved import Given  # noqa: E402

NAMES = ("topology", "config", "policy")
EXAMPLES = os.path.join(rows.ROOT, "examples")


class Run:
    """A run of `config` whose files are in a folder, with the `paths` that were asked for."""

    def __init__(self, folder, *names):
        self.command, self.asked, self.said, self.voice = words.BY_NAME["config"], 0, [], self
        self.files = {
            word: Given(os.path.join(folder, name), name) for word, name in zip(("TOPO", "CONFIG", "POLICY"), names)
        }

    def ask(self, *given):
        self.asked += 1
        lines, is_refused = fake_program.paths(*map(fake_program.read, given[1:]))
        return int(is_refused), "".join(f"{line}\n" for line in lines)

    def note(self, what, more=()):
        self.said.append(what)


def some_network(seed):
    """A random network: switches in a tree with more links, rules of several priorities, ingress ports and VLANs, and
    demands of all kinds."""
    chance = random.Random(seed)
    count, vlans = chance.randint(1, 5), chance.choice((["untagged"], ["untagged", 10], [10, 20]))
    names, links, used = [f"n{at}" for at in range(count)], [], {}

    def port(name):
        used[name] = used.get(name, 0) + 1
        return f"{name}:{used[name]}"

    for at in range(1, count):
        links.append([port(names[at]), port(names[chance.randrange(at)])])
    hosts = [port(chance.choice(names)) for _ in range(chance.randint(1, 4))]
    prefixes = chance.sample(
        [
            "0.0.0.0/0", "10.0.0.0/8", "10.0.0.0/24", "10.0.1.0/24", "10.0.0.128/25", "192.168.0.0/16",
            "255.255.255.255/32",
        ],
        chance.randint(1, 5),
    )
    topology = {
        "switches": [{"name": name, "capacity": 9} for name in names], "links": links, "hosts": hosts, "vlans": vlans,
        "tags": [],
    }
    if seed % 2:
        return with_lists(seed, topology, *routed(chance, topology, prefixes))
    rules = {}
    for name in names:
        for _ in range(chance.randint(0, 6)):
            rule = {
                "switch": name, "priority": chance.choice((1, 100, 200)), "dst": chance.choice(prefixes),
                "out": chance.choice(["drop", *range(1, used.get(name, 0) + 1)]),
            }
            rule.update({"in_port": chance.randint(1, used[name])} if used.get(name) and chance.random() < 0.2 else {})
            rule.update({"vlan": chance.choice(vlans)} if chance.random() < 0.2 else {})
            if not any(
                one["switch"] == name
                and one["priority"] == rule["priority"]
                and fake_program.span(one["dst"])[0] < fake_program.span(rule["dst"])[1]
                and fake_program.span(rule["dst"])[0] < fake_program.span(one["dst"])[1]
                for one in rules.values()
            ):
                rules[len(rules)] = rule
    demands = []
    for _ in range(chance.randint(0, 4)):
        demand = {"dst": chance.choice(prefixes)}
        demand.update({"from": chance.choice(hosts)} if chance.random() < 0.5 else {})
        demand.update({"vlan": chance.choice([*vlans, 30])} if chance.random() < 0.3 else {})
        demand.update({"deliver": True} if chance.random() < 0.5 else {})
        demands.append(demand)
    return with_lists(seed, topology, {"rules": list(rules.values())}, {"demands": demands})


def with_lists(seed, topology, config, policy):
    """The same, of each fifth a wide network in which some demands have a list of host ports."""
    if seed % 5:
        return topology, config, policy
    chance = random.Random(f"{seed} lists")
    for demand in policy["demands"]:
        if chance.random() < 0.7:
            demand["from"] = chance.choices(topology["hosts"], k=chance.randint(1, 4))
    return {**topology, "format": 2}, config, policy


def routed(chance, topology, prefixes):
    """Rules that lead each prefix from everywhere to one host port, longer ones before shorter ones, with a drop here
    and there, and demands for most entries."""
    rules, demands, hosts = [], [], topology["hosts"]
    for dst in prefixes:
        home, priority = chance.choice(hosts), 100 + int(dst.partition("/")[2])
        toward, edge = {home.partition(":")[0]: int(home.partition(":")[2])}, [home.partition(":")[0]]
        for at in edge:
            for one, other in [pair for link in topology["links"] for pair in (link, link[::-1])]:
                if one.partition(":")[0] == at and other.partition(":")[0] not in toward:
                    toward[other.partition(":")[0]] = int(other.partition(":")[2])
                    edge.append(other.partition(":")[0])
        rules += [
            {"switch": name, "priority": priority, "dst": dst, "out": out if chance.random() < 0.97 else "drop"}
            for name, out in toward.items()
        ]
        demands += [
            {"from": host, "dst": dst, "deliver": chance.random() < 0.5}
            for host in hosts
            if host != home and chance.random() < 0.97
        ]
    return {"rules": rules}, {"demands": demands}


def plain_words(topology, config, policy):
    """What is to be said, found class by class: the beginning of each sentence, without its place."""
    lines = [line.split(": ") for line in fake_program.paths(topology, config, policy)[0][:-1]]
    classes = [(*name.split(" "), way.split(" ")) for name, way in lines]

    def is_at_once(way):
        return way[1] == "dropped"

    found = []
    for number, demand in enumerate(policy["demands"]):
        low, high = fake_program.span(demand["dst"])
        mine = [
            way
            for host, vlan, address, way in classes
            if fake_program.speaks_of(demand, host)
            and str(demand.get("vlan", "any")) in ("any", vlan)
            and low <= fake_program.number(address) < high
        ]
        if not mine:
            found.append(f"demands[{number}] speaks of no packet")
        elif not demand.get("deliver") and all("dropped" in way for way in mine):
            found.append(f"demands[{number}] asks for nothing")
    free = [way for *_, way in classes if way[-1] == "free"]
    leaving = [way for way in free if "left" in way]
    if leaving:
        found.append(f"{len(leaving)} of {len(classes)} classes of packets leave the network")
    elif free:
        found.append(f"no demand covers {len(free)} of {len(classes)} classes of packets")
    ends = {way[way.index("left") + 1] for *_, way in classes if "left" in way}
    dead = [
        host
        for host in topology["hosts"]
        if host not in ends and all(is_at_once(way) for one, *_, way in classes if one == host)
    ]
    found += [f"no rule of config.json serves the host port {host}" for host in dead]
    for vlan in topology["vlans"]:
        mine = [way for host, one, _, way in classes if one == str(vlan) and host not in dead]
        if mine and all(is_at_once(way) for way in mine):
            found.append(
                f"no rule of config.json serves packets {'untagged' if vlan == 'untagged' else f'with VLAN {vlan}'}"
            )
    return found


class Coverage(unittest.TestCase):
    def written(self, *values):
        folder = tempfile.TemporaryDirectory(prefix="planner-tests-")
        self.addCleanup(folder.cleanup)
        for name, value in zip(NAMES, values):
            with open(os.path.join(folder.name, f"{name}.json"), "w", encoding="utf-8") as file:
                json.dump(value, file)
        return Run(folder.name, *(f"{name}.json" for name in NAMES[:len(values)]))

    def test_what_is_said_is_what_a_look_at_every_class_says(self):
        asked, kinds = 0, set()
        for seed in range(240):
            values = some_network(seed)
            run = self.written(*values)
            found = cautions.coverage_cautions(run, "CONFIG")
            wanted = plain_words(*values)
            with self.subTest(seed=seed):
                self.assertEqual(len(wanted), len(found), ([one.what for one in found], wanted))
                for one, what in zip(found, wanted):
                    self.assertIn(what, one.what)
            asked += run.asked
            kinds |= {tuple(sorted({" ".join(what.split()[2:4]) for what in wanted}))}
        self.assertTrue(60 < asked < 230, asked)
        self.assertGreater(len(kinds), 8)

    def test_the_note_is_the_same_by_the_files_and_by_paths(self):
        notes = 0
        for seed in range(240):
            values = some_network(seed)
            free, count = free_classes(*values)
            run = self.written(*values)
            found = [(one.what, one.more, one.is_warning) for one in path_cautions(run, "CONFIG", Files(run, "CONFIG"))]
            if free is not None:
                notes += free > 0
                by_files = [
                    (one.what, one.more, one.is_warning)
                    for one in ([cautions.free_note(run, "CONFIG", free, count)] if free else [])
                ]
                with self.subTest(seed=seed):
                    self.assertEqual(found, by_files)
        self.assertGreater(notes, 20)

    def test_paths_are_asked_for_only_where_something_may_be_warned_of(self):
        for example, names, asked in (
            ("square", ("topology.json", "old.json", "policy.json"), 0), ("square", ("topology.json", "new.json"), 0),
            ("leaf-spine", ("topology.json", "new.json", "policy.json"), 1),
            ("detour", ("topology.json", "old.json", "policy.json"), 0),
        ):
            run = Run(os.path.join(EXAMPLES, example), *names)
            with self.subTest(example=example, names=names):
                cautions.coverage_cautions(run, "CONFIG")
                self.assertEqual((asked, []), (run.asked, run.said))
        topology, config, policy = (
            fake_program.read(os.path.join(EXAMPLES, "square", f"{name}.json"))
            for name in ("topology", "old", "policy")
        )
        run = self.written(topology, config, {"demands": policy["demands"][1:]})
        self.assertIn("leave the network", cautions.coverage_cautions(run, "CONFIG")[0].what)
        self.assertEqual(1, run.asked)

    def test_of_many_classes_it_is_said_that_their_paths_are_looked_at(self):
        hosts, prefixes = [f"n:{at}" for at in range(1, 9)], [f"10.0.{at // 256}.{at % 256}/32" for at in range(600)]
        topology = {
            "switches": [{"name": "n", "capacity": 4096}], "links": [], "hosts": hosts, "vlans": ["untagged"],
            "tags": [],
        }
        config = {"rules": [{"switch": "n", "priority": 100, "dst": one, "out": 1} for one in prefixes]}
        run = self.written(topology, config, {"demands": []})
        self.assertIn("4200 of 4816 classes of packets leave", cautions.coverage_cautions(run, "CONFIG")[0].what)
        self.assertEqual(
            (
                1,
                [
                    "the paths of all 4816 classes of packets are looked at first, for the warnings; --quiet leaves"
                    " both out"
                ],
            ),
            (run.asked, run.said),
        )

    def test_files_that_are_wrong_have_no_warning(self):
        values = some_network(1)
        for which in range(3):
            for wrong in (
                None, [], {}, {"rules": [{}], "hosts": ["n0"], "demands": [3], "links": [[]], "vlans": 7},
                {"rules": 1, "demands": {"dst": 1}, "hosts": {}},
            ):
                changed = [wrong if at == which else value for at, value in enumerate(values)]
                if changed[2] is not None:
                    self.assertIsNone(free_classes(*changed)[0])


class Members(unittest.TestCase):
    def test_members_are_found_in_files_of_any_length(self):
        filling = [{"switch": "s1", "priority": 1, "dst": "10.0.0.0/24", "out": 1}] * 400
        for kind, value, is_odd in (
            ("configuration", {"rules": filling}, False), ("configuration", {"rules": [*filling, {"swich": 1}]}, True),
            ("configuration", {"rules": filling, "x": 1}, True),
            ("configuration", {"rules": [*filling, {"demands": 1}]}, True),
            ("configuration", {"rules": [[[*filling], {"name": 1}]]}, True),
            ("plan", {"rules": filling, "rounds": [[["insert", 0]]]}, False),
            ("plan", {"rules": [*filling, {"do": "insert"}], "rounds": [[["insert", 0]]]}, True),
            ("plan", {"rounds": [[{"do": "insert"}], [{"do": "insert", "note": 1}]]}, True),
            ("plan", {"rounds": [[], [{"do": "insert"}]], "tried": [[{"set": 1}]]}, False),
        ):
            with self.subTest(kind=kind, value=str(value)[-60:]):
                self.assertEqual(is_odd, cautions.has_odd_member(kind, json.dumps(value)))
        self.assertTrue(
            cautions.has_odd_member("policy", '{"demands": [{"dst": "10.0.0.0/24", "dst": "10.0.1.0/24"}]}')
        )


if __name__ == "__main__":
    unittest.main()
