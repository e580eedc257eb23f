"""Tests of `planner policy`: what it demands beside a walk of all classes, and that the program accepts it over both
configurations. PLANNER names the program."""
import json
import random
import unittest

from networks import EXAMPLES, Folder, all_walks, asked, firsts, front, homes_of, planner, routed, some, span

from planner_tools.intent import policy
from planner_tools.intent.classes import Beside, Paths

SEEDS = range(16)
PREFIXES = ["10.0.0.0/24", "10.0.1.0/24", "10.0.2.0/24", "10.0.3.0/24", "10.0.4.0/22", "10.0.0.0/16", "192.168.7.0/24"]


def covers(demand, host, vlan, number):
    first, behind = span(demand["dst"])
    source = demand.get("from", "any")
    return (
        (host in source if isinstance(source, list) else source in ("any", host))
        and demand.get("vlan", "any") in ("any", vlan)
        and first <= number < behind
    )


def is_in_order(chain, visited):
    at = iter(visited)
    return all(name in at for name in chain)


class Made(unittest.TestCase):
    """Policies of networks that are made by chance."""

    def case(self, seed):
        chance, net = some(seed, switches=4 + seed % 5, vlans=("untagged", 10, 20)[:1 + seed % 3])
        homes = homes_of(chance, net, PREFIXES[:3 + seed % 5])
        old = self.good(chance, net, homes)
        new = self.good(
            chance, net,
            {dst: chance.choice(net["hosts"]) if chance.random() < 0.2 else host for dst, host in homes.items()},
        )
        through = chance.sample([one["name"] for one in net["switches"]], seed % 4)
        return net, old, new, through

    @staticmethod
    def good(chance, net, homes):
        """A configuration of shortest paths under which no packet comes to a switch twice, with a rule for one VLAN and
        one for one port."""
        rules = routed(chance, net, homes, 1)["rules"]
        for number, host in enumerate(chance.sample(net["hosts"], 2)):
            switch, _, port = host.rpartition(":")
            rules.append(
                {
                    "switch": switch, "priority": 900 + number, "dst": chance.choice(PREFIXES), "out": "drop",
                    **({"in_port": int(port)} if number else {"vlan": net["vlans"][-1]}),
                }
            )
        return {"rules": rules}

    def made(self, net, old, new, through, *more):
        folder = Folder(self, topology=net, old=old, new=new)
        status, text, said = front(
            "policy", folder.path, *(word for name in through for word in ("--through", name)), *more
        )
        self.assertEqual(status, 0, said)
        policy = json.loads(text)
        folder.write("policy", policy)
        for word in ("old", "new"):
            self.assertEqual(
                asked("config", folder / "topology.json", folder / f"{word}.json", folder / "policy.json")[0], 0
            )
        return policy["demands"], said

    def test_what_arrives_under_both_must_arrive_and_nothing_else(self):
        counts = []
        for seed in SEEDS:
            with self.subTest(seed):
                net, old, new, through = self.case(seed)
                demands, said = self.made(net, old, new, through)
                starts = firsts(old, new, {"demands": demands})
                before, after = all_walks(net, old, starts), all_walks(net, new, starts)
                arriving = [name for name in before if before[name][1] == after[name][1] == "left"]
                for name in before:
                    mine = [one for one in demands if covers(one, *name)]
                    self.assertEqual(any(one["deliver"] for one in mine), name in arriving, name)
                    self.waypoints(mine, name, before[name], after[name], through)
                counts.append((len(demands), len(arriving)))
                classes = len(net["hosts"]) * len(net["vlans"]) * len(firsts(old, new))
                self.assertIn(f"of {classes} classes of packets must arrive; the others stay free", said)
        self.assertLess(sum(count for count, _ in counts), sum(count for _, count in counts))

    def waypoints(self, mine, name, before, after, through):
        """What both paths of a class meet is demanded of it, each switch, and in its order where both agree."""
        visited = [[stop.rpartition(":")[0] for stop in walk[0]] for walk in (before, after)]
        met = (
            [one for one in visited[0] if one in visited[1] and one in through]
            if before[1] == after[1] == "left"
            else []
        )
        self.assertEqual({switch for one in mine for switch in one.get("through", [])}, set(met), name)
        for one in mine:
            self.assertTrue(all(is_in_order(one.get("through", []), way) for way in visited))
        if is_in_order(met, visited[1]) and met:
            self.assertTrue(any(one.get("through") == met for one in mine), (name, met, mine))

    def test_changed_speaks_of_what_changes(self):
        for seed in range(50, 55):
            with self.subTest(seed):
                net, old, new, through = self.case(seed)
                demands, _ = self.made(net, old, new, through, "--changed")
                starts = firsts(old, new)
                before, after = all_walks(net, old, starts), all_walks(net, new, starts)
                for name in before:
                    if before[name][1] == after[name][1] == "left" and before[name][:3] != after[name][:3]:
                        self.assertTrue(any(covers(one, *name) for one in demands), name)
                for one in demands:
                    self.assertTrue(
                        any(covers(one, *name) and before[name][:3] != after[name][:3] for name in before)
                        or span(one["dst"])[0] not in starts,
                        one,
                    )

    def test_what_stays_free_is_listed(self):
        for seed in range(60, 64):
            with self.subTest(seed):
                net, old, new, through = self.case(seed)
                demands, said = self.made(net, old, new, through)
                starts = firsts(old, new)
                before, after = all_walks(net, old, starts), all_walks(net, new, starts)
                for words, ends in (
                    ("arrive under the old rules alone", (True, False)),
                    ("arrive under the new rules alone", (False, True)), ("arrive under neither", (False, False)),
                ):
                    count = sum((before[name][1] == "left", after[name][1] == "left") == ends for name in before)
                    self.assertIn(f"{count} class{'es' if count != 1 else ''} {words}:" if count else "", said)
                    self.assertEqual(words in said, count > 0)


def sites(count, **more):
    """So many sites with a prefix each, apart from one another, that a switch in the middle joins: the topology, and
    the rules."""
    names = [f"s{number}" for number in range(count)]
    net = {
        **more, "switches": [{"name": "c", "capacity": 99}, *({"name": name, "capacity": 99} for name in names)],
        "links": [[f"c:{at + 1}", f"{name}:2"] for at, name in enumerate(names)],
        "hosts": [f"{name}:1" for name in names], "vlans": ["untagged"], "tags": [],
    }
    rules = []
    for at, name in enumerate(names):
        dst = f"10.{2 * at}.0.0/16"
        rules += [{"switch": "c", "priority": 5, "dst": dst, "out": at + 1}] + [
            {"switch": one, "priority": 5, "dst": dst, "out": 1 if one == name else 2} for one in names
        ]
    return net, rules


class Lists(Made):
    """Policies of the same networks as wide ones: demands may have lists of host ports. What is demanded of each class
    is tested by the tests of the narrow ones, here without a judgement of the program, which may know no lists."""

    def made(self, net, old, new, through, *more):
        _, said = super().made(net, old, new, through, *more)
        both = Beside(*(self.paths(net, config) for config in (old, new)))
        wanted = policy.Wanted(both, frozenset(through), "--changed" in more)
        narrow, wide = (policy.demands_of(wanted, is_wide) for is_wide in (False, True))
        self.assertLessEqual(len(wide), len(narrow))
        for one in wide:
            if isinstance(one.get("from"), list):
                self.assertLess(1, len(one["from"]))
                self.assertEqual(len(one["from"]), len(set(one["from"])))
                for host in one["from"]:
                    self.assertTrue(self.is_needed(host, one, wanted), (host, one))
        return wide, said

    @staticmethod
    def is_needed(host, demand, wanted):
        """Whether a demand is wanted for some packets that enter at a host port."""
        first, behind = span(demand["dst"])
        vlans = [str(demand["vlan"])] if "vlan" in demand else wanted.both.vlans
        return any(
            wanted.both.firsts[atom] < behind and wanted.both.last(atom) >= first
            for vlan in vlans
            for atom in wanted.changed.get((host, vlan), ())
        )

    def paths(self, net, config):
        folder = Folder(self, topology=net, config=config)
        return Paths(asked("paths", folder / "topology.json", folder / "config.json")[1])

    def test_of_a_full_mesh_each_site_has_one_demand(self):
        net, rules = sites(24)
        paths = self.paths(net, {"rules": rules})
        wanted = policy.Wanted(Beside(paths, paths), frozenset(), False)
        demands = policy.demands_of(wanted, True)
        self.assertEqual(
            [{"from": [host for host in net["hosts"] if host != home], "dst": f"10.{2 * at}.0.0/16", "deliver": True}
             for at, home in enumerate(net["hosts"])],
            demands,
        )
        self.assertEqual(24 * 23, len(policy.demands_of(wanted, False)))

    def test_a_list_is_no_longer_than_a_demand_may_have(self):
        ports = [f"s:{number}" for number in range(1, 2500)]
        cover = [((port,), "any", (0, 8)) for port in ports]
        self.assertEqual(
            [(tuple(ports[:1024]), "any", (0, 8)), (tuple(ports[1024:2048]), "any", (0, 8)),
             (tuple(ports[2048:]), "any", (0, 8))],
            policy.put_together(cover),
        )

    def test_any_host_port_stands_alone(self):
        cover = [((port,), vlan, (0, 8)) for port, vlan in
                 (("any", "any"), ("s:1", "any"), ("s:2", "10"), ("s:3", "any"))]
        self.assertEqual(
            [(("any",), "any", (0, 8)), (("s:1", "s:3"), "any", (0, 8)), (("s:2",), "10", (0, 8))],
            policy.put_together(cover),
        )

    def test_words_for_a_list(self):
        ports = [f"s:{number}" for number in range(1, 10)]
        for source, words in (
            ({}, "from any host"), ({"from": "s:1"}, "from s:1"), ({"from": ports[:3]}, "from s:1, s:2, s:3"),
            ({"from": ports}, "from s:1, s:2, s:3, s:4, s:5, s:6 and 3 more"),
        ):
            self.assertEqual(f"{words}: 10.0.0.0/8", policy.demand_words({**source, "dst": "10.0.0.0/8"}))


class Wide(unittest.TestCase):
    """Whole runs over wide networks, whose policies the program judges."""

    def test_a_full_mesh(self):
        net, rules = sites(24, format=2)
        folder = Folder(
            self, topology=net, old={"rules": rules}, new={"rules": random.Random(1).sample(rules, len(rules))}
        )
        status, text, said = front("policy", folder.path)
        self.assertEqual(status, 0, said)
        self.assertEqual(len(json.loads(text)["demands"]), 24)
        self.assertIn("24 demands: 552 of", said)
        folder.write("policy", json.loads(text))
        status, text = asked("config", *(folder / f"{name}.json" for name in ("topology", "old", "policy")))
        self.assertEqual(status, 0, text)


class Words(unittest.TestCase):
    def test_the_square(self):
        status, text, said = planner("policy", EXAMPLES / "square", "--through", "s4")
        self.assertEqual(
            (status, text.splitlines()[2:5]),
            (
                0,
                [
                    '    {"from": "s1:1", "dst": "10.0.0.0/24", "through": ["s4"], "deliver": true},',
                    '    {"from": "s2:3", "dst": "10.0.0.0/24", "through": ["s4"], "deliver": true},',
                    '    {"from": "s3:4", "dst": "10.0.0.0/24", "through": ["s4"], "deliver": true}',
                ],
            ),
        )
        self.assertEqual(
            said.splitlines(),
            [
                "planner: note: 3 demands: 3 of 12 classes of packets must arrive; the others stay free",
                "    9 classes arrive under neither:",
                "      from s1:1, s2:3, s3:4: 0.0.0.0 to 9.255.255.255, 10.0.1.0 to 255.255.255.255",
                "      from s4:3: 0.0.0.0/0",
            ],
        )

    def test_orders_that_differ(self):
        """Two waypoints that the paths meet in different orders are demanded one by one."""
        status, text, _ = planner("policy", EXAMPLES / "detour", "--through", "x,y")
        self.assertEqual((status, [one["through"] for one in json.loads(text)["demands"]]), (0, [["y"], ["x"]]))

    def test_what_nobody_meets_is_said(self):
        status, _, said = planner("policy", EXAMPLES / "leaf-spine", "--through", "p1")
        self.assertEqual(status, 0)
        self.assertIn("warning: no class that arrives under both meets p1 under both: nothing is demanded of it", said)

    def test_all_hosts_and_vlans_are_one_demand(self):
        net = {
            "switches": [{"name": name, "capacity": 9} for name in ("a", "b")], "links": [["a:1", "b:1"]],
            "hosts": ["a:2", "a:3", "b:2", "b:3"], "vlans": ["untagged", 10], "tags": [],
        }
        ways = [
            {"switch": "a", "in_port": 1, "priority": 5, "dst": "10.0.0.0/23", "out": 2},
            {"switch": "a", "priority": 4, "dst": "10.0.0.0/23", "out": 1},
            {"switch": "b", "in_port": 2, "priority": 5, "dst": "10.0.0.0/23", "out": 3},
            {"switch": "b", "priority": 4, "dst": "10.0.0.0/23", "out": 2},
        ]
        folder = Folder(self, topology=net, old={"rules": ways}, new={"rules": ways})
        status, text, _ = front("policy", folder.path)
        self.assertEqual((status, json.loads(text)["demands"]), (0, [{"dst": "10.0.0.0/23", "deliver": True}]))

    def test_what_is_refused(self):
        square = EXAMPLES / "square"
        for words, status, said in (
            ([square, "--through", "s9"], 2, "the network has no such switch"),
            ([square / "topology.json"], 2, "the words are TOPO OLD NEW"),
        ):
            found = planner("policy", *words)
            self.assertEqual(found[:2], (status, ""), found)
            self.assertIn(said, found[2])

    def test_a_configuration_with_a_loop_is_refused(self):
        folder = Folder(
            self,
            **{name: json.loads((EXAMPLES / "square" / f"{name}.json").read_text()) for name in ("topology", "old")},
            new={
                "rules": [
                    {"switch": "s1", "priority": 1, "dst": "10.0.0.0/24", "out": 2},
                    {"switch": "s2", "priority": 1, "dst": "10.0.0.0/24", "out": 2},
                    {"switch": "s3", "priority": 1, "dst": "10.0.0.0/24", "out": 3},
                ]
            },
        )
        status, text, said = front("policy", folder.path)
        self.assertEqual((status, text), (1, ""))
        self.assertIn("new.json", said)

    def test_too_many_demands(self):
        """Of 24 sites with a prefix each, apart from one another, each pair takes a demand: more than a policy has."""
        net, rules = sites(24)
        folder = Folder(
            self, topology=net, old={"rules": rules}, new={"rules": random.Random(1).sample(rules, len(rules))}
        )
        status, text, said = front("policy", folder.path)
        self.assertEqual((status, text), (1, ""))
        self.assertIn("it takes 552 demands, and a policy has at most 512", said)
        self.assertIn('says `"format": 2` lets a demand have a list of host ports, and it takes 24 demands', said)
        status, text, _ = front("policy", folder.path, "--changed")
        self.assertEqual((status, json.loads(text)), (0, {"demands": []}))


if __name__ == "__main__":
    unittest.main()
