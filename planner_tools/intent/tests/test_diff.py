"""Tests of `planner diff`: what it says of each class beside a walk of its own, and its words. PLANNER names the
program."""
import json
import re
import unittest

from networks import EXAMPLES, Folder, all_walks, asked, changed, covering, firsts, front, planner, some, span, wild
from planner_tools.intent import diff  # noqa: E402

SEEDS = range(25)


def kind(old, new):
    """What becomes of a class, by its walks."""
    if old[:3] == new[:3]:
        return "same"
    if old[1] == new[1] == "left":
        return "way" if old[2] == new[2] else "elsewhere"
    return "lost" if old[1] == "left" else "gained" if new[1] == "left" else "stopped"


def parting(net, old, new, configs, host, vlan, number):
    """The switches at which two walks part, with the rule that counts there under both."""
    found = []
    for at, place in enumerate(old[0]):
        if place in new[0]:
            there, switch, port = new[0].index(place), *place.rpartition(":")[::2]
            nexts = [
                (walk[0][spot + 1 : spot + 2] or ([] if walk[1] == "again" else [walk[1:3]]))
                for walk, spot in ((old, at), (new, there))
            ]
            if all(nexts) and nexts[0] != nexts[1]:
                found.append(
                    (switch, *(covering(config["rules"], switch, int(port), vlan, number) for config in configs))
                )
    return found


class Classes(unittest.TestCase):
    """What is said of each class of networks that are made by chance."""

    def check(self, seed, policy=None):
        chance, net = some(seed, switches=3 + seed % 6, vlans=("untagged", 10, 20)[:1 + seed % 3])
        old = wild(chance, net)
        new = changed(chance, net, old)
        given = {"topology": net, "old": old, "new": new, **({"policy": policy} if policy is not None else {})}
        folder = Folder(self, **given)
        status, text, said = front("diff", folder.path, "--json")
        self.assertEqual((status, said), (0, ""))
        found, starts = json.loads(text), firsts(*list(given.values())[1:])
        walks = [all_walks(net, config, starts) for config in (old, new)]
        self.compare(net, (old, new), found, starts, walks)
        return folder, found, starts, walks

    def compare(self, net, configs, found, starts, walks):
        expected = {one: kind(walks[0][one], walks[1][one]) for one in walks[0]}
        self.assertEqual(found["classes"], len(expected))
        self.assertEqual(found["counts"], {name: list(expected.values()).count(name) for name in found["counts"]})
        told = {}
        for one in found["changes"]:
            mine = [(host, vlan, number) for host in one["from"] for vlan in one["vlans"] for number in starts
                    if any(span(dst)[0] <= number < span(dst)[1] for dst in one["prefixes"])]
            self.assertEqual(len(mine), one["classes"])
            rules = []
            for name in mine:
                self.assertNotIn(name, told)
                told[name] = one["kind"]
                for word, walk in zip(("old", "new"), walks):
                    stops, end, at, _ = walk[name]
                    self.assertEqual((one[word]["stops"][1:], one[word]["end"], one[word]["at"]), (stops[1:], end, at))
                rules += parting(net, walks[0][name], walks[1][name], configs, *name)
            self.assertTrue(rules)
            self.assertEqual(
                sorted({json.dumps(rule) for rule in rules}),
                sorted(json.dumps([rule["switch"], rule["old"], rule["new"]]) for rule in one["rules"]),
            )
        self.assertEqual({name: what for name, what in expected.items() if what != "same"}, told)

    def test_each_class_is_told_as_a_walk_has_it(self):
        for seed in SEEDS:
            with self.subTest(seed):
                self.check(seed)

    def test_with_a_policy_the_marks_are_those_of_paths(self):
        for seed in range(100, 108):
            with self.subTest(seed):
                policy = {
                    "demands": [{"dst": "10.0.0.0/16", "deliver": True}, {"dst": "192.168.7.0/25", "through": ["s2"]}]
                }
                folder, found, starts, walks = self.check(seed, policy)
                breaking = []
                for end, word in enumerate(("old", "new")):
                    status, text = asked(
                        "paths", folder / "topology.json", folder / f"{word}.json", folder / "policy.json"
                    )
                    self.assertIn(status, (0, 1))
                    marks = {tuple(line.split(": ")[0].split(" ")): line for line in text.splitlines()[:-1]}
                    for one in found["changes"]:
                        first = span(one["prefixes"][0])[0]
                        line = self.line_of(marks, one["from"][0], one["vlans"][0], first)
                        self.assertTrue(
                            line.endswith(f" {one['breaks'][word]}")
                            if one["breaks"][word]
                            else line.endswith((" good", " free")),
                            line,
                        )
                    breaking.append(sum(self.breaks(policy, walks[end][name], *name) for name in walks[end]))
                self.assertEqual(list(found["breaking"].values()), breaking)

    @staticmethod
    def line_of(marks, host, vlan, number):
        mine = {span(f"{name[2]}/32")[0]: line for name, line in marks.items() if name[:2] == (host, str(vlan))}
        return mine[max(first for first in mine if first <= number)]

    @staticmethod
    def breaks(policy, walk, host, vlan, number):
        if walk[1] == "again":
            return True
        visited = [stop.rpartition(":")[0] for stop in walk[0]]
        mine = [one for one in policy["demands"] if span(one["dst"])[0] <= number < span(one["dst"])[1]]
        return any(
            one.get("deliver")
            and walk[1] == "dropped"
            or walk[1] == "left"
            and not set(one.get("through", [])) <= set(visited)
            for one in mine
        )

    def test_the_number_of_classes_is_that_of_check(self):
        for name in ("square", "leaf-spine", "detour"):
            status, text, _ = planner("check", EXAMPLES / name)
            self.assertEqual(status, 0)
            found = json.loads(front("diff", EXAMPLES / name, "--json")[1])
            self.assertEqual(text.split(" ")[-2], str(found["classes"]))

    def test_the_rules_are_those_of_trace(self):
        """Where two paths part, `trace` names the same rules."""
        chance, net = some(7, switches=7)
        old = wild(chance, net)
        folder = Folder(self, topology=net, old=old, new=changed(chance, net, old))
        for one in json.loads(front("diff", folder.path, "--json")[1])["changes"]:
            host, vlan, address = one["from"][0], one["vlans"][0], one["prefixes"][0].partition("/")[0]
            lines = {
                word: asked("trace", folder / "topology.json", folder / f"{word}.json", host, vlan, address)[
                    1
                ].splitlines()
                for word in ("old", "new")
            }
            for rule in one["rules"]:
                for word in ("old", "new"):
                    self.assertTrue(
                        any(self.is_traced(line, rule["switch"], rule[word]) for line in lines[word])
                        or len(one["rules"]) > 1,
                        (lines[word], rule),
                    )

    @staticmethod
    def is_traced(line, switch, rule):
        if not line.startswith(f"{switch}:"):
            return False
        if rule is None:
            return line.endswith(": no rule")
        action = "drop" if rule["out"] == "drop" else f"port {rule['out']}"
        return line.endswith(
            f": {rule['priority']} {rule.get('in_port', 'any')} {rule.get('vlan', 'any')} {rule['dst']} -> {action}"
        )


class Words(unittest.TestCase):
    def test_the_square(self):
        status, text, said = planner("diff", EXAMPLES / "square")
        self.assertEqual((status, said), (0, ""))
        self.assertEqual(
            text.splitlines(),
            [
                "12 classes of packets: 0 arrive no more, 0 arrive now and didn't, 3 go another way, 9 as before",
                f"{EXAMPLES}/square/policy.json: 0 classes break it under the old rules, 0 under the new ones", "",
                "another way:", "  from s1:1: 10.0.0.0/24 (1 class)", "    was s1 s2 s3 s4, leaves at s4:3",
                "    now s1 s4, leaves at s4:3", "    s1: 10.0.0.0/24, priority 100, to s4 (port 4), was s2 (port 2)",
                "  from s2:3, s3:4: 10.0.0.0/24 (2 classes)", "    was .. s3 s4, leaves at s4:3",
                "    now .. s3 s1 s4, leaves at s4:3",
                "    s3: 10.0.0.0/24, priority 100, to s1 (port 3), was s4 (port 2)",
            ],
        )

    def test_what_is_sent_back_to_where_it_came_from_is_said_to_be(self):
        topology, old, new = (
            json.loads((EXAMPLES / "square" / f"{name}.json").read_text()) for name in ("topology", "old", "new")
        )
        next(rule for rule in new["rules"] if rule["switch"] == "s2")["out"] = 3
        folder = Folder(self, topology=topology, old=old, new=new)
        self.assertIn(
            "    now s2, dropped at s2 (its output is the port it came in by)\n", front("diff", folder.path)[1]
        )
        lost = [one for one in json.loads(front("diff", folder.path, "--json")[1])["changes"] if one["kind"] == "lost"]
        self.assertEqual(
            [({"stops": ["s2:3"], "end": "dropped", "at": "s2", "back": True}, ["s2:3"])],
            [(one["new"], one["from"]) for one in lost],
        )
        next(rule for rule in new["rules"] if rule["switch"] == "s2")["out"] = "drop"
        folder = Folder(self, topology=topology, old=old, new=new)
        self.assertIn("    now s2, dropped at s2\n", front("diff", folder.path)[1])

    def test_what_breaks_the_policy_is_said(self):
        folder = Folder(
            self,
            **{
                name: json.loads((EXAMPLES / "square" / f"{name}.json").read_text())
                for name in ("topology", "old", "policy")
            },
            new={
                "rules": [
                    {"switch": "s1", "priority": 100, "dst": "10.0.0.0/24", "out": 2},
                    {"switch": "s2", "priority": 100, "dst": "10.0.0.0/24", "out": 1},
                ]
            },
        )
        status, text, _ = planner("diff", folder.path)
        self.assertEqual(status, 0)
        self.assertIn("no more:", text)
        self.assertIn("dropped at s2 (its output is the port it came in by): it must arrive", text)
        self.assertIn("s2: 10.0.0.0/24, priority 100, to s1 (port 1), was s3 (port 2)", text)

    def test_neighbours_that_say_the_same_are_one(self):
        net = {
            "switches": [{"name": name, "capacity": 9} for name in ("a", "b")], "links": [["a:1", "b:1"]],
            "hosts": ["a:2", "a:3", "b:2"], "vlans": ["untagged", 10], "tags": [],
        }
        rules = [
            {"switch": name, "priority": 5, "dst": dst, "out": out}
            for dst in ("10.0.0.0/24", "10.0.1.0/24", "10.0.3.0/24")
            for name, out in (("a", 1), ("b", 2))
        ]
        folder = Folder(
            self, topology=net, old={"rules": rules},
            new={"rules": [{**rule, "out": "drop"} if rule["switch"] == "b" else rule for rule in rules]},
        )
        status, text, _ = planner("diff", folder / "topology.json", folder / "old.json", folder / "new.json")
        self.assertEqual(status, 0)
        self.assertEqual(
            text.splitlines()[0],
            "36 classes of packets: 12 arrive no more, 0 arrive now and didn't, 0 go another way, 24 as before",
        )
        self.assertEqual(
            text.splitlines()[3:7],
            [
                "  from a:2, a:3, any VLAN: 10.0.0.0/23, 10.0.3.0/24 (12 classes)", "    was a b, leaves at b:2",
                "    now a b, dropped at b", "    b: 10.0.0.0/24, priority 5, is dropped, was the host at b:2",
            ],
        )

    def test_a_summary_is_short(self):
        """For the question of `update`: the counts, some of what changes, and how many more there are."""
        files = [EXAMPLES / "leaf-spine" / f"{name}.json" for name in ("topology", "old", "new", "policy")]
        whole, some_lines = diff.summary(*map(str, files), most=1000), diff.summary(*map(str, files))
        self.assertEqual("\n".join(whole) + "\n", planner("diff", *files)[1])
        self.assertEqual(some_lines[:-1], whole[:len(some_lines) - 1])
        self.assertLessEqual(len(some_lines), diff.SUMMARY + 1)
        paragraphs = sum(line.startswith("  from ") for line in whole) - sum(
            line.startswith("  from ") for line in some_lines
        )
        self.assertEqual(some_lines[-1], f"and {paragraphs} more such paragraphs")
        self.assertEqual(diff.summary(*map(str, files[:3]), "nowhere"), [])

    def test_paths_with_several_beginnings_are_told_from_where_they_part(self):
        """In words as with --json: what the lines say of each class adds up."""
        for seed in range(200, 206):
            with self.subTest(seed):
                chance, net = some(seed, switches=8)
                old = wild(chance, net)
                folder = Folder(self, topology=net, old=old, new=changed(chance, net, old))
                text, found = front("diff", folder.path)[1], json.loads(front("diff", folder.path, "--json")[1])
                counts = [int(count) for count in re.findall(r"\((\d+) class(?:es)?\)$", text, re.M)]
                self.assertEqual(sum(counts), found["classes"] - found["counts"]["same"])
                paths = {
                    tuple(stop.rpartition(":")[0] for stop in one[word]["stops"])
                    for one in found["changes"]
                    for word in ("old", "new")
                }
                for told in re.findall(r"^    (?:was|now) ([^,]*),", text, re.M):
                    names = told.removeprefix(".. ").split(" ")
                    self.assertTrue(
                        any(
                            list(path[-len(names) :]) == names and (len(path) == len(names) or told.startswith(".."))
                            for path in paths
                        ),
                        told,
                    )

    def test_nothing_differs(self):
        folder = EXAMPLES / "square"
        status, text, _ = planner("diff", folder / "topology.json", folder / "old.json", folder / "old.json")
        self.assertEqual(
            (status, text),
            (0, "12 classes of packets: 0 arrive no more, 0 arrive now and didn't, 0 go another way, 12 as before\n"),
        )

    def test_what_is_refused(self):
        square = EXAMPLES / "square"
        for words, status, said in (
            ([square / "topology.json"], 2, "the words are TOPO OLD NEW [POLICY]"),
            ([square / "topology.json", square / "old.json", square / "policy.json"], 3, "policy.json"),
            ([square / "topology.json", square / "old.json", square / "nowhere.json"], 6, "nowhere.json"),
        ):
            found = planner("diff", *words)
            self.assertEqual(found[:2], (status, ""), found)
            self.assertIn(said, found[2])

    def test_the_standard_input_and_a_file_for_the_answer(self):
        square = EXAMPLES / "square"
        folder = Folder(self)
        status, text, said = planner(
            "diff", square, "old.json", "-", "-o", folder / "answer", given=(square / "new.json").read_text()
        )
        self.assertEqual((status, text, said), (0, "", ""))
        self.assertIn("3 go another way", (folder / "answer").read_text())


if __name__ == "__main__":
    unittest.main()
