"""Tests of `planner route`: its drafts beside distances and walks of their own, and what it keeps. PLANNER names the
program."""
import json
import unittest

from networks import EXAMPLES, Folder, all_walks, asked, firsts, front, homes_of, planner, routed, some, span, steps_to

SEEDS = range(20)
PREFIXES = ["10.0.0.0/24", "10.0.1.0/24", "10.0.2.0/24", "10.0.4.0/22", "10.0.0.0/16", "0.0.0.0/0"]
KEPT = "192.168.7.0/24"


def name_of(end):
    return end.rpartition(":")[0]


class Case:
    """A network, where its prefixes leave, weights, what is drained, and the rules now."""

    def __init__(self, seed):
        self.chance, self.net = some(seed, switches=4 + seed % 6, more=4)
        self.homes = homes_of(self.chance, self.net, PREFIXES[:2 + seed % 5])
        self.weights = {tuple(link): self.chance.choice((1, 1, 2, 2.5)) for link in self.net["links"]}
        links = self.chance.sample(self.net["links"], seed % 3)
        self.switches = self.chance.sample([one["name"] for one in self.net["switches"]], 1) if seed % 4 == 3 else []
        self.links = [link for link in links if name_of(link[0]) != name_of(link[1])]
        self.without = [*(end for link in self.links for end in link), *self.switches]
        self.old = routed(self.chance, self.net, self.homes, 0.9)
        self.old["rules"].append({"switch": name_of(self.net["hosts"][0]), "priority": 7, "dst": KEPT, "out": "drop"})
        switch, _, port = self.net["hosts"][1].rpartition(":")
        self.blocked = {"switch": switch, "priority": 115, "in_port": int(port), "dst": "10.0.1.7/32", "out": "drop"}

    def far(self, dst):
        """How far each switch is from where a prefix leaves, over what isn't drained."""
        home = name_of(self.homes[dst])
        return {} if home in self.switches else steps_to(self.net, home, self.weights, self.without)

    def words(self, folder):
        listed = "# where prefixes leave\n\n" + "".join(f"{dst}  {host}\n" for dst, host in self.homes.items())
        (folder / "prefixes").write_text(listed)
        (folder / "weights").write_text(
            "".join(f"{link[1]} {link[0]} {weight}\n" for link, weight in self.weights.items())
        )
        drained = [self.chance.choice(link) for link in self.links] + self.switches
        return [folder.path, "--weights", "weights", *(word for one in drained for word in ("--drain", one))]


# What is said where the rules that stay leave no priority for a new one.
NO_ROOM = "no priority is left"


class Drafts(unittest.TestCase):
    def draft(self, case, *more):
        folder = Folder(self, topology=case.net, old=case.old)
        status, text, said = front("route", *case.words(folder), *more)
        if status == 1 or status == 3 and NO_ROOM in said:
            # rules that stay and new ones send packets in circles, or leave no priority between them: the text is none
            return None, said, folder
        self.assertEqual(status, 0, said)
        folder.write("new", json.loads(text))
        self.assertEqual(asked("config", folder / "topology.json", folder / "new.json")[0], 0)
        return json.loads(text), said, folder

    def test_each_host_reaches_each_prefix_on_a_shortest_path(self):
        for seed in SEEDS:
            with self.subTest(seed):
                case = Case(seed)
                new, said, _ = self.draft(case)
                self.reaches(case, new)
                self.assertEqual(
                    "there is no way from" in said,
                    any(name_of(host) not in case.far(dst) for dst in case.homes for host in case.net["hosts"]),
                )

    def reaches(self, case, new):
        """Each walk leaves where its longest prefix does, is as long as the distance, and uses nothing that is
        drained."""
        length = {end: weight for link, weight in case.weights.items() for end in link}
        for (host, _, number), (stops, end, at, _) in all_walks(
            case.net, new, firsts({"demands": [{"dst": dst} for dst in case.homes]})
        ).items():
            mine = max(
                (dst for dst in case.homes if span(dst)[0] <= number < span(dst)[1]),
                key=lambda dst: int(dst.rpartition("/")[2]), default=None,
            )
            far = case.far(mine) if mine is not None else {}
            self.assertFalse({*stops[1:]} & {*case.without} or {*map(name_of, stops[1:])} & {*case.switches})
            if name_of(host) in far and case.homes[mine] != host:
                self.assertEqual((end, at), ("left", case.homes[mine]))
                self.assertEqual(sum(length[stop] for stop in stops[1:]), far[name_of(host)])
            elif name_of(host) not in far and not any(
                name_of(host) in case.far(dst) for dst in case.homes if span(dst)[0] <= number < span(dst)[1]
            ):
                self.assertEqual(end, "dropped")

    def test_what_can_stay_stays(self):
        counts = [0, 0]
        for seed in SEEDS:
            with self.subTest(seed):
                case = Case(seed)
                case.old["rules"] += (
                    [case.blocked] if not any(rule["priority"] == 115 for rule in case.old["rules"]) else []
                )
                new, said, _ = self.draft(case, "--from", "old.json")
                if new is None:
                    self.assertTrue("a second time" in said or NO_ROOM in said, said)
                    continue
                self.keeps(case, new, counts)
        self.assertTrue(all(counts), counts)

    def keeps(self, case, new, counts):
        hosts = {name_of(host) for host in case.net["hosts"]}
        found = {(rule["switch"], rule["dst"]): rule for rule in new["rules"]}
        for rule in case.old["rules"]:
            now, dst = found.get((rule["switch"], rule["dst"])), rule["dst"]
            far = case.far(dst) if dst in case.homes else None
            if far is None:
                self.assertEqual(now, rule)
            elif rule["switch"] not in far:
                self.assertEqual(now, None if rule["switch"] in hosts else rule)
            elif self.is_shortest(case, rule, far):
                counts[0] += 1
                self.assertEqual(now, rule)
            else:
                counts[1] += now != rule
                self.assertEqual(now["priority"], rule["priority"])

    @staticmethod
    def is_shortest(case, rule, far):
        """Whether a rule sends on a shortest path."""
        out = f"{rule['switch']}:{rule['out']}"
        if out == case.homes[rule["dst"]]:
            return True
        return any(
            one == out
            and name_of(other) in far
            and out not in case.without
            and other not in case.without
            and far[name_of(other)] + weight == far[rule["switch"]]
            for link, weight in case.weights.items()
            for one, other in (link, link[::-1])
        )

    def test_what_is_drained_is_empty(self):
        """`links` says so of the draft, for each link and switch that was drained."""
        for seed in (2, 5, 7, 11):
            case = Case(seed)
            new, _, folder = self.draft(case)
            self.assertIsNotNone(new)
            words = [word for one in [link[0] for link in case.links] + case.switches for word in ("--empty", one)]
            self.assertEqual(front("links", folder.path, "new.json", *words)[0], 0)


class Words(unittest.TestCase):
    def square(self, prefixes, *more, **files):
        folder = Folder(
            self,
            **{name: json.loads((EXAMPLES / "square" / f"{name}.json").read_text()) for name in ("topology", "old")},
            **files,
        )
        (folder / "prefixes").write_text(prefixes)
        return planner("route", folder.path, *more)

    def test_a_link_of_the_square_is_drained(self):
        status, text, said = self.square("10.0.0.0/24 s4:3\n", "--drain", "s1-s4", "--from", "old.json")
        self.assertEqual((status, text), (0, """{
  "rules": [
    {"switch": "s1", "priority": 100, "dst": "10.0.0.0/24", "out": 3},
    {"switch": "s2", "priority": 100, "dst": "10.0.0.0/24", "out": 2},
    {"switch": "s3", "priority": 100, "dst": "10.0.0.0/24", "out": 2},
    {"switch": "s4", "priority": 100, "dst": "10.0.0.0/24", "out": 3}
  ]
}
"""))
        self.assertEqual(said, "planner: note: 4 rules: 0 new, 1 sent elsewhere, 0 taken away\n")

    def test_the_nearest_of_several_host_ports(self):
        status, text, _ = self.square("10.0.0.0/24 s4:3 s2:3\n")
        outs = {rule["switch"]: rule["out"] for rule in json.loads(text)["rules"]}
        self.assertEqual((status, outs["s2"], outs["s4"]), (0, 3, 3))

    def test_priorities(self):
        """A greater prefix has a lesser priority, and those of the rules now are taken over."""
        status, text, _ = self.square(
            "10.0.0.0/16 s1:1\n0.0.0.0/0 s2:3\n10.0.0.0/24 s4:3\n10.9.0.0/16 s4:3", "--from", "old.json"
        )
        found = {rule["dst"]: rule["priority"] for rule in json.loads(text)["rules"]}
        self.assertEqual(
            (status, found), (0, {"10.0.0.0/24": 100, "0.0.0.0/0": 50, "10.0.0.0/16": 75, "10.9.0.0/16": 100})
        )
        status, text, _ = self.square("0.0.0.0/0 s2:3\n10.0.0.0/16 s4:3\n10.0.0.0/24 s1:1\n10.9.0.0/16 s4:3")
        self.assertEqual((status, {rule["dst"]: rule["priority"] for rule in json.loads(text)["rules"]}),
                         (0, {"0.0.0.0/0": 100, "10.0.0.0/16": 110, "10.0.0.0/24": 120, "10.9.0.0/16": 110}))

    def test_a_rule_that_stays_and_still_sends_over_what_is_drained(self):
        old = {
            "rules": [
                {"switch": "s1", "priority": 100, "dst": "10.0.0.0/24", "out": 2},
                {"switch": "s1", "priority": 200, "dst": "10.0.0.9/32", "out": 2},
                {"switch": "s2", "priority": 100, "dst": "10.0.0.0/24", "out": 2},
            ]
        }
        folder = Folder(self, old=old, topology=json.loads((EXAMPLES / "square" / "topology.json").read_text()))
        (folder / "prefixes").write_text("10.0.0.0/24 s4:3\n")
        status, text, said = planner("route", folder.path, "--drain", "s1-s2", "--from", "old.json")
        self.assertEqual(
            (status, [rule for rule in json.loads(text)["rules"] if rule["dst"] == "10.0.0.9/32"]),
            (0, old["rules"][1:2]),
        )
        self.assertIn("warning: s1:2 to s2:1 is still used, by rules that stay as they are: 1 class, 10.0.0.9/32", said)

    def test_quiet_and_strict(self):
        """A note is no warning: it isn't said with --quiet, and doesn't end it with --strict. A warning does."""
        for words, status, is_written, said in (
            (("--quiet",), 0, True, ""), (("--strict",), 0, True, "planner: note: 4 rules\n"),
            (("--drain", "s4", "--quiet"), 0, True, ""),
            (
                ("--drain", "s4", "--strict", "--quiet"), 3, False,
                "planner: warning: there is no way from s1, s2, s3, s4 to 10.0.0.0/24",
            ),
        ):
            with self.subTest(words):
                found = self.square("10.0.0.0/24 s4:3\n", *words)
                self.assertEqual((found[0], bool(found[1])), (status, is_written), found)
                self.assertTrue(found[2].startswith(said) and bool(found[2]) == bool(said), found)

    def test_what_is_refused(self):
        for prefixes, more, status, words in (
            (
                "10.0.0.1/24 s4:3\n", (), 3,
                (
                    "prefixes, line 1: 10.0.0.1/24 is no prefix: its address has bits behind the first 24; did you mean"
                    " `10.0.0.0/24`?"
                ),
            ),
            ("# one\n10.0.0.0/24\n", (), 3, "line 2: the host port where 10.0.0.0/24 leaves is missing"),
            ("10.0.0.0/24 s4:4\n", (), 3, "the network has no host port s4:4"),
            ("10.0.0.0/24 s4:3\n10.0.0.0/24 s1:1\n", (), 3, "line 2: 10.0.0.0/24 stands twice"),
            ("10.0.0.0/24 s4:3\n", ("--drain", "s9"), 2, "neither a link nor a switch s9"),
            (
                "10.0.0.0/24 s4:3\n", ("--weights", "nowhere"), 6,
                "nowhere: No such file or directory\n    right: lines as `s1:2 s2:1 40.5`",
            ),
            ("10.0.0.0/24 s4:3\n", ("--weights", "prefixes"), 3, "it isn't the two ends of a link, and its weight"),
            ("10.0.0.0/24 s4:3\n", ("--from", "topology.json"), 3, "topology.json"),
        ):
            with self.subTest(words):
                found = self.square(prefixes, *more)
                self.assertEqual(found[:2], (status, ""), found)
                self.assertIn(words, found[2])

    def test_weights_that_lack_a_link(self):
        folder = Folder(self, topology=json.loads((EXAMPLES / "square" / "topology.json").read_text()))
        (folder / "prefixes").write_text("10.0.0.0/24 s4:3\n")
        (folder / "weights").write_text("s1:4 s4:2 9.5\ns1:3 s3:3 1\ns3:2 s4:1 0.001\n")
        status, text, said = planner("route", folder.path, "--weights", "weights")
        self.assertEqual((status, {rule["switch"]: rule["out"] for rule in json.loads(text)["rules"]}["s1"]), (0, 3))
        self.assertIn(
            "weights has no weight for 2 links, which count as its heaviest one: s1:2 - s2:1, s2:2 - s3:1", said
        )


if __name__ == "__main__":
    unittest.main()
