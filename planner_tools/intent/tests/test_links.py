"""Tests of `planner links`: what uses each link and switch beside a walk of all classes, and its words. PLANNER names
the program."""
import json
import unittest

from networks import EXAMPLES, Folder, all_walks, ends_of, firsts, front, planner, some, span, wild

SEEDS = range(20)


def used(net, walks):
    """The classes of each link in each direction, by the end where packets leave a switch, and of each switch."""
    links, switches, ends = {}, {}, ends_of(net)
    for name, (stops, end, _, _) in walks.items():
        for place in stops[1:]:
            links.setdefault(ends[place], []).append(name)
        for switch in {place.rpartition(":")[0] for place in stops} if len(stops) > 1 or end == "left" else ():
            switches.setdefault(switch, []).append(name)
    return links, switches


class Loads(unittest.TestCase):
    """What is said of networks that are made by chance."""

    def alike(self, use, names, starts):
        """A use has just these classes and their addresses."""
        self.assertEqual(use["classes"], len(names))
        covered = {number for number in starts for dst in use["prefixes"] if span(dst)[0] <= number < span(dst)[1]}
        self.assertEqual(covered, {name[2] for name in names})
        spans = sorted(map(span, use["prefixes"]))
        self.assertTrue(all(one[1] <= other[0] for one, other in zip(spans, spans[1:])))
        self.assertEqual(sum(last - first for first, last in spans),
                         sum(last - first for first, last in zip(starts, [*starts[1:], 1 << 32]) if first in covered))

    def check(self, seed):
        chance, net = some(seed, switches=3 + seed % 6)
        config = wild(chance, net)
        folder, starts = Folder(self, topology=net, old=config), firsts(config)
        links, switches = used(net, all_walks(net, config, starts))
        status, text, said = front("links", folder.path, "--json")
        self.assertEqual((status, said), (0, ""))
        found = json.loads(text)
        self.assertEqual(found["classes"], len(net["hosts"]) * len(net["vlans"]) * len(starts))
        self.assertEqual([one["link"] for one in found["links"]], net["links"])
        for link in found["links"]:
            self.assertEqual(
                [[one["from"], one["to"]] for one in link["directions"]], [link["link"], link["link"][::-1]]
            )
            for one in link["directions"]:
                self.alike(one, links.get(one["from"], []), starts)
        self.assertEqual([one["switch"] for one in found["switches"]], [one["name"] for one in net["switches"]])
        for one in found["switches"]:
            self.alike(one, switches.get(one["switch"], []), starts)
        return folder, net, links, switches

    def test_each_link_and_switch_as_the_walks_have_it(self):
        for seed in SEEDS:
            with self.subTest(seed):
                self.check(seed)

    def test_what_is_asked_for_is_empty_where_no_walk_uses_it(self):
        folder, net, links, switches = self.check(3)
        answers = set()
        for link in net["links"]:
            is_empty = not any(end in links for end in link)
            for word in link:
                status, text, _ = front("links", folder.path, "--empty", word)
                self.assertEqual((status, text.startswith("empty: ")), (0, True) if is_empty else (1, False))
                answers.add(status)
        for one in net["switches"]:
            status, _, _ = front("links", folder.path, "--empty", one["name"])
            self.assertEqual(status, 1 if one["name"] in switches else 0)
        self.assertEqual(answers, {0, 1})


class Words(unittest.TestCase):
    def test_the_square(self):
        status, text, said = planner("links", EXAMPLES / "square")
        self.assertEqual((status, said), (0, ""))
        self.assertEqual(
            text.splitlines(),
            [
                "12 classes of packets", "", "links", "  s1:2 to s2:1: 1 class, 10.0.0.0/24",
                "  s2:2 to s3:1: 2 classes, 10.0.0.0/24", "  s3:2 to s4:1: 3 classes, 10.0.0.0/24",
                "  s1:3 - s3:3: empty", "  s1:4 - s4:2: empty", "", "switches", "  s1: 1 class, 10.0.0.0/24",
                "  s2: 2 classes, 10.0.0.0/24", "  s3: 3 classes, 10.0.0.0/24", "  s4: 3 classes, 10.0.0.0/24",
            ],
        )

    def test_several_are_asked_for(self):
        square = EXAMPLES / "square"
        self.assertEqual(
            planner("links", square, "--empty", "s1-s3", "--empty", "s4:2"),
            (0, "empty: s1:3 - s3:3\nempty: s1:4 - s4:2\n", ""),
        )
        self.assertEqual(
            planner("links", "--empty", "s4-s1", square, "new.json"),
            (1, "used: s1:4 - s4:2\n  s1:4 to s4:2: 3 classes, 10.0.0.0/24\n", ""),
        )
        status, text, _ = planner("links", square, "--empty", "s1:3", "--empty", "s2", "--json")
        self.assertEqual((status, [one["empty"] for one in json.loads(text)["answer"]]), (1, [True, False]))

    def test_what_is_refused(self):
        square = EXAMPLES / "square"
        for words, status, said in (
            (["--empty", "s1-s5"], 2, "the network has neither a link nor a switch s1-s5"),
            (["--empty", "s1:9"], 2, "s1:9"), (["new.json", "old.json"], 2, "there are more"),
        ):
            found = planner("links", square, *words)
            self.assertEqual(found[:2], (status, ""), found)
            self.assertIn(said, found[2])

    def test_switches_with_dashes_in_their_names(self):
        """`a-b-c` may be a link of a-b and c, or of a and b-c."""
        net = {
            "switches": [{"name": name, "capacity": 9} for name in ("a", "b-c", "a-b", "c")],
            "links": [["a:1", "b-c:1"], ["a-b:1", "c:1"], ["a:2", "c:2"]], "hosts": [], "vlans": ["untagged"],
            "tags": [],
        }
        folder = Folder(self, topology=net, old={"rules": []})
        self.assertEqual(front("links", folder.path, "--empty", "a-c")[:2], (0, "empty: a:2 - c:2\n"))
        status, text, said = front("links", folder.path, "--empty", "a-b-c")
        self.assertEqual((status, text), (2, ""))
        self.assertIn("name one of their ends: a:1, b-c:1, a-b:1, c:1", said)


if __name__ == "__main__":
    unittest.main()
