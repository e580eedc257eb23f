"""Where the switches are drawn: with Graphviz and without, also in networks of odd form."""
import math
import os
import sys
import unittest
import unittest.mock

import networks
from common import Pages, PagesInBrowser, planner

sys.path.insert(0, networks.ROOT)
from planner_tools.page import layout  # noqa: E402


def setUpModule():
    planner()


# Links, each with two switches, and switches of host ports, by the number of switches.
FORMS = {
    "one switch": (1, [], [0]),
    "a link of a switch to itself": (2, [(0, 0), (0, 1)], [1]),
    "two links between two switches": (2, [(0, 1), (0, 1)], [0, 0]),
    "no links": (3, [], [0, 1, 2]),
    "no host ports": (3, [(0, 1), (1, 2)], []),
    "two parts": (6, [(0, 1), (1, 2), (3, 4), (4, 5), (5, 3)], [0, 3]),
    "a long line": (40, [(i, i + 1) for i in range(39)], range(40)),
    "a star": (30, [(0, i) for i in range(1, 30)], range(30)),
    "all linked": (12, [(i, j) for i in range(12) for j in range(i)], range(12)),
}


def topology(count, links, hosts):
    ports = [0] * count

    def port(switch):
        ports[switch] += 1
        return f"n{switch}:{ports[switch]}"

    return {
        "switches": [{"name": f"n{i}", "capacity": 8} for i in range(count)],
        "links": [[port(one), port(other)] for one, other in links], "hosts": [port(switch) for switch in hosts],
        "vlans": ["untagged"], "tags": [],
    }


class Layouts(unittest.TestCase):
    def check(self, count, links, hosts, graphviz):
        made = layout.layout(
            count, [[one, 1, other, 1] for one, other in links], [[host, 1] for host in hosts], graphviz
        )
        self.assertEqual((count, len(hosts)), (len(made["switches"]), len(made["hosts"])))
        for x, y in made["switches"] + made["hosts"]:
            self.assertTrue(0 <= x <= made["width"] and 0 <= y <= made["height"], (x, y))
        apart = min(
            (math.dist(one, other) for at, one in enumerate(made["switches"]) for other in made["switches"][:at]),
            default=99,
        )
        self.assertGreater(apart, 2 * made["size"])

    def test_switches_stand_in_the_picture_and_apart(self):
        for name, form in FORMS.items():
            for graphviz in (True, False):
                with self.subTest(name, graphviz=graphviz):
                    self.check(*form, graphviz)

    def test_random_networks(self):
        for seed in range(6):
            update = networks.some_update(seed)
            number = {it["name"]: at for at, it in enumerate(update.topology["switches"])}
            links = [tuple(number[end.split(":")[0]] for end in link) for link in update.topology["links"]]
            for graphviz in (True, False):
                with self.subTest(seed=seed, graphviz=graphviz):
                    self.check(len(number), links, range(len(number)), graphviz)

    def test_without_graphviz_the_layout_is_our_own(self):
        with unittest.mock.patch("planner_tools.page.layout.subprocess.run", side_effect=FileNotFoundError):
            self.assertIsNone(layout.by_graphviz(2, [(0, 1)]))
            self.check(2, [(0, 1)], [0], True)


class OddNetworks(PagesInBrowser):
    def test_they_are_drawn_without_a_fault(self):
        for name, form in FORMS.items():
            with self.subTest(name):
                empty = {"rules": []}
                files = self.files(networks.Update(topology(*form), empty, empty, {"demands": []}))
                self.open(*files, self.plan(files), "--layout", "own")
                self.assertEqual([], self.tab.console)
                self.assertEqual(form[0], len(self.text("#nodes .switch")))
                self.assertEqual(
                    0, self.tab.value("document.querySelector('#picture').innerHTML.includes('NaN') ? 1 : 0")
                )


class BadFiles(Pages):
    def test_what_the_planner_says_of_a_bad_file_is_said(self):
        files = self.files(networks.example("square"))
        plan = networks.write(self.folder, "plan.json", "[]")
        self.assertIn("bad plan: 2 Shape top at 0", self.page(*files, plan, status=3)[1])

    def test_a_file_that_is_not_there(self):
        files = self.files(networks.example("square"))
        self.page(*files, os.path.join(self.folder, "none.json"), status=6)

    def test_a_planner_that_is_not_there(self):
        files = self.files(networks.example("square"))
        said = self.page(
            *files, os.path.join(networks.ROOT, "examples/square/plan.json"), "--planner",
            os.path.join(self.folder, "none"), status=125,
        )[1]
        self.assertIn("the planner can't be run", said)


if __name__ == "__main__":
    unittest.main()
