"""What the page says of plans that the planner refuses: a sentence for each reason, and where it finds one a walk that
the policy forbids."""
import copy
import os
import re
import time
import unittest

import networks
from common import PagesInBrowser

P = "10.0.0.0/24"
NUMBERS = {"square": [3, 2, 1, 0], "detour": [4, 3, 2, 1, 0]}


def rule(switch, out, priority=100, **more):
    return {"switch": switch, "priority": priority, "dst": P, "out": out, **more}


def change(do, *given, **more):
    return {"do": do, **rule(*given, **more)}


def ordered(name, rounds, classes=12, befores=(), of=()):
    """Returns a plan in which each class has the same numbers, and one class before sets."""
    picks = [[1, it, 0, list(range(len(befores))) if it in of else []] for it in range(classes)]
    return {
        "format": 1, "kind": "ordered", "rounds": rounds, "numberings": [NUMBERS[name]], "befores": list(befores),
        "picks": picks,
    }


def two_phase(rounds, picks):
    return {
        "format": 1, "kind": "two-phase", "rounds": rounds, "labels": [[["untagged", "old", "untagged"]]],
        "picks": picks, "tried": [],
    }


class Reasons(PagesInBrowser):
    def refused(self, line, update, plan):
        """Opens the page of a plan that is refused with such a line, and returns the sentence for it."""
        files = self.files(update) + [networks.write(self.folder, "plan.json", plan)]
        status, text = self.ask("check", *files)
        self.assertEqual((1, f"refused: {line}\n"), (status, text))
        self.open(*files)
        self.assertEqual("refused", self.tab.value("document.querySelector('header').className"))
        self.assertTrue(self.seen("#verdict").startswith(text.strip()))
        sentence = self.seen("#sentence")
        self.assertRegex(sentence, r"^[A-Z][^{}]+\.$")
        return sentence

    def bad(self):
        """Returns the first sentence on the walk that the page found, or None."""
        return self.seen("#bad p") if self.tab.value("!document.getElementById('bad').hidden") else None

    def square(self, **parts):
        return networks.example("square")._replace(**parts)

    def detour(self, **parts):
        return networks.example("detour")._replace(**parts)

    def test_an_end_that_drops(self):
        update = self.square(policy={"demands": [{"from": "s4:3", "dst": P, "deliver": True}]})
        sentence = self.refused(
            "1 EndBreaks old at s4:3 untagged 10.0.0.0 Dropped s4", update, ordered("square", [], 0)
        )
        self.assertIn("is dropped by s4", sentence)
        self.assertEqual("before the update", self.seen("#position"))
        self.assertIn("can be dropped by s4, though it must arrive: s4.", self.bad())

    def test_an_end_that_loops(self):
        new = copy.deepcopy(networks.example("square").new)
        new["rules"][3]["out"] = 1
        sentence = self.refused(
            "1 EndBreaks new at s1:1 untagged 10.0.0.0 Loop s1", self.square(new=new), ordered("square", [], 0)
        )
        self.assertIn("comes to s1 a second time", sentence)
        self.assertEqual("after the update", self.seen("#position"))

    def test_an_end_that_misses_a_waypoint(self):
        policy = networks.read(os.path.join(networks.ROOT, "examples/detour/policy-two-waypoints.json"))
        sentence = self.refused(
            "1 EndBreaks new at s:1 untagged 10.0.0.0 Missed y", self.detour(policy=policy), ordered("detour", [], 0)
        )
        self.assertIn("without having met waypoint y", sentence)

    def test_a_change_that_does_not_fit(self):
        sentence = self.refused(
            "2 BadChange round 1 switch s2 change 1", self.square(),
            ordered("square", [[change("replace", "s1", 4), change("delete", "s2", 1)]]),
        )
        self.assertIn("doesn't fit the table of s2", sentence)

    def test_two_rules_of_equal_priority(self):
        plan = ordered("square", [[change("insert", "s1", 2, dst="10.0.0.0/25")]])
        self.assertIn(
            "two entries of equal priority", self.refused("3 Ambiguous round 1 switch s1", self.square(), plan)
        )

    def test_a_table_that_is_too_small(self):
        topology = copy.deepcopy(networks.example("square").topology)
        topology["switches"][0]["capacity"] = 1
        plan = ordered("square", [[change("insert", "s1", 2, 200)]])
        self.assertIn(
            "hold 2 entries at once",
            self.refused("4 OverCapacity round 1 switch s1 need 2", self.square(topology=topology), plan),
        )

    def test_a_rewrite(self):
        plan = ordered("square", [[change("replace", "s1", 2, set=3000)]])
        self.assertIn("sets or strips", self.refused("5 Rewrites round 1 switch s1", self.square(), plan))

    def test_no_numbers(self):
        plan = ordered("square", [[change("replace", "s1", 4)]], 0)
        self.assertIn("no numbers", self.refused("6 NoNumbering round 1 at s1:1 untagged 0.0.0.0", self.square(), plan))

    def test_both_changes_of_the_square_network_at_once(self):
        plan = networks.read(os.path.join(networks.ROOT, "examples/square/plan-at-once.json"))
        sentence = self.refused("7 NotLower round 1 at s1:1 untagged 10.0.0.0 switch s3", self.square(), plan)
        self.assertIn("may go from s3 back to a switch that it has visited", sentence)
        self.assertEqual(
            "A packet that enters at s1:1 untagged for 10.0.0.0 can come back to s1, where it has been: s1 s2 s3 s1.",
            self.bad(),
        )
        self.assertEqual(
            [
                "s1, not changed yet, sends it to s2.", "s2 sends it to s3.", "s3, changed already, sends it to s1.",
                "The packet is at s1 again.",
            ],
            self.text("#bad li"),
        )
        self.assertEqual(3, self.tab.value("document.querySelectorAll('#walk .bad').length"))
        self.assertEqual(
            ["s3 (2) → s1 (4) after its change not lower"], [it for it in self.text("#steps li") if "not lower" in it]
        )

    def test_numbers_that_do_not_fall_on_a_plan_that_is_safe(self):
        plan = ordered("square", [[change("replace", "s1", 4)], [change("replace", "s3", 3)]])
        plan["numberings"] = [[0, 0, 0, 0]]
        self.refused("7 NotLower round 1 at s1:1 untagged 10.0.0.0 switch s1", self.square(), plan)
        self.assertIsNone(self.bad())
        self.tab.value("view.search.finish()")
        self.assertIn(
            (
                "The page finds no walk that the policy forbids, in any class and any round: what the planner refuses"
                " is not a walk."
            ),
            self.text("#elsewhere p"),
        )

    def test_a_walk_that_goes_wrong_is_found_in_whatever_class_it_is(self):
        """The planner names a class of which no walk goes wrong; packets of another one come back to a switch."""
        plan = ordered("square", [[change("replace", "s1", 4), change("replace", "s3", 3)]], 0)
        self.refused("6 NoNumbering round 1 at s1:1 untagged 0.0.0.0", self.square(), plan)
        self.assertIn("can come back to s1, where it has been", self.bad())
        self.tab.value("view.choose({ class: 0 })")
        self.assertIsNone(self.bad())
        self.tab.value("view.search.finish()")
        said = self.seen("#elsewhere")
        self.assertIn("These packets can go wrong in this round: ", said)
        self.assertIn("s1:1 untagged to 10.0.0.0/24", said)
        self.tab.value(
            "[...document.querySelectorAll('#elsewhere button')].find((it) => it.textContent === 's1:1 untagged to"
            " 10.0.0.0/24').click()"
        )
        self.assertIn("can come back to s1, where it has been", self.bad())

    def test_a_walk_that_goes_wrong_is_found_in_whatever_round_it_is(self):
        """The planner names round 1, in which nothing goes wrong."""
        plan = ordered("square", [[], [change("replace", "s1", 4), change("replace", "s3", 3)]], 0)
        self.refused("6 NoNumbering round 1 at s1:1 untagged 0.0.0.0", self.square(), plan)
        self.assertIsNone(self.bad())
        self.tab.value("view.search.finish()")
        self.assertIn("No packets go wrong in this round.", self.text("#elsewhere p"))
        self.assertEqual(["round 2 of 2: 3"], self.text("#elsewhere button"))
        self.tab.value("document.querySelector('#elsewhere button').click()")
        self.assertIn("can come back to s1, where it has been", self.bad())

    def test_the_search_goes_on_by_itself(self):
        plan = ordered("square", [[], [change("replace", "s1", 4), change("replace", "s3", 3)]], 0)
        self.refused("6 NoNumbering round 1 at s1:1 untagged 0.0.0.0", self.square(), plan)
        for _ in range(200):
            if self.tab.value("view.search.jobs.length") == 0:
                break
            time.sleep(0.05)
        self.assertEqual(["round 2 of 2: 3"], self.text("#elsewhere button"))

    def test_a_drop(self):
        plan = ordered("square", [[change("delete", "s2", 2)]])
        self.assertIn(
            "may be dropped by s2",
            self.refused("8 MayDrop round 1 at s1:1 untagged 10.0.0.0 switch s2", self.square(), plan),
        )
        self.assertIn("can be dropped by s2, though it must arrive: s1 s2.", self.bad())

    def test_no_before_sets(self):
        plan = ordered("detour", [[change("insert", "s", 2, 200)]], 6)
        self.assertIn(
            "set of switches for each", self.refused("9 NoBefore round 1 at s:1 untagged 10.0.0.0", self.detour(), plan)
        )

    def test_a_waypoint_that_may_be_missed(self):
        plan = ordered("detour", [[change("replace", "s", 3)]], 6, [[0, 1]], [1])
        sentence = self.refused("10 Bypass round 1 at s:1 untagged 10.0.0.0 waypoint w switch s", self.detour(), plan)
        self.assertIn("may get past its waypoint w at s", sentence)
        self.assertIn("can leave the network without having met w in its place: s y d.", self.bad())

    def test_no_labels(self):
        self.assertIn("which tags stand for", self.refused("11 BadLabels round 1", self.detour(), two_phase([[]], [])))

    def test_a_path_that_is_neither_the_old_nor_the_new_one(self):
        at_once = [change("replace", *it) for it in (("s", 3), ("x", 3), ("w", 1), ("y", 1))]
        plan = two_phase([at_once], [[1, 0]])
        sentence = self.refused("12 MixedPath round 1 at s:1 untagged 10.0.0.0 switch s", self.detour(), plan)
        self.assertIn("partly by the old and partly by the new rules", sentence)
        self.assertIn("can go neither the old path nor the new one", self.bad())

    def test_another_end(self):
        plan = ordered("square", [[change("replace", "s1", 4)]])
        plan["numberings"].append([0, 2, 1, 0])
        plan["numberings"].append([0, 0, 1, 0])
        sentence = self.refused("13 WrongEnd switch s3", self.square(), plan)
        self.assertIn("table of s3 isn't the new one", sentence)
        self.assertEqual("after the update", self.seen("#position"))
        self.assertEqual(
            [
                "priority", "packets", "after the last round", "new rules", "100", "10.0.0.0/24", "port 2 to s4",
                "port 3 to s1",
            ],
            self.text("#table th, #table td"),
        )

    def test_each_reason_of_the_documents_has_a_test_here(self):
        with open(os.path.join(networks.ROOT, "docs", "FORMATS.md"), encoding="utf-8") as file:
            numbers = set(re.findall(r"^\| `(\d+) ", file.read().partition("### Why a plan is refused")[2], re.M))
        with open(__file__, encoding="utf-8") as file:
            tested = set(re.findall(r'"(\d+) [A-Z]\w+ ', file.read()))
        self.assertEqual({str(it) for it in range(1, 14)}, numbers)
        self.assertEqual(set(), numbers - tested)


if __name__ == "__main__":
    unittest.main()
