"""What is said of the cost of plans, over answers that are written down here; and of KIND, by the front end. PLANNER
names the program."""
import json
import os
import pty
import re
import subprocess
import sys
import tempfile
import unittest

import rows

sys.path.insert(0, rows.ROOT)
from planner_tools import main, program  # noqa: E402
from planner_tools.costs import Costs, cost_words, duration  # noqa: E402

EXAMPLES = os.path.join(rows.ROOT, "examples")
NAMES = ("topology.json", "old.json", "new.json", "policy.json")
ORDERED = {
    "kind": "ordered", "rounds": [[["insert", 0]], [["replace", 1], ["replace", 2]]],
    "rules": [{"switch": "a"}, {"switch": "b"}, {"switch": "a"}],
}
TWO_PHASE = {"kind": "two-phase", "rounds": [[["insert", 0]], [], [["delete", 0]]], "rules": [{"switch": "a"}]}


def files_of(example):
    return [os.path.join(EXAMPLES, example, name) for name in NAMES]


def rules_of(path):
    with open(path, encoding="utf-8") as file:
        return json.load(file)["rules"]


class Answering:
    """A program that gives answers by KIND, and by `certify` one after the other."""

    def __init__(self, by_kind, certified=()):
        self.by_kind, self.certified, self.plans = by_kind, list(certified), []

    def __call__(self, command, *words):
        if command == "pack":
            return self.by_kind[words[4]]
        with open(words[4], encoding="utf-8") as file:
            self.plans.append(json.load(file))
        return 1, self.certified.pop(0)


def has_kinds():
    """Whether the program takes KIND."""
    return program.run("pack", *files_of("square"), "ordered")[0] == 0


class CostWords(unittest.TestCase):
    def test_a_plan_costs_rounds_changes_switches_and_time(self):
        self.assertEqual("2 rounds, 3 changes at 2 of 4 switches, at least 4 s", cost_words(ORDERED, 4, 2.0))
        self.assertEqual("3 rounds, 2 changes at 1 of 1 switch", cost_words(TWO_PHASE, 1, None))

    def test_times(self):
        self.assertEqual(
            ["0 s", "1.5 s", "119 s", "2 minutes", "119 minutes", "2.0 hours"],
            [duration(one) for one in (0, 1.5, 119, 120, 7140, 7200)],
        )

    def test_the_other_kind_is_asked_for(self):
        costs = Costs(Answering({"two-phase": (0, json.dumps(TWO_PHASE))}), files_of("square"), 10.0)
        self.assertEqual(
            [
                "this is an ordered plan: 2 rounds, 3 changes at 2 of 4 switches, at least 20 s",
                "a two-phase plan (KIND `two-phase`) would have 3 rounds, 2 changes at 1 of 4 switches, at least 30 s",
            ],
            costs.words(ORDERED),
        )

    def test_why_there_is_no_two_phase_plan(self):
        costs = Costs(
            Answering({"two-phase": (4, "too few tags: need 2, has 1\ntried: []\n")}), files_of("square"), 2.0
        )
        self.assertEqual(["there is no two-phase plan: too few tags: need 2, has 1"], costs.other_words("two-phase"))

    def test_which_packets_make_two_phases_necessary(self):
        """Each of the changes of the detour network is asked for alone, behind the rounds that were tried, of which
        there are none."""
        keys = [
            {(rule["switch"], rule["dst"]): rule["out"] for rule in rules_of(path)} for path in files_of("detour")[1:3]
        ]
        left = [key for key in keys[0] if key not in keys[1]] + [
            key for key in keys[1] if keys[0].get(key) != keys[1][key]
        ]
        lines = ["no evidence: round 1 at s:1 untagged 10.0.0.0\n"] * (len(left) - 1) + [
            "refused: 4 OverCapacity round 1 switch d need 9\n"
        ]
        ask = Answering({"ordered": (1, "no ordered plan\ntried: []\n")}, lines)
        found = Costs(ask, files_of("detour"), 2.0).other_words("ordered")
        self.assertEqual(
            f"there is no ordered plan: none of the {len(left)} changes that are left is safe alone", found[0]
        )
        self.assertRegex(
            found[1], r"^  packets that enter at s:1 untagged for 10\.0\.0\.0 could be harmed by the change at \w+"
        )
        self.assertIn("there is no room for the change", found[2])
        self.assertEqual(
            [[key] for key in left],
            [[(rule["switch"], rule["dst"]) for rule in plan["rounds"][-1]] for plan in ask.plans],
        )

    def test_changes_that_were_tried_are_not_left(self):
        new = {rule["switch"]: rule for rule in rules_of(files_of("square")[2])}
        tried = [[{"do": "replace", **new["s1"]}]]
        costs = Costs(None, files_of("square"), 2.0)
        self.assertEqual(
            [("replace", "s1"), ("replace", "s3")], [(one["do"], one["switch"]) for one in costs.left_after([])]
        )
        self.assertEqual([("replace", "s3")], [(one["do"], one["switch"]) for one in costs.left_after(tried)])


class Words(unittest.TestCase):
    def test_the_wait_is_taken_out_of_the_words_of_pack(self):
        options = main.Options()
        self.assertEqual(
            ["pack", "net", "ordered"], main.take_wait(["pack", "net", "--wait", "0.5", "ordered"], options)
        )
        self.assertEqual(0.5, options.wait)
        self.assertEqual(["show", "--wait", "1", "net"], main.take_wait(["show", "--wait", "1", "net"], main.Options()))
        for words in (
            ["pack", "net", "--wait"], ["pack", "--wait", "soon", "net"], ["pack", "--wait", "-1", "net"],
            ["pack", "--wait", "inf", "net"],
        ):
            with self.assertRaises(ValueError):
                main.take_wait(words, main.Options())

    def said(self, *words, folder=EXAMPLES):
        done = subprocess.run(
            [rows.FRONT_END, *words], cwd=folder, capture_output=True, text=True, timeout=rows.SECONDS, check=False,
            env={**os.environ, "PLANNER": os.path.abspath(program.path())},
        )
        return done.returncode, done.stdout, done.stderr

    def test_a_word_that_is_no_kind_is_named(self):
        status, _, said = self.said("pack", *files_of("square"), "two_phase")
        self.assertEqual(2, status)
        self.assertIn("KIND is two_phase, and has to be `ordered` or `two-phase`; did you mean `two-phase`?", said)
        status, _, said = self.said("pack", "square", "two_phase")
        self.assertEqual(6, status)
        self.assertIn("KIND is the one word more behind the files: `ordered` or `two-phase`\n", said)

    def test_behind_a_folder_the_kind_is_the_last_word(self):
        if not has_kinds():
            self.skipTest("this program takes no KIND")
        for kind in ("ordered", "two-phase"):
            status, text, _ = self.said("pack", "square", kind)
            self.assertEqual((0, kind), (status, json.loads(text)["kind"]))

    def test_no_ordered_plan_says_what_goes_on_from_here(self):
        if not has_kinds():
            self.skipTest("this program takes no KIND")
        status, text, said = self.said("pack", "detour", "ordered")
        self.assertEqual((1, "no ordered plan\ntried: []\n"), (status, text))
        self.assertIn("none of them is safe as the first one, and only an ordered plan is asked for", said)
        self.assertIn("planner pack detour two-phase` makes a two-phase plan", said)
        self.assertNotIn("harmed", said)

    def test_too_few_tags_with_two_phase(self):
        if not has_kinds():
            self.skipTest("this program takes no KIND")
        with tempfile.TemporaryDirectory() as folder:
            for path in files_of("square"):
                with open(path, encoding="utf-8") as file, open(
                    os.path.join(folder, os.path.basename(path)), "w", encoding="utf-8"
                ) as other:
                    other.write(re.sub(r'"tags":\s*\[[^]]*\]', '"tags": []', file.read()))
            status, text, said = self.said("pack", folder, "two-phase")
        self.assertEqual((4, "too few tags: need 1, has 0\ntried: []\n"), (status, text))
        self.assertIn("only two phases are asked for, and a two-phase plan needs 1 tag", said)

    def test_on_a_terminal_the_cost_of_both_kinds_is_said(self):
        if not has_kinds():
            self.skipTest("this program takes no KIND")
        square = self.on_terminal("pack", "square", "--wait", "3")
        self.assertIn("this is an ordered plan: 2 rounds, 2 changes at 2 of 4 switches, at least 6 s", square)
        self.assertRegex(
            square,
            r"a two-phase plan \(KIND `two-phase`\) would have 8 rounds, \d+ changes at 4 of 4 switches, at least 24 s",
        )
        detour = self.on_terminal("pack", "detour")
        self.assertIn("there is no ordered plan: none of the", detour)
        self.assertIn("packets that enter at s:1 untagged for 10.0.0.0 could be harmed by the change at", detour)
        self.assertEqual("", self.on_terminal("pack", "square", "--quiet"))

    @staticmethod
    def on_terminal(*words):
        """What is said where the error stream is a terminal, without the breaks of lines."""
        ours, theirs = pty.openpty()
        with subprocess.Popen(
            [rows.FRONT_END, *words], cwd=EXAMPLES, stdout=subprocess.DEVNULL, stderr=theirs,
            env={**os.environ, "PLANNER": os.path.abspath(program.path()), "NO_COLOR": "1"},
        ) as process:
            os.close(theirs)
            said = b""
            while True:
                try:
                    piece = os.read(ours, 4096)
                except OSError:
                    break
                if not piece:
                    break
                said += piece
            process.wait(rows.SECONDS)
        os.close(ours)
        return re.sub(r"\s*\n\s*", " ", said.decode().replace("\r", ""))


if __name__ == "__main__":
    unittest.main()
