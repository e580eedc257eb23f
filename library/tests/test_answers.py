"""Answers as values: `pack`, `check`, `explain` and others over files and dicts. PLANNER names the program."""
import json
import os
import pathlib
import sys
import tempfile
import unittest

ROOT = pathlib.Path(__file__).resolve().parents[2]
sys.path.insert(0, str(ROOT / "library"))

import planner  # noqa: E402

SQUARE, DETOUR = ROOT / "examples" / "square", ROOT / "examples" / "detour"
NAMES = ("topology", "old", "new", "policy")


def paths(folder):
    return [folder / f"{name}.json" for name in NAMES]


def dicts(folder):
    return [json.loads(one.read_text(encoding="utf-8")) for one in paths(folder)]


class Answers(unittest.TestCase):
    def test_a_plan_of_files_and_of_dicts(self):
        for files in (
            paths(SQUARE), [str(one) for one in paths(SQUARE)], dicts(SQUARE),
            [one.read_bytes() for one in paths(SQUARE)],
        ):
            answer = planner.pack(*files)
            self.assertTrue(answer)
            self.assertEqual(
                ("pack", 0, "planned", None, None),
                (answer.command, answer.status, answer.verdict, answer.reason, answer.packet),
            )
            self.assertEqual(2, len(answer.plan["rounds"]))
        checked = planner.check(*dicts(SQUARE), answer.plan)
        self.assertEqual((True, "accepted"), (bool(checked), checked.verdict))
        with self.assertRaises(ValueError):
            checked.plan["rounds"]

    def test_a_refusal_has_its_reason_and_paths(self):
        answer = planner.check(*dicts(SQUARE), SQUARE / "plan-at-once.json")
        self.assertFalse(answer)
        self.assertEqual(
            ("refused", "NotLower", {"number": 7, "round": 1, "switch": "s3"}),
            (answer.verdict, answer.reason.name, answer.reason.parts),
        )
        self.assertEqual(planner.Packet("s1:1", "untagged", "10.0.0.0"), answer.packet)
        self.assertEqual(
            [["s1", "s2", "s3", "s4"], ["s1", "s4"]], [[stop.switch for stop in one.stops] for one in answer.paths]
        )
        self.assertEqual(["old.json", "new.json"], [one.file for one in answer.paths])
        self.assertEqual(("policy.json", "demands[0]"), (answer.places[0].file, answer.places[0].member))
        self.assertTrue(str(answer).startswith(answer.reason.sentence))

    def test_a_run_that_goes_wrong_or_none(self):
        answer = planner.explain(*paths(SQUARE), SQUARE / "plan-at-once.json")
        self.assertEqual("run", answer.verdict)
        self.assertIn("enter s1:1 untagged 10.0.0.0\n", answer.run)
        answer = planner.explain(*paths(SQUARE), SQUARE / "plan.json")
        self.assertEqual(("no run", None), (answer.verdict, answer.run))

    def test_bad_files_and_warnings_are_values_too(self):
        topology, old, new, policy = dicts(SQUARE)
        del old["rules"][0]["dst"]
        answer = planner.pack(topology, old, new, policy)
        self.assertEqual(
            (3, "bad file", "Shape", "old"),
            (answer.status, answer.verdict, answer.reason.name, answer.reason.parts["file"]),
        )
        self.assertEqual("old.json", answer.places[0].file)
        answer = planner.config(DETOUR / "topology.json", DETOUR / "old.json", DETOUR / "policy-thru.json")
        self.assertEqual((True, "holds"), (bool(answer), answer.verdict))
        self.assertIn("did you mean `through`", str(answer.warnings[0]))

    def test_certify_plan_and_configuration(self):
        topology, old, new, policy = dicts(SQUARE)
        made = planner.plan(topology, old, new, policy).plan
        bare = {**made, "numberings": [], "befores": [], "uses": [], "picks": []}
        self.assertEqual("NoNumbering", planner.check(topology, old, new, policy, bare).reason.name)
        self.assertTrue(
            planner.check(topology, old, new, policy, planner.certify(topology, old, new, policy, bare).plan)
        )
        answer = planner.configuration(topology, SQUARE / "replies-s1")
        self.assertEqual(["s1"], sorted({one["switch"] for one in answer.answer["rules"]}))

    def test_what_other_commands_write_as_json_is_their_answer(self):
        topology, old, new, policy = dicts(SQUARE)
        files = {"topology.json": topology, "old.json": old, "new.json": new}
        answer = planner.ask("diff", files)
        self.assertEqual((True, "done", 3), (bool(answer), answer.verdict, answer.answer["counts"]["way"]))
        answer = planner.ask("policy", files)
        self.assertEqual(3, len(answer.answer["demands"]))
        answer = planner.ask("links", {"topology.json": topology, "new.json": new}, "--empty", "s2-s3")
        self.assertEqual((False, "used"), (bool(answer), answer.verdict))
        self.assertFalse(answer.answer[0]["empty"])
        answer = planner.ask("pack", {**files, "policy.json": policy}, "two-phase")
        self.assertEqual("two-phase", answer.plan["kind"])

    def test_no_answer_is_an_exception(self):
        with self.assertRaises(planner.Failed) as failed:
            planner.check(*paths(SQUARE), SQUARE / "none.json")
        self.assertEqual((6, "unread"), (failed.exception.answer.status, failed.exception.answer.verdict))
        before = os.environ.get("PLANNER")
        self.addCleanup(lambda: os.environ.pop("PLANNER") if before is None else os.environ.update(PLANNER=before))
        with tempfile.TemporaryDirectory() as folder:
            os.environ["PLANNER"] = os.path.join(folder, "none")
            with self.assertRaises(planner.Failed) as failed:
                planner.pack(*paths(SQUARE))
            self.assertEqual(125, failed.exception.answer.status)
            with self.assertRaises(planner.NoProgram):
                planner.Session(*paths(SQUARE), SQUARE / "plan.json")


if __name__ == "__main__":
    unittest.main()
