"""What is said of schedules that turn rounds, which are read by `tables` alone."""
import sys
import unittest

import rows

sys.path.insert(0, rows.ROOT)
from planner_tools.lines import bad_event  # noqa: E402
from planner_tools.story import Turning, is_turned  # noqa: E402

# Two rounds, of two changes and of one.
ROUNDS = [[("insert", {}), ("delete", {})], [("replace", {})]]
FIRST = ["start", "change 1", "change 0", "settle"]


class Turned(unittest.TestCase):
    def test_why_an_event_can_t_happen(self):
        for before, line, why in (
            ([], "back", "no round is settled"), ([], "undo 0", "no round is running"),
            ([], "settle", "no round is running"),
            (["start", "back"], "back", "round 1 is being undone already"),
            (["start", "back"], "start", "round 1 is being undone, and has to be settled first"),
            (["start", "change 1"], "undo 1", "round 1 isn't being undone: `back` has to stand before"),
            (["start", "change 1", "back"], "undo 0", "this change isn't in force"),
            (["start", "change 1", "back"], "undo 2", "round 1 has 2 changes, numbered from 0"),
            (["start", "change 1", "back"], "change 1", "this change is made already"),
            (["start", "change 1", "back"], "settle", "change 1 of round 1 is in force"),
            ([*FIRST, "back"], "settle", "changes 0, 1 of round 1 are in force"),
            ([*FIRST, "back", "undo 0", "undo 1", "settle", "start"], "settle", "changes 0, 1 of round 1 are pending"),
            ([*FIRST, "start", "change 0", "back", "undo 0", "settle", "back", "undo 1"], "undo 1",
             "this change isn't in force"),
            ([*FIRST, "start", "change 0", "settle", "# a remark", ""], "start", "all 2 rounds are settled"),
            (["start", "change 0", "back", "undo 0"], "undo 0", "this change isn't in force"),
        ):
            with self.subTest(before, line=line):
                self.assertEqual(why, Turning(ROUNDS, before).why_not(line.split()))

    def test_a_line_that_turns_is_told_from_others(self):
        self.assertTrue(is_turned(["start", "back"]))
        self.assertTrue(is_turned(["undo 0"]))
        self.assertFalse(is_turned(["start", "# back", "backwards", ""]))

    def test_where_such_a_line_may_stand(self):
        for command in ("replay", "page"):
            self.assertEqual(
                f"`back` is a line of schedules for `tables`, and none of those for `{command}`",
                bad_event("back", [], command)[0],
            )
        what, right = bad_event("undo 01", [], "tables")
        self.assertEqual(("a number is written in decimal without leading zeros, up to 4294967295", "`undo N`"),
                         (what, right))
        self.assertEqual("1 words stand behind `back`", bad_event("back 1", [], "tables")[0])
        self.assertIn("`undo N`", bad_event("unsettle", [], "tables")[1])
        self.assertNotIn("`undo N`", bad_event("unsettle", [], "replay")[1])


if __name__ == "__main__":
    unittest.main()
