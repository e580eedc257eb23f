"""Tests of the comparison of two programs: how often each runs, and what is said of programs that differ or take too
long."""
import pathlib
import tempfile
import types
import unittest

import ratio
from workloads import Workload


def program(folder, name, text):
    """A program of a few lines of shell."""
    path = pathlib.Path(folder) / name
    path.write_text(f"#!/bin/sh\n{text}\n")
    path.chmod(0o755)
    return str(path)


class TurnTests(unittest.TestCase):
    def test_seconds_of_the_user_and_of_the_system_count(self):
        self.assertEqual(ratio.spent(types.SimpleNamespace(ru_utime=1.5, ru_stime=0.25)), 1.75)

    def test_a_program_has_run_often_enough(self):
        rows = [
            ("fewer than are wanted", [0.5] * 6, False),
            ("as many as are wanted", [0.5] * 7, True),
            ("a median of 20 ms", [0.001] * 3 + [0.02] * 4, True),
            ("six, though they took long together", [0.019] * 4 + [0.5] * 2, False),
            ("a median below that, and more than 0.2 s together", [0.019] * 5 + [0.1] * 2, True),
            ("a median below that, and less than 0.2 s together", [0.019] * 7, False),
            ("eleven of them, which took more than that", [0.019] * 11, True),
            ("14 quick runs", [0.001] * 14, False),
            ("15 quick runs", [0.001] * 15, True),
        ]
        for what, taken, told in rows:
            with self.subTest(what):
                self.assertEqual(ratio.is_told(taken, 7), told)

    def test_each_runs_once_at_least(self):
        self.assertFalse(ratio.is_told([], 0))

    def test_programs_are_first_by_turns(self):
        self.assertEqual([ratio.next_turn(turn, [[], []], 3) for turn in range(3)], [[0, 1], [1, 0], [0, 1]])

    def test_only_the_quick_one_runs_on(self):
        self.assertEqual(ratio.next_turn(7, [[9.0] * 7, [0.001] * 7], 7), [1])

    def test_one_that_took_too_long_runs_no_more(self):
        self.assertEqual(ratio.next_turn(1, [None, [9.0]], 7), [1])
        self.assertEqual(ratio.next_turn(7, [None, [9.0] * 7], 7), [])


class CompareTests(unittest.TestCase):
    def setUp(self):
        self.folder = tempfile.TemporaryDirectory()
        self.addCleanup(self.folder.cleanup)
        self.workload = Workload(["config", "a.json"], a={"rules": []})

    def compare(self, first, second, limit=60):
        programs = [program(self.folder.name, name, text) for name, text in (("first", first), ("second", second))]
        ratio.prepare(self.workload, pathlib.Path(self.folder.name), programs[1])
        return ratio.compare(programs, self.workload, self.folder.name, limit, 3)

    def test_two_that_answer_the_same(self):
        medians, same = self.compare("cat $2", "cat $2")
        self.assertTrue(same)
        self.assertEqual(len(medians), 2)

    def test_texts_and_statuses_that_differ(self):
        for second in ("echo other", "cat $2; exit 1"):
            with self.subTest(second):
                self.assertFalse(self.compare("cat $2", second)[1])

    def test_one_that_takes_too_long(self):
        medians, _ = self.compare("cat $2", "exec sleep 5", limit=0.2)
        self.assertIsNone(medians[1])
        self.assertEqual(ratio.row("work", [0.5, None]), "| work | 0.500 | too long |  |")

    def test_the_row_has_the_ratio_of_the_first_to_the_second(self):
        self.assertEqual(ratio.row("work", [0.5, 0.25]), "| work | 0.500 | 0.250 | 2.0 |")
        self.assertEqual(ratio.row("work", [0.003, 0.0005]), "| work | 0.003 | 0.001 | 6.0 |")

    def test_there_is_no_ratio_to_nothing(self):
        self.assertEqual(ratio.row("work", [0.5, 0.0]), "| work | 0.500 | 0.000 |  |")

    def test_quick_programs_run_more_often(self):
        self.compare("echo >> first-runs", "echo >> second-runs")
        for name in ("first-runs", "second-runs"):
            runs = (pathlib.Path(self.folder.name) / name).read_text().count("\n")
            self.assertTrue(3 < runs <= 15, runs)

    def test_the_second_makes_the_plan_that_is_checked(self):
        self.workload = Workload(["check", "a.json", "plan.json"], a={})
        self.compare("cat $3", "echo plan by $1")
        self.assertEqual((pathlib.Path(self.folder.name) / "plan.json").read_text(), "plan by plan\n")


if __name__ == "__main__":
    unittest.main()
