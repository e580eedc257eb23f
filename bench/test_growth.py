"""Tests of how growth is told."""
import pathlib
import sys
import tempfile
import unittest

sys.path.insert(0, str(pathlib.Path(__file__).resolve().parent))

import growth  # noqa: E402
from ratio import QUICK  # noqa: E402


class RowTests(unittest.TestCase):
    def test_twice_the_time_for_twice_the_work_is_an_exponent_of_1(self):
        rows = [((0.1, 0.2), "1.0"), ((0.1, 0.4), "2.0"), ((0.1, 0.1), "0.0"), ((QUICK / 2, 0.4), ""), ((0.1, 0.0), "")]
        for (first, second), want in rows:
            with self.subTest(first=first, second=second):
                self.assertEqual(growth.exponent(first, second), want)

    def test_a_row_has_the_sizes_the_seconds_and_the_last_exponent(self):
        self.assertEqual(
            growth.row("work", 30, [0.1, 0.2, 0.4, 1.6]), "| work | 30 to 240 | 0.100, 0.200, 0.400, 1.600 | 2.0 |"
        )

    def test_each_kind_has_files(self):
        for name, (_, make, first, _) in growth.KINDS.items():
            with self.subTest(name), tempfile.TemporaryDirectory() as folder:
                workload = make(first)
                workload.write(pathlib.Path(folder))
                plan = {"plan.json"} if workload.needs_plan() else set()
                named = {word for word in workload.words[1:] if word.endswith(".json")}
                self.assertEqual({it.name for it in pathlib.Path(folder).iterdir()} | plan, named)


if __name__ == "__main__":
    unittest.main()
