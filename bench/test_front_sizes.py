"""The networks of front.py have the sizes that it prints."""
import pathlib
import sys
import unittest

import front

sys.path.insert(0, str(pathlib.Path(__file__).resolve().parent.parent))
from planner_tools.first_tables import FirstTables  # noqa: E402


class Sizes(unittest.TestCase):
    def test_the_greatest_network_has_512_demands_and_8151_classes(self):
        topology, old, new, policy = front.update_of(*front.SIZES[0])
        self.assertEqual((512, 8151), (len(policy["demands"]), FirstTables(topology, new, policy).class_count()))
        self.assertEqual(8151, FirstTables(topology, old, policy).class_count())

    def test_each_network_is_half_the_one_before(self):
        counts = [FirstTables(*(front.update_of(*size)[at] for at in (0, 2, 3))).class_count() for size in front.SIZES]
        for count, before in zip(counts[1:], counts):
            self.assertTrue(1.9 < before / count < 2.1, counts)


if __name__ == "__main__":
    unittest.main()
