"""Tests of the bounds of tries."""
import unittest

import tries


class BoundTests(unittest.TestCase):
    def test_a_round_tries_those_that_it_takes_and_at_most_those_that_remain(self):
        rows = [
            ([], (0, 0)),
            ([["a", "b", "c"]], (3, 3)),
            # Three are tried in the first round, one or two in the second, and one in the third.
            ([["a"], ["b"], ["c"]], (5, 6)),
            ([["a", "b"], ["c"]], (4, 4)),
        ]
        for rounds, want in rows:
            with self.subTest(rounds=rounds):
                self.assertEqual(tries.bounds(rounds), want)


if __name__ == "__main__":
    unittest.main()
