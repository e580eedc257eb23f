"""Tests of gate_minutes.py: which work a process does, and the table of a log."""
from __future__ import annotations

import unittest

import gate_minutes

LOG = """     1 == one
     1 rt: one proved
## 62 one proof 60 61
## 70 one edits 6 3
## 71 one edits 12 5
## 90 other proof 120 30
## 95 other tests 30 20
   100 rt: ok
   100 2 passed, 0 failed
## 102 end
"""


class Minutes(unittest.TestCase):
    def test_work_is_told_by_the_words_and_the_folder(self) -> None:
        words = ["rattle", "build", "--crate-name", "one", "src/lib.rt"]
        for given, folder, wanted in [
            (words, "/top/crates/one", ("one", "proof")),
            ([*words, "--test"], "/top/crates/one", ("one", "tests")),
            (["rattle", "check", *words[2:]], "/tmp/rt-edit-7", ("one", "edits")),
            (["rattle-link", "-o", "one"], "/top/crates/one", None),
            (["rattle", "fmt", *words[2:]], "/top/crates/one", None),
        ]:
            self.assertEqual(gate_minutes.kind_of(given, folder), wanted)

    def test_seconds_of_a_process_are_its_own_and_those_of_ended_children(self) -> None:
        # (fields are counted from 1: the parent is field 4, the times are fields 14 to 17)
        text = "7 (a (b) c) S 5 " + " ".join(map(str, range(5, 50)))
        self.assertEqual(gate_minutes.parse_stat(text), (5, (14 + 15 + 16 + 17) / gate_minutes.TICKS))

    def test_all_below_a_process(self) -> None:
        self.assertEqual(sorted(gate_minutes.below(1, {2: (1, 0), 3: (2, 0), 4: (9, 0), 5: (3, 0)})), [2, 3, 5])

    def test_table(self) -> None:
        self.assertEqual(
            gate_minutes.table(*gate_minutes.read_log(LOG.splitlines())),
            [
                "minutes                    proof   tests   edits     all    long",
                "other                        2.0     0.5     0.0     2.5     0.5",
                "one                          1.0     0.0     0.3     1.3     1.0",
                "all crates                   3.0     0.5     0.3     3.8",
                "1.7 minutes by the clock; 2 passed, 0 failed",
            ],
        )

    def test_seconds_of_the_longest_proof(self) -> None:
        logs = [LOG.splitlines(), ["## 9 one proof 75 80", "## 10 third tests 5 5"]]
        self.assertEqual(gate_minutes.seconds_by_crate(logs), ["other 120", "one 75"])


if __name__ == "__main__":
    unittest.main()
