"""Tests of the record: which lines are found not to be as they were written, and how large it grows."""
import hashlib
import os
import pathlib
import subprocess
import sys
import tempfile
import unittest

import network  # noqa: F401  (puts the package on the path)
from planner_tools.switches import openflow
from planner_tools.switches.connections import Stop
from planner_tools.switches.record import Record

REPLY = openflow.message(openflow.BARRIER_REPLY, 1)


class Recording(unittest.TestCase):
    def setUp(self):
        folder = tempfile.TemporaryDirectory(prefix="record-test-")
        self.addCleanup(folder.cleanup)
        self.path = os.path.join(folder.name, "update")

    def record(self, head="files a b", resume=False):
        record = Record(self.path, resume, head)
        self.addCleanup(record.file.close)
        return record

    def written(self):
        """A record with a round that was started and answered; its lines, each with its end."""
        record = self.record()
        record.feed("s1", openflow.HELLO_BYTES)
        record.give("start")
        record.feed("s1", REPLY)
        record.remark("round 1 is settled")
        record.file.close()
        return pathlib.Path(self.path).read_text().splitlines(keepends=True)

    def taken_up(self, lines):
        pathlib.Path(self.path).write_text("".join(lines))
        return self.record(resume=True)

    def is_refused(self, lines, what, then):
        before = "".join(lines)
        with self.assertRaises(Stop) as stop:
            self.taken_up(lines)
        self.assertIn(what, stop.exception.what)
        self.assertIn(self.path, stop.exception.what)
        self.assertIn(then, stop.exception.then)
        self.assertEqual(pathlib.Path(self.path).read_text(), before)

    def test_each_line_has_its_number_and_the_checksum_over_it_and_those_before(self):
        lines, last = self.written(), ""
        self.assertEqual(len(lines), 10)
        for number, (mark, line) in enumerate(zip(lines[::2], lines[1::2]), 1):
            last = hashlib.sha256((last + line.rstrip("\n")).encode()).hexdigest()[:16]
            self.assertEqual(mark, f"#{number} {last}\n")

    def test_a_record_is_taken_up_as_it_was(self):
        record = self.taken_up(self.written())
        self.assertEqual(
            (record.opened, record.take_unfollowed(), record.starts),
            ({"s1"}, [f"feed s1 {openflow.HELLO_BYTES.hex()}", "start", f"feed s1 {REPLY.hex()}"], 1),
        )
        record.give("start")
        record.file.close()
        self.assertEqual(self.record(resume=True).starts, 2)

    def test_lines_that_were_changed_taken_out_or_added_are_named(self):
        good = self.written()
        other = good[5].replace("start", "# tart")
        cases = [
            (good[:5] + [other] + good[6:], "line 6 of the record", "was changed", 4),
            (
                good[:4] + [good[4].replace("#3 ", "#3 0")[:-2] + "\n"] + good[5:], "line 6 of the record",
                "was changed", 4,
            ),
            (good[:4] + good[6:], "line 6 of the record", "1 lines of the record are missing before it", 4),
            (good[:2] + good[8:], "line 4 of the record", "3 lines of the record are missing before it", 2),
            (good[:5] + good[6:], "line 6 of the record", "was changed", 4),
            (good + ["start\n"], "line 11 of the record", "was added", 10),
            (good[:6] + ["start\n"] + good[6:], "line 7 of the record", "was added", 6),
            (
                good[:6] + good[4:6] + good[6:], "line 8 of the record",
                "was added: the record has had one of its number", 6,
            ),
            (good + ["#6 0123456789abcdef\n", "start\n"], "line 12 of the record", "was changed", 10),
            (
                good[:4] + good[6:8] + good[4:6] + good[8:], "line 6 of the record",
                "1 lines of the record are missing before it", 4,
            ),
        ]
        for lines, where, what, kept in cases:
            with self.subTest(where, what=what):
                self.is_refused(lines, where, f"`head -n {kept} {self.path} > {self.path}-2`")
                self.is_refused(lines, what, "--resume")

    def test_what_was_being_written_when_an_update_was_cut_off_goes(self):
        good = self.written()
        for rest in ("#6 0123", "#6 0123456789abcdef\n", "#6 0123456789abcdef\nstar", "#6 0123456789abcdef\nstart"):
            with self.subTest(rest):
                record = self.taken_up(good + [rest])
                record.file.close()
                self.assertEqual(pathlib.Path(self.path).read_text(), "".join(good))

    def test_a_record_of_nothing_or_of_other_files_is_told_as_such(self):
        empty = "has no whole line: nothing was begun with it"
        for text, what, then in (
            ("", empty, "without --resume"), ("#1 0123456789abcdef\n# update 02", empty, "without --resume"),
            ("start\n", "isn't the record of an update", "that `planner apply` wrote"),
            ("what the operator wrote", "isn't the record of an update", "that `planner apply` wrote"),
        ):
            self.is_refused([text], what, then)
        os.unlink(self.path)
        lines = self.written()
        pathlib.Path(self.path).write_text("".join(lines))
        with self.assertRaises(Stop) as stop:
            self.record("files a c", resume=True)
        self.assertIn("was begun with other files, or they were changed since", stop.exception.what)

    def test_a_switch_that_comes_and_goes_doesn_t_fill_it(self):
        record = self.record()
        for _ in range(100000):
            record.feed("s1", openflow.HELLO_BYTES)
            record.remark_seldom("s1", "s1 is connected: 127.0.0.1:6653, datapath id 00000000000000a1")
            record.remark_seldom("s1", "s1 closed its connection")
        record.file.close()
        self.assertLess(os.path.getsize(self.path), 2000)

    def test_what_belongs_to_a_session_ends_with_it(self):
        record = self.record()
        error = openflow.message(openflow.ERROR, 7, bytes.fromhex("00030000"))
        for _ in range(2):
            record.feed("s1", openflow.HELLO_BYTES)
            record.feed("s1", error)
            self.assertEqual((record.opened, record.errors), ({"s1"}, {"s1": error}))
            record.give("reopen s1")
            self.assertEqual((record.opened, record.errors), (set(), {}))
        self.assertEqual(len(record.take_unfollowed()), 6)
        self.assertEqual(record.take_unfollowed(), [])

    def test_the_mark_is_on_the_switches_until_it_is_taken_away(self):
        record = self.record()
        for words, is_marked in (
            ("the mark of the update is put on the switches", True), ("the mark of the update is taken away", False),
        ):
            record.remark(words)
            record.file.close()
            record = self.record(resume=True)
            self.assertEqual(record.is_marked, is_marked)

    def test_a_record_that_can_t_be_written_is_named_and_stays_whole(self):
        code = f"""
import resource, sys
sys.path.insert(0, {str(network.ROOT)!r})
from planner_tools.switches.record import Record, Stop
record = Record({self.path!r}, False, "files a b")
resource.setrlimit(resource.RLIMIT_FSIZE, (record.size + 100,) * 2)
try:
    for _ in range(9):
        record.give("start")
except Stop as stop:
    print(stop.what)
try:
    record.remark("stopped")
except Stop as stop:
    pass
"""
        run = subprocess.run(
            [
                sys.executable, "-c",
                code.replace("record.size + 100", "0").replace(
                    "record =", "resource.setrlimit(resource.RLIMIT_FSIZE, (0, 0)); record ="
                ),
            ],
            capture_output=True, text=True, check=False,
        )
        self.assertIn(f"the record {self.path} can't be written: File too large", run.stderr)
        self.assertFalse(os.path.exists(self.path))
        run = subprocess.run([sys.executable, "-c", code], capture_output=True, text=True, check=True)
        self.assertIn(f"the record {self.path} can't be written: File too large", run.stdout)
        self.assertEqual(self.record(resume=True).starts, pathlib.Path(self.path).read_text().count("\nstart\n"))


if __name__ == "__main__":
    unittest.main()
