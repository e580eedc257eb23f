"""Tests of dist.py: what it writes, what it compares, and where it can't. The toolchain is one that is only named."""
from __future__ import annotations

import contextlib
import io
import os
import shutil
import sys
import tempfile
import unittest
import unittest.mock

import dist

sys.path.insert(0, os.path.join(dist.ROOT, "planner_tools", "tests"))

import test_shipped  # noqa: E402
from planner_tools import shipped  # noqa: E402
from planner_tools.install import toolchain  # noqa: E402

TYPE_CHECKING = False
if TYPE_CHECKING:
    from typing import Callable


PROGRAM = "the program, which needs GLIBC_2.9 and GLIBC_2.34, and no GLIBC_PRIVATE"


class Dist(unittest.TestCase):
    def setUp(self) -> None:
        self.root = tempfile.mkdtemp(prefix="planner-tests-")
        self.addCleanup(shutil.rmtree, self.root)
        test_shipped.fill(self.root)
        shutil.rmtree(os.path.join(self.root, "dist"))
        self.built = os.path.join(self.root, "built")
        test_shipped.write(self.root, "built", PROGRAM)
        self.on_machine("one logic 1")

    def on_machine(self, found: str | None) -> None:
        patch = unittest.mock.patch.object(toolchain, "on_this_machine", lambda: found)
        patch.start()
        self.addCleanup(patch.stop)

    def why_not(self) -> str | None:
        shipped.answers.clear()
        return shipped.why_not(self.root)

    def fails(self, call: Callable[[str, str], str], why: str) -> None:
        with self.assertRaises((dist.Wrong, shipped.Unfit)) as caught:
            call(self.root, self.built)
        self.assertIn(why, str(caught.exception))

    def test_what_it_writes_is_run_and_compared(self) -> None:
        for _ in range(2):
            said = dist.write(self.root, self.built)
        size = os.path.getsize(self.built)
        self.assertEqual(said, f"dist/ has the program of {size} bytes, built with one logic 1")
        self.assertEqual(sorted(os.listdir(os.path.join(self.root, "dist"))), ["BUILT.txt", "planner_cli"])
        about = shipped.said(self.root)
        self.assertEqual((about["glibc"], about["machine"], about["toolchain"]),
                         ("2.34", shipped.machine(), "one logic 1"))
        with unittest.mock.patch.object(shipped, "library", lambda: (2, 34)):
            self.assertIsNone(self.why_not())
        self.assertEqual(dist.check(self.root, self.built), "the program of dist/ is byte for byte built")

    def test_another_toolchain_than_those_that_are_named_writes_nothing(self) -> None:
        for found in ("third logic 1", None):
            self.on_machine(found)
            self.fails(dist.write,
                       f"the toolchain of this machine is {found or 'none'}, and toolchain.txt doesn't name it")
        self.assertFalse(os.path.exists(os.path.join(self.root, "dist")))

    def test_a_program_of_other_bytes_fails(self) -> None:
        dist.write(self.root, self.built)
        test_shipped.write(self.root, "built", PROGRAM[:-1] + PROGRAM[-1].lower())
        self.fails(dist.check, "isn't the program of dist/: its sum is ")
        os.unlink(self.built)
        self.fails(dist.check, "No such file or directory")

    def test_a_text_of_other_files_fails_with_any_toolchain(self) -> None:
        dist.write(self.root, self.built)
        for found in ("one logic 1", "other logic 1", None):
            self.on_machine(found)
            test_shipped.write(self.root, "crates/base/src/lib.rt", "bass")
            self.fails(dist.check, test_shipped.OTHER_SOURCES)
            test_shipped.write(self.root, "crates/base/src/lib.rt", "base")
            test_shipped.write(self.root, "dist/planner_cli", "other")
            self.fails(dist.check, "dist/planner_cli isn't the program of which dist/BUILT.txt speaks")
            shutil.copyfile(self.built, os.path.join(self.root, "dist/planner_cli"))

    def test_a_text_that_names_another_library_fails(self) -> None:
        dist.write(self.root, self.built)
        test_shipped.tell(self.root, glibc="2.9")
        self.fails(dist.check, "dist/BUILT.txt names another C library than the program of dist/ needs")

    def test_another_toolchain_or_machine_compares_no_bytes(self) -> None:
        dist.write(self.root, self.built)
        test_shipped.write(self.root, "built", "other bytes")
        for found in ("other logic 1", "third logic 1", None):
            self.on_machine(found)
            told = f"so it can't be compared with one of {found or 'no toolchain'} on "
            self.assertIn(told, dist.check(self.root, self.built))
        self.on_machine("one logic 1")
        with unittest.mock.patch.object(shipped, "machine", lambda: "sparc Solaris"):
            told = "so it can't be compared with one of one logic 1 on sparc Solaris"
            self.assertIn(told, dist.check(self.root, self.built))

    def test_where_there_is_no_folder_nothing_is_compared(self) -> None:
        told = "there is no dist/ here, so there is nothing to compare"
        self.assertEqual(dist.check(self.root, self.built), told)
        dist.write(self.root, self.built)
        os.unlink(os.path.join(self.root, "dist/BUILT.txt"))
        self.fails(dist.check, "dist/BUILT.txt can't be read")

    def test_words(self) -> None:
        none = os.path.join(self.root, "none")
        for words, status in (
            (["--what"], 2), (["one", "other"], 2), (["--check", "one", "other"], 2), ([none], 1),
        ):
            with contextlib.redirect_stderr(io.StringIO()) as said:
                self.assertEqual(dist.main(words), status)
            self.assertNotEqual(said.getvalue(), "")


if __name__ == "__main__":
    unittest.main()
