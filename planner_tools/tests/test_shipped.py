"""Tests of the program of dist/: it is run where the files are those that it was built from, and nowhere else, whatever
is remembered."""
import os
import shutil
import subprocess
import sys
import tempfile
import unittest
import unittest.mock

import rows

sys.path.insert(0, rows.ROOT)

from planner_tools import shipped  # noqa: E402

CRATES = "# lowest first\nbase: json\nplanner_cli: base top\ntop: base   # a side\ntop_tests: top\n"
TOOLCHAINS = "# with what\nrattle one logic 1\nrattle other logic 1\npython 3.10\n"
OTHER_SOURCES = "the program of dist/ was built from other sources than those that are here"


def write(root, path, text):
    path = os.path.join(root, path)
    os.makedirs(os.path.dirname(path), exist_ok=True)
    with open(path, "w", encoding="utf-8") as file:
        file.write(text)


def fill(root, program="a program"):
    """Makes a tree that looks like a checkout with a program in dist/ that was built from its files."""
    for path, text in (
        ("crates.txt", CRATES), ("toolchain.txt", TOOLCHAINS), ("HANDLES", "none\n"),
        ("crates/base/src/lib.rt", "base"), ("crates/base/specs/Lib.antt", "says"),
        ("crates/base/proofs/base/Answers.antt", "why"), ("crates/top/src/lib.rt", "top"),
        ("crates/planner_cli/src/main.rt", "main"), ("crates/top_tests/src/lib.rt", "tests"),
        (shipped.PROGRAM, program),
    ):
        write(root, path, text)
    os.chmod(os.path.join(root, shipped.PROGRAM), 0o755)
    tell(root)


def tell(root, **other):
    """Writes the text of dist/, with other values where some are given."""
    values = {"toolchain": "one logic 1", "machine": shipped.machine(), "glibc": shipped.NO_LIBRARY,
              "program": shipped.sum_of(shipped.read(root, shipped.PROGRAM)), **other}
    values.setdefault("sources", shipped.sum_of_sources(root, values["toolchain"]))
    write(root, shipped.TEXT, "# about\n" + "".join(f"{name} {value}\n" for name, value in values.items()))


class Shipped(unittest.TestCase):
    def setUp(self):
        self.root = tempfile.mkdtemp(prefix="planner-tests-")
        self.addCleanup(shutil.rmtree, self.root)
        fill(self.root)

    def why_not(self):
        shipped.answers.clear()
        return shipped.why_not(self.root)

    def remembering(self):
        """Nothing is too young to be remembered, so that the tests needn't wait."""
        return unittest.mock.patch.object(shipped, "LEAST_AGE", -1000)

    def seen(self):
        path = os.path.join(self.root, shipped.SEEN)
        return os.path.exists(path)

    def test_the_program_of_these_files_is_run(self):
        self.assertIsNone(self.why_not())
        with self.remembering():
            self.assertIsNone(self.why_not())
            with unittest.mock.patch.object(shipped, "look", side_effect=AssertionError("the files are read again")):
                self.assertIsNone(self.why_not())

    def test_each_change_of_what_it_is_built_from_is_seen(self):
        for path, text in (
            ("crates/base/src/lib.rt", "bass"), ("crates/base/specs/Lib.antt", "said"),
            ("crates/base/proofs/base/Answers.antt", "how"), ("crates/base/proofs/new/Answers.antt", ""),
            ("crates/top/specs/Lib.antt", "new"), ("HANDLES", "Net\n"),
            ("crates.txt", CRATES.replace("base: json", "base: json hex")),
            ("crates.txt", CRATES.replace("base top", "top base")),
        ):
            with self.subTest(path), tempfile.TemporaryDirectory() as self.root, self.remembering():
                fill(self.root)
                self.assertIsNone(self.why_not())
                write(self.root, path, text)
                self.assertEqual(self.why_not(), OTHER_SOURCES)
                self.assertEqual(self.why_not(), OTHER_SOURCES)

    def test_a_file_that_goes_or_gets_another_name_is_seen(self):
        with self.remembering():
            self.assertIsNone(self.why_not())
            os.rename(
                os.path.join(self.root, "crates/top/src/lib.rt"), os.path.join(self.root, "crates/top/src/bil.rt")
            )
            self.assertEqual(self.why_not(), OTHER_SOURCES)
            os.rename(
                os.path.join(self.root, "crates/top/src/bil.rt"), os.path.join(self.root, "crates/top/src/lib.rt")
            )
            self.assertIsNone(self.why_not())
            os.unlink(os.path.join(self.root, "crates/top/src/lib.rt"))
            self.assertEqual(self.why_not(), OTHER_SOURCES)

    def test_a_change_that_keeps_size_and_time_is_seen(self):
        path = os.path.join(self.root, "crates/base/src/lib.rt")
        os.utime(path, (1000, 1000))
        with self.remembering():
            self.assertIsNone(self.why_not())
            write(self.root, "crates/base/src/lib.rt", "BASE")
            os.utime(path, (1000, 1000))
            self.assertEqual(self.why_not(), OTHER_SOURCES)

    def test_nothing_is_remembered_of_young_files(self):
        self.assertIsNone(self.why_not())
        self.assertFalse(self.seen())
        with self.remembering():
            self.assertIsNone(self.why_not())
        self.assertTrue(self.seen())

    def test_the_least_age_counts_from_the_last_change_of_any_file(self):
        """Also of one whose time of writing was set back."""
        os.utime(os.path.join(self.root, "crates/base/src/lib.rt"), (1000, 1000))
        last = shipped.last_change(shipped.state(self.root)[1])
        for later, is_seen in ((shipped.LEAST_AGE - 0.5, False), (shipped.LEAST_AGE + 0.5, True)):
            with unittest.mock.patch.object(shipped.time, "time", lambda later=later: last + later):
                self.assertIsNone(self.why_not())
            self.assertEqual(self.seen(), is_seen)

    def test_other_files_do_not_count(self):
        with self.remembering():
            for path in (
                "crates/base/out/lib.a", "crates/base/must-fail/one.edit", "crates/top_tests/src/lib.rt",
                "crates/base/src/.lib.rt.swp", "crates/base/src/lib.rt~", "crates/other/src/lib.rt", "README.md",
            ):
                write(self.root, path, "new")
                self.assertIsNone(self.why_not(), path)
            write(
                self.root, "crates.txt",
                "# other words\n\n" + "".join(sorted(CRATES.splitlines(True)[1:], reverse=True)) + "other: base\n",
            )
            self.assertIsNone(self.why_not())

    def test_the_text_and_the_program_belong_together(self):
        with self.remembering():
            self.assertIsNone(self.why_not())
            write(self.root, shipped.PROGRAM, "b program")
            self.assertEqual(self.why_not(), "dist/planner_cli isn't the program of which dist/BUILT.txt speaks")
            tell(self.root)
            self.assertIsNone(self.why_not())
            tell(self.root, sources="0" * 64)
            self.assertEqual(self.why_not(), OTHER_SOURCES)

    def test_a_toolchain_that_is_not_named(self):
        tell(self.root, toolchain="other logic 1")
        self.assertIsNone(self.why_not())
        tell(self.root, toolchain="third logic 1")
        self.assertEqual(
            self.why_not(), "toolchain.txt doesn't name the toolchain that built the program of dist/, third logic 1"
        )
        tell(self.root, sources=shipped.sum_of_sources(self.root, "other logic 1"))
        self.assertEqual(self.why_not(), OTHER_SOURCES)

    def test_another_machine(self):
        with self.remembering():
            tell(self.root, machine="sparc Solaris")
            self.assertEqual(
                self.why_not(), f"the program of dist/ is for sparc Solaris, and this is {shipped.machine()}"
            )
            self.assertEqual(
                self.why_not(), f"the program of dist/ is for sparc Solaris, and this is {shipped.machine()}"
            )
            tell(self.root, glibc="2.34")
            for version, why in (
                ((2, 34), None), ((2, 36), None), ((3, 0), None),
                ((2, 9), "the program of dist/ needs the GNU C library 2.34 or a newer one"),
                (None, "the program of dist/ needs the GNU C library 2.34 or a newer one"),
            ):
                with unittest.mock.patch.object(shipped, "library", lambda version=version: version):
                    self.assertEqual(self.why_not(), why)

    @unittest.skipIf(os.geteuid() == 0, "root may read all")
    def test_a_file_that_cannot_be_read(self):
        os.chmod(os.path.join(self.root, "crates/base/src/lib.rt"), 0)
        self.assertIn("crates/base/src/lib.rt can't be read", self.why_not())

    def test_a_link_is_no_file_of_a_crate(self):
        path = os.path.join(self.root, "crates/base/src/a.rt")
        for target, why in (
            ("none", "crates/base/src can't be read: No such file or directory"),
            ("../specs", "crates/base/src/a.rt is no file"),
        ):
            os.symlink(target, path)
            self.assertEqual(self.why_not(), why)
            os.unlink(path)

    def test_where_there_is_none_or_it_is_damaged(self):
        write(self.root, shipped.TEXT, "toolchain one logic 1\n")
        self.assertEqual(self.why_not(), "dist/BUILT.txt has no line machine")
        os.chmod(os.path.join(self.root, shipped.PROGRAM), 0o644)
        tell(self.root)
        self.assertEqual(self.why_not(), "dist/planner_cli may not be run")
        os.unlink(os.path.join(self.root, shipped.PROGRAM))
        self.assertIn("dist/planner_cli", self.why_not())
        shutil.rmtree(os.path.join(self.root, "dist"))
        self.assertEqual(self.why_not(), "dist/ has no program")

    def test_what_is_remembered_of_another_state_or_is_damaged_counts_for_nothing(self):
        with self.remembering():
            for text in ("", "fits\n", "fits\nother files\n", "nonsense"):
                write(self.root, shipped.SEEN, text)
                self.assertIsNone(self.why_not())
                write(self.root, "crates/base/src/lib.rt", "other")
                write(self.root, shipped.SEEN, text)
                self.assertEqual(self.why_not(), OTHER_SOURCES)
                write(self.root, "crates/base/src/lib.rt", "base")

    def test_a_folder_in_which_nothing_can_be_written(self):
        os.mkdir(os.path.join(self.root, shipped.SEEN))
        with self.remembering():
            self.assertIsNone(self.why_not())
        self.assertEqual(sorted(os.listdir(os.path.join(self.root, "dist"))), [".seen", "BUILT.txt", "planner_cli"])


class Checkout(unittest.TestCase):
    def test_git_leaves_what_is_remembered_aside(self):
        if not os.path.isdir(os.path.join(rows.ROOT, ".git")):
            self.skipTest("no git checkout")
        for path, is_ignored in (
            (shipped.SEEN, True), (f"{shipped.SEEN}.7", True), (shipped.PROGRAM, False), (shipped.TEXT, False),
        ):
            done = subprocess.run(["git", "check-ignore", "--quiet", "--no-index", path], cwd=rows.ROOT, check=False)
            self.assertEqual(done.returncode == 0, is_ignored, path)

    def test_the_crates_are_those_that_the_build_takes(self):
        sys.path.insert(0, os.path.join(rows.ROOT, "tools"))
        import build
        crates = build.read_crates(build.read(os.path.join(rows.ROOT, "crates.txt")).decode())
        self.assertEqual([name for name, _ in shipped.listed(rows.ROOT)], sorted(build.needed(crates, shipped.TOP)))
        files = {path for path, _ in shipped.marks(rows.ROOT, shipped.listed(rows.ROOT))}
        for name in build.needed(crates, shipped.TOP):
            folder = os.path.join(rows.ROOT, "crates", name)
            hidden = [path for path in build.files_of(folder) if os.path.relpath(path, rows.ROOT) not in files]
            self.assertEqual(
                [
                    path
                    for path in hidden
                    if path.endswith((".rt", ".antt")) and not os.path.basename(path).startswith(".")
                ],
                [],
            )


if __name__ == "__main__":
    unittest.main()
