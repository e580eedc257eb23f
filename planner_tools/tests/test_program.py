"""Which program is run, and who may build it: trees that look like a checkout or an installation, with a build script
that only notes that it was begun."""
import os
import shutil
import subprocess
import sys
import tempfile
import unittest

import rows
import test_shipped

BUILD = """import pathlib
pathlib.Path(__file__).with_name("begun").touch()
raise SystemExit(1)
"""
PROGRAM = "#!/bin/sh\necho the program says $*\n"
FOLDER = os.path.join(rows.ROOT, "examples", "square")

sys.path.insert(0, rows.ROOT)

from planner_tools.version import VERSION  # noqa: E402


class Trees(unittest.TestCase):
    def setUp(self):
        self.root = tempfile.mkdtemp(prefix="planner-tests-")
        self.addCleanup(shutil.rmtree, self.root)
        shutil.copy(rows.FRONT_END, self.root)
        shutil.copytree(
            os.path.join(rows.ROOT, "planner_tools"), os.path.join(self.root, "planner_tools"),
            ignore=shutil.ignore_patterns("tests", "__pycache__"),
        )

    def write(self, path, text, mode=0o755):
        path = os.path.join(self.root, path)
        os.makedirs(os.path.dirname(path), exist_ok=True)
        with open(path, "w", encoding="utf-8") as file:
            file.write(text)
        os.chmod(path, mode)

    def checkout(self):
        self.write("tools/build.py", BUILD)
        self.write("crates/one/src/lib.rt", "code")
        self.write("crates.txt", "one\n")

    def shipped(self, said="the shipped one"):
        """A checkout with a program in dist/ that was built from its files."""
        self.write("tools/build.py", BUILD)
        test_shipped.fill(self.root, PROGRAM.replace("the program", said))

    def run_in_tree(self, *words, **variables):
        environment = {name: value for name, value in os.environ.items() if name != "PLANNER"}
        done = subprocess.run(
            [os.path.join(self.root, "planner"), *words], cwd=FOLDER, capture_output=True, text=True,
            timeout=rows.SECONDS, check=False, env={**environment, **variables},
        )
        return done.returncode, done.stdout, done.stderr

    def has_begun(self):
        return os.path.exists(os.path.join(self.root, "tools", "begun"))

    def test_only_a_proved_command_of_a_checkout_builds(self):
        self.checkout()
        for words in (
            ["page", "."], ["show", "."], ["apply", ".", "record", "--switches", "none"],
            ["collect", ".", "--switches", "none"],
        ):
            with self.subTest(words[0]):
                status, text, said = self.run_in_tree(*words)
                self.assertNotEqual(0, status)
                self.assertEqual("", text)
                self.assertFalse(self.has_begun())
                if words[0] in ("page", "show"):
                    self.assertEqual(125, status)
                    self.assertIn("the program isn't built yet: `python3 ", said)
        self.assertEqual((125, ""), self.run_in_tree("sample", "4")[:2])
        self.assertTrue(self.has_begun())

    def test_it_is_built_where_it_is_older_than_a_source(self):
        self.checkout()
        self.write("crates/planner_cli/out/planner_cli", PROGRAM)
        self.assertEqual((0, "the program says sample 4\n"), self.run_in_tree("sample", "4")[:2])
        self.assertFalse(self.has_begun())
        os.utime(os.path.join(self.root, "crates/planner_cli/out/planner_cli"), (1, 1))
        self.assertEqual(125, self.run_in_tree("sample", "4")[0])
        self.assertTrue(self.has_begun())

    def test_the_one_of_dist_is_run_without_a_build_where_it_was_built_from_these_files(self):
        self.shipped()
        for _ in range(2):
            self.assertEqual((0, "the shipped one says sample 4\n", ""), self.run_in_tree("sample", "4"))
        self.write("crates/planner_cli/out/planner_cli", PROGRAM)
        self.assertEqual("the shipped one says sample 4\n", self.run_in_tree("sample", "4")[1])
        self.assertEqual(
            "the named one says sample 4\n", self.run_in_tree("sample", "4", PLANNER=self.other("the named one"))[1]
        )
        self.assertFalse(self.has_begun())

    def test_over_changed_sources_it_is_built_anew_and_said_why(self):
        self.shipped()
        self.assertEqual("the shipped one says sample 4\n", self.run_in_tree("sample", "4")[1])
        self.write("crates/base/src/lib.rt", "bass")
        status, text, said = self.run_in_tree("sample", "4")
        self.assertEqual((125, ""), (status, text))
        self.assertEqual(
            f"planner: the program is proved and built first: {test_shipped.OTHER_SOURCES}", said.splitlines()[0]
        )
        self.assertTrue(self.has_begun())
        status, text, said = self.run_in_tree("show", ".")
        self.assertEqual((125, ""), (status, text))
        self.assertIn(
            "the program isn't built yet: `python3 ../tools/build.py planner_cli` proves and builds it;"
            f" {test_shipped.OTHER_SOURCES}".replace(
                "../tools", os.path.relpath(os.path.join(self.root, "tools"), FOLDER)
            ),
            said,
        )
        self.write("crates/planner_cli/out/planner_cli", PROGRAM)
        self.assertEqual((0, "the program says sample 4\n", ""), self.run_in_tree("sample", "4"))
        self.write("crates/base/src/lib.rt", "base")
        self.assertEqual((0, "the shipped one says sample 4\n", ""), self.run_in_tree("sample", "4"))

    def taken_by_the_library(self):
        """The program that the library of the tree runs, from the root on; or what it says."""
        shutil.copytree(
            os.path.join(rows.ROOT, "library"), os.path.join(self.root, "library"), dirs_exist_ok=True,
            ignore=shutil.ignore_patterns("tests", "__pycache__"),
        )
        done = subprocess.run(
            [sys.executable, "-c", "import planner.programs; print(planner.programs.path())"], cwd=FOLDER,
            capture_output=True, text=True, timeout=rows.SECONDS, check=False,
            env={"PYTHONPATH": os.path.join(self.root, "library"), "PATH": "/usr/bin:/bin"},
        )
        path = done.stdout.strip()
        return os.path.relpath(path, os.path.realpath(self.root)) if path else done.stderr.splitlines()[-1]

    def test_the_library_takes_the_same_one(self):
        self.shipped()
        self.assertEqual("dist/planner_cli", self.taken_by_the_library())
        self.write("crates/base/src/lib.rt", "bass")
        self.assertIn("NoProgram: the program `planner` isn't there", self.taken_by_the_library())
        self.write("crates/planner_cli/out/planner_cli", PROGRAM)
        self.assertEqual("crates/planner_cli/out/planner_cli", self.taken_by_the_library())
        self.write("crates/base/src/lib.rt", "base")
        self.assertEqual("dist/planner_cli", self.taken_by_the_library())
        self.assertFalse(self.has_begun())

    def test_where_there_is_none_it_is_said(self):
        self.checkout()
        self.assertEqual(
            "planner: the program is proved and built first: dist/ has no program",
            self.run_in_tree("sample", "4")[2].splitlines()[0],
        )

    def test_the_version_says_which_program_is_run(self):
        other = self.other("another")
        built, shipped = (
            os.path.join(self.root, path) for path in ("crates/planner_cli/out/planner_cli", "dist/planner_cli")
        )

        def says(line, **variables):
            self.assertEqual(
                (0, f"planner {VERSION}\nprogram: {line}\n", ""), self.run_in_tree("--version", **variables)
            )

        says(f"{self.root}/planner_cli, as installed")
        says(f"{other}, which the variable PLANNER names", PLANNER=other)
        self.checkout()
        says("none yet, the next command proves and builds it: dist/ has no program")
        self.write("crates/planner_cli/out/planner_cli", PROGRAM)
        says(f"{built}, built here: dist/ has no program")
        self.shipped()
        says(f"{shipped}, which one logic 1 built from the sources that are here")
        self.write("crates/base/src/lib.rt", "bass")
        says(f"none yet, the next command proves and builds it: {test_shipped.OTHER_SOURCES}")
        self.write("crates/planner_cli/out/planner_cli", PROGRAM)
        says(f"{built}, built here: {test_shipped.OTHER_SOURCES}")
        self.assertFalse(self.has_begun())

    def other(self, said):
        """The path of another program."""
        self.write("other", PROGRAM.replace("the program", said))
        return os.path.join(self.root, "other")

    def test_help_and_version_need_no_program(self):
        self.checkout()
        for words in (["--help"], ["--version"], ["check", "--help"], ["page", "--help"]):
            self.assertEqual(0, self.run_in_tree(*words)[0])
        self.assertFalse(self.has_begun())

    def test_an_installed_program_stands_beside_the_package(self):
        status, _, said = self.run_in_tree("sample", "4")
        self.assertEqual(125, status)
        self.assertIn(os.path.join(self.root, "planner_cli"), said)
        self.write("planner_cli", PROGRAM)
        self.assertEqual((0, "the program says sample 4\n"), self.run_in_tree("sample", "4")[:2])

    def test_the_variable_names_another_program_but_not_the_front_end_itself(self):
        self.write("planner_cli", PROGRAM)
        self.assertEqual(
            "the other one says sample 4\n", self.run_in_tree("sample", "4", PLANNER=self.other("the other one"))[1]
        )
        self.assertEqual(
            "the program says sample 4\n",
            self.run_in_tree("sample", "4", PLANNER=os.path.join(self.root, "planner"))[1],
        )


if __name__ == "__main__":
    unittest.main()
