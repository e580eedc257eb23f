"""The package as it is installed: beside the program, and by pip. PLANNER names the program."""
import importlib.util
import os
import pathlib
import shutil
import subprocess
import sys
import tempfile
import unittest

ROOT = pathlib.Path(__file__).resolve().parents[2]
sys.path[:0] = [str(ROOT)]

from planner_tools import program, version  # noqa: E402
from planner_tools.install import files  # noqa: E402

# What a controller does first.
TRIES = """
import planner, sys
square = sys.argv[1]
files = [f"{square}/{name}.json" for name in ("topology", "old", "new", "policy")]
plan = planner.pack(*files).plan
with planner.Session(*files, plan) as session:
    session.feed("s1", planner.HELLO)
    print(planner.__version__, planner.check(*files, plan).verdict, session.start().messages[0].switch)
"""


class Packages(unittest.TestCase):
    def setUp(self):
        self.folder = tempfile.TemporaryDirectory(prefix="planner-tests-")
        self.addCleanup(self.folder.cleanup)

    def tried(self, path, **more):
        """What the first steps print with the package at a path, and no more than these variables."""
        done = subprocess.run(
            [sys.executable, "-c", TRIES, str(ROOT / "examples" / "square")], capture_output=True, text=True,
            check=False, cwd=self.folder.name, env={"PYTHONPATH": str(path), "PATH": os.environ["PATH"], **more},
        )
        return done.stdout + done.stderr

    def test_an_installation_has_it(self):
        prefix = os.path.join(self.folder.name, "usr")
        files.put(prefix, str(ROOT), shutil.which(program.path()) or program.path(), "2026-12-01")
        self.assertEqual(f"{version.VERSION} accepted s1\n", self.tried(os.path.join(prefix, files.LIBRARY, "library")))

    @unittest.skipUnless(shutil.which("mypy"), "mypy isn't on this machine")
    def test_its_types_agree(self):
        done = subprocess.run(
            ["mypy", "--strict", "--cache-dir", self.folder.name, "planner"], capture_output=True, text=True,
            check=False, cwd=ROOT / "library",
        )
        self.assertEqual(0, done.returncode, done.stdout)

    def test_pip_installs_it(self):
        if any(importlib.util.find_spec(one) is None for one in ("pip", "setuptools", "wheel")):
            self.skipTest("pip, setuptools or wheel isn't there")
        target, source = os.path.join(self.folder.name, "target"), os.path.join(self.folder.name, "source")
        shutil.copytree(ROOT / "library", source, ignore=shutil.ignore_patterns("__pycache__", "tests"))
        done = subprocess.run(
            [
                sys.executable, "-m", "pip", "install", "-q", "--no-index", "--no-deps", "--no-build-isolation",
                "--target", target, source,
            ],
            capture_output=True, text=True, check=False,
        )
        self.assertEqual(0, done.returncode, done.stderr)
        self.assertTrue(os.path.exists(os.path.join(target, "planner", "py.typed")))
        commands = os.path.join(self.folder.name, "bin")
        os.makedirs(commands)
        os.symlink(ROOT / "planner", os.path.join(commands, "planner"))
        self.assertEqual(
            f"{version.VERSION} accepted s1\n",
            self.tried(
                target, PATH=f"{commands}{os.pathsep}{os.environ['PATH']}", PLANNER=os.path.abspath(program.path())
            ),
        )


if __name__ == "__main__":
    unittest.main()
