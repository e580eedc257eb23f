"""Tests that the scripts of lab/ find what they import: what they do needs Open vSwitch, and is not tested here."""
from __future__ import annotations

import os
import subprocess
import sys
import tempfile
import unittest

LAB = os.path.join(os.path.dirname(os.path.dirname(os.path.realpath(__file__))), "lab")


def run(*words: str) -> subprocess.CompletedProcess[str]:
    command = [sys.executable, "-B", *words]
    return subprocess.run(command, cwd="/", capture_output=True, text=True, timeout=120, check=False)


class Lab(unittest.TestCase):
    def test_faults_says_its_words(self) -> None:
        done = run(os.path.join(LAB, "faults.py"), "--help")
        self.assertEqual((done.returncode, done.stdout[:6]), (0, "usage:"), done.stderr)

    def test_controllers_says_its_words(self) -> None:
        done = run(os.path.join(LAB, "controllers.py"), "--help")
        self.assertEqual((done.returncode, done.stdout[:6]), (0, "usage:"), done.stderr)

    def test_the_ring_has_its_files(self) -> None:
        with tempfile.TemporaryDirectory() as folder:
            done = run(os.path.join(LAB, "ring.py"), "4", folder)
            wanted = ["new.json", "old.json", "policy.json", "topology.json"]
            self.assertEqual((done.returncode, sorted(os.listdir(folder))), (0, wanted), done.stderr)


if __name__ == "__main__":
    unittest.main()
