#!/usr/bin/env python3
"""Runs the tests of the scripts, folder by folder, and prints what each has said, in the order below.

    tools/run_tests.py [--without-program | --with-program] [FOLDER..]

Without words: all folders; those with the program are left out, with a line on the error stream, where there is none.
With FOLDER, as `update` or `planner_tools/update/tests`: those alone. The program is the one that PLANNER names,
otherwise that of the checkout. Nothing is built.
Of each group folders run side by side, those of one group behind those of the one before.
Exit status: 0 all tests passed, 1 some didn't, 2 wrong words.
"""
from __future__ import annotations

import argparse
import os
import subprocess
import sys
import tempfile

ROOT = os.path.dirname(os.path.dirname(os.path.realpath(__file__)))
sys.path.insert(0, ROOT)
sys.dont_write_bytecode = True

from planner_tools import program  # noqa: E402

# Folders of tests that need no program, and those that do; those of a line run side by side. Behind `:` stands the
# pattern of names of files.
WITHOUT_PROGRAM = [["tools", "bench", "reliability/tests"]]
WITH_PROGRAM = [
    ["planner_tools/tests", "planner_tools/intent/tests", "planner_tools/switches/tests", "planner_tools/page/tests"],
    ["planner_tools/convert/tests", "planner_tools/install/tests", "planner_tools/update/tests", "library/tests"],
    ["reliability/tests:test_serve*.py"],        # once more, with the program
]


def command_of(tests: str) -> tuple[str, list[str]]:
    """The folder in which tests are run, and the words that run them."""
    folder, _, pattern = tests.partition(":")
    words = [sys.executable, "-B", "-m", "unittest"]
    if os.path.basename(folder) == "tests" and folder.startswith("reliability"):
        return os.path.dirname(folder), [*words, "discover", "-q", "-s", "tests", "-p", pattern or "test*.py"]
    return folder, [*words, "-q"]


def run_beside(group: list[str], environment: dict[str, str]) -> bool:
    """Runs the tests of some folders side by side, and prints what each has said, one behind the other. Whether all
    passed."""
    with tempfile.TemporaryDirectory(prefix="planner-tests-") as room:
        started = []
        for number, tests in enumerate(group):
            folder, words = command_of(tests)
            with open(os.path.join(room, str(number)), "wb") as said:
                at = os.path.join(ROOT, folder)
                run = subprocess.Popen(words, cwd=at, env=environment, stdout=said, stderr=subprocess.STDOUT)
                started.append((tests, run))
        is_good = True
        for number, (tests, run) in enumerate(started):
            is_good &= run.wait() == 0
            with open(os.path.join(room, str(number)), encoding="utf-8", errors="replace") as text:
                print(f"== tests of {tests}\n{text.read()}", end="", flush=True)
    return is_good


def program_path() -> str | None:
    """The path of the program, from any folder; or None."""
    try:
        path = program.path()
    except program.CannotRun as fault:
        print(f"run_tests: what needs the program is left out: {fault}", file=sys.stderr)
        return None
    return os.path.abspath(path) if os.sep in path else path


def chosen(groups: list[list[str]], folders: list[str]) -> list[list[str]]:
    """The tests of some folders among groups of tests; without folders all."""
    return [[tests for tests in group if not folders or any(is_meant(tests, one) for one in folders)]
            for group in groups]


def is_meant(tests: str, word: str) -> bool:
    """Whether a word names a folder of tests: its path, or that of what it tests, or the last part of this."""
    folder, word = tests.partition(":")[0], word.rstrip("/")
    tested = folder.removesuffix("/tests")
    return word in (folder, tested, os.path.basename(tested))


def main(words: list[str]) -> int:
    form = argparse.RawDescriptionHelpFormatter
    parser = argparse.ArgumentParser(prog="run_tests.py", description=__doc__, formatter_class=form)
    which = parser.add_mutually_exclusive_group()
    which.add_argument("--without-program", action="store_true")
    which.add_argument("--with-program", action="store_true")
    parser.add_argument("folders", metavar="FOLDER", nargs="*")
    options = parser.parse_args(words)
    without, behind = chosen(WITHOUT_PROGRAM, options.folders), chosen(WITH_PROGRAM, options.folders)
    for word in options.folders:
        if not any(is_meant(tests, word) for group in WITHOUT_PROGRAM + WITH_PROGRAM for tests in group):
            parser.error(f"{word} is no folder of tests")
    environment, is_good = dict(os.environ), True
    if not options.with_program:
        is_good = all([run_beside(group, environment) for group in without])
    path = program_path() if not options.without_program and any(behind) else None
    if path is not None:
        is_good &= all([run_beside(group, {**environment, "PLANNER": path}) for group in behind])
    elif options.with_program:
        return 1
    return 0 if is_good else 1


if __name__ == "__main__":
    sys.exit(main(sys.argv[1:]))
