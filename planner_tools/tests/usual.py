"""A usual run of each command of the program over the files of a folder like examples/square, as the usage in
planner_tools/words.py has its words."""
from __future__ import annotations

import os
import sys

sys.path.insert(0, os.path.dirname(os.path.dirname(os.path.dirname(os.path.realpath(__file__)))))
from planner_tools import words  # noqa: E402

TYPE_CHECKING = False
if TYPE_CHECKING:
    from typing import Iterable, Sequence

# What stands for a word that names no file, and the names of the files that have others in examples/square than a
# folder has by rule.
GIVEN = {
    "ENTRY": "s1:1", "VLAN": "untagged", "ADDRESS": "10.0.0.1", "KIND": "ordered", "START": "7", "COUNT": "100",
    "N": "4",
}
FILES = {**words.IN_FOLDER, "REPLIES": "replies-s1", "INPUT": "README.md"}
# Reads the standard input line by line, and has tests of its own.
SERVES = "serve"


def words_of(command: words.Command, folder: str = "") -> list[str]:
    """Returns the words of a usual run of a command over the files of a folder, whose name ends in a stroke."""
    names, _ = command.words()
    unknown = [it for it in names if it not in GIVEN and it not in FILES]
    if unknown:
        raise LookupError(
            f"{command.name}: planner_tools/tests/usual.py doesn't say what stands for {', '.join(unknown)}"
        )
    return [command.name, *(GIVEN.get(it) or folder + FILES[it] for it in names)]


def of_others(runs: Iterable[Sequence[str]], folder: str = "") -> list[list[str]]:
    """Returns a usual run of each command of the program that none of these runs is of, but of the one that serves
    lines."""
    named = {run[0] for run in runs}
    return [words_of(it, folder) for it in words.PROVED if it.name not in named and it.name != SERVES]
