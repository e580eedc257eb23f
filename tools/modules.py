#!/usr/bin/env python3
"""Writes which modules a crate of tests has (NAME_tests, src/lib.rt): each file of its src/, in the order of their
names, below what stands at its head.

    tools/modules.py           writes them
    tools/modules.py --check   prints the crates that have others, and fails where it prints one

A file that no module names is read by no test, so a test that was forgotten there would pass.
"""
from __future__ import annotations

import os
import sys

import making

TYPE_CHECKING = False
if TYPE_CHECKING:
    from typing import Iterable

ITEM = "#[cfg(test)]\n"


def with_modules(text: str, files: Iterable[str]) -> str:
    """Returns the text of lib.rt with a module for each file."""
    head = text.partition(ITEM)[0]
    return head + "".join(f"{ITEM}mod {it};\n" for it in sorted(files))


def make() -> making.Made:
    """Returns the texts of all crates of tests."""
    wanted = {}
    for crate in sorted(it for it in os.listdir(f"{making.ROOT}/crates") if it.endswith("_tests")):
        folder = f"crates/{crate}/src"
        names = (it for it in os.listdir(f"{making.ROOT}/{folder}") if it.endswith(".rt") and it != "lib.rt")
        files = [it.removesuffix(".rt") for it in names]
        wanted[f"{folder}/lib.rt"] = with_modules(making.read(f"{folder}/lib.rt"), files)
    return wanted, []


if __name__ == "__main__":
    sys.exit(making.run("modules", sys.argv[1:], __doc__, make))
