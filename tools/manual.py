#!/usr/bin/env python3
"""Writes docs/planner.1, docs/planner.bash and the tables of commands in README.md and docs/TOUR.md from
planner_tools/words.py.

    tools/manual.py             writes them
    tools/manual.py --check     writes nothing, and fails where one is not what this script makes
"""
from __future__ import annotations

import sys

import making

sys.path.insert(0, making.ROOT)

from planner_tools import manual  # noqa: E402


def wanted() -> dict[str, str]:
    """Returns the text that each file is to have, by its path."""
    return {
        "docs/planner.1": manual.manual(),
        "docs/planner.bash": manual.completion(),
        "README.md": with_table("README.md", manual.table()),
        "docs/TOUR.md": with_table("docs/TOUR.md", manual.long_table()),
    }


def with_table(path: str, table: str) -> str:
    """Returns the text of a document with a table between its marks."""
    return making.with_part(making.read(path), "commands", f"\n{table}", path)


if __name__ == "__main__":
    sys.exit(making.run("manual", sys.argv[1:], __doc__, lambda: (wanted(), [])))
