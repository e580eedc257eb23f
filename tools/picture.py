#!/usr/bin/env python3
"""Makes the picture of the crates in docs/MAP.md from crates.txt, whose families begin with a line `# NAME` behind an
empty one.

    tools/picture.py           writes it
    tools/picture.py --check   prints where the page doesn't have it, and fails where it prints something

Crates of tests alone (NAME_tests) aren't drawn. The picture says that a crate stands on crates of lower rows, and on
crates before it in its own: so a crate that crates.txt has before one on which it stands is told too.
"""
from __future__ import annotations

import sys
import textwrap

import making

PAGE = "docs/MAP.md"
MARGIN, WIDTH = 18, 140
BETWEEN = " " * (MARGIN + 5) + "|\n"
# A family: its name, and its crates with those on which each stands.
Family = tuple[str, dict[str, list[str]]]


def families_in(text: str) -> list[Family]:
    """Returns the families of crates, in order."""
    families: list[Family] = []
    is_behind_empty = False
    for line in text.splitlines():
        name, colon, libraries = line.partition(":")
        if line.startswith("# ") and is_behind_empty:
            families.append((line[2:], {}))
        elif colon and not line.startswith("#"):
            families[-1][1][name.split()[0]] = libraries.split()
        is_behind_empty = not line
    return families


def drawn(families: list[Family]) -> str:
    """Returns the picture, the highest family first."""
    rows = []
    for name, crates in reversed(families):
        names = "  ".join(it for it in crates if not it.endswith("_tests"))
        lines = textwrap.wrap(names, WIDTH - MARGIN, break_long_words=False, break_on_hyphens=False) or [""]
        heads = [f" {name}".ljust(MARGIN)] + [" " * MARGIN] * (len(lines) - 1)
        rows.append("".join(f"{head}{line}\n" for head, line in zip(heads, lines)))
    return BETWEEN.join(rows)


def misplaced(families: list[Family]) -> list[str]:
    """Returns a sentence for each crate that stands before one on which it stands."""
    before: set[str] = set()
    said, every = [], {it for _, crates in families for it in crates}
    for _, crates in families:
        for name, libraries in crates.items():
            behind = [it for it in libraries if it in every and it not in before]
            said += [f"crates.txt has {name} before {it}, on which it stands" for it in behind]
            before.add(name)
    return said


def make() -> making.Made:
    """Returns the text of the page with the picture, and the crates that are misplaced."""
    families = families_in(making.read("crates.txt"))
    page = making.with_part(making.read(PAGE), "picture", f"\n```\n{drawn(families)}```\n", PAGE)
    return {PAGE: page}, misplaced(families)


if __name__ == "__main__":
    sys.exit(making.run("picture", sys.argv[1:], __doc__, make))
