#!/usr/bin/env python3
"""Finds the lemmas that nothing cites: definitions of proofs/ whose name stands nowhere in the crates but in themselves
and in imports.

    tools/lemmas.py           prints them, and how many lines they take
    tools/lemmas.py --check   the same, and fails where it prints one

The answers to a function's goals (Answers.antt, Invariants.antt, Proof.antt) are named by the goals, and aren't looked
at; nor are worked rows (Rows.antt, RunRows.antt), which show definitions on examples. A name that stands in two files
counts as cited where either is.
"""
from __future__ import annotations

import os
import re
import sys

import making

PASSED_OVER = {"Answers.antt", "Invariants.antt", "Proof.antt", "Rows.antt", "RunRows.antt"}
HEAD = re.compile(r"(?:(?:pub|abbrev|unfoldable|opaque)\s+)*([^\s(){},:=]+)\s*(?:\{[^}]*\}\s*)*:(?=\s)")
USE = re.compile(r"(?:pub\s+)?use\b")
# (begins an item that is no clause of the definition before it)
OTHER = re.compile(r"(?:pub\s+)?(?:use|mod|module|record|data)\b")
# (a name may hold letters of any alphabet, and signs such as -)
WORD = re.compile(r'[^\s(){}\[\],;.:="]+')


def items_in(text: str) -> list[tuple[str | None, str]]:
    """Returns what stands in a file of definitions, item by item: the name that each defines, or none, and its text.
    The clauses of a name are its own."""
    items: list[tuple[str | None, list[str]]] = []
    for line in re.sub(r"--.*", "", text).split("\n"):
        is_inner = not line or line[0].isspace() or line[0] in ")}]"
        head = None if is_inner else HEAD.match(line)
        last = items[-1][0] if items else None
        if head:
            items.append((head[1], [line]))
        elif is_inner and items or last and not OTHER.match(line):
            items[-1][1].append(line)
        else:
            items.append((None, [line]))
    return [(name, "\n".join(lines)) for name, lines in items]


def count_words(text: str, into: dict[str, int]) -> None:
    for word in WORD.findall(text):
        into[word] = into.get(word, 0) + 1


def uncited(files: dict[str, str]) -> list[tuple[str, str, int]]:
    """Returns of each lemma that nothing cites the path, the name and the lines, from the texts of all files by their
    paths."""
    words: dict[str, int] = {}
    lemmas = []
    for path, text in files.items():
        if path.endswith(".rt"):
            count_words(text, words)
            continue
        for name, own in items_in(text):
            if not USE.match(own):
                count_words(own, words)
            if name and "/proofs/" in path and os.path.basename(path) not in PASSED_OVER:
                lemmas.append((path, name, own))
    lonely = [(path, name, own) for path, name, own in lemmas if words[name] == WORD.findall(own).count(name)]
    return [(path, name, len(own.strip().split("\n"))) for path, name, own in lonely]


def main(words: list[str]) -> int:
    if words not in ([], ["--check"]):
        print(__doc__, file=sys.stderr)
        return 2
    found = uncited({path: text for _, path, text in making.files_of(("src", "specs", "proofs"))})
    for path, name, _ in found:
        print(f"lemmas: {path}: nothing cites {name}")
    if found:
        print(f"lemmas: {len(found)} in {sum(lines for _, _, lines in found)} lines")
    return 1 if words and found else 0


if __name__ == "__main__":
    sys.exit(main(sys.argv[1:]))
