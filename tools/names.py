#!/usr/bin/env python3
"""Finds names that stand for two things: a type (struct, enum, type, trait, of src/) or a public definition (of specs/)
of one name in two crates. It holds them against tools/shared_names.txt, a list that may only shrink: a name that isn't
listed stands in one crate, and one that is listed in no others than are listed.

    tools/names.py            prints each, with where it stands and what is said of it there; first those that most
                              crates name that stand on two of its crates, so that a reader there has to know which is
                              meant
    tools/names.py --check    prints where a name stands in more crates than are listed, or in fewer, and fails where it
                              prints something
    tools/names.py --write    writes the list anew

Crates of tests alone (NAME_tests) aren't looked at, nor names of a part that each crate of a kind has for itself
(ROLES). A type and the definition that tells its value stand in one crate, and are one thing.
"""
from __future__ import annotations

import re
import sys

import build
import making

TYPE_CHECKING = False
if TYPE_CHECKING:
    from typing import Iterable, Iterator

LISTED = "tools/shared_names.txt"
HEAD = """\
# Names that stand for two things in two crates, with these crates (tools/names.py). A name leaves the list when one of the two gets a name of its own;
# none comes to it.
"""
# What each command has of its words and files, and what each reader of a file has of its faults, under the same name.
ROLES = {"names_in", "names_seen", "meaning_of", "fault_number", "fault_name", "fault_place", "fault_field", "of_json"}
TYPE = re.compile(r"(?m)^(?:pub(?:\(\w+\))? )?(?:struct|enum|type|trait) (\w+)")
DEFINITION = re.compile(r"(?m)^(?:(?:abbrev|unfoldable|opaque) pub|pub (?:record|data)) ([^\s:({]+)")
SAID = re.compile(r" *(?:///?|--) ?(.*)")
# (an operator is one thing to a reader wherever it stands)
WORD = re.compile(r"\w+")
# (a module's name is none of those that stand in it)
MODULE = re.compile(r"\bRattle(?:\.\w+)+")


class Place:
    """Where a name is declared: the crate, the file, and what is said of it in the comment above."""

    def __init__(self, crate: str, file: str, said: str) -> None:
        self.crate, self.file, self.said = crate, file, said


def comment_before(text: str, at: int) -> str:
    """Returns the comment in the lines above a place of a text, past its attributes."""
    lines: list[str] = []
    for line in reversed(text[:at].splitlines()):
        said = SAID.fullmatch(line)
        if said and not line.startswith("//!"):
            lines.append(said[1])
        elif not line.lstrip().startswith("#["):
            break
    return " ".join(reversed(lines))


def declared_in(crate: str, file: str, text: str) -> Iterator[tuple[str, Place]]:
    """Yields each name that a file declares, and where."""
    for found in (TYPE if file.endswith(".rt") else DEFINITION).finditer(text):
        start = text.rfind("\n", 0, found.start(1)) + 1
        if WORD.fullmatch(found[1]):
            yield found[1], Place(crate, file, comment_before(text, start))


def shared_in(files: Iterable[making.File]) -> dict[str, list[Place]]:
    """Returns the places of each name that is declared in two crates, from crates, paths and texts."""
    found: dict[str, list[Place]] = {}
    for crate, file, text in files:
        if not crate.endswith("_tests"):
            for name, place in declared_in(crate, file, text):
                found.setdefault(name, []).append(place)
    return {name: places for name, places in found.items()
            if name not in ROLES and len({it.crate for it in places}) > 1}


def crates_of(shared: dict[str, list[Place]]) -> dict[str, list[str]]:
    """Returns the crates of each name, in order."""
    return {name: sorted({it.crate for it in places}) for name, places in sorted(shared.items())}


def read_listed(text: str) -> dict[str, list[str]]:
    """Returns the crates that the list has for each name."""
    rows = [line.split() for line in text.splitlines() if line.strip() and not line.startswith("#")]
    return {name: crates for name, *crates in rows}


def differences(found: dict[str, list[str]], listed: dict[str, list[str]]) -> list[str]:
    """Returns a sentence for each name that stands in other crates than the list says."""
    said = []
    for name in sorted({*found, *listed}):
        now, then = set(found.get(name, ())), set(listed.get(name, ()))
        if now - then:
            where = " and ".join(sorted(now))
            said.append(f"{name} stands for two things, in {where}: give the new one a name of its own")
        elif then - now:
            where = " and ".join(sorted(then - now))
            said.append(f"{name} doesn't stand in {where} beside another any more: run tools/names.py --write")
    return said


def below(libraries: dict[str, list[str]]) -> dict[str, set[str]]:
    """Returns of each crate itself and all on which it stands, from the libraries that each lists, where a crate stands
    behind those on which it stands."""
    found: dict[str, set[str]] = {}
    for crate, listed in libraries.items():
        found[crate] = {crate}.union(*(found.get(it, ()) for it in listed))
    return found


def naming(shared: dict[str, list[Place]], files: list[making.File]) -> dict[str, dict[str, int]]:
    """Returns for each name in how many files of each crate it stands."""
    named: dict[str, dict[str, int]] = {name: {} for name in shared}
    for crate, _, text in files:
        for name in set(WORD.findall(MODULE.sub("", text))) & named.keys():
            named[name][crate] = named[name].get(crate, 0) + 1
    return named


def listing(shared: dict[str, list[Place]], files: list[making.File], libraries: dict[str, list[str]]) -> list[str]:
    """Returns a line for each name and each of its places; first the names that most crates name that stand on two of
    the places' crates."""
    named, reach, rows = naming(shared, files), below(libraries), []
    for name, places in shared.items():
        own = {it.crate for it in places}
        between = sum(len(own & reach.get(crate, set())) > 1 for crate in named[name])
        rows.append((between, sum(named[name].values()), name))
    lines = []
    for between, count, name in sorted(rows, key=lambda row: (-row[0], -row[1], row[2])):
        lines.append(f"{name}: {between} crates stand on two that have it, {count} files name it")
        lines += [f"    {it.file}: {it.said}" for it in shared[name]]
    return lines


def main(words: list[str]) -> int:
    files = list(making.files_of(("src", "specs")))
    shared = shared_in(files)
    if words == ["--write"]:
        with open(f"{making.ROOT}/{LISTED}", "w", encoding="utf-8") as file:
            file.write(HEAD)
            file.writelines(f"{name} {' '.join(crates)}\n" for name, crates in crates_of(shared).items())
        return 0
    if words == ["--check"]:
        said = differences(crates_of(shared), read_listed(making.read(LISTED)))
        making.tell("names", said)
        return 1 if said else 0
    if words:
        print(__doc__, file=sys.stderr)
        return 2
    print(*listing(shared, files, build.read_crates(making.read("crates.txt"))), sep="\n")
    return 0


if __name__ == "__main__":
    sys.exit(main(sys.argv[1:]))
