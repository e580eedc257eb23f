"""What the scripts share that read the repository, and that make files, or parts of documents, from others.

The latter are run without words to write what they make, and with `--check` to say which file isn't what they make, and
fail where there is one.
"""
from __future__ import annotations

import os
import re
import sys

TYPE_CHECKING = False
if TYPE_CHECKING:
    from typing import Callable, Iterable, Iterator

ROOT = os.path.dirname(os.path.dirname(os.path.realpath(__file__)))
# What a script makes: the texts that files are to have by their paths, and what is wrong besides, a sentence each.
Made = tuple[dict[str, str], list[str]]
# A file of the repository: its crate, its path and its text.
File = tuple[str, str, str]


def read(path: str) -> str:
    """Returns the text of a file of the repository; nothing where there is no file."""
    if not os.path.isfile(f"{ROOT}/{path}"):
        return ""
    with open(f"{ROOT}/{path}", encoding="utf-8") as file:
        return file.read()


def paths_below(folder: str) -> Iterator[str]:
    """Yields the paths of all files in a folder and in those below it, in one order."""
    for at, folders, names in os.walk(folder):
        folders.sort()
        yield from (f"{at}/{name}" for name in sorted(names))


def files_of(parts: Iterable[str], root: str = ROOT, crates: Iterable[str] | None = None) -> Iterator[File]:
    """Yields the crate, the path and the text of each file in parts (src, specs, proofs) of crates: of these, or of
    all in the order of their names."""
    for crate in crates if crates is not None else sorted(os.listdir(f"{root}/crates")):
        for path in (path for part in parts for path in paths_below(f"{root}/crates/{crate}/{part}")):
            with open(path, encoding="utf-8") as file:
                yield crate, os.path.relpath(path, root), file.read()


def with_part(text: str, name: str, part: str, path: str) -> str:
    """Returns the text of the document at this path with a part between its marks, `<!-- NAME -->` and
    `<!-- /NAME -->`."""
    between = re.compile(rf"(<!-- {name} -->).*?(<!-- /{name} -->)", re.S)
    made, found = between.subn(lambda marks: marks[1] + part + marks[2], text)
    if found != 1:
        raise LookupError(f"{path} has no marks <!-- {name} --> and <!-- /{name} --> around what is made")
    return made


def tell(script: str, sentences: Iterable[str]) -> None:
    """Says on the error stream what a script has found, a line each."""
    for sentence in sentences:
        print(f"{script}: {sentence}", file=sys.stderr)


def settle(script: str, wanted: dict[str, str], is_check: bool) -> list[str]:
    """Writes the texts that files are to have, by their paths, or says which haven't them; returns the paths of those
    that hadn't."""
    others = [path for path, text in wanted.items() if read(path) != text]
    for path in others:
        if is_check:
            print(f"{script}: {path} isn't what tools/{script}.py makes: run python3 tools/{script}.py",
                  file=sys.stderr)
            continue
        with open(f"{ROOT}/{path}", "w", encoding="utf-8") as file:
            file.write(wanted[path])
    return others


def run(script: str, words: list[str], about: str | None, make: Callable[[], Made]) -> int:
    """Runs a script with its words, and returns its exit status."""
    if words not in ([], ["--check"]):
        print(about, file=sys.stderr)
        return 2
    try:
        wanted, wrong = make()
    except LookupError as fault:
        wanted, wrong = {}, [str(fault)]
    tell(script, wrong)
    others = settle(script, wanted, bool(words))
    return 1 if wrong or words and others else 0
