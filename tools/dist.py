#!/usr/bin/env python3
"""Keeps the folder dist/: the built program, and a text that says what it was built from. A checkout runs that program
as long as its files are those.

    tools/dist.py [PROGRAM]            writes the folder from the program that tools/build.py or the test command built
                                       here, or from PROGRAM, which this machine's toolchain built from these files:
                                       that it is proved, and the same once more, the test command says
    tools/dist.py --check [PROGRAM]    fails where the program isn't that of the folder byte for byte, or the text of
                                       the folder isn't that of the files here

Toolchains of other versions may build other bytes. So these are compared only with the toolchain that built the program
of the folder; with another one it says that they aren't. Where there is no folder there is nothing to compare.
"""
from __future__ import annotations

import hashlib
import os
import re
import sys

ROOT = os.path.dirname(os.path.dirname(os.path.realpath(__file__)))
sys.path.insert(0, ROOT)
sys.dont_write_bytecode = True

from planner_tools import program, shipped  # noqa: E402
from planner_tools.install import toolchain  # noqa: E402

ABOUT = """# The program beside this text, and what it was built from. `./planner` runs it as long as the sums are those of the files that are here.
# tools/dist.py writes both, and the test command compares them with what it has built.
"""


class Wrong(Exception):
    """The folder can't be written, or isn't what it should be: why."""


def read(path: str) -> bytes:
    try:
        with open(path, "rb") as file:
            return file.read()
    except OSError as fault:
        raise Wrong(f"{path}: {fault.strerror}") from fault


def library_version(data: bytes) -> str | None:
    """The newest version of the C library of which a program uses a symbol, or None."""
    found = re.findall(rb"GLIBC_(\d+)\.(\d+)", data)
    newest = max(((int(major), int(minor)) for major, minor in found), default=None)
    return ".".join(map(str, newest)) if newest else None


def text_of(root: str, data: bytes, built_with: str) -> str:
    """The text for a program that the toolchain built from the files here."""
    values = {
        "toolchain": built_with,
        "machine": shipped.machine(),
        "glibc": library_version(data) or shipped.NO_LIBRARY,
        "program": shipped.sum_of(data),
        "sources": shipped.sum_of_sources(root, built_with),
    }
    return ABOUT + "".join(f"{name} {values[name]}\n" for name in shipped.NAMES)


def put(path: str, data: bytes, mode: int) -> None:
    """Puts a file in its place in one step: a program that runs isn't written into."""
    with open(f"{path}.new", "wb") as file:
        file.write(data)
    os.chmod(f"{path}.new", mode)
    os.replace(f"{path}.new", path)


def write(root: str, built: str) -> str:
    """Writes the folder, and returns what is said of it."""
    data, found = read(built), toolchain.on_this_machine()
    if found is None or found not in toolchain.toolchains(root):
        raise Wrong(f"the toolchain of this machine is {found or 'none'}, and {toolchain.FILE} doesn't name it")
    text = text_of(root, data, found)
    os.makedirs(os.path.join(root, shipped.FOLDER), exist_ok=True)
    put(os.path.join(root, shipped.PROGRAM), data, 0o755)
    put(os.path.join(root, shipped.TEXT), text.encode(), 0o644)
    return f"{shipped.FOLDER}/ has the program of {len(data)} bytes, built with {found}"


def check(root: str, built: str) -> str:
    """Returns what is said where nothing is wrong."""
    if not any(os.path.exists(os.path.join(root, path)) for path in (shipped.PROGRAM, shipped.TEXT)):
        return f"there is no {shipped.FOLDER}/ here, so there is nothing to compare"
    shipped.look(root)
    about, kept = shipped.said(root), read(os.path.join(root, shipped.PROGRAM))
    if about["glibc"] != (library_version(kept) or shipped.NO_LIBRARY):
        raise Wrong(f"{shipped.TEXT} names another C library than the program of {shipped.FOLDER}/ needs")
    found = toolchain.on_this_machine()
    if found != about["toolchain"] or shipped.machine() != about["machine"]:
        return (f"the text of {shipped.FOLDER}/ is that of the files here; its program was built with "
                f"{about['toolchain']} on {about['machine']}, so it can't be compared "
                f"with one of {found or 'no toolchain'} on {shipped.machine()}")
    data = read(built)
    if data != kept:
        raise Wrong(f"{built} isn't the program of {shipped.FOLDER}/: its sum is {hashlib.sha256(data).hexdigest()}, "
                    f"of {len(data)} bytes, and not {about['program']}, of {len(kept)}")
    return f"the program of {shipped.FOLDER}/ is byte for byte {os.path.relpath(built, root)}"


def main(words: list[str]) -> int:
    is_check = words[:1] == ["--check"]
    words = words[is_check:]
    if len(words) > 1 or any(word.startswith("-") for word in words):
        print((__doc__ or "").strip(), file=sys.stderr)
        return 2
    try:
        if not words and not is_check and program.is_stale():
            raise Wrong(f"{program.BUILT} is missing or older than a source: build it first")
        print(f"dist.py: {(check if is_check else write)(ROOT, words[0] if words else program.BUILT)}")
        return 0
    except (Wrong, shipped.Unfit, OSError) as fault:
        print(f"dist.py: {fault}", file=sys.stderr)
        return 1


if __name__ == "__main__":
    sys.exit(main(sys.argv[1:]))
