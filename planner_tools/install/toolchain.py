"""The toolchains with which the program is proved and built, and the oldest Python for the scripts: those that
toolchain.txt names."""
from __future__ import annotations

import hashlib
import os
import subprocess

from planner_tools import program, shipped

FILE = "toolchain.txt"


def named(name: str, root: str = program.ROOT) -> list[str]:
    """The words behind a name in toolchain.txt, for each of its lines."""
    with open(os.path.join(root, FILE), encoding="ascii") as file:
        lines = [line.split("#")[0].split(None, 1) for line in file]
    return [line[1].strip() for line in lines if line[:1] == [name]]


def toolchains(root: str = program.ROOT) -> list[str]:
    """The toolchains with each of which the whole was proved, as `rt version` prints them."""
    return named("rattle", root)


def python(root: str = program.ROOT) -> str:
    """The oldest Python for the scripts."""
    return named("python", root)[0]


def on_this_machine() -> str | None:
    """What `rt version` prints, or None where there is no toolchain."""
    try:
        done = subprocess.run(["rt", "version"], capture_output=True, text=True, check=True, timeout=60)
    except (OSError, subprocess.SubprocessError):
        return None
    return done.stdout.strip()


def difference(root: str = program.ROOT) -> str | None:
    """A sentence where the toolchain of the machine is none of them, or None."""
    wanted, found = toolchains(root), on_this_machine()
    if found is None or found in wanted:
        return None
    return f"the toolchain on this machine is {found}; the repository was proved with {' and with '.join(wanted)}"


def origin(built: str) -> str:
    """A sentence on where a program comes from. That it was proved is said of those alone that one of the checkout's
    own toolchains built from its files: the one of dist/, where its sums are right, and the one that was built
    there."""
    if os.path.realpath(built) == os.path.realpath(program.SHIPPED) and not shipped.why_not(program.ROOT):
        return (
            f"The program is that of the repository's folder {shipped.FOLDER}/: the toolchain"
            f" {shipped.said(program.ROOT)['toolchain']} built it from the sources of this version, which it does only"
            " where each of its functions is proved to meet its contract."
        )
    found = on_this_machine()
    if os.path.realpath(built) == os.path.realpath(program.BUILT) and found in toolchains():
        return (
            f"The program was built with the toolchain {found}, which builds it only where each of its functions is"
            " proved to meet its contract."
        )
    with open(built, "rb") as file:
        return (
            "The program wasn't built here: the packager named one with the sum sha256"
            f" {hashlib.sha256(file.read()).hexdigest()}."
        )
