"""The program of the last release: what dist/ held before the first heading of CHANGELOG.md became the present one."""
from __future__ import annotations

import pathlib
import re
import subprocess

LOG, PROGRAM = "CHANGELOG.md", "dist/planner_cli"


class NoRelease(Exception):
    """What this checkout knows has no release before its own."""


def first_heading(text: str) -> str:
    """What the first heading of a change log says, a number or that its changes aren't released."""
    found = re.search(r"^## ([^,\n]*)", text, re.MULTILINE)
    return found[1] if found else ""


def git(root: pathlib.Path, *words: str) -> bytes:
    return subprocess.run(["git", "-C", str(root), *words], capture_output=True, check=True).stdout


def last_release(root: pathlib.Path) -> tuple[str, str]:
    """The number of the last release, and what git calls its last state. Raises NoRelease."""
    present, before = first_heading((root / LOG).read_text()), "HEAD"
    for commit in git(root, "log", "--format=%H", "--", LOG).decode().split():
        heading = first_heading(git(root, "show", f"{commit}:{LOG}").decode())
        if heading[:1].isdigit() and heading != present:
            return heading, before
        before = f"{commit}^"
    raise NoRelease(f"no release before {present} is known here")


def write_program(root: pathlib.Path, path: pathlib.Path) -> str:
    """Writes the program of the last release, and returns its number. Raises NoRelease."""
    number, state = last_release(root)
    try:
        path.write_bytes(git(root, "show", f"{state}:{PROGRAM}"))
    except subprocess.CalledProcessError:
        raise NoRelease(f"{number} has no {PROGRAM}") from None
    path.chmod(0o755)
    return number
