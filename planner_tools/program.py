"""The proved program: where it is, runs of it, and its build.

The program is the one that the environment variable PLANNER names; otherwise in a checkout the one of dist/, where that
was built from the files that are there, or else the one that was built there; otherwise the one that is installed
beside this package.
"""
from __future__ import annotations

import os
import sys

from planner_tools import shipped

TYPE_CHECKING = False
if TYPE_CHECKING:
    from typing import Any

ROOT = os.path.dirname(os.path.dirname(os.path.realpath(__file__)))
FRONT_END = os.path.join(ROOT, "planner")
BUILT = os.path.join(ROOT, "crates", "planner_cli", "out", "planner_cli")
SHIPPED = os.path.join(ROOT, *shipped.PROGRAM.split("/"))
INSTALLED = os.path.join(ROOT, "planner_cli")
BUILD = os.path.join(ROOT, "tools", "build.py")
# The exit status where the program can't be built or run.
NO_PROGRAM = 125


class CannotRun(Exception):
    """There is no program to run, or it can't be run: why, and what to do."""


def typed() -> str:
    """How this front end is called from here: by its name where that is on the path, otherwise by its path."""
    import shutil
    found = shutil.which("planner")
    if found and os.path.realpath(found) == FRONT_END:
        return "planner"
    path = os.path.relpath(FRONT_END)
    path = min(path, FRONT_END, key=len)
    return path if os.sep in path else os.path.join(".", path)


def is_checkout() -> bool:
    return os.path.isfile(BUILD) and os.path.isdir(os.path.join(ROOT, "crates"))


def named() -> str | None:
    """The program that the variable PLANNER names, or None. This front end itself is none."""
    name = os.environ.get("PLANNER")
    return name if name and os.path.realpath(name) != FRONT_END else None


def path() -> str:
    """The path of the program. Builds nothing: where there is none it is CannotRun."""
    name = named()
    if name and os.sep in name and not os.access(name, os.X_OK):
        raise CannotRun(f"the variable PLANNER names {name}, which isn't there or can't be run")
    if name:
        return name
    for one in in_checkout() if is_checkout() else (INSTALLED,):
        if os.access(one, os.X_OK):
            return one
    if is_checkout():
        raise CannotRun(
            f"the program isn't built yet: `python3 {os.path.relpath(BUILD)} planner_cli` proves and builds it;"
            f" {shipped.why_not(ROOT)}"
        )
    raise CannotRun(f"the program isn't there: {INSTALLED} is missing, or PLANNER has to name it")


def in_checkout() -> tuple[str, ...]:
    """The programs of a checkout that may be run, the one of dist/ first."""
    return (BUILT,) if shipped.why_not(ROOT) else (SHIPPED, BUILT)


def described() -> str:
    """Which program is run, in a line."""
    if named():
        return f"program: {named()}, which the variable PLANNER names"
    if not is_checkout():
        return f"program: {INSTALLED}, as installed"
    if not shipped.why_not(ROOT):
        return f"program: {SHIPPED}, which {shipped.said(ROOT)['toolchain']} built from the sources that are here"
    if is_stale():
        return f"program: none yet, the next command proves and builds it: {shipped.why_not(ROOT)}"
    return f"program: {BUILT}, built here: {shipped.why_not(ROOT)}"


class Started:
    """A run of the program, whose text is read as it comes. (The module subprocess does more, and takes as long to load
    as the rest of the front end.)"""

    def __init__(self, *words: str) -> None:
        import signal
        reader, writer = os.pipe()
        self.reader: int | None = reader
        self.status: int | None = None
        try:
            # What Python ignores for itself the program doesn't.
            self.number = os.posix_spawnp(
                words[0], words, os.environ, file_actions=[(os.POSIX_SPAWN_DUP2, writer, 1)],
                setsigdef=[signal.SIGPIPE, signal.SIGXFSZ],
            )
        except OSError as fault:
            self.close()
            raise CannotRun(f"the program can't be run: {fault}") from fault
        finally:
            os.close(writer)

    def read(self) -> bytes:
        """The next piece of its text; none is left where it is empty."""
        return os.read(self.reader, 1 << 16) if self.reader is not None else b""

    def close(self) -> None:
        """Reads no more."""
        if self.reader is not None:
            os.close(self.reader)
            self.reader = None

    def end(self) -> None:
        """Ends the program before its time."""
        import signal
        if self.status is None:
            os.kill(self.number, signal.SIGTERM)

    def wait(self) -> int:
        """Its exit status, or the number of the signal that ended it, with a minus."""
        if self.status is None:
            self.close()
            self.status = os.waitstatus_to_exitcode(os.waitpid(self.number, 0)[1])
        return self.status


def run(*words: str, program: str | None = None) -> tuple[int, str]:
    """The exit status of a run, and its text in one piece."""
    started = Started(program or path(), *map(str, words))
    try:
        text = b"".join(iter(started.read, b""))
    except BaseException:
        started.end()
        started.wait()
        raise
    return started.wait(), text.decode("utf-8", "replace")


# ---- the build, for the front end of a checkout alone

def is_stale() -> bool:
    """Whether the program of the checkout is missing or older than a source."""
    try:
        built = os.stat(BUILT).st_mtime_ns
    except OSError:
        return True
    folders = [
        os.path.join(ROOT, "crates", crate, part)
        for crate in os.listdir(os.path.join(ROOT, "crates"))
        for part in shipped.PARTS
    ]
    return os.stat(os.path.join(ROOT, "crates.txt")).st_mtime_ns > built or any(has_newer(it, built) for it in folders)


def has_newer(folder: str, moment: Any) -> bool:
    """Whether a folder has a file that was changed after the moment."""
    try:
        entries = list(os.scandir(folder))
    except OSError:
        return False
    return any(has_newer(it.path, moment) if it.is_dir() else it.stat().st_mtime_ns > moment for it in entries)


def built() -> str:
    """The path of the program. In a checkout, where no variable names one and that of dist/ can't be run, it is proved
    and built first if it is missing or older than a source."""
    if not named() and is_checkout() and shipped.why_not(ROOT) and is_stale():
        print(f"planner: the program is proved and built first: {shipped.why_not(ROOT)}", file=sys.stderr, flush=True)
        import subprocess
        if subprocess.run([sys.executable, "-B", BUILD, "planner_cli"], check=False).returncode != 0:
            raise CannotRun("the program can't be built")
    return path()
