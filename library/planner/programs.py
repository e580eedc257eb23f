"""Where the proved program and its front end are, and the files that they are given."""
from __future__ import annotations

import functools
import json
import os
import pathlib
import shutil
import tempfile
from typing import Any, Mapping, Union

# A file: its path, what it holds as JSON, or its bytes.
File = Union[str, "os.PathLike[str]", Mapping[str, Any], bytes]


class NoProgram(Exception):
    """The program, or its front end, isn't there."""


def home() -> pathlib.Path | None:
    """The folder of the front end: the checkout or the installation in which this package is, or that of the command
    `planner` on the path."""
    beside = pathlib.Path(__file__).resolve().parents[2]
    found = shutil.which("planner")
    for one in (beside, pathlib.Path(found).resolve().parent if found else None):
        if one is not None and (one / "planner").is_file() and (one / "planner_tools").is_dir():
            return one
    return None


def program() -> str:
    """The path of the proved program: what the variable PLANNER names, otherwise that of dist/ where it is the one of
    the checkout's sources, the one that was built there, or the installed one. Nothing is built."""
    at = home()
    named = os.environ.get("PLANNER")
    if named and (at is None or pathlib.Path(named).resolve() != at / "planner"):
        return named
    for one in places(at) if at is not None else ():
        if os.access(one, os.X_OK):
            return str(one)
    raise NoProgram(
        "the program `planner` isn't there: install it, build it by `./planner` in its checkout, or name it by the"
        " variable PLANNER"
    )


def places(at: pathlib.Path) -> list[pathlib.Path]:
    """Where the program may be in the folder of the front end, which says whether that of dist/ is to be run."""
    if not (at / "crates").is_dir():
        return [at / "planner_cli"]
    built = at / "crates/planner_cli/out/planner_cli"
    return [built] if why_not_shipped(at) else [at / "dist/planner_cli", built]


@functools.lru_cache(maxsize=None)
def why_not_shipped(at: pathlib.Path) -> str | None:
    """Why the program of dist/ isn't to be run, or None. It is asked once, and it is the front end that says it: its
    module needs no other."""
    import importlib.util
    found = importlib.util.spec_from_file_location("planner_shipped", at / "planner_tools" / "shipped.py")
    if found is None or found.loader is None:
        return "the front end has no module that says it"
    module = importlib.util.module_from_spec(found)
    try:
        found.loader.exec_module(module)
        why: str | None = module.why_not(str(at))
    except OSError as fault:
        why = str(fault)
    return why


def path() -> str:
    """The path of the program, from any folder."""
    return os.path.abspath(program()) if os.sep in program() else program()


def front_end() -> str:
    """The path of the front end."""
    at = home()
    if at is None:
        raise NoProgram("the command `planner` isn't on the path: install it, or use this package in its checkout")
    return str(at / "planner")


class Files:
    """The files of a run. What isn't in a file yet is written into a folder that is there as long as this is entered.
    Where `is_apart`, the folder is there in any case, and the run is to be in it; otherwise only where something has to
    be written."""

    def __init__(self, given: Mapping[str, File], is_apart: bool = True):
        self.given, self.is_apart = given, is_apart
        self.room: tempfile.TemporaryDirectory[str] | None = None

    def __enter__(self) -> list[str]:
        if self.is_apart or not all(map(is_path, self.given.values())):
            self.room = tempfile.TemporaryDirectory(prefix="planner-")
        return [self.name_of(name, file) for name, file in self.given.items()]

    def __exit__(self, *_: object) -> None:
        if self.room is not None:
            self.room.cleanup()

    @property
    def folder(self) -> str | None:
        """The folder of what was written, or None. Names of files in it have no folder, so that they are told as they
        are."""
        return self.room.name if self.room is not None else None

    def name_of(self, name: str, file: File) -> str:
        if isinstance(file, (str, os.PathLike)):
            return os.fspath(file) if self.folder is None else os.path.abspath(file)
        assert self.folder is not None
        with open(os.path.join(self.folder, name), "wb") as made:
            made.write(bytes_of(file))
        return name


def is_path(file: File) -> bool:
    return isinstance(file, (str, os.PathLike))


def bytes_of(file: File) -> bytes:
    """What a file holds."""
    if isinstance(file, (str, os.PathLike)):
        return pathlib.Path(file).read_bytes()
    return file if isinstance(file, bytes) else json.dumps(file).encode()
