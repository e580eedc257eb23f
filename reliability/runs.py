"""What the scripts of this folder share: the program, the commands over the example files, and a run of the program
with one call refused."""
from __future__ import annotations

import dataclasses
import os
import pathlib
import shutil
import subprocess
import sys
import tempfile

TYPE_CHECKING = False
if TYPE_CHECKING:
    from typing import Any, Sequence

ROOT = pathlib.Path(__file__).resolve().parent.parent
sys.path.insert(0, str(ROOT / "planner_tools" / "tests"))

import usual  # noqa: E402

LIBRARY_SOURCE = ROOT / "reliability" / "refuse.c"
INPUT = """feed s1 0100000800000000
feed s3 0100000800000000
start
feed s1 0113000800000002
start
feed s3 0113000800000004
"""
READING_FAILED, WRITING_FAILED, MEMORY_WANTING = 6, 7, 9


@dataclasses.dataclass(frozen=True)
class Answer:
    """How a run ended: its exit status, negative where a signal ended it, and all that it wrote."""
    status: int
    text: bytes
    errors: bytes = b""


def program() -> str:
    """The built program: that of the variable PLANNER, or the repository's own, which is built where that of dist/
    can't be run."""
    named = os.environ.get("PLANNER")
    if named:
        return str(pathlib.Path(named).resolve())
    sys.path.insert(0, str(ROOT))
    from planner_tools import program as own
    return own.built()


def example_folder(folder: pathlib.Path) -> None:
    """Copies the examples to the folder and writes the input of `drive`."""
    for name in ("square", "detour", "leaf-spine"):
        shutil.copytree(ROOT / "examples" / name, folder / name)
    (folder / "square" / "input").write_text(INPUT)


def update(name: str, *more: str) -> list[str]:
    return [f"{name}/{file}" for file in ("topology.json", "old.json", "new.json", "policy.json")] + [
        f"{name}/{file}" for file in more
    ]


def example_commands() -> Any:
    """Each command over the example files, as lists of words, but `serve`, which serve.py is about. One that isn't
    named here has a usual run."""
    commands = []
    for name in ("square", "detour"):
        topology, plan = f"{name}/topology.json", f"{name}/plan.json"
        commands += [
            ["config", topology, f"{name}/new.json", f"{name}/policy.json"],
            ["check", *update(name, "plan.json")],
            ["plan", *update(name)],
            ["upgrade", topology, plan],
            ["emit", topology, plan],
            ["simulate", *update(name, "plan.json"), "0", "2"],
        ]
    commands += [
        ["config", "detour/topology.json", "detour/new.json", "detour/policy-two-waypoints.json"],
        ["config", *(f"leaf-spine/{name}.json" for name in ("topology-wide", "old", "policy-lists"))],
        ["check", *update("square", "plan-at-once.json")],
        ["pack", *update("square")],
        ["pack", *update("detour")],
        ["certify", *update("square", "plan.json")],
        ["certify", *update("square", "plan-at-once.json")],
        ["explain", *update("square", "plan.json")],
        ["explain", *update("square", "plan-at-once.json")],
        ["explain", *update("detour", "plan.json")],
        ["replay", "square/topology.json", "square/old.json", "square/plan.json", "square/schedule"],
        ["tables", "square/topology.json", "square/old.json", "square/plan.json", "square/schedule"],
        ["paths", "square/topology.json", "square/new.json", "square/policy.json"],
        ["trace", "square/topology.json", "square/new.json", "s1:1", "untagged", "10.0.0.1"],
        ["import", "square/topology.json", "square/replies-s1"],
        ["drive", *update("square", "plan.json", "input")],
        ["sample", "4"],
    ]
    return commands + usual.of_others(commands, "square/")


def title(words: Sequence[str]) -> str:
    """A short name of a command: its word and the file that tells it from the others."""
    folder = words[1].split("/")[0]
    special = [word.split("/")[-1] for word in words if "at-once" in word or "two-waypoints" in word]
    return " ".join([words[0], folder, *special])


def library(folder: pathlib.Path) -> str:
    """Compiles the library that refuses calls into the folder; answers its path."""
    built = folder / "refuse.so"
    subprocess.run(["cc", "-O2", "-Wall", "-fPIC", "-shared", "-o", str(built), str(LIBRARY_SOURCE)], check=True)
    return str(built)


def plain_run(program_path: str, words: Sequence[str], folder: pathlib.Path) -> Answer:
    """A run in which nothing is refused."""
    done = subprocess.run(
        [program_path, *words], cwd=folder, stdin=subprocess.DEVNULL, stdout=subprocess.PIPE, stderr=subprocess.PIPE
    )
    return Answer(done.returncode, done.stdout, done.stderr)


def refused_run(
    program_path: str, words: Sequence[str], folder: pathlib.Path, library_path: str, what: str, at: int,
    stay: bool = False, short: bool = False,
) -> tuple[Answer, bool]:
    """A run in which call number `at` of a kind fails; answers how it ended, and whether it came to that call."""
    with tempfile.TemporaryFile() as report:
        variables = {
            "LD_PRELOAD": library_path, "REFUSE_WHAT": what, "REFUSE_AT": str(at), "REFUSE_STAY": str(int(stay)),
            "REFUSE_SHORT": str(int(short)), "REFUSE_REPORT": str(report.fileno()),
        }
        done = subprocess.run(
            [program_path, *words], cwd=folder, env=variables, pass_fds=[report.fileno()], stdin=subprocess.DEVNULL,
            stdout=subprocess.PIPE, stderr=subprocess.PIPE,
        )
        return Answer(done.returncode, done.stdout, done.stderr), os.fstat(report.fileno()).st_size > 0
