"""What the benchmark scripts share: running the program once, with its time and its greatest memory."""
from __future__ import annotations

import os
import pathlib
import subprocess
import sys
import time

TYPE_CHECKING = False
if TYPE_CHECKING:
    from typing import Any, Sequence

ROOT = pathlib.Path(__file__).resolve().parent.parent


def program() -> pathlib.Path:
    """The built program: that of the variable PLANNER, or the repository's own, which is built where that of dist/
    can't be run."""
    sys.path.insert(0, str(ROOT))
    from planner_tools import program as own
    return pathlib.Path(own.built()).absolute()


def run(title: str, words: Sequence[str], folder: pathlib.Path, shown: int = 70) -> bytes:
    """Runs the program with these words in the folder and prints status, seconds, MB and the begin of its text."""
    before = time.monotonic()
    child = subprocess.Popen([str(program_path), *words], cwd=folder, stdout=subprocess.PIPE)
    assert child.stdout is not None
    text = child.stdout.read()
    _, status, usage = os.wait4(child.pid, 0)
    child.returncode = os.waitstatus_to_exitcode(status)
    seconds = time.monotonic() - before
    line = text[:shown].decode().split("\n")[0]
    print(
        f"{title}: status {child.returncode}, {seconds:.2f} s, {usage.ru_maxrss / 1024:.0f} MB, {len(text)} bytes:"
        f" {line}"
    )
    sys.stdout.flush()
    return text


def sizes(folder: pathlib.Path, *names: Any) -> None:
    """Prints the sizes of files."""
    print(", ".join(f"{name} {(folder / name).stat().st_size / 2**20:.2f} MiB" for name in names))


program_path = program()
