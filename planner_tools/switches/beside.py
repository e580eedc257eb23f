"""Runs of the program while switches are listened to."""
import os
import subprocess
from typing import Any, Callable, Sequence

from planner_tools import program
from planner_tools.switches.connections import Stop


def path() -> str:
    """The path of the program. Stop where there is none."""
    try:
        return program.path()
    except program.CannotRun as fault:
        raise not_run(fault) from None


def not_run(fault: BaseException) -> Stop:
    """What it is that the program can't be run."""
    return Stop(
        f"the program can't be run: {fault}",
        "see that it is there; then do the same again, with --resume where a record is there",
    )


def run_beside(words: Sequence[Any], meanwhile: Callable[[], None]) -> tuple[int, str]:
    """The exit status of a run of the program, and its text in one piece. `meanwhile` is called again and again until
    it ends, and takes some time."""
    try:
        # in a session of its own, since a key that ends this script isn't meant for the program
        done = subprocess.Popen(
            [path(), *map(str, words)], stdin=subprocess.DEVNULL, stdout=subprocess.PIPE, start_new_session=True
        )
    except OSError as fault:
        raise not_run(fault) from None
    assert done.stdout is not None
    os.set_blocking(done.stdout.fileno(), False)
    text, is_open = b"", True
    try:
        while is_open:
            piece = done.stdout.read(1 << 20)
            is_open, text = piece != b"", text + (piece or b"")
            if piece is None:
                meanwhile()
        return done.wait(), text.decode("utf-8", "replace")
    finally:
        done.stdout.close()
        if done.poll() is None:
            done.kill()
            done.wait()
