"""Asks the planner for what it says of an update."""
from __future__ import annotations

import subprocess

from planner_tools.reasons import sentence_of

TYPE_CHECKING = False
if TYPE_CHECKING:
    from typing import Any, Sequence

HOLDS = (
    "No packet comes to a switch twice, each that leaves has met its waypoints in their order, and none that must"
    " arrive is dropped by a switch."
)
# The statuses with which the planner says yes or no; with any other one there is no page.
YES, NO, NO_RUN = 0, 1, 8


class NoVerdict(Exception):
    """The planner gave no verdict: what it said instead, and its status."""

    def __init__(self, text: str, status: int) -> None:
        super().__init__(text)
        self.status = status


def ask(planner: str, *words: str) -> tuple[int, list[str]]:
    """Returns the status and the lines with which the planner answers."""
    try:
        done = subprocess.run([planner, *words], stdout=subprocess.PIPE, text=True, check=False)
    except OSError as fault:
        raise NoVerdict(f"the planner can't be run: {fault}", 125) from fault
    return done.returncode, done.stdout.splitlines()


def verdict(planner: str, files: Sequence[str]) -> dict[str, Any]:
    """Returns the planner's line on an update, with a sentence and the parts of the line."""
    status, lines = ask(planner, "check", *files)
    if status not in (YES, NO):
        raise NoVerdict("\n".join(lines) or f"planner check ended with status {status}", status)
    sentence, reason = sentence_of(lines[0])
    return {"accepted": status == YES, "line": lines[0], "sentence": sentence, "reason": reason}


def verdict_of_configuration(planner: str, files: Sequence[str]) -> dict[str, Any]:
    """Returns the planner's line on a configuration, with a sentence and the parts of the line."""
    status, lines = ask(planner, "config", *files)
    if status not in (YES, NO):
        raise NoVerdict("\n".join(lines) or f"planner config ended with status {status}", status)
    if status == YES:
        return {"accepted": True, "line": lines[0], "sentence": HOLDS, "reason": {}}
    # `check` says the same of a configuration that breaks, with the name and the end of an update before it.
    sentence, reason = sentence_of(f"refused: 1 EndBreaks old {lines[0].removeprefix('breaks: ')}")
    return {
        "accepted": False, "line": lines[0],
        "sentence": sentence.replace("the old configuration", "this configuration"), "reason": reason,
    }


def driven(planner: str, update: Sequence[str], record: str) -> str:
    """Returns the events of the record of an update, as a schedule."""
    with open(record, "rb") as file:
        if any(line.startswith((b"back", b"reopen ", b"dead ")) for line in file):
            return served(planner, update, record)
    status, lines = ask(planner, "drive", *update, record)
    if status != YES:
        raise NoVerdict("\n".join(lines) or f"planner drive ended with status {status}", status)
    return "".join(f"{line}\n" for line in lines if not line.startswith("# sent "))


def served(planner: str, update: Sequence[str], record: str) -> str:
    """Returns the events of the record of an update whose sessions were opened anew. Those of one that was turned back
    are no schedule."""
    with open(record, "rb") as lines:
        done = subprocess.run(
            [planner, "serve", *update], stdin=lines, stdout=subprocess.PIPE, text=True, errors="replace", check=False
        )
    told = done.stdout.splitlines()
    if done.returncode != YES:
        raise NoVerdict("\n".join(told) or f"planner serve ended with status {done.returncode}", done.returncode)
    events = [line for line in told if line.split(" ")[0] in ("start", "back", "change", "undo", "settle")]
    if any(line.split(" ")[0] in ("back", "undo") for line in events):
        raise NoVerdict(
            f"{record} is of an update that was turned back: its events are no schedule, and no page plays them", NO
        )
    return "".join(f"{line}\n" for line in [*events, told[-1].replace("ok ", "# ", 1)])


def traces(planner: str, topology: str, old: str, plan: str, schedule: str) -> dict[str, Any]:
    """Returns what the planner says of a recorded run: a line for each packet and one for the whole, or the line of the
    first event that can't be."""
    status, lines = ask(planner, "replay", topology, old, plan, schedule)
    if status not in (YES, NO_RUN):
        raise NoVerdict("\n".join(lines) or f"planner replay ended with status {status}", status)
    return {"run": status == YES, "answers": lines}
