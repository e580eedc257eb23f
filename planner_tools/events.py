"""What `planner update --json` and `planner apply --json` write: a line of JSON for each thing that happens, as it
happens."""
from __future__ import annotations

import io
import json

TYPE_CHECKING = False
if TYPE_CHECKING:
    from typing import Any, Sequence, TextIO

    from planner.core import Event

# Where the lines go, or None where nobody asked for them.
SINK: TextIO | None = None
# What kinds of things voices have said.
HEARD: set[str] = set()


def tell(event: str, **values: Any) -> None:
    """Writes an event. Where nobody reads them any more there are no further ones, and the update goes on."""
    global SINK
    try:
        if SINK is not None:
            SINK.write(json.dumps({"event": event, **values}) + "\n")
            SINK.flush()
    except OSError:
        SINK = None


def heard(head: str, what: str, more: Sequence[str]) -> None:
    """Writes what a voice says."""
    kind = next((one for one in ("warning", "note") if f" {one}:" in head), "refusal")
    HEARD.add(kind)
    tell(kind, what=what, more=list(more))


def tell_events(happened: Sequence[Event]) -> None:
    """Writes the events of a session of the library."""
    for one in happened:
        if one.kind in ("changed", "undone"):
            tell(one.kind, round=one.round, change=one.change, do=one.do, rule=one.rule)
        elif one.kind == "failed":
            tell("failed", switch=one.switch, cause=one.cause)
        else:
            tell(one.kind, round=one.round)


class Lines(io.TextIOBase):
    """An error stream whose lines are written as events. What has no line end when it is flushed, a question, goes to
    the error stream all the same, and so does each line when nobody reads the events any more."""

    def __init__(self, stream: TextIO) -> None:
        super().__init__()
        self.stream, self.rest = stream, ""

    def write(self, text: str) -> int:
        *lines, self.rest = (self.rest + text).split("\n")
        for one in lines:
            tell("says", words=one)
            if SINK is None:
                self.stream.write(f"{one}\n")
        return len(text)

    def flush(self) -> None:
        if self.rest:
            self.stream.write(self.rest)
            self.stream.flush()
            self.rest = ""
