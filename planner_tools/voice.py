"""What is said on the error stream: refusals, warnings and notes, in colour where it is a terminal; and lines on work
that goes on."""
from __future__ import annotations

import os
import sys

TYPE_CHECKING = False
if TYPE_CHECKING:
    from typing import Callable, Sequence, TextIO

RED, YELLOW, BLUE, PLAIN = "\x1b[1;31m", "\x1b[1;33m", "\x1b[1;34m", "\x1b[0m"
# How wide the lines are on a terminal that doesn't tell its width.
WIDTH = 150


def has_colour(stream: TextIO) -> bool:
    return stream.isatty() and not os.environ.get("NO_COLOR") and os.environ.get("TERM") != "dumb"


def wrapped(text: str) -> list[str]:
    """The lines of a text below another line."""
    if len(text) <= WIDTH - 4 and not any(one.isspace() and one != " " for one in text):
        return ["    " + text.rstrip(" ")] if text.strip(" ") else [""]
    import textwrap
    return textwrap.wrap(
        text, WIDTH, initial_indent="    ", subsequent_indent="      ", break_long_words=False, break_on_hyphens=False
    ) or [""]


class Voice:
    """Says things on a stream, each with further lines below it. A quiet one says refusals alone."""

    # what is called in place of writing, where the answer is one for machines
    listener: Callable[[str, str, Sequence[str]], None] | None = None

    def __init__(self, stream: TextIO | None = None, is_quiet: bool = False) -> None:
        self.stream, self.is_quiet = stream or sys.stderr, is_quiet
        self.has_colour = has_colour(self.stream)

    def is_read(self) -> bool:
        """Whether a person reads what is said: it goes to a terminal, and isn't quiet."""
        return not self.is_quiet and self.stream.isatty()

    def refuse(self, what: str, more: Sequence[str] = ()) -> None:
        self.say("planner: ", RED, what, more)

    def warn(self, what: str, more: Sequence[str] = ()) -> None:
        if not self.is_quiet:
            self.say("planner: warning: ", YELLOW, what, more)

    def note(self, what: str, more: Sequence[str] = ()) -> None:
        if not self.is_quiet:
            self.say("planner: note: ", BLUE, what, more)

    def say(self, head: str, colour: str, what: str, more: Sequence[str]) -> None:
        if Voice.listener is not None:
            Voice.listener(head, what, more)
            return
        lines = [f"{colour}{head.rstrip()}{PLAIN} {what}" if self.has_colour else head + what]
        lines += [line for one in more for line in wrapped(one)]
        try:
            self.stream.write("\n".join(line.encode("utf-8", "replace").decode() for line in lines) + "\n")
            self.stream.flush()
        except OSError:
            pass


class Telling:
    """Lines on work that goes on. Where nobody hears them any more that is noted, and what is said from then on goes to
    the terminal, where there is one."""

    def __init__(self) -> None:
        self.is_quiet = False        # whether only refusals are said, and questions
        self.fault: OSError | None = None            # why the error stream couldn't be written

    def say(self, words: str, end: str = "\n") -> None:
        """Says a line that has to be heard: why something ended, or a question."""
        try:
            if sys.stderr is not None:
                print(words, end=end, file=sys.stderr, flush=True)
        except OSError as fault:
            self.fault = self.fault or fault
            turn_to_terminal()

    def progress(self, words: str) -> None:
        """Says a line on what goes on, where it isn't quiet."""
        if not self.is_quiet:
            self.say(words)


def turn_to_terminal() -> None:
    """Has the error stream lead to the terminal, and where there is none, nowhere."""
    try:
        other = os.open("/dev/tty", os.O_WRONLY | os.O_NOCTTY)
    except OSError:
        other = os.open(os.devnull, os.O_WRONLY)
    os.dup2(other, sys.stderr.fileno())
    os.close(other)


TELLING = Telling()
