"""A run of `planner serve`: lines in, a block of lines out for each. What is said in a block is of core.py."""
from __future__ import annotations

import collections
import os
import selectors
import subprocess
import time
from typing import Callable, Iterator, Sequence

from planner.core import ServeEnded, end_of, is_last
from planner.programs import NoProgram

# How long the end of `serve` is waited for when it is to end, in seconds.
END = 2.0
# Where something is to be done meanwhile, an answer is waited for so long before, in seconds; and otherwise so long at
# a time.
SOON, LATE = 0.002, 3600.0


class Blocks:
    """The blocks in what `serve` writes, which comes in pieces."""

    def __init__(self) -> None:
        self.lines: collections.deque[bytes] = collections.deque()
        self.rest = b""                  # the beginning of the next line
        self.block: list[str] = []       # the lines of the next block that are there

    def feed(self, data: bytes) -> None:
        *lines, self.rest = (self.rest + data).split(b"\n")
        self.lines.extend(lines)

    def next(self) -> list[str] | None:
        """The next block, where it is whole."""
        while self.lines:
            self.block.append(self.lines.popleft().decode("ascii", "replace"))
            if is_last(self.block[-1]):
                block, self.block = self.block, []
                return block
        return None

    def text(self) -> str:
        """What is there beside whole blocks."""
        return "".join(f"{line}\n" for line in self.block) + self.rest.decode("utf-8", "replace")


class Serve:
    """A run of `serve` over five files. Where `meanwhile` is given it is called again and again as long as an answer is
    waited for."""

    def __init__(
        self, program: str, names: Sequence[str], folder: str | None, patience: float,
        meanwhile: Callable[[], None] | None = None,
    ):
        self.patience, self.meanwhile = patience, meanwhile
        self.said, self.unsent = Blocks(), b""
        try:
            # in a session of its own, since a key that ends the controller isn't meant for the program
            self.process = subprocess.Popen(
                [program, "serve", *names], stdin=subprocess.PIPE, stdout=subprocess.PIPE, bufsize=0, cwd=folder,
                start_new_session=True,
            )
        except OSError as fault:
            raise NoProgram(f"the program can't be run: {fault}") from fault
        assert self.process.stdin is not None and self.process.stdout is not None
        self.input, self.output = self.process.stdin, self.process.stdout
        for pipe in (self.input, self.output):
            os.set_blocking(pipe.fileno(), False)
        self.selector = selectors.DefaultSelector()
        self.selector.register(self.output, selectors.EVENT_READ)

    def blocks(self, lines: Sequence[str]) -> Iterator[list[str]]:
        """The block of each line, as soon as it is there. The lines are given together."""
        self.unsent += "".join(f"{line}\n" for line in lines).encode("ascii")
        for _ in lines:
            yield self.block()

    def block(self) -> list[str]:
        """The next block."""
        until = time.monotonic() + self.patience
        while (block := self.said.next()) is None:
            seconds = until - time.monotonic()
            if seconds < 0:
                self.process.kill()
                raise ServeEnded(f"`planner serve` gives no answer within {self.patience:g} s")
            self.exchange(min(seconds, LATE))
        return block

    def exchange(self, seconds: float) -> None:
        """Gives what it takes, and takes what is there; where that is nothing, other things are done meanwhile."""
        if self.unsent and self.input not in self.selector.get_map():
            self.selector.register(self.input, selectors.EVENT_WRITE)
        signs = self.selector.select(seconds if self.meanwhile is None else SOON)
        for key, _ in signs:
            if key.fileobj is self.input:
                self.write()
            else:
                self.read()
        if not signs and self.meanwhile is not None:
            self.meanwhile()

    def write(self) -> None:
        try:
            self.unsent = self.unsent[os.write(self.input.fileno(), self.unsent[:1 << 16]):]
        except BlockingIOError:
            pass
        except OSError:
            self.unsent = b""            # it has ended: its text says so next
        if not self.unsent:
            self.selector.unregister(self.input)

    def read(self) -> None:
        data = os.read(self.output.fileno(), 1 << 20)
        if not data:
            raise end_of(self.process.wait(), self.said.text())
        self.said.feed(data)

    def close(self) -> None:
        """Ends it."""
        self.selector.close()
        for pipe in (self.input, self.output):
            pipe.close()
        try:
            self.process.wait(END)
        except subprocess.TimeoutExpired:
            self.process.kill()
            self.process.wait()
