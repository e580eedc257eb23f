"""The record of an update: the lines that `planner serve` is given. Lines are only ever appended, and are on the disk
before anything follows from them.

Before each line stands a line `#N SUM`, which `serve` passes over: N counts the lines from 1, and SUM is the first 16
digits of the SHA-256 of the SUM before it and the line. So a line that was changed, taken out or added later is found,
and named.
"""
from __future__ import annotations

import datetime
import fcntl
import hashlib
import os
import re
import signal
import time

from planner_tools.switches import openflow
from planner_tools.switches.connections import Stop

TYPE_CHECKING = False
if TYPE_CHECKING:
    from typing import Any, Sequence

SUM = re.compile("#([1-9][0-9]*) ([0-9a-f]{16})")
HEAD = re.compile("# update ([0-9a-f]{12}) begun ([0-9]+) (.*)")
FEED = re.compile("feed ([^ ]+) (([0-9a-fA-F]{2}){8,})")
# Remarks that are made right after the tables were found to be as they must be.
COMPARED = re.compile(
    "# (....-..-..T..:..:..)[^ ]* (?:round [0-9]+ starts|round [0-9]+ is undone|the switches have the tables of)[ ,]"
)
MARKED, UNMARKED = " the mark of the update is put on the switches", " the mark of the update is taken away"
# What comes and goes with one switch is noted once in so many seconds, so that a switch that comes and goes for a week
# fills no disk.
SELDOM = 600.0


def sum_of(before: str, line: str) -> str:
    return hashlib.sha256(before.encode() + line.encode("ascii", "replace")).hexdigest()[:16]


class Record:
    def __init__(self, path: str, resume: bool, head: str) -> None:
        """Opens a new record, whose first line has this head, or with `resume` one that was begun with the same
        head."""
        self.path, self.head = path, head
        if os.path.exists(path) != resume:
            raise Stop(
                *(
                    (
                        f"there is no record {path}: nothing of this update was begun",
                        "leave out --resume to begin an update",
                    )
                    if resume
                    else (
                        f"{path} is there already: an update was begun with it",
                        "go on with --resume, or give the record another name",
                    )
                )
            )
        try:
            self.file = open(path, "r+b" if resume else "x+b", buffering=0)
            fcntl.flock(self.file, fcntl.LOCK_EX | fcntl.LOCK_NB)
        except BlockingIOError:
            raise Stop(f"another run is at work with {path}", "wait for its end") from None
        except OSError as fault:
            raise Stop(
                f"{path}: {fault.strerror}", f"see to it; then {'go on with --resume' if resume else 'begin again'}"
            ) from None
        self.is_broken = False        # whether a line couldn't be written: then no further one is
        self.unfollowed: list[str] = []          # its lines that `serve` hasn't been given in this run
        self.opened: set[str] = set()           # the switches from which a HELLO was fed, on their present session
        # the first error that was fed of each switch, on its present session
        self.errors: dict[str, bytes] = {}
        self.starts = 0               # how many rounds were started by it
        self.is_marked = False        # whether the mark was put on the switches
        # lines of the file, those with a sum, the last sum, bytes of the file
        self.lines, self.count, self.sum, self.size = 0, 0, "", 0
        self.last_compared: str | None = None     # when the tables were last found to be as they must be
        # by switch: when it was noted last that it came or went, and how often since
        self.quiet: dict[str, tuple[float, int]] = {}
        if resume:
            try:
                self.take_up()
            except Stop:
                self.file.close()
                raise
        else:
            self.begin()

    def begin(self) -> None:
        """Writes the first line. Where that can't be done there is no record."""
        token = os.urandom(6)
        # an address of one station, of nobody's assignment
        self.token, self.begun = bytes([token[0] & 0xFC | 2]) + token[1:], int(time.time())
        try:
            self.add(f"# update {self.token.hex()} begun {self.begun} {self.head}")
            self.keep()
            folder = os.open(os.path.dirname(os.path.abspath(self.path)), os.O_RDONLY)
            os.fsync(folder)         # so that the file is found again, too
            os.close(folder)
        except Stop as stop:
            self.remove()
            raise Stop(stop.what, f"make room on the disk of {self.path}; then begin again") from None

    # ---- what is there

    def take_up(self) -> None:
        """Reads the lines that are there. What was being written when the update was cut off is a last line without its
        end, or a sum without its line: nothing followed from it, and it goes."""
        whole = self.file.read()
        if not whole or whole.startswith(b"#1 ") and whole.count(b"\n") < 2:
            raise Stop(
                f"the record {self.path} has no whole line: nothing was begun with it",
                f"remove {self.path}, and begin the update without --resume",
            )
        lines = whole.decode("ascii", "replace").split("\n")[:-1]
        first = HEAD.fullmatch(lines[1]) if len(lines) > 1 and SUM.fullmatch(lines[0]) else None
        if first is None:
            raise Stop(
                f"{self.path} isn't the record of an update: it has no first line of one",
                "give the file that `planner apply` wrote",
            )
        for at in range(0, len(lines) - len(lines) % 2, 2):
            self.check(lines, at)
        if len(lines) % 2 and not SUM.fullmatch(lines[-1]):
            raise self.not_as_written(len(lines), "was added", len(lines) - 1)
        if first[3] != self.head:
            raise Stop(
                f"{self.path} was begun with other files, or they were changed since: its first line has their sums",
                "give the files with which the update was begun, as they were",
            )
        self.token, self.begun = bytes.fromhex(first[1]), int(first[2])
        self.file.truncate(self.size)
        self.file.seek(0, os.SEEK_END)

    def check(self, lines: Sequence[str], at: int) -> None:
        """Takes a sum and its line."""
        mark, line = SUM.fullmatch(lines[at]), lines[at + 1]
        if mark is None:
            raise self.not_as_written(at + 1, "was added, or the checksum that stood there was changed", at)
        if int(mark[1]) != self.count + 1:
            what = (
                f"follows what isn't there any more: {int(mark[1]) - self.count - 1} lines of the record are missing"
                " before it"
                if int(mark[1]) > self.count + 1
                else "was added: the record has had one of its number"
            )
            raise self.not_as_written(at + 2, what, at)
        if mark[2] != sum_of(self.sum, line):
            raise self.not_as_written(at + 2, "was changed", at)
        self.count, self.sum, self.lines, self.size = (
            self.count + 1, mark[2], at + 2, self.size + len(lines[at]) + len(line) + 2,
        )
        self.is_marked = (self.is_marked or line.endswith(MARKED)) and not line.endswith(UNMARKED)
        compared = COMPARED.match(line)
        if compared:
            self.last_compared = compared[1]
        self.note(line)

    def not_as_written(self, number: int, what: str, good: int) -> Stop:
        """The first line that isn't as it was written, and how many are good before it."""
        next_step = (
            f"`head -n {good} {self.path} > {self.path}-2` keeps the lines before it"
            if good
            else "find a copy of the record"
        )
        return Stop(
            f"line {number} of the record {self.path} isn't as it was written: it {what}",
            (
                f"{next_step}; go on with that record by --resume: before anything is sent it says what the switches"
                " have beyond it"
            ),
        )

    # ---- what is added

    def add(self, line: str) -> None:
        """Appends a line. No signal ends that half-way."""
        before = signal.pthread_sigmask(signal.SIG_BLOCK, (signal.SIGINT, signal.SIGTERM, signal.SIGHUP))
        try:
            self.append(line)
        finally:
            signal.pthread_sigmask(signal.SIG_SETMASK, before)

    def append(self, line: str) -> None:
        line = line.encode("ascii", "replace").decode()
        total = sum_of(self.sum, line)
        rest = data = f"#{self.count + 1} {total}\n{line}\n".encode()
        try:
            while rest and not self.is_broken:
                rest = rest[self.file.write(rest):]
        except OSError as fault:
            raise self.cannot(fault) from None
        if not rest:
            self.count, self.sum, self.lines, self.size = self.count + 1, total, self.lines + 2, self.size + len(data)

    def cannot(self, fault: OSError) -> Any:
        """Takes what was written of a line away again, as far as that goes."""
        self.is_broken = True
        try:
            os.ftruncate(self.file.fileno(), self.size)
        except OSError:
            pass
        return Stop(
            (
                f"the record {self.path} can't be written: {fault.strerror or fault}. What came last isn't in it, and"
                " nothing was sent that follows from it"
            ),
            f"make room on the disk of {self.path}; then go on with --resume",
        )

    def remark(self, words: str) -> None:
        now = datetime.datetime.now(datetime.timezone.utc).isoformat(timespec="milliseconds")
        self.add(f"# {now} {words}".replace("\n", " "))

    def remark_seldom(self, switch: str, words: str) -> None:
        """A remark on a switch that came or went: one in SELDOM seconds, with how many were left out."""
        last, left_out = self.quiet.get(switch, (None, 0))
        if last is not None and time.monotonic() - last < SELDOM:
            self.quiet[switch] = last, left_out + 1
            return
        self.quiet[switch] = time.monotonic(), 0
        self.remark(words + (f" (and {left_out} times more since the last remark on it)" if left_out else ""))

    def feed(self, switch: str, piece: bytes) -> None:
        if openflow.is_message(piece) and openflow.type_of(piece) == openflow.HELLO and switch in self.opened:
            # `serve` passes over a further one, and a switch that comes and goes would fill the record
            return
        self.give(f"feed {switch} {piece.hex()}")

    def give(self, line: str) -> None:
        """Appends a line that isn't a remark."""
        self.add(line)
        self.note(line)

    def note(self, line: str) -> None:
        """Notes what follows from a line for those behind it."""
        if line == "" or line.startswith("#"):
            return
        self.unfollowed.append(line)
        words, feed = line.split(" "), FEED.fullmatch(line)
        if words[0] == "start":
            self.starts += 1
        elif words[0] in ("reopen", "dead"):
            self.opened.discard(words[1])
            self.errors.pop(words[1], None)
        elif feed:
            self.note_message(feed[1], bytes.fromhex(feed[2]))

    def note_message(self, switch: str, piece: bytes) -> None:
        if openflow.type_of(piece) == openflow.HELLO:
            self.opened.add(switch)
        elif openflow.type_of(piece) == openflow.ERROR:
            self.errors.setdefault(switch, piece)

    def take_unfollowed(self) -> list[str]:
        """The lines that `serve` is to be given next."""
        lines, self.unfollowed = self.unfollowed, []
        return lines

    def keep(self) -> None:
        """Has the disk take what was appended."""
        try:
            os.fsync(self.file.fileno())
        except OSError as fault:
            raise self.cannot(fault) from None

    def remove(self) -> None:
        """Takes the file away: nothing was begun with it."""
        os.unlink(self.path)
