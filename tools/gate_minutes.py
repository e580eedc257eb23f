#!/usr/bin/env python3
"""The minutes of `rt ci` by crate: for its proof, its tests and its must-fail edits.

    tools/gate_minutes.py run LOG [WORD..]    runs `rt ci WORD..` at the top of the repository, writes LOG, and prints
                                              the table
    tools/gate_minutes.py LOG                 prints the table of a log
    tools/gate_minutes.py seconds LOG..       prints what tools/crate_seconds.txt holds: of each crate the processor
                                              seconds of its proof

What `rt ci` says has no times, and of edits it speaks only at its end. So `run` stamps each line with the seconds since
the start, and besides looks once a second at the processes that rt started: each is the work on one crate, and which
work it is stands in its words. For each that ended, the log has a line `## SECOND CRATE KIND PROCESSOR-SECONDS
SECONDS`. Minutes are processor minutes, also of processes that were started beneath; `long` is how many minutes the
proof took by the clock. What was kept from an earlier run takes no time: for a whole run the words are `--anew`, and
none where the toolchain keeps nothing.
"""
from __future__ import annotations

import os
import subprocess
import sys
import threading
import time

TYPE_CHECKING = False
if TYPE_CHECKING:
    from typing import Iterable, TextIO

KINDS = ("proof", "tests", "edits")
TICKS = os.sysconf("SC_CLK_TCK")
# The work of a process: the crate and the kind.
Work = tuple[str, str]
# A process: its parent's number, and its processor seconds.
Process = tuple[int, float]
# Processor seconds by crate and kind.
Spent = dict[str, dict[str, int]]


# ---- what a process does

def kind_of(words: list[str], folder: str) -> Work | None:
    """Returns the work of a process of rattle, or None where it is no work on a crate. Edits are tried on copies
    elsewhere."""
    if "--crate-name" not in words or not {"build", "check"} & {*words[1:2]}:
        return None
    crate = words[words.index("--crate-name") + 1]
    return crate, "edits" if not folder.endswith(f"/crates/{crate}") else "tests" if "--test" in words else "proof"


def parse_stat(text: str) -> Process:
    """Returns the parent's number and the processor seconds, those of ended children too, from the text of
    /proc/N/stat."""
    fields = text.rpartition(")")[2].split()
    return int(fields[1]), sum(map(int, fields[11:15])) / TICKS


def processes() -> dict[int, Process]:
    """Returns the parent and the processor seconds of each process by its number."""
    found = {}
    for it in filter(str.isdigit, os.listdir("/proc")):
        try:
            with open(f"/proc/{it}/stat", errors="replace") as file:
                found[int(it)] = parse_stat(file.read())
        except OSError:
            pass
    return found


def below(top: int, parents: dict[int, Process]) -> list[int]:
    """Returns the numbers of all processes that the process started, and those that these started."""
    children: dict[int, list[int]] = {}
    for number, (parent, _) in parents.items():
        children.setdefault(parent, []).append(number)
    found: list[int] = []
    open_ = [top]
    while open_:
        more = children.get(open_.pop(), [])
        found += more
        open_ += more
    return found


class Seen:
    """What is seen of a process: its work, when it was first seen, and its processor seconds."""

    def __init__(self, work: Work, begun: float) -> None:
        self.work, self.begun, self.seconds = work, begun, 0.0


class Watch:
    """What is seen of the processes below one, of each that works on a crate."""

    def __init__(self, top: int) -> None:
        self.top = top
        self.seen: dict[int, Seen] = {}

    def look(self, second: float) -> list[str]:
        """Looks once, and returns the lines of those that ended since."""
        now = processes()
        present = below(self.top, now)
        ended = [self.line(it, second) for it in [*self.seen] if it not in present]
        # (what such a process started counts with it)
        inner = {it for number in self.seen for it in below(number, now)}
        for number in present:
            if number not in self.seen and number not in inner:
                self.meet(number, second)
                inner.update(below(number, now) if number in self.seen else [])
        for number, about in self.seen.items():
            about.seconds = max(about.seconds, sum(now[it][1] for it in [number, *below(number, now)]))
        return ended

    def meet(self, number: int, second: float) -> None:
        """Notes a process that works on a crate."""
        try:
            with open(f"/proc/{number}/cmdline", "rb") as file:
                words = file.read().decode(errors="replace").split("\0")
            work = kind_of(words, os.readlink(f"/proc/{number}/cwd"))
        except OSError:
            return
        if work:
            self.seen[number] = Seen(work, second)

    def line(self, number: int, second: float) -> str:
        """Returns the line of a process that has ended."""
        about = self.seen.pop(number)
        crate, kind = about.work
        return f"## {second:.0f} {crate} {kind} {about.seconds:.0f} {second - about.begun:.0f}"


class Log:
    """The log of a run: lines, some of them stamped with the seconds since its start. Several threads write into it."""

    def __init__(self, file: TextIO) -> None:
        self.file, self.begun, self.writing = file, time.monotonic(), threading.Lock()

    def second(self) -> float:
        return time.monotonic() - self.begun

    def write(self, line: str) -> None:
        with self.writing:
            print(line, file=self.file, flush=True)

    def stamp(self, lines: Iterable[str]) -> None:
        """Writes lines as they come, each with its second."""
        for line in lines:
            self.write(f"{self.second():6.0f} " + line.removesuffix("\n"))


def begin(words: list[str]) -> subprocess.Popen[str]:
    """Starts the gate at the top of the repository. All that it says comes by one stream."""
    root = os.path.dirname(os.path.dirname(os.path.realpath(__file__)))
    return subprocess.Popen(["rt", "ci", *words], cwd=root, text=True, errors="replace",
                            stdout=subprocess.PIPE, stderr=subprocess.STDOUT)


def run(path: str, words: list[str]) -> int:
    """Runs the gate, writes the log, and returns rt's exit status."""
    with open(path, "w") as file, begin(words) as ran:
        log, watch = Log(file), Watch(ran.pid)
        stamping = threading.Thread(target=log.stamp, args=(ran.stdout,))
        stamping.start()
        while ran.poll() is None:
            time.sleep(1)
            for line in watch.look(log.second()):
                log.write(line)
        stamping.join()
        log.write(f"## {log.second():.0f} end")
        return ran.returncode


# ---- the table

def read_log(lines: Iterable[str]) -> tuple[Spent, dict[str, int], int, str]:
    """Returns the processor seconds by crate and kind, the seconds of each crate's proof, the seconds of the whole, and
    rt's last line."""
    spent: Spent = {}
    long: dict[str, int] = {}
    whole, last = 0, ""
    for line in lines:
        words = line.split()
        if words[:1] == ["##"] and len(words) == 6:
            _, _, crate, kind, processor, clock = words
            by_kind = spent.setdefault(crate, dict.fromkeys(KINDS, 0))
            by_kind[kind] += int(processor)
            if kind == "proof":
                long[crate] = long.get(crate, 0) + int(clock)
        elif words[:1] == ["##"] and len(words) == 3:
            whole = int(words[1])
        elif len(words) > 1:
            last = line.strip().partition(" ")[2]
    return spent, long, whole, last


def row(name: str, numbers: Iterable[float]) -> str:
    return f"{name:24}" + "".join(f"{it / 60:8.1f}" for it in numbers)


def table(spent: Spent, long: dict[str, int], whole: int, last: str) -> list[str]:
    """Returns the lines of the table: the crates that took most first, and the sums."""
    lines = [f"{'minutes':24}{'proof':>8}{'tests':>8}{'edits':>8}{'all':>8}{'long':>8}"]
    for crate, by_kind in sorted(spent.items(), key=lambda it: -sum(it[1].values())):
        lines.append(row(crate, [*by_kind.values(), sum(by_kind.values()), long.get(crate, 0)]))
    sums = [sum(it[kind] for it in spent.values()) for kind in KINDS]
    lines.append(row("all crates", [*sums, sum(sums)]))
    return [*lines, f"{whole / 60:.1f} minutes by the clock; {last}"]


def seconds_by_crate(logs: Iterable[Iterable[str]]) -> list[str]:
    """Returns the lines of crate_seconds.txt, from the lines of logs: of each crate the greatest proof that one of them
    has."""
    found: dict[str, int] = {}
    for lines in logs:
        spent, _, _, _ = read_log(lines)
        for crate, by_kind in spent.items():
            found[crate] = max(found.get(crate, 0), by_kind["proof"])
    return [f"{crate} {seconds}" for crate, seconds in sorted(found.items(), key=lambda it: -it[1]) if seconds]


def read_lines(log: str) -> list[str]:
    with open(log) as it:
        return it.readlines()


def main(words: list[str]) -> int:
    status = 0
    if words[:1] == ["seconds"] and len(words) > 1:
        print(*seconds_by_crate(map(read_lines, words[1:])), sep="\n")
        return 0
    if words[:1] == ["run"] and len(words) > 1:
        status, words = run(words[1], words[2:]), words[1:2]
    if len(words) != 1 or words[0] in ("run", "--help"):
        print(__doc__, file=sys.stderr)
        return 2
    print(*table(*read_log(read_lines(words[0]))), sep="\n")
    return status


if __name__ == "__main__":
    sys.exit(main(sys.argv[1:]))
