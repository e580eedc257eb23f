#!/usr/bin/env python3
"""Proves and builds the program, and says on the error stream how far it is.

    tools/build.py PROGRAM      PROGRAM is the crate with `main`, as crates.txt names it

The work is done by `rt ci`, which proves each crate from nothing, several side by side, builds the program and runs it.
It works in a copy that has the program's crates alone, without the crates of tests and without the edits that must be
refused: those are for the test command. Where the toolchain has a store, `rt ci` keeps what it has passed beside its
kit, under sums of all that it read. Then a build that is stopped goes on where it was, and the test command takes over
what a build has proved, as a build takes over what the test command has. Otherwise each begins anew.
"""
from __future__ import annotations

import contextlib
import fcntl
import hashlib
import os
import re
import shutil
import signal
import subprocess
import sys
import tempfile
import time

TYPE_CHECKING = False
if TYPE_CHECKING:
    from typing import BinaryIO, Iterable, Iterator, NoReturn, TextIO

# The file, beside this script, that says how many processor seconds each crate took when it was last measured.
MEASURED = "crate_seconds.txt"
# The folder beside its kit in which `rt ci` keeps what it has passed. Scripts of a toolchain that has no such store
# don't name it.
STORE = "rattle-kept"
# Processor seconds for a line of code, definitions and proofs, of crates that the file doesn't name.
SECONDS_FOR_A_LINE = 0.08
# Memory that a crate may take while it is proved, in bytes.
MEMORY_FOR_ONE_CRATE = 3_000_000_000
# The parts of a crate from which it is made.
PARTS = ("src", "specs", "proofs")
# Of each crate those that it uses; of each crate some seconds.
Crates = dict[str, list[str]]
Seconds = dict[str, float]
# What says that a crate has ended, in the words of `rt ci`: it was proved, or an earlier run had proved it, or it
# failed.
PROVED = re.compile(r"^rt: (\w+) proved$", re.M)
KEPT = re.compile(r"^rt: (\w+) is kept: ", re.M)
FAILED = re.compile(r"^rt: (\w+) NOT PROVED", re.M)


# ---- what is to be done, in what order

def read_crates(text: str) -> Crates:
    """Returns the libraries of the repository that each crate uses, from the text of crates.txt."""
    listed = {}
    for line in text.splitlines():
        name, colon, used = line.partition("#")[0].partition(":")
        if colon:
            listed[name.split()[0]] = used.split()
    return {name: [it for it in used if it in listed] for name, used in listed.items()}


def needed(crates: Crates, program: str) -> list[str]:
    """Returns the program's crates, each after those that it uses, the program last. Raises ValueError where crates use
    each other in a ring."""
    order: list[str] = []
    open_: list[str] = []

    def add(name: str) -> None:
        if name in open_:
            raise ValueError(f"crates.txt: {name} uses itself")
        if name not in order:
            open_.append(name)
            for it in crates[name]:
                add(it)
            open_.pop()
            order.append(name)

    add(program)
    return order


def lines_for(crates: Iterable[str], text: str) -> str:
    """Returns the lines of crates.txt that are of these crates, as text."""
    return "".join(line for line in text.splitlines(True) if line.partition(":")[0].strip() in crates)


def read_seconds(text: str) -> dict[str, int]:
    """Returns the processor seconds of each crate that a text like that of MEASURED names."""
    listed = [line.partition("#")[0].split() for line in text.splitlines()]
    return {words[0]: int(words[1]) for words in listed if words}


def expected(measured: dict[str, int], lines: dict[str, int]) -> Seconds:
    """Returns the processor seconds that each crate is expected to take: what was measured, otherwise by its lines."""
    return {name: measured.get(name, count * SECONDS_FOR_A_LINE) for name, count in lines.items()}


def chains(crates: Crates, order: list[str], seconds: Seconds) -> Seconds:
    """Returns for each crate the seconds of the longest chain of crates that begins with it and goes up."""
    above = {it: [other for other in order if it in crates[other]] for it in order}
    found: Seconds = {}
    for name in reversed(order):
        found[name] = seconds[name] + max((found[it] for it in above[name]), default=0)
    return found


def ready(crates: Crates, left: list[str], running: Iterable[str], chain: Seconds) -> list[str]:
    """Returns the crates that are left, aren't running, and whose libraries are all done, those with the longest chain
    above them first."""
    waits = {*left, *running}
    found = [it for it in left if it not in running and not waits & {*crates[it]}]
    return sorted(found, key=lambda it: -chain[it])


def side_by_side(processors: int, memory: int) -> int:
    """Returns how many crates may be proved side by side."""
    return max(1, min(processors, memory // MEMORY_FOR_ONE_CRATE))


def foretold(crates: Crates, left: list[str], seconds: Seconds, chain: Seconds, at_once: int) -> float:
    """Returns how many seconds the crates that are left take where so many are proved side by side, each by one
    processor, the longest chain first."""
    left, now = [*left], 0.0
    ends: dict[str, float] = {}
    while left or ends:
        for name in ready(crates, left, ends, chain)[:at_once - len(ends)]:
            ends[name] = now + seconds[name]
            left.remove(name)
        name = min(ends, key=ends.__getitem__)
        now = ends.pop(name)
    return now


# ---- what is said

def counted(number: int, word: str) -> str:
    """Returns the number with its word, as in '1 crate' and '2 crates'."""
    return f"{number} {word}{'' if number == 1 else 's'}"


def first_line(whole: int, left: int, minutes: float, processors: int) -> str:
    """Returns what is said at the start."""
    crates, about = counted(whole, "crate"), counted(max(1, round(minutes)), "minute")
    kept = f"{whole - left} of {crates} done before, {left} to do" if left < whole else crates
    where = f"{counted(processors, 'processor')} with nothing else to do"
    return f"planner: proving and building the program: {kept}, about {about} on {where}"


def expected_end(seconds: float, whole: float, rest: float) -> float:
    """Returns after how many seconds the build is expected to end, at the pace so far: of `whole` seconds that were
    foretold, these have done all but `rest`."""
    return seconds * whole / (whole - rest) if rest < whole else whole


def progress(whole: int, left: int, running: list[str], seconds: float, end: float) -> str:
    """Returns what is said while crates are proved, by a build that is expected to take `end` seconds in all."""
    now = f", now {', '.join(running)}" if running else ""
    minutes = int(seconds // 60)
    about = counted(max(minutes + 1, round(end / 60)), "minute")
    return f"planner: {whole - left} of {counted(whole, 'crate')} done{now}, {minutes} of about {about}"


def failure(log: str) -> tuple[list[str], str]:
    """Returns the crates that failed, and what was said of the first of them but for what was proved, from what `rt ci`
    wrote."""
    failed = FAILED.findall(log)
    if not failed:
        return [], "".join(log.splitlines(True)[-20:])
    said = log.rpartition(f"== {failed[0]}\n")[2].partition(f"rt: {failed[0]} NOT PROVED")[0]
    return failed, "".join(line for line in said.splitlines(True) if not line.endswith(": proved\n"))


class Voice:
    """Says lines on a stream. How far the work is stands in one line that is renewed where the stream is a terminal,
    otherwise in a line at each change."""

    def __init__(self, stream: TextIO, is_terminal: bool, width: int) -> None:
        self.stream, self.is_terminal, self.width = stream, is_terminal, width
        self.last: str | None = None

    def say(self, line: str) -> None:
        """Says a line that stays."""
        self.stream.write(f"\r\x1b[K{line}\n" if self.is_terminal else f"{line}\n")
        self.stream.flush()

    def renew(self, line: str) -> None:
        """Says how far the work is."""
        if self.is_terminal:
            self.stream.write(f"\r\x1b[K{line[:self.width - 1]}")
        elif self.last != line.rpartition(", ")[0]:
            self.last = line.rpartition(", ")[0]
            self.stream.write(f"{line}\n")
        self.stream.flush()


# ---- the files

def read(file: str) -> bytes:
    with open(file, "rb") as it:
        return it.read()


def text_of(file: str) -> str:
    """Returns the text of a file, or none where it isn't there."""
    try:
        return read(file).decode(errors="replace")
    except OSError:
        return ""


def files_of(folder: str) -> Iterator[str]:
    """Yields the files of a crate from which it is made, in one order."""
    for part in PARTS:
        for at, folders, names in os.walk(f"{folder}/{part}"):
            folders.sort()
            yield from (f"{at}/{it}" for it in sorted(names))


def lines_of(folder: str) -> int:
    return sum(read(it).count(b"\n") for it in files_of(folder))


def sums(root: str, crates: Crates, order: list[str], kit: str) -> dict[str, str]:
    """Returns for each crate a sum of all that it is made from: the toolchain's name, its files, and the sums of what
    it uses."""
    found: dict[str, str] = {}
    for name in order:
        folder = f"{root}/crates/{name}"
        sum_ = hashlib.sha256(repr((kit, name, sorted((it, found[it]) for it in crates[name]))).encode())
        for file in files_of(folder):
            sum_.update(repr((file[len(folder):], read(file))).encode())
        found[name] = sum_.hexdigest()
    return found


def copy_tree(root: str, order: list[str], to: str) -> None:
    """Makes a copy of the tree that has these crates alone, without what was made of them and without their edits."""
    os.makedirs(f"{to}/crates")
    shutil.copy2(f"{root}/HANDLES", f"{to}/HANDLES")
    with open(f"{to}/crates.txt", "w") as it:
        it.write(lines_for(order, read(f"{root}/crates.txt").decode()))
    for crate in order:
        passed_over = shutil.ignore_patterns("out", "must-fail")
        shutil.copytree(f"{root}/crates/{crate}", f"{to}/crates/{crate}", ignore=passed_over)


def free_memory() -> int:
    """Returns the bytes of memory that are free, or 0 where that can't be told."""
    found = re.search(r"MemAvailable:\s+(\d+)", text_of("/proc/meminfo"))
    return 1024 * int(found[1]) if found else 0


def keeps_work() -> bool:
    """Whether `rt ci` keeps what it has passed: where its scripts know of a store, and it may write it beside its
    kit."""
    scripts = os.path.dirname(os.path.realpath(shutil.which("rt") or "rt"))
    if not any(STORE in text_of(f"{scripts}/{name}") for name in os.listdir(scripts) if name.startswith("rt")):
        return False
    beside = os.path.dirname(os.path.dirname(scripts))
    store = f"{beside}/{STORE}"
    return os.stat(store).st_uid == os.geteuid() if os.path.isdir(store) else os.access(beside, os.W_OK)


# ---- the build

class Stopped(Exception):
    """The build was stopped by a signal, whose number it has."""

    def __init__(self, number: int) -> None:
        super().__init__(number)
        self.number = number


class Failed(Exception):
    """A crate wasn't proved, or the program not built: the crates that failed, and what rt said."""

    def __init__(self, crates: list[str], said: str) -> None:
        super().__init__(crates, said)
        self.crates, self.said = crates, said


class Forecast:
    """How many seconds crates are expected to take: each by itself, and so many side by side."""

    def __init__(self, crates: Crates, order: list[str], seconds_of: Seconds, at_once: int) -> None:
        self.crates, self.order, self.seconds_of, self.at_once = crates, order, seconds_of, at_once

    def of(self, left: list[str], running: Iterable[str] = ()) -> float:
        """Returns the seconds foretold for what is left, where crates that are running are taken to be half done."""
        seconds_of = {it: seconds / 2 if it in running else seconds for it, seconds in self.seconds_of.items()}
        return foretold(self.crates, left, seconds_of, chains(self.crates, self.order, seconds_of), self.at_once)


class Passed:
    """Which crates have been passed, in this build or an earlier one: by the sums of what they are made from, of which
    a file has a line each."""

    def __init__(self, file: str, sums_of: dict[str, str], before: set[str]) -> None:
        self.file, self.sums_of, self.found = file, sums_of, before

    def left(self) -> list[str]:
        """Returns the crates that haven't been passed, in order."""
        return [it for it, sum_ in self.sums_of.items() if sum_ not in self.found]

    def note(self, crates: Iterable[str]) -> bool:
        """Notes crates as passed. Whether one of them wasn't before."""
        new = {self.sums_of[it] for it in crates if it in self.sums_of} - self.found
        if new:
            with open(self.file, "a") as file:
                file.writelines(f"{sum_}\n" for sum_ in new)
            self.found |= new
        return bool(new)


@contextlib.contextmanager
def gate(tree: str, log: BinaryIO) -> Iterator[subprocess.Popen[bytes]]:
    """Runs `rt ci` in a tree, and ends it, and so what it has started, where it hasn't ended by itself."""
    process = subprocess.Popen(["rt", "ci"], cwd=tree, stdin=subprocess.DEVNULL, stdout=log, stderr=log,
                               start_new_session=True)
    try:
        yield process
    finally:
        if process.poll() is None:
            process.terminate()
            try:
                process.wait(10)
            except subprocess.TimeoutExpired:
                process.kill()
                process.wait()


class Build:
    """A build of the program, and how far it is."""

    def __init__(self, root: str, program: str, voice: Voice) -> None:
        self.root, self.program, self.voice = root, program, voice
        self.begun, self.processors = time.monotonic(), len(os.sched_getaffinity(0))
        self.out = f"{root}/crates/{program}/out"
        crates = read_crates(read(f"{root}/crates.txt").decode())
        self.order = needed(crates, program)
        kit = subprocess.run(["rt", "version"], stdout=subprocess.PIPE, check=True).stdout.decode()
        before = {*text_of(f"{self.out}/passed").split()} if keeps_work() else set()
        self.passed = Passed(f"{self.out}/passed", sums(root, crates, self.order, kit), before)
        self.left = self.passed.left()
        measured = read_seconds(read(f"{os.path.dirname(os.path.realpath(__file__))}/{MEASURED}").decode())
        seconds_of = expected(measured, {it: lines_of(f"{root}/crates/{it}") for it in self.order})
        self.forecast = Forecast(crates, self.order, seconds_of, side_by_side(self.processors, free_memory()))
        # (the seconds that the build is expected to take in all)
        self.end = self.forecast.of(self.left)

    def seconds(self) -> float:
        return time.monotonic() - self.begun

    def run(self) -> None:
        """Builds the program, and says how far the build is."""
        self.voice.say(first_line(len(self.order), len(self.left), self.end / 60, self.processors))
        os.makedirs(self.out, exist_ok=True)
        with tempfile.TemporaryDirectory(prefix="planner-build-") as room, open(f"{self.out}/build.log", "w+b") as log:
            tree = f"{room}/tree"
            copy_tree(self.root, self.order, tree)
            with gate(tree, log) as ran:
                while ran.poll() is None:
                    self.look(tree, log.name)
                    time.sleep(0.5)
            self.look(tree, log.name)
            if ran.returncode:
                raise Failed(*failure(text_of(log.name)))
            self.take(f"{tree}/crates/{self.program}/out/{self.program}")
        self.voice.say(f"planner: built, {counted(round(self.seconds() / 60), 'minute')}")

    def look(self, tree: str, log: str) -> None:
        """Notes which crates have been passed, and says how far the build is."""
        said = text_of(log)
        proved, kept = PROVED.findall(said), KEPT.findall(said)
        has_new = self.passed.note([*proved, *kept])
        left = self.passed.left()
        # (rt makes the folder out/ of a crate when it begins with it)
        running = [it for it in left if os.path.isdir(f"{tree}/crates/{it}/out")]
        if has_new:
            # (what was kept takes no time, and says nothing of the pace)
            whole = self.forecast.of([it for it in self.left if it not in kept])
            self.end = expected_end(self.seconds(), whole, self.forecast.of(left, running)) if proved else whole
        self.voice.renew(progress(len(self.order), len(left), running, self.seconds(), self.end))

    def take(self, program: str) -> None:
        """Brings the program into the repository, in one step."""
        new = f"{self.out}/{self.program}.new"
        shutil.copyfile(program, new)
        os.chmod(new, 0o755)
        os.replace(new, f"{self.out}/{self.program}")


def stop_at(number: int, _: object) -> NoReturn:
    raise Stopped(number)


def alone(root: str, voice: Voice) -> int:
    """Waits until no other build works in this repository, and returns what keeps others out."""
    lock = os.open(root, os.O_RDONLY)
    try:
        fcntl.flock(lock, fcntl.LOCK_EX | fcntl.LOCK_NB)
    except BlockingIOError:
        voice.say("planner: waiting for another build of this repository to end")
        fcntl.flock(lock, fcntl.LOCK_EX)
    return lock


def other_toolchain(root: str) -> str | None:
    """Returns a sentence where what `rt version` prints is none of the toolchains that toolchain.txt names, or None."""
    lines = [line for line in read_lines(f"{root}/toolchain.txt") if line.startswith("rattle ")]
    if not lines:
        return None
    wanted = [line.partition("#")[0].split(" ", 1)[1].strip() for line in lines]
    found = subprocess.run(["rt", "version"], capture_output=True, text=True, check=False).stdout.strip()
    if not found or found in wanted:
        return None
    return (f"the toolchain on this machine is {found}; the repository was proved with {' and with '.join(wanted)}, "
            "and with another one proofs may fail")


def read_lines(path: str) -> list[str]:
    """Returns the lines of a file, none where it isn't there."""
    try:
        with open(path, encoding="ascii") as file:
            return file.readlines()
    except OSError:
        return []


def build_alone(root: str, program: str, voice: Voice) -> None:
    """Builds the program while no other build works in this repository."""
    begun, held = time.time(), alone(root, voice)
    build = Build(root, program, voice)
    build.run()
    # (an edit made during the build makes the program stale again)
    os.utime(f"{build.out}/{program}", (begun, begun))
    os.close(held)


def main(words: list[str]) -> int:
    if len(words) != 1:
        print(__doc__, file=sys.stderr)
        return 2
    root, is_terminal = os.path.dirname(os.path.dirname(os.path.realpath(__file__))), sys.stderr.isatty()
    voice = Voice(sys.stderr, is_terminal, os.get_terminal_size(2).columns if is_terminal else 0)
    if not shutil.which("rt"):
        voice.say("planner: the command rt of the Rattle toolchain isn't on the path, so the program can't be built")
        return 1
    other = other_toolchain(root)
    if other:
        voice.say(f"planner: {other}")
    for it in (signal.SIGINT, signal.SIGTERM, signal.SIGHUP):
        signal.signal(it, stop_at)
    try:
        build_alone(root, words[0], voice)
        return 0
    except Failed as it:
        failed = f": {', '.join(it.crates)} failed" if it.crates else ""
        voice.say(it.said.rstrip("\n"))
        voice.say(f"planner: the program could not be built{failed}, as told above")
    except Stopped as it:
        behind = "the next run goes on from here" if keeps_work() else \
            "the next run begins anew, since rt keeps nothing of what it has proved"
        voice.say(f"planner: stopped; {behind}")
        return 128 + it.number
    except (OSError, ValueError, subprocess.CalledProcessError) as it:
        voice.say(f"planner: the program could not be built: {it}")
    return 1


if __name__ == "__main__":
    sys.exit(main(sys.argv[1:]))
