#!/usr/bin/env python3
"""Compares what the program says of random lists of lines with what the model of `serve` (serve_model.py, which shares no code with the program) says.
Lists of `start` and `feed` alone are given to `drive`: the bytes that it sends to each switch, the sessions that fail, the events, and how far the update
comes have to be those of the model's blocks. Lists with `back`, `reopen`, `dead`, comments and bad lines are given to `serve`, a line at a time, each when the
block of the one before is there: each block has to be the model's, byte for byte. The updates are the examples, leaf and spine in one round, and random
networks of 3 to 5 switches. The switches are made up: they answer in time or late, cut anywhere, with echo requests and other messages between; now and
then with an error, a wrong number or a message that is none. Prints how much was compared; the exit status is 1 where something differs, or nothing was
compared with `drive`. Where the program has no `serve` yet it says so.

    PLANNER=.. reliability/serve.py [--lists N] [--lines N] [--networks N] [--restless SHARE] [--seed N]"""
from __future__ import annotations

import argparse
import collections
import json
import os
import pathlib
import random
import select
import subprocess
import sys
import tempfile

import explore
import runs
import serve_model as model

TYPE_CHECKING = False
if TYPE_CHECKING:
    from typing import Any, IO, Iterator, Sequence

# How long it may take for a block to come, and the status of a command that isn't there.
SECONDS, WRONG_WORDS = 60, 2
ENDS = ("ok ", "no ", "bad line")
# How many of the lines for `serve` are to be none of `drive`.
RESTLESS = 0.12
NO_SERVE = "the program has no `serve` yet: it was compared with `drive` alone"


# ---- made-up switches

class Switches:
    """What switches will say, as bytes that are still to be fed, by what was sent to them. `faults` is how often they
    do something wrong."""

    def __init__(self, rng: random.Random, names: Sequence[str], faults: float) -> None:
        self.rng, self.faults = rng, faults
        self.waiting = dict.fromkeys(names, b"")

    def hear(self, block: Sequence[str]) -> None:
        for line in block:
            words = line.split(" ")
            if words[0] == "send":
                self.waiting[words[1]] += self.answer(bytes.fromhex(words[2]))

    def answer(self, sent: bytes) -> bytes:
        rng, kind, xid = self.rng, sent[1], int.from_bytes(sent[4:8], "big")
        if rng.random() < self.faults:
            return self.wrong(xid)
        if kind == model.HELLO:
            return (
                self.chatter()
                + rng.choice([model.HELLO_BYTES, bytes([rng.randint(1, 6), 0, 0, 16]) + rng.randbytes(12)])
                if rng.random() < 0.1
                else model.HELLO_BYTES
            )
        return self.chatter() + (model.message(model.BARRIER_REPLY, xid) if kind == model.BARRIER_REQUEST else b"")

    def chatter(self) -> bytes:
        """Now and then an echo request, or a message that a driver passes over. Before a HELLO that is a fault."""
        rng = self.rng
        if rng.random() > 0.1:
            return b""
        return model.message(
            rng.choice([model.ECHO_REQUEST, model.ECHO_REQUEST, 3, 6, 10, 12, 17, 255]), rng.getrandbits(32),
            rng.randbytes(rng.choice([0, 0, 1, 4, 90])),
        )

    def wrong(self, xid: int) -> bytes:
        rng = self.rng
        return rng.choice([
            b"",                                                                           # it says nothing
            model.message(model.ERROR, xid, rng.randbytes(4) + rng.randbytes(rng.randint(0, 80))),
            model.message(model.ERROR, xid, rng.randbytes(3)),
            model.message(model.BARRIER_REPLY, xid + rng.choice([-1, 1, 2]) & 0xFFFFFFFF),
            model.message(model.BARRIER_REPLY, xid) * 2,
            model.message(model.BARRIER_REPLY, xid, b"\0"),
            bytes([rng.choice([0, 2, 4]), rng.randint(0, 19), 0, rng.randint(0, 9)]) + rng.randbytes(4),
            rng.randbytes(rng.randint(1, 12))])


class Lines:
    """Random lines, each by what the model has said of those before. `restless` is how often one is to be none of
    `drive`: at 0.4 most rounds are turned, and sessions begin anew while answers of both ways are due."""

    def __init__(
        self, rng: random.Random, update: dict[str, dict[str, list[Any]]], plan: dict[str, Any], is_driven: bool,
        restless: float = RESTLESS,
    ) -> None:
        self.rng, self.is_driven, self.restless = rng, is_driven, restless
        self.serve = model.Serve(update["topology"], update["old"], plan)
        self.names = self.serve.switches
        self.switches = Switches(rng, self.names, rng.choice([0, 0, 0.01, 0.05]))
        self.blocks = [self.serve.begin()]
        self.lines: list[bytes] = []
        self.switches.hear(self.blocks[0])

    def go_on(self, count: int) -> Lines:
        for _ in range(count):
            self.add(self.next_line())
        return self

    def add(self, line: bytes) -> None:
        block = self.serve.line(line)
        if self.is_driven and not block[-1].startswith("ok "):
            return                           # such a line is none of `drive`
        words = line.split(b" ")
        if words[0] in (b"reopen", b"dead") and block[-1].startswith("ok "):
            self.switches.waiting[words[1].decode()] = b""       # what was under way is lost
        self.lines.append(line)
        self.blocks.append(block)
        self.switches.hear(block)

    def next_line(self) -> bytes:
        rng, speaking = self.rng, [name for name, waiting in self.switches.waiting.items() if waiting]
        if not self.is_driven and rng.random() < self.restless:
            return rng.choice([self.back, self.back, self.reopen, self.dead, self.comment, self.bad])()
        if speaking and rng.random() < 0.85:
            return self.feed(rng.choice(speaking))
        if not self.is_driven and rng.random() < 0.5:
            ended = (model.FAILED, model.DEAD)
            gone = [name for name, session in self.serve.sessions.items() if session.state in ended]
            return f"reopen {rng.choice(gone)}".encode() if gone else self.back()
        return b"start"

    def feed(self, name: str) -> bytes:
        waiting, rng = self.switches.waiting[name], self.rng
        length = rng.choice([len(waiting), len(waiting), rng.randint(1, len(waiting)), 1, min(8, len(waiting))])
        self.switches.waiting[name] = waiting[length:]
        digits = waiting[:length].hex()
        return f"feed {name} {digits.upper() if rng.random() < 0.1 else digits}".encode()

    def back(self) -> bytes:
        return b"back"

    def reopen(self) -> bytes:
        return f"reopen {self.rng.choice(self.names)}".encode()

    def dead(self) -> bytes:
        return f"dead {self.rng.choice(self.names)}".encode()

    def comment(self) -> bytes:
        return self.rng.choice(
            [
                b"", b"#", b"# start",
                b"#" + bytes(self.rng.choice([b for b in range(256) if b != 10]) for _ in range(9)),
                b"#" * self.rng.choice([262144, 262145]),
            ]
        )

    def bad(self) -> bytes:
        name = self.rng.choice(self.names)
        return self.rng.choice(
            [
                b" ", b"start ", b"Start", b"back 1", b"stop", b"feed", f"feed {name}".encode(),
                f"feed {name} ".encode(), f"feed {name} 0".encode(), f"feed {name} 0g".encode(),
                f"feed  {name} 00".encode(), f"feed {name} 00 ".encode(), b"feed nobody 00", b"reopen",
                b"reopen nobody", f"reopen {name} ".encode(), b"dead", b"dead nobody", f"dead {name} ".encode(),
                b"start\r", b"\xff\xfe",
                f"feed {name} {'00' * 131072}".encode(),
            ]
        )


# ---- the program

class Program:
    """The program over the files of one update."""

    def __init__(
        self, program: str, folder: pathlib.Path, update: dict[str, dict[str, list[Any]]], plan: dict[str, Any]
    ) -> None:
        self.program, self.folder = program, folder
        planner = explore.Planner(program, folder, update)
        self.status, self.text = planner.check(plan)
        self.words = [*planner.names, "plan.json"]

    def drive(self, lines: Sequence[bytes]) -> tuple[int, str]:
        (self.folder / "input").write_bytes(b"".join(line + b"\n" for line in lines))
        return explore.ask(self.program, self.folder, "drive", *self.words, "input")

    def has_serve(self) -> bool:
        words = [self.program, "serve", *self.words]
        done = subprocess.run(
            words, cwd=self.folder, stdin=subprocess.DEVNULL, stdout=subprocess.DEVNULL, stderr=subprocess.DEVNULL,
            check=False,
        )
        return done.returncode != WRONG_WORDS

    def serve(self, lines: Sequence[bytes]) -> tuple[list[list[str]], int | str, bytes]:
        """The blocks, each read whole before the next line is written; then the status, and what was written beyond the
        blocks."""
        with subprocess.Popen(
            [self.program, "serve", *self.words], cwd=self.folder, stdin=subprocess.PIPE, stdout=subprocess.PIPE,
            bufsize=0,
        ) as run:
            assert run.stdin is not None and run.stdout is not None
            said = Said(run.stdout.fileno())
            blocks = [said.block()]
            try:
                for number, line in enumerate(lines):
                    if not is_whole(blocks[-1]):
                        return blocks, "a block doesn't come to its end", b""
                    is_last = number == len(lines) - 1
                    # the last one lacks its line end, where it isn't empty
                    send(run.stdin, line if is_last and line else line + b"\n")
                    if is_last:
                        run.stdin.close()
                    blocks.append(said.block())
                run.stdin.close()
                return blocks, run.wait(SECONDS), said.rest_of_all()
            except (OSError, subprocess.TimeoutExpired) as fault:
                return blocks, str(fault), b""
            finally:
                run.kill()


def is_whole(block: Sequence[str]) -> bool:
    return block != [] and block[-1].startswith(ENDS)


def send(stream: IO[bytes], data: bytes) -> None:
    while data:
        data = data[stream.write(data):]


class Said:
    """What comes out of a run, block by block."""

    def __init__(self, end: int) -> None:
        self.end, self.rest = end, b""

    def more(self) -> bool:
        """Whether something came, within the time that there is."""
        piece = os.read(self.end, 1 << 16) if select.select([self.end], [], [], SECONDS)[0] else b""
        self.rest += piece
        return piece != b""

    def block(self) -> list[str]:
        """The lines of the next block, or what there is of it."""
        lines: list[str] = []
        while not is_whole(lines):
            while b"\n" not in self.rest:
                if not self.more():
                    return lines
            line, _, self.rest = self.rest.partition(b"\n")
            lines.append(line.decode("latin-1"))
        return lines

    def rest_of_all(self) -> bytes:
        while self.more():
            pass
        return self.rest


def report_of(made: Lines) -> str:
    """What `drive` has to say of lines of `start` and `feed`: from the blocks, of which each tells what is sent in
    it."""
    sent, failed, events = dict.fromkeys(made.names, ""), {}, []
    for line in (line for block in made.blocks for line in block[:-1]):
        words = line.split(" ")
        if words[0] == "send":
            sent[words[1]] += words[2]
        elif words[0] == "failed":
            failed[words[1]] = line
        else:
            events.append(line)
    lines = [f"# sent {name} {sent[name]}" for name in made.names] + [
        f"# {failed[name]}" for name in made.names if name in failed
    ]
    return "".join(f"{line}\n" for line in [*lines, *events, f"# {made.blocks[-1][-1].removeprefix('ok ')}"])


# ---- the comparison

def updates(
    program: str, folder: pathlib.Path, chosen: argparse.Namespace
) -> Iterator[tuple[str, Any, dict[str, Any]]]:
    """Updates with certified plans."""
    for name in ("square", "detour", "leaf-spine"):
        yield name, explore.example(name), json.loads((runs.ROOT / "examples" / name / "plan.json").read_text())
    update = explore.example("leaf-spine")
    plan = explore.at_once(json.loads((runs.ROOT / "examples" / "leaf-spine" / "plan.json").read_text()), update)
    planner = explore.Planner(program, folder, update)
    planner.check(plan)
    status, text = explore.ask(program, folder, "certify", *planner.names, "plan.json")
    if status == 0:
        yield "leaf-spine in one round", update, json.loads(text)
    for i in range(chosen.networks):
        update = explore.random_update(f"{chosen.seed} {i}")
        plan = explore.Planner(program, folder, update).plan()
        if plan:
            yield f"update {i}", update, plan


def differing(made: Lines, got: tuple[list[list[str]], int | str, bytes]) -> str | None:
    """The first block that is another one: the number of its line, from 0 for the block before all lines, and both."""
    blocks, status, rest = got
    for number, wanted in enumerate(made.blocks):
        said = blocks[number] if number < len(blocks) else []
        if said != wanted:
            return f"line {number} ({(b'', *made.lines)[number][:80]!r}): it says {said}, the model {wanted}"
    return f"its end: status {status}, {rest[:200]!r}" if (status, rest) != (0, b"") else None


def compare(program_path: str, chosen: argparse.Namespace, folder: pathlib.Path) -> bool:
    """Compares over all updates; answers whether something differs."""
    found: collections.Counter[str] = collections.Counter()
    has_serve = None
    for name, update, plan in updates(program_path, folder, chosen):
        program = Program(program_path, folder, update, plan)
        if program.status != 0:
            print(f"{name}: check says {program.text}")
            found["differences"] += 1
            continue
        has_serve = program.has_serve() if has_serve is None else has_serve
        for i in range(chosen.lists):
            rng = random.Random(f"{chosen.seed} {name} {i}")
            made = Lines(rng, update, plan, True).go_on(rng.randint(1, chosen.lines))
            said = program.drive(made.lines)
            found.update(
                {"lists for drive": 1, "lines for drive": len(made.lines), "events of drive": len(made.serve.events)}
            )
            if said != (0, report_of(made)):
                found["differences"] += 1
                print(f"{name}, list {i}: drive says (status {said[0]})\n{said[1]}the model\n{report_of(made)}")
            if not has_serve:
                continue
            made = Lines(rng, update, plan, False, chosen.restless).go_on(rng.randint(0, chosen.lines))
            fault = differing(made, program.serve(made.lines))
            found.update(
                {
                    "lists for serve": 1, "lines for serve": len(made.lines), "events of serve": len(made.serve.events),
                    "lines that serve can't follow": sum(not block[-1].startswith("ok ") for block in made.blocks),
                }
            )
            if fault:
                found["differences"] += 1
                print(f"{name}, list {i}: {fault}")
    print(
        ", ".join(
            f"{found[what]} {what}" for what in [*(what for what in found if what != "differences"), "differences"]
        )
    )
    if not has_serve:
        print(NO_SERVE)
    return found["differences"] > 0 or not found["lists for drive"]


def main() -> None:
    parser = argparse.ArgumentParser(description=__doc__, formatter_class=argparse.RawDescriptionHelpFormatter)
    parser.add_argument(
        "--lists", type=int, default=20, metavar="N", help="how many lists of lines for each update (20)"
    )
    parser.add_argument("--lines", type=int, default=200, metavar="N", help="the longest list (200)")
    parser.add_argument("--networks", type=int, default=20, metavar="N", help="how many random updates (20)")
    parser.add_argument(
        "--restless", type=float, default=RESTLESS, metavar="SHARE",
        help=f"how many of the lines for serve turn a round, open a session anew, or say nothing ({RESTLESS})",
    )
    parser.add_argument("--seed", type=int, default=1, metavar="N")
    chosen = parser.parse_args()
    with tempfile.TemporaryDirectory() as name:
        sys.exit(1 if compare(runs.program(), chosen, pathlib.Path(name)) else 0)


if __name__ == "__main__":
    main()
