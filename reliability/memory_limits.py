#!/usr/bin/env python3
"""Runs the commands over large and wasteful files under limits of the system on memory (RLIMIT_AS): 32 MB, 64 MB, and
so on, until a run answers. A run has to end with status 9 and nothing written, or with the answer of a run without a
limit, and never by a signal. Prints for each file the greatest memory for a byte of it; the exit status is 1 where a
run ended otherwise. As memory of a run the system counts at least that of this script, which is about 35 MB.

    PLANNER=.. reliability/memory_limits.py [--mebibytes N] [--worst N]

The files have --mebibytes (4) MiB; the shape that took most memory is tried again with files of --worst (16) MiB, with
fewer commands."""
from __future__ import annotations

import argparse
import collections
import dataclasses
import filecmp
import os
import pathlib
import resource
import subprocess
import sys
import tempfile

import runs

TYPE_CHECKING = False
if TYPE_CHECKING:
    from typing import Any, Iterable, Iterator, Sequence

MB = 10**6
FIRST_LIMIT = 32 * MB
DEEPEST = 120


def listed(item: str, size: int) -> str:
    """A list of so many equal items that it has about `size` bytes."""
    return "[" + ",".join([item] * (size // (len(item) + 1))) + "]"


def members(size: int) -> str:
    """An object of many members with short names, each another."""
    return "{" + ",".join(f'"{i:x}":0' for i in range(size // 11)) + "}"


# JSON values of about so many bytes, which stand in a member of a file that is ignored.
WASTE = {
    "numbers": lambda size: listed("0", size),
    "empty lists": lambda size: listed("[]", size),
    "lists of one number": lambda size: listed("[0]", size),
    "lists of five numbers": lambda size: listed("[0,0,0,0,0]", size),
    "empty objects": lambda size: listed("{}", size),
    "objects of one member": lambda size: listed('{"":0}', size),
    "texts of one letter": lambda size: listed('"a"', size),
    "one object of many members": members,
    "lists in lists": lambda size: listed("[" * DEEPEST + "]" * DEEPEST, size),
    "objects in objects": lambda size: listed('{"":' * DEEPEST + "0" + "}" * DEEPEST, size),
    "one long text": lambda size: '"' + "a" * size + '"',
    "a text of escapes": lambda size: '"' + "\\u0041" * (size // 6) + '"',
    "members with long names": lambda size: "{" + ",".join(f'"{i}{"n" * 1000}":0' for i in range(size // 1010)) + "}",
}


def listed_picks(count: int) -> str:
    return "[" + ",".join(f"[{1 + i // 8192},{i % 8192},0,[]]" for i in range(count)) + "]"


def change(i: int) -> str:
    return (f'{{"do":"insert","switch":"s{1 + i % 4}","priority":{1 + i % 16383},"in_port":{1 + i // 16383 % 60000},'
            f'"dst":"10.0.{i % 256}.0/24","out":2}}')


def plan_of(rounds: str, numberings: str, picks: str) -> str:
    return f'{{"format":1,"kind":"ordered","befores":[],"numberings":{numberings},"picks":{picks},"rounds":{rounds}}}'


# Those that are tried with every command; the others are tried with a topology of `config` and a plan of `check`, since
# all files are read alike.
WITH_EVERY_COMMAND = ("lists of one number", "objects in objects", "members with long names")

# Plans of the square network of about so many bytes that are nothing but what a plan may hold.
PLANS = {
    "a round of many changes": lambda size: plan_of("[[" + ",".join(map(change, range(size // 95))) + "]]", "[]", "[]"),
    "many numberings": lambda size: plan_of("[[]]", listed("[0,0,0,0]", size), "[]"),
    "many picks": lambda size: plan_of(listed("[]", 3 * 4200), "[[0,0,0,0]]", listed_picks(size // 15)),
}
# Policies of the square network as a wide one, whose demands have lists as long as they may be.
PORTS = listed('"s1:1"', 7 * 1024)
POLICIES = {
    "lists of many host ports": lambda size: '{"demands":' + listed(
        f'{{"dst":"10.0.0.0/24","from":{PORTS}}}', min(size - 20, 512 * (len(PORTS) + 32))
    ) + "}",
}
WIDE = "wide.json"
SCHEDULES = {
    "packets that go through": lambda size: "".join(
        "enter s1:1 untagged 10.0.0.1\n" + f"hop {i}\n" * 4 for i in range(size // 70)
    ),
    "packets that stay": lambda size: "enter s1:1 untagged 10.0.0.1\n" * (size // 29),
    "comments": lambda size: "#\n" * (size // 2),
}
INPUTS = {
    "pieces of one byte": lambda size: runs.INPUT + "feed s2 00\n" * min(999_000, size // 11),
    "echo requests": lambda size: runs.INPUT + "feed s1 " + "0102000800000007" * (size // 16) + "\n",
}
REPLIES = {"one long line": lambda size: "s1 " + "0" * size + "\n"}


@dataclasses.dataclass(frozen=True)
class Attack:
    """A command over the square network, the file among its words that is large, and the shape of that file."""
    words: tuple
    file: str
    shape: str


def attacks(with_every_command: Sequence[Any]) -> Iterator[Attack]:
    square = runs.update("square")
    plan_words = [
        ("check", *square, "plan.json"), ("upgrade", square[0], "plan.json"), ("emit", square[0], "plan.json"),
        ("simulate", *square, "plan.json", "0", "2"), ("replay", square[0], square[1], "plan.json", "square/schedule"),
        ("drive", *square, "plan.json", "square/input"),
    ]
    for shape in WASTE:
        yield Attack(("config", "topology.json", square[1], square[3]), "topology.json", shape)
        if shape not in with_every_command:
            yield Attack(plan_words[0], "plan.json", shape)
            continue
        yield Attack(("config", square[0], "old.json", square[3]), "old.json", shape)
        yield Attack(("plan", *square[:3], "policy.json"), "policy.json", shape)
        yield Attack(("import", "topology.json", "square/replies-s1"), "topology.json", shape)
        yield from (Attack(words, "plan.json", shape) for words in plan_words)
    for shape in PLANS:
        yield from (Attack(words, "plan.json", shape) for words in plan_words)
    for shape in POLICIES:
        for words in (("config", WIDE, square[1]), ("plan", WIDE, *square[1:3])):
            yield Attack((*words, "policy.json"), "policy.json", shape)
    yield from (
        Attack(("replay", square[0], square[1], "square/plan.json", "schedule"), "schedule", shape)
        for shape in SCHEDULES
    )
    yield from (Attack(("drive", *square, "square/plan.json", "input"), "input", shape) for shape in INPUTS)
    yield from (Attack(("import", square[0], "replies"), "replies", shape) for shape in REPLIES)


def write(attack: Attack, folder: pathlib.Path, size: int) -> int:
    """Writes the large file, and the topology of a wide network; answers the size of the former."""
    (folder / WIDE).write_text('{"format":2,' + (folder / "square" / "topology.json").read_text().strip()[1:])
    if attack.shape in WASTE:
        example = (folder / "square" / attack.file).read_text().strip()
        front = '{"ignored":'
        text = front + WASTE[attack.shape](size - len(front) - len(example) - 2) + "," + example[1:]
    else:
        text = (PLANS | POLICIES | SCHEDULES | INPUTS | REPLIES)[attack.shape](size)
    (folder / attack.file).write_text(text)
    return len(text)


def run(
    program: str, words: tuple[str, ...], folder: pathlib.Path, out: pathlib.Path, limit: int | None = None
) -> tuple[int, int]:
    """Runs the program, its text going to the file `out`; answers its status and its greatest memory in bytes."""
    def set_limit() -> None:
        if limit is not None:
            resource.setrlimit(resource.RLIMIT_AS, (limit, limit))
    with open(out, "wb") as text:
        child = subprocess.Popen(
            [program, *words], cwd=folder, stdin=subprocess.DEVNULL, stdout=text, stderr=subprocess.STDOUT,
            preexec_fn=set_limit,
        )
        _, status, usage = os.wait4(child.pid, 0)
    child.returncode = os.waitstatus_to_exitcode(status)
    return child.returncode, usage.ru_maxrss * 1024


def limited(program: str, attack: Attack, folder: pathlib.Path) -> tuple[collections.Counter[str], int, int]:
    """Runs a command under ever greater limits; answers what was counted, the greatest memory, and the limit under
    which it answered."""
    ample, out = folder / "ample", folder / "out"
    status, memory = run(program, attack.words, folder, ample)
    found: collections.Counter[str] = collections.Counter()
    limit = FIRST_LIMIT
    while True:
        ended, _ = run(program, attack.words, folder, out, limit)
        found["runs"] += 1
        if ended == status and filecmp.cmp(ample, out, shallow=False):
            found["answered"] += 1
            return found, memory, limit
        bare = out.stat().st_size == 0
        kind = "wanting" if bare and ended == runs.MEMORY_WANTING else "changed"
        found[kind] += 1
        found["signals"] += ended < 0
        found["bytes"] += out.stat().st_size
        if kind == "changed":
            print(f"  {attack}: under {limit // MB} MB: status {ended}, {out.stat().st_size} bytes")
            if limit > 64 * memory:
                return found, memory, limit
        limit *= 2


def attack_all(
    program: str, folder: pathlib.Path, chosen: Iterable[Attack], size: int
) -> tuple[collections.Counter[str], Attack | None, float]:
    """Tries the attacks with files of a size; answers what was counted, and the attack that took the most memory for a
    byte."""
    total: collections.Counter[str] = collections.Counter()
    most = 0.0
    worst = None
    for attack in chosen:
        length = write(attack, folder, size)
        found, memory, limit = limited(program, attack, folder)
        total += found
        ratio = memory / length
        print(
            (
                f"{attack.words[0]}, {attack.file} of {length / 2**20:.2f} MiB, {attack.shape}: {memory / MB:.0f} MB,"
                f" {ratio:.1f} for a byte; {found['wanting']} runs with status 9, answered under {limit // MB} MB"
            ),
            flush=True,
        )
        if length > size // 2 and ratio > most:
            worst, most = attack, ratio
    return total, worst, most


def line(title: str, total: Any, most: float) -> str:
    return (
        f"{title}: {total['runs']} runs, {total['wanting']} status 9 and nothing written, {total['answered']} with the"
        f" answer; answers changed {total['changed']}, bytes written too many {total['bytes']}, ended by a signal"
        f" {total['signals']}; at most {most:.1f} bytes of memory for a byte of a file"
    )


def main() -> None:
    parser = argparse.ArgumentParser()
    parser.add_argument("--mebibytes", type=int, default=4)
    parser.add_argument("--worst", type=int, default=16)
    chosen = parser.parse_args()
    program = runs.program()
    with tempfile.TemporaryDirectory() as name:
        folder = pathlib.Path(name)
        runs.example_folder(folder)
        total, worst, most = attack_all(program, folder, attacks(WITH_EVERY_COMMAND), chosen.mebibytes * 2**20)
        print(line(f"files of {chosen.mebibytes} MiB", total, most), flush=True)
        assert worst is not None
        again = [attack for attack in attacks(()) if attack.shape == worst.shape]
        more, _, most = attack_all(program, folder, again, chosen.worst * 2**20)
        print(line(f"{worst.shape}, files of {chosen.worst} MiB", more, most))
    sys.exit(1 if total["changed"] or more["changed"] else 0)


if __name__ == "__main__":
    main()
