"""The answers of the planner's commands as values. They are made of what the front end writes with `--json`, whose
schema stands in docs/FRONT_END.md."""
from __future__ import annotations

import dataclasses
import json
import os
import subprocess
import sys
from typing import Any, Mapping

from planner.programs import File, Files, front_end, path

# The exit statuses of an answer about the files. With all others nothing was found out about them.
ANSWERS = (0, 1, 3, 4, 5, 8)
# The members of each answer. Those that `diff`, `links` and `show` write beside them are their answer.
MEMBERS = (
    "format", "command", "status", "verdict", "reason", "class", "paths", "places", "warnings", "refusals", "notes",
    "said", "output", "answer",
)


@dataclasses.dataclass(frozen=True)
class Place:
    """A place in a file, as `links[4][1]` in line 3, column 7."""

    file: str
    line: int
    column: int | None
    member: str | None


@dataclasses.dataclass(frozen=True)
class Said:
    """What is said for people: a sentence, the lines below it, and the places in files that they name."""

    what: str
    more: tuple[str, ...]
    places: tuple[Place, ...]

    def __str__(self) -> str:
        return "\n    ".join([self.what, *self.more])


@dataclasses.dataclass(frozen=True)
class Packet:
    """A class of packets: the host port and the VLAN with which they enter, and its first address."""

    entry: str
    vlan: str | int
    address: str


@dataclasses.dataclass(frozen=True)
class Reason:
    """Why an answer isn't yes: its name as in docs/FORMATS.md, and what else the program's line has, as `round` and
    `switch`."""

    name: str
    sentence: str | None
    parts: Mapping[str, str | int]


@dataclasses.dataclass(frozen=True)
class Stop:
    """A stop of a packet: where it comes in, and the rule that counts there, or None."""

    switch: str
    port: int
    vlan: str | int
    rule: Mapping[str, Any] | None


@dataclasses.dataclass(frozen=True)
class Path:
    """The way of a packet under the configuration of a file. How it ends is `left`, `dropped` or `again`."""

    file: str
    packet: Packet
    stops: tuple[Stop, ...]
    end: Mapping[str, Any] | None


@dataclasses.dataclass(frozen=True)
class Answer:
    """An answer of a command. It is true where the exit status is 0."""

    command: str
    status: int
    verdict: str
    answer: Any
    reason: Reason | None
    packet: Packet | None
    paths: tuple[Path, ...]
    places: tuple[Place, ...]
    refusals: tuple[Said, ...]
    warnings: tuple[Said, ...]
    notes: tuple[Said, ...]

    def __bool__(self) -> bool:
        return self.status == 0

    def __str__(self) -> str:
        return "\n".join(map(str, self.refusals)) or self.verdict

    @property
    def plan(self) -> dict[str, Any]:
        """The plan that `pack`, `plan` or `certify` made. ValueError where there is none."""
        if not self or not isinstance(self.answer, dict):
            raise ValueError(f"there is no plan: {self}")
        return self.answer

    @property
    def run(self) -> str | None:
        """The schedule of the run that `explain` found, or None where it found none."""
        return self.answer if self.verdict == "run" else None


class Failed(Exception):
    """Nothing was found out about the files: a file that can't be read, want of memory, no program."""

    def __init__(self, answer: Answer):
        super().__init__(str(answer))
        self.answer = answer


def place_of(one: Mapping[str, Any]) -> Place:
    return Place(one["file"], one["line"], one["column"], one["member"])


def said_of(one: Mapping[str, Any]) -> Said:
    return Said(one["what"], tuple(one["more"]), tuple(map(place_of, one["places"])))


def packet_of(one: Mapping[str, Any]) -> Packet:
    return Packet(one["from"], one["vlan"], one["address"])


def path_of(one: Mapping[str, Any]) -> Path:
    return Path(
        one["file"], packet_of(one),
        tuple(Stop(it["switch"], it["port"], it["vlan"], it["rule"]) for it in one["stops"]), one["end"],
    )


def reason_of(one: Mapping[str, Any] | None) -> Reason | None:
    return (
        None
        if one is None
        else Reason(
            one["name"], one.get("sentence"), {name: it for name, it in one.items() if name not in ("name", "sentence")}
        )
    )


def answer_of(one: Mapping[str, Any]) -> Answer:
    """The answer of which an object is."""
    own = {name: it for name, it in one.items() if name not in MEMBERS}
    return Answer(
        one["command"], one["status"], one["verdict"], own or one["answer"], reason_of(one["reason"]),
        packet_of(one["class"]) if one["class"] else None, tuple(map(path_of, one["paths"])),
        tuple(map(place_of, one["places"])), tuple(map(said_of, one["refusals"])), tuple(map(said_of, one["warnings"])),
        tuple(map(said_of, one["notes"])),
    )


def ask(command: str, files: Mapping[str, File], *words: str) -> Answer:
    """The answer of a command to some files, by the names by which they are told, and further words. Failed where there
    is none."""
    given = Files(files)
    with given as names:
        done = subprocess.run(
            [sys.executable, "-I", front_end(), command, *names, *words, "--json"], cwd=given.folder,
            stdin=subprocess.DEVNULL, capture_output=True, text=True, errors="replace", check=False,
            env={**os.environ, "PLANNER": path()},
        )
    try:
        answer = answer_of(json.loads(done.stdout))
    except (ValueError, KeyError, TypeError) as fault:
        said = (Said(f"`planner {command}` ended with status {done.returncode}", tuple(done.stderr.splitlines()), ()),)
        raise Failed(Answer(command, done.returncode, "ended", None, None, None, (), (), said, (), ())) from fault
    if answer.status not in ANSWERS:
        raise Failed(answer)
    return answer


def update(topology: File, old: File, new: File, policy: File) -> dict[str, File]:
    return {"topology.json": topology, "old.json": old, "new.json": new, "policy.json": policy}


def pack(topology: File, old: File, new: File, policy: File) -> Answer:
    """A certified plan of few rounds, or why there is none."""
    return ask("pack", update(topology, old, new, policy))


def plan(topology: File, old: File, new: File, policy: File) -> Answer:
    """A certified plan of rounds of one change where such are found, or why there is none."""
    return ask("plan", update(topology, old, new, policy))


def check(topology: File, old: File, new: File, policy: File, plan: File) -> Answer:
    """Whether a plan is certified, and otherwise the first reason why it isn't."""
    return ask("check", {**update(topology, old, new, policy), "plan.json": plan})


def certify(topology: File, old: File, new: File, policy: File, plan: File) -> Answer:
    """The rounds of a plan with evidence that certifies them, or why none does."""
    return ask("certify", {**update(topology, old, new, policy), "plan.json": plan})


def explain(topology: File, old: File, new: File, policy: File, plan: File) -> Answer:
    """A run of an ordered plan in which a packet breaks the policy, where there is one."""
    return ask("explain", {**update(topology, old, new, policy), "plan.json": plan})


def config(topology: File, config: File, policy: File | None = None) -> Answer:
    """Whether each class of packets has a good path under a configuration."""
    return ask(
        "config",
        {"topology.json": topology, "config.json": config, **({"policy.json": policy} if policy is not None else {})},
    )


def configuration(topology: File, replies: File) -> Answer:
    """The configuration that the switches have, by the flow statistics that they answered: the text that `planner
    import` reads."""
    return ask("import", {"topology.json": topology, "replies": replies})
