"""`--json`: the answer of a command as one object for machines. docs/FRONT_END.md has its members. Of `update` and
`apply` it is a line for each event."""
from __future__ import annotations

import io
import json
import os
import sys
import tempfile

from planner_tools import answers, events
from planner_tools.files import Json, Text, member_path
from planner_tools.proved import Run
from planner_tools.voice import Voice

TYPE_CHECKING = False
if TYPE_CHECKING:
    from typing import Any, Callable, Sequence, TextIO

    from planner_tools.main import Options
    from planner_tools.proved import Given

FORMAT = 1
# The commands that write events.
WITH_EVENTS = ("apply", "update")
# The commands that have such an option of their own: their members stand beside the others.
WITH_OPTION = ("diff", "links", "show")
REFUSED = 1
NOTHING: dict[str, Any] = {}
# What status 1 of a command outside the proved program says, where nothing stopped it.
ANSWERS_NO = {"links": "used"}


def report(words: Sequence[str], answer: Callable[..., Any]) -> int:
    """Does what the words say, and writes the answer as an object. `answer` does it otherwise, and returns the exit
    status."""
    others = [word for word in words if word != "--json"]
    name = next((word for word in others if not word.startswith("-")), "")
    if name in WITH_EVENTS and "--help" not in others:
        return told(name, others, answer)
    report_of = Report(name)
    status = report_of.run([*others, "--json"] if name in WITH_OPTION and "--help" not in others else others, answer)
    sys.stdout.write(json.dumps(report_of.values(status, output_of(others)), indent=1) + "\n")
    return status


def output_of(words: Sequence[str]) -> str | None:
    """The file behind `-o`, or None."""
    at = words.index("-o") if "-o" in words else len(words)
    return words[at + 1] if at + 1 < len(words) else None


def status_of(answer: Callable[..., Any], *words: Sequence[str], **more: Callable[..., Any]) -> int:
    """The exit status of a command, also where a wrong word ended it."""
    try:
        return answer(*words, **more)
    except SystemExit as end:
        return end.code if isinstance(end.code, int) else REFUSED if end.code else 0


def told(name: str, words: Sequence[str], answer: Callable[..., Any]) -> int:
    """Runs a command that writes events. The last one has the exit status."""
    error: TextIO = sys.stderr
    output: TextIO = sys.stdout
    events.SINK, Voice.listener = output, events.heard
    lines: Any = events.Lines(error)
    sys.stderr = lines
    sys.stdout = io.StringIO()
    try:
        status = status_of(answer, words)
        events.tell("end", command=name, status=status, verdict=told_verdict(status, "--strict" in words))
        return status
    finally:
        sys.stdout, sys.stderr = output, error
        events.SINK = None
        Voice.listener = None


def told_verdict(status: int, is_strict: bool) -> str:
    """The verdict of a command that writes events. Where it is strict, warnings end it before a file is refused."""
    if status == REFUSED:
        return "stopped"
    return answers.verdict_of("", status, is_warned=is_strict and "warning" in events.HEARD)


class Held:
    """Both output streams, kept in files as long as a command runs, also what the processes write that it begins."""

    def __init__(self) -> None:
        self.files = {one: tempfile.TemporaryFile(prefix="planner-") for one in (1, 2)}
        self.before = {one: os.dup(one) for one in self.files}
        self.streams = (sys.stdout, sys.stderr)
        self.texts: dict[int, str] = {}

    def __enter__(self) -> Held:
        sys.stdout.flush()
        sys.stderr.flush()
        for one, file in self.files.items():
            os.dup2(file.fileno(), one)
        sys.stdout, sys.stderr = (
            open(one, "w", encoding="utf-8", errors=stream.errors, closefd=False)
            for one, stream in zip(self.files, self.streams)
        )
        return self

    def __exit__(self, *_: object | None) -> None:
        sys.stdout.flush()
        sys.stderr.flush()
        sys.stdout, sys.stderr = self.streams
        for one, file in self.files.items():
            os.dup2(self.before[one], one)
            os.close(self.before[one])
            file.seek(0)
            self.texts[one] = file.read().decode("utf-8", "replace")
            file.close()


class Report:
    """What a command answered, and what was said beside it."""

    def __init__(self, name: str) -> None:
        self.name, self.text = name, ""
        # the run of a proved command, and of another one the run that the program refused
        self.asking: Run | None = None
        self.refusing: Run | None = None
        # the ways of packets for which the program was asked: the file, the words behind it, and the text
        self.ways: list[tuple[str, Sequence[Any], str]] = []
        self.lines: list[str] = []
        self.said: dict[str, list[dict[str, Any]]] = {"refusal": [], "warning": [], "note": []}
        self.places: list[tuple[str, Text, int]] = []

    def run(self, words: Sequence[str], answer: Callable[..., Any]) -> int:
        """Runs the command, and keeps all that it writes and says."""
        Voice.listener, Text.told, Run.listener = self.hear, self.places, self
        held = Held()
        try:
            with held:
                return status_of(answer, words, begin=self.begin)
        except BaseException:
            sys.stderr.write(held.texts.get(2, ""))
            raise
        finally:
            Voice.listener = Text.told = Run.listener = None
            self.text, self.lines = held.texts.get(1, ""), held.texts.get(2, "").splitlines()

    def begin(self, given: Sequence[str], options: Options) -> Run:
        self.asking = Run(given, options)
        return self.asking

    def asked(self, run: Run, words: Sequence[str], status: int, text: str) -> None:
        """Keeps the way of a packet for which the program was asked."""
        if words[0] == "trace" and status == 0:
            file = next((one.shown for one in run.files.values() if one.real == words[2]), words[2])
            self.ways.append((file, words[3:6], text))

    def refused(self, run: Run) -> None:
        """Keeps a run that wasn't answered as it was to be."""
        self.refusing = run

    def hear(self, head: str, what: str, more: Sequence[str]) -> None:
        """Takes what a voice says, with the places in files that it names."""
        kind = next((one for one in ("warning", "note") if f" {one}:" in head), "refusal")
        self.said[kind].append({"what": what, "more": list(more), "places": self.places_in([what, *more])})

    def places_in(self, texts: Sequence[str]) -> list[dict[str, Any]]:
        """The places that stand in some sentences, in the order in which they were found."""
        found = []
        for words, text, at in self.places:
            line, column = text.place(at)
            place = {"file": text.path, "line": line, "column": column, "member": member_at(text, at)}
            if place not in found and any(
                words + "," in one or words + ":" in one or one.endswith(words) for one in texts
            ):
                found.append(place)
        return found or [
            place
            for file in (self.asking.files.values() if self.asking else ())
            for place in line_place(file, texts[0])
        ]

    def values(self, status: int, output: str | None) -> dict[str, Any]:
        """The object."""
        reason, named = self.reason(status)
        verdict = (
            answers.verdict_of(self.name, status, self.text, self.said["warning"])
            if self.asking
            else self.own_verdict(status)
        )
        value = self.own_value(status)
        own = value if isinstance(value, dict) else NOTHING
        is_written = output is not None and status == 0
        return {
            "format": FORMAT, "command": self.name, "status": status, "verdict": verdict, "reason": reason,
            "class": named, "paths": self.paths(status),
            "places": [place for one in self.said["refusal"] for place in one["places"]],
            "warnings": self.said["warning"], "refusals": self.said["refusal"], "notes": self.said["note"],
            "said": self.lines, "output": output if is_written else None,
            "answer": None
            if is_written or own
            else value
            if value is not None
            else answers.value_of(self.name, status, self.text),
            **own,
        }

    def reason(self, status: int) -> tuple[dict[str, Any] | None, dict[str, Any] | None]:
        """The reason why the answer isn't yes, and the class of packets that it names. Of a command outside the proved
        program that is the reason of the program, where the command ended with its status."""
        if self.asking:
            return answers.reason_of(status, self.text)
        run = self.refusing
        return answers.reason_of(status, run.text) if run is not None and run.status == status else (None, None)

    def own_verdict(self, status: int) -> str:
        """The verdict of a command outside the proved program."""
        run = self.refusing
        if run is not None and run.status == status:
            return answers.verdict_of(run.command.name, status, run.text)
        if status == REFUSED:
            return ANSWERS_NO.get(self.name, "stopped")
        return answers.verdict_of("", status, is_warned=run is None and bool(self.said["warning"]))

    def own_value(self, status: int) -> dict[str, Any] | list[dict[str, Any]] | None:
        """What the command itself writes as JSON: an object, whose members stand beside the others, or a list, which is
        the answer; None where it is neither."""
        try:
            return json.loads(self.text) if status in (0, REFUSED) and self.name in WITH_OPTION else None
        except ValueError:
            return None

    def paths(self, status: int) -> list[dict[str, Any]]:
        """The ways of packets that were looked at."""
        ways = list(self.ways)
        if self.name == "trace" and status == 0 and self.asking:
            ways.append((self.asking.files["CONFIG"].shown, self.asking.passed[3:6], self.text))
        found = []
        for file, (entry, vlan, address), text in ways:
            stops, end = answers.stops_of(text)
            found.append(
                {
                    "file": file, "from": entry, "vlan": answers.vlan_value(vlan), "address": address, "stops": stops,
                    "end": end,
                }
            )
        return found


def line_place(file: Given, text: str) -> list[dict[str, Any]]:
    """The line of a file that a sentence begins with, as a list of at most one place."""
    number = (
        text[len(file.shown) + len(", line ") :].partition(":")[0] if text.startswith(f"{file.shown}, line ") else ""
    )
    return [{"file": file.shown, "line": int(number), "column": None, "member": None}] if number.isdigit() else []


def member_at(text: Json | Text, at: int) -> str | None:
    """The member of a JSON file whose value, or name, begins at a character, as links[4][1]; None where there is
    none."""
    if not isinstance(text, Json):
        return None
    value, way = text.root, []
    while value.start != at:
        steps = (
            [(name, start, one) for name, start, one in value.held]
            if value.kind == "object"
            else [(number, one.start, one) for number, one in enumerate(value.items())]
        )
        inner = next(((step, start, one) for step, start, one in steps if start <= at < one.end), None)
        if inner is None:
            return None
        way.append(inner[0])
        if inner[1] == at:
            break
        value = inner[2]
    return member_path(tuple(way)) or None
