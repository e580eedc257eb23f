"""What of a session needs neither processes nor sockets: which lines `planner serve` is given, and what its blocks
say."""
from __future__ import annotations

import dataclasses
import json
import re
from typing import Any, Iterator, Mapping

HELLO = bytes.fromhex("0100000800000000")
# The xids that a controller may give to messages of its own. Those of `planner serve` count from 1.
OWN_XIDS = range(0x80000000, 0x100000000)
TYPE_HELLO, TYPE_ERROR, TYPE_ECHO_REQUEST, TYPE_FLOW_MOD, TYPE_BARRIER_REQUEST, TYPE_BARRIER_REPLY = 0, 1, 2, 14, 18, 19
# What `serve` acts on in an open session. It passes over the rest.
FED = (TYPE_HELLO, TYPE_ERROR, TYPE_ECHO_REQUEST, TYPE_BARRIER_REPLY)
# So many bytes are given in a line at most.
PIECE = 65536
NAME = re.compile(r"[A-Za-z0-9_-]{1,32}")

Change = tuple[str, Mapping[str, Any]]


@dataclasses.dataclass(frozen=True)
class Message:
    """Bytes for a switch, or from one."""

    switch: str
    data: bytes


@dataclasses.dataclass(frozen=True)
class Event:
    """What happened. The kinds are `started`, `turned`, `changed`, `undone`, `settled`, `taken back` and `failed`. A
    change that its switch has answered for, or that counts as made since its switch is dead, has the switch, what it
    does, and its rule; a failed session the switch and the cause."""

    kind: str
    round: int
    switch: str | None = None
    do: str | None = None
    rule: Mapping[str, Any] | None = None
    change: int | None = None
    cause: str | None = None


@dataclasses.dataclass(frozen=True)
class Step:
    """What follows from a call: messages to send, in their order, events, messages that are none of the session's
    business, and how far the update is."""

    messages: tuple[Message, ...]
    events: tuple[Event, ...]
    others: tuple[Message, ...]
    settled: int
    rounds: int
    is_running: bool
    is_back: bool


@dataclasses.dataclass(frozen=True)
class Reply:
    """What `serve` answers to a line: the last line of its block, and what follows from it. Nothing does where the line
    wasn't taken."""

    line: str
    last: str
    messages: tuple[Message, ...] = ()
    events: tuple[Event, ...] = ()

    @property
    def is_taken(self) -> bool:
        """Whether the line was carried out."""
        return self.last.startswith("ok ")


class NotNow(Exception):
    """A round can't begin, or be turned, now: `running`, `finished`, `begun` (nothing is) or `open` (the switch's
    session isn't)."""

    def __init__(self, why: str, switch: str | None = None):
        super().__init__(why if switch is None else f"{why}: {switch}")
        self.why, self.switch = why, switch


class Refused(Exception):
    """`planner serve` didn't take the files: its status and its text. `planner.check` says more."""

    def __init__(self, status: int, text: str):
        super().__init__(text.strip() or f"`planner serve` ended with status {status}")
        self.status, self.text = status, text


class ServeEnded(Exception):
    """`planner serve` ended, or didn't answer in time. What follows from the call isn't known: go on by the record, in
    a new session. Where it ended, its exit status, and what it had said of a block by then."""

    def __init__(self, words: str, status: int | None = None, text: str = ""):
        super().__init__(words)
        self.status, self.text = status, text


def end_of(status: int, text: str) -> Refused | ServeEnded:
    """What an end of `serve` is, by its exit status and what it said."""
    if status in (1, 2, 3):
        return Refused(status, text)
    return ServeEnded(
        f"`planner serve` ended with status {status}{': ' + text.strip() if text.strip() else ''}", status, text
    )


def checked(reply: Reply) -> Reply:
    """A reply to a line that was taken. NotNow, or ValueError, where it wasn't."""
    if reply.last.startswith("no "):
        raise NotNow(*reply.last.split(" ")[1:])
    if not reply.is_taken:
        raise ValueError(f"`planner serve` answers `{reply.last}` to `{reply.line[:60]}`")
    return reply


def xid_of(message: bytes) -> int:
    return int.from_bytes(message[4:8], "big")


def is_own(message: bytes) -> bool:
    """Whether a message has an xid of the controller's own."""
    return len(message) >= 8 and xid_of(message) in OWN_XIDS


def is_header(data: bytes) -> bool:
    """Whether eight bytes can be the header of a message of version 1, or of a HELLO of any."""
    return data[0] != 0 and (data[0] == 1 or data[1] == TYPE_HELLO) and int.from_bytes(data[2:4], "big") >= 8


def cut(data: bytes) -> tuple[list[bytes], bytes]:
    """The whole messages at the beginning of some bytes, and the rest. From a header on that is none, all bytes are one
    message."""
    messages: list[bytes] = []
    at = 0
    while len(data) - at >= 8:
        if not is_header(data[at:at + 8]):
            return messages + [data[at:]], b""
        end = at + int.from_bytes(data[at + 2:at + 4], "big")
        if end > len(data):
            break
        messages.append(data[at:end])
        at = end
    return messages, data[at:]


def is_last(line: str) -> bool:
    """Whether a line is the last one of a block."""
    return line.startswith(("ok ", "no ")) or line == "bad line"


def rounds_of(plan: bytes) -> list[list[Change]]:
    """The changes of each round of a plan, each with its rule."""
    held = json.loads(plan)
    if held["format"] == 1:
        return [
            [(one["do"], {name: it for name, it in one.items() if name != "do"}) for one in changes]
            for changes in held["rounds"]
        ]
    return [[(do, held["rules"][number]) for do, number in changes] for changes in held["rounds"]]


class Core:
    """How far the update is and which way it goes, which sessions are open or have failed, who owes an answer, and what
    of each round is in force, by what `serve` has said."""

    def __init__(self, plan: list[list[Change]]):
        self.plan = plan
        self.settled, self.rounds, self.is_running, self.is_back = 0, len(plan), False, False
        self.rest: dict[str, bytes] = {}         # by switch: the beginning of a message
        self.open: set[str] = set()
        self.failed: dict[str, str] = {}         # by switch: the cause for which its session failed
        self.dead: set[str] = set()      # the switches that no packet passes, and that no round waits for
        self.failures = 0                        # how many sessions have failed so far
        # by switch: the xids of the barrier requests on its session that aren't answered
        self.due: dict[str, list[int]] = {}
        # by switch: its flow messages of the running round, by their xids
        self.sent: dict[str, dict[int, bytes]] = {}
        # whether a round was started; how many were settled, and undone
        self.begun, self.carried_out, self.undone = False, 0, 0
        # of each round that is settled or runs what happened, as in a schedule
        self.history: list[list[str]] = []

    def number(self) -> int:
        """The number of the running round, or of the one that was settled last."""
        return self.settled + self.is_running

    def owing(self) -> set[str]:
        """The switches that hold up the running round: they owe an answer, or their session failed."""
        return {name for name, xids in self.due.items() if xids} | set(self.failed)

    # ---- what is given

    def pieces(self, switch: str, data: bytes) -> Iterator[tuple[bytes, bool]]:
        """The messages in some bytes of a switch, and whether each is to be fed."""
        messages, rest = cut(self.rest.pop(switch, b"") + data)
        if rest:
            self.rest[switch] = rest
        for one in messages:
            is_good = is_header(one[:8])
            # by a bad header the session fails
            is_fed = switch not in self.dead and (not is_good or self.is_fed(switch, one))
            yield one[:PIECE] if is_fed and not is_good else one, is_fed

    def is_fed(self, switch: str, message: bytes) -> bool:
        if switch not in self.open:
            return True
        return message[1] in FED and not (message[1] in (TYPE_ERROR, TYPE_BARRIER_REPLY) and is_own(message))

    def reopen(self, switch: str) -> str:
        """The line by which the session with a switch begins anew."""
        self.rest.pop(switch, None)
        return f"reopen {named(switch)}"

    def die(self, switch: str) -> str:
        """The line by which a switch is dead."""
        self.rest.pop(switch, None)
        return f"dead {named(switch)}"

    # ---- what is answered

    def take(self, line: str, block: list[str]) -> Reply:
        """Takes a line that was given and its block."""
        *told, last = block
        if not last.startswith("ok "):
            return Reply(line, last)
        words = line.split(" ")
        round_ = self.settled + (self.is_running or words[0] == "start")
        was_turned = words[0] == "back" and self.is_running
        if was_turned:
            self.history[-1].append("back")      # its block has no event
        self.take_line(words)
        messages: list[Message] = []
        events = [Event("turned", round_)] if was_turned else []
        for one in told:
            self.take_told(one.split(" "), round_, messages, events)
        _, state, number, _, rounds = last.split(" ")
        self.is_running, self.rounds = state == "running", int(rounds)
        self.settled = int(number) - self.is_running
        return Reply(line, last, tuple(messages), tuple(events))

    def take_line(self, words: list[str]) -> None:
        if words[0] in ("start", "back"):
            self.sent = {}
            self.is_back = words[0] == "back"
        elif words[0] in ("reopen", "dead"):
            self.open.discard(words[1])
            self.failed.pop(words[1], None)
            self.due[words[1]] = []
            (self.dead.add if words[0] == "dead" else self.dead.discard)(words[1])
        elif words[0] == "feed" and words[1] not in self.failed and words[1] not in self.dead:
            self.take_message(words[1], bytes.fromhex(words[2]))

    def take_message(self, switch: str, message: bytes) -> None:
        if len(message) < 8:
            return
        if message[1] == TYPE_HELLO:
            self.open.add(switch)
        elif message[1] == TYPE_BARRIER_REPLY and self.due.get(switch, [])[:1] == [xid_of(message)]:
            del self.due[switch][0]

    def take_told(self, words: list[str], round_: int, messages: list[Message], events: list[Event]) -> None:
        if words[0] == "send":
            messages.append(Message(words[1], bytes.fromhex(words[2])))
            self.note_sent(words[1], messages[-1].data)
        elif words[0] == "failed":
            self.failed[words[1]], self.due[words[1]] = " ".join(words[2:]), []
            self.failures += 1
            self.open.discard(words[1])
            events.append(Event("failed", round_, switch=words[1], cause=" ".join(words[2:])))
        elif words[0] in ("change", "undo"):
            do, rule = self.plan[round_ - 1][int(words[1])]
            events.append(
                Event("changed" if words[0] == "change" else "undone", round_, rule["switch"], do, rule, int(words[1]))
            )
        elif words[0] == "settle":
            events.append(Event("taken back" if self.is_back else "settled", round_))
        else:
            events.append(Event({"start": "started", "back": "turned"}[words[0]], round_))
        self.note_event(words)

    def note_sent(self, switch: str, message: bytes) -> None:
        if message[1] == TYPE_BARRIER_REQUEST:
            self.due.setdefault(switch, []).append(xid_of(message))
        elif message[1] == TYPE_FLOW_MOD:
            self.sent.setdefault(switch, {})[xid_of(message)] = message

    def note_event(self, words: list[str]) -> None:
        """Notes what happened to each round."""
        if words[0] == "start":
            self.begun = True
            self.history.append(["start"])
        elif words[0] == "settle" and self.is_back:
            self.history.pop()
            self.undone += 1
        elif words[0] in ("change", "undo", "back", "settle"):
            self.history[-1].append(" ".join(words))
            self.carried_out += words[0] == "settle"

    def schedule(self) -> str:
        """The events that lead to the present state, as a schedule of `planner tables`. Rounds that were undone aren't
        in it."""
        return "".join(f"{line}\n" for lines in self.history for line in lines)

    def step(self, messages: list[Message], events: list[Event], others: list[Message]) -> Step:
        return Step(
            tuple(messages), tuple(events), tuple(others), self.settled, self.rounds, self.is_running, self.is_back
        )


def named(switch: str) -> str:
    """The name of a switch. ValueError where it is none: it would be another line."""
    if not NAME.fullmatch(switch):
        raise ValueError(f"{switch!r} is no name of a switch")
    return switch
