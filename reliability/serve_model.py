"""A model of `planner serve`, for the tests of it and for `serve.py`. It shares no code with the program, and looks at
no evidence of a plan.

`planner serve TOPO OLD NEW POLICY PLAN` is the core of a controller that stays there while an update is carried out.
Where the plan is certified it takes lines from its standard input, and after each one it writes a block of lines,
whole, before it takes the next. What it is told:

    start                a round may begin: all packets that entered before the last one was settled are gone
    back                 go back: turn the running round, or undo the last one that is settled (then all packets that
                         entered before are gone)
    feed SWITCH HEX      bytes came from a switch; a message may be cut anywhere
    reopen SWITCH        the connection with the switch is a new one, what was sent before and isn't done yet never will
                         be, and it kept its table; or it was dead, and has the table now that the events so far give
    dead SWITCH          no packet passes this switch any more, and none will before `reopen`
    # ..                 nothing: a line that is empty or begins so is a comment

and what it says, in the order in which it comes about:

    send SWITCH HEX      this message is to be sent
    failed SWITCH CAUSE  the session with the switch failed, and stays so until `reopen`
    start, back, change I, undo I, settle
                         what has happened: a round began, or its undoing did; change I of the round is in force, or is
                         no longer; the round is settled
    ok settled K of N, ok running K of N
                         the end of the block: how many rounds are settled, or which one runs, in either way
    no running, no finished, no begun, no open SWITCH, bad line
                         the whole block, where the line can't be followed. Everything stays as it was, and the next
                         line is taken

The block of line 0, before any line, has a HELLO for each switch. A round's messages are those of `planner emit`: its
changes, and then a barrier request for each switch that has some. The changes of a switch are in force when it has
answered that request, and the round is settled when all have.

To turn a round, the inverses of its changes are sent in the opposite order, and then barrier requests again: an insert
is taken back by a delete, a delete by an insert, a replace by a replace with the action that the entry had before the
round. The answer to the request behind the inverses of a switch says that none of its changes is in force any more.
Requests are answered in the order in which they were sent, so that of the round itself comes first where it is still
missing. A switch with a session that isn't open gets nothing then. When its HELLO opens the session again, it gets the
messages of the running round that it hasn't answered, with the xids that they had: of a round that is being undone the
inverses alone.

A dead switch gets nothing, what comes from it is dropped, and it isn't waited for: a round is settled when all others
have answered, and directly before that stand its changes there that aren't in force, ascending, or those that are,
descending, where the round is being undone. For `no open` it counts as open. Of a round that was settled so it gets
nothing later.
"""
from __future__ import annotations

import dataclasses
import ipaddress
import re
import struct

TYPE_CHECKING = False
if TYPE_CHECKING:
    from typing import Any, Callable, Sequence

HELLO, ERROR, ECHO_REQUEST, ECHO_REPLY, FLOW_MOD, BARRIER_REQUEST, BARRIER_REPLY = 0, 1, 2, 3, 14, 18, 19
HELLO_BYTES = bytes.fromhex("0100000800000000")
LAST_XID = 0xFFFFFFFF
LONGEST_LINE = 262144
WAITING, OPEN, FAILED, DEAD = "waiting", "open", "failed", "dead"
FORWARD, BACK = "forward", "back"


class No(Exception):
    """A line that can't be followed: what the block says."""


# ---- changes and their messages

@dataclasses.dataclass(frozen=True)
class Change:
    """A change: the rule has the members of a rule in a plan's file, besides its switch."""
    do: str
    switch: str
    rule: tuple

    @staticmethod
    def read(do: str, item: dict[str, Any]) -> Change:
        return Change(
            do, item["switch"],
            tuple(sorted((key, value) for key, value in item.items() if key not in ("do", "switch"))),
        )

    @property
    def key(self) -> tuple[str, int, int | str, str, Any]:
        """The switch, and the entry of its table: priority and match."""
        rule = dict(self.rule)
        return (
            self.switch, rule["priority"], rule.get("in_port", "any"), str(rule.get("vlan", "any")),
            ipaddress.ip_network(rule["dst"]),
        )

    def message(self, xid: int) -> bytes:
        """The flow message (OpenFlow 1.0.0, section 5.3.3)."""
        rule, command = dict(self.rule), {"insert": 0, "replace": 2, "delete": 4}[self.do]
        port, vlan, block = rule.get("in_port", "any"), rule.get("vlan", "any"), ipaddress.ip_network(rule["dst"])
        wildcards = (
            1 << 21
            | 1 << 20
            | (32 - block.prefixlen) << 14
            | 32 << 8
            | 1 << 7
            | 1 << 6
            | 1 << 5
            | 1 << 3
            | 1 << 2
            | (vlan == "any") << 1
            | (port == "any")
        )
        match = struct.pack(
            "!IH12xHxxHxx2x4x4s4x", wildcards, 0 if port == "any" else port,
            {"any": 0, "untagged": 0xFFFF}.get(vlan, vlan), 0x0800, block.network_address.packed,
        )
        actions = b"" if self.do == "delete" else actions_of(rule)
        body = match + struct.pack("!8xHHHHIHH", command, 0, 0, rule["priority"], 0xFFFFFFFF, 0xFFFF, 0) + actions
        return message(FLOW_MOD, xid, body)


def actions_of(rule: dict[str, Any]) -> bytes:
    if rule["out"] == "drop":
        return b""
    rewrite = (
        struct.pack("!HHHxx", 1, 8, rule["set"])
        if "set" in rule
        else struct.pack("!HH4x", 3, 8)
        if rule.get("strip")
        else b""
    )
    return rewrite + struct.pack("!HHHH", 0, 8, rule["out"], 0)


def message(kind: int, xid: int, body: bytes = b"") -> bytes:
    return struct.pack("!BBHI", 1, kind, 8 + len(body), xid) + body


def rounds_of(plan: dict[str, Any]) -> list[list[Change]]:
    """The rounds of a plan in either format, as lists of changes."""
    if plan["format"] == 1:
        return [[Change.read(item["do"], item) for item in changes] for changes in plan["rounds"]]
    return [[Change.read(do, plan["rules"][at]) for do, at in changes] for changes in plan["rounds"]]


def inverse(changes: Sequence[Change], table: dict[Any, Any]) -> list[Change]:
    """What takes a round back, where the tables before it were these, as the rules by their keys."""
    undone = []
    for change in reversed(changes):
        do = {"insert": "delete", "delete": "insert", "replace": "replace"}[change.do]
        undone.append(Change(do, change.switch, table[change.key] if do == "replace" else change.rule))
    return undone


def after(changes: Sequence[Change], table: dict[Any, Any]) -> dict[Any, Any]:
    """The tables after a round."""
    gone = {change.key for change in changes if change.do == "delete"}
    made = {change.key: change.rule for change in changes if change.do != "delete"}
    return {key: rule for key, rule in {**table, **made}.items() if key not in gone}


# ---- sessions, and the running round

@dataclasses.dataclass
class Session:
    """A session with a switch. `due` has the barrier requests that were sent on it and aren't answered, in order: the
    xid of each, and its way."""
    state: str = WAITING
    unread: bytes = b""
    due: list[Any] = dataclasses.field(default_factory=list)


@dataclasses.dataclass
class Sending:
    """What one way of a round sends: messages by switch, the last of each a barrier request; and the switches that
    haven't answered that."""
    way: str
    messages: dict[str, Any]
    unanswered: set[str]


class Serve:
    """What is said of an update, line by line. The events of all blocks are kept in `events`."""

    def __init__(
        self, topology: dict[str, list[Any]], old: dict[str, list[dict[str, Any]]], plan: dict[str, Any]
    ) -> None:
        self.switches = [one["name"] for one in topology["switches"]]
        self.rounds = rounds_of(plan)
        self.tables: list[dict[Any, Any]] = [
            {change.key: change.rule for change in (Change.read("insert", item) for item in old["rules"])}
        ]
        for changes in self.rounds:
            self.tables.append(after(changes, self.tables[-1]))
        self.sessions = {name: Session() for name in self.switches}
        self.settled, self.last_xid = 0, 0
        self.sending: Sending | None = None
        self.in_force: set[int] = set()
        self.events: list[str] = []
        self.block: list[str] = []

    # -- lines

    def begin(self) -> list[str]:
        """The block of line 0."""
        def greet() -> None:
            for name in self.switches:
                self.send(name, HELLO_BYTES)

        return self.told(greet)

    def line(self, text: bytes) -> list[str]:
        """The block of a line, which is given without its line end."""
        return self.told(lambda: self.follow(text))

    def told(self, act: Callable[..., Any]) -> list[str]:
        self.block = []
        try:
            act()
        except No as no:
            return [str(no)]
        running = f"running {self.number_of_running()}" if self.sending else f"settled {self.settled}"
        return [*self.block, f"ok {running} of {len(self.rounds)}"]

    def follow(self, text: bytes) -> None:
        if len(text) > LONGEST_LINE:
            raise No("bad line")
        if text == b"" or text.startswith(b"#"):
            return
        words = text.decode("latin-1").split(" ")
        if words == ["start"]:
            self.start()
        elif words == ["back"]:
            self.back()
        elif len(words) == 2 and words[0] == "reopen" and words[1] in self.sessions:
            self.reopen(words[1])
        elif len(words) == 2 and words[0] == "dead" and words[1] in self.sessions:
            self.dead(words[1])
        elif (
            len(words) == 3
            and words[0] == "feed"
            and words[1] in self.sessions
            and re.fullmatch("([0-9a-fA-F]{2})+", words[2])
        ):
            self.feed(words[1], bytes.fromhex(words[2]))
        else:
            raise No("bad line")

    # -- rounds

    def number_of_running(self) -> int:
        """The number, from 1, of the round that runs: `settled` counts those that were settled before it, also while it
        is being undone."""
        return self.settled + 1

    def running(self) -> list[Change]:
        return self.rounds[self.settled]

    def start(self) -> None:
        if self.sending:
            raise No("no running")
        if self.settled == len(self.rounds):
            raise No("no finished")
        self.refuse_unless_open(self.running())
        self.log("start")
        self.in_force = set()
        self.send_round(FORWARD, self.running())

    def back(self) -> None:
        if self.sending and self.sending.way == BACK:
            raise No("no running")
        if not self.sending:
            if self.settled == 0:
                raise No("no begun")
            self.refuse_unless_open(self.rounds[self.settled - 1])
            self.settled -= 1
            self.in_force = set(range(len(self.running())))
            self.log("back")
        self.send_round(BACK, inverse(self.running(), self.tables[self.settled]))

    def refuse_unless_open(self, changes: Sequence[Change]) -> None:
        touched = {change.switch for change in changes}
        for name in self.switches:
            if name in touched and self.sessions[name].state not in (OPEN, DEAD):
                raise No(f"no open {name}")

    def send_round(self, way: str, changes: Sequence[Change]) -> None:
        """Sends changes, and barrier requests behind them, to those that are open. All get their xids."""
        touched = [name for name in self.switches if any(change.switch == name for change in changes)]
        numbered = [(change.switch, change.message(self.next_xid())) for change in changes]
        numbered += [(name, message(BARRIER_REQUEST, self.next_xid())) for name in touched]
        self.sending = Sending(
            way, {name: [piece for of, piece in numbered if of == name] for name in touched}, set(touched)
        )
        for name, piece in numbered:
            if self.sessions[name].state == OPEN:
                self.send(name, piece)
        self.settle_if_answered()

    def next_xid(self) -> int:
        self.last_xid = 1 if self.last_xid == LAST_XID else self.last_xid + 1
        return self.last_xid

    def settle_if_answered(self) -> None:
        if self.sending and all(self.sessions[name].state == DEAD for name in self.sending.unanswered):
            self.log_dead(self.sending.way)
            self.settled += self.sending.way == FORWARD
            self.sending = None
            self.log("settle")

    def log_dead(self, way: str) -> None:
        """The changes at dead switches are as those of the others."""
        own = {number for number, change in enumerate(self.running()) if self.sessions[change.switch].state == DEAD}
        if way == FORWARD:
            for number in sorted(own - self.in_force):
                self.log(f"change {number}")
            self.in_force |= own
        else:
            for number in sorted(own & self.in_force, reverse=True):
                self.log(f"undo {number}")
            self.in_force -= own

    def table_now(self) -> dict[Any, Any]:
        """The tables that the events so far give."""
        in_force = [self.running()[number] for number in sorted(self.in_force)] if self.sending else []
        return after(in_force, self.tables[self.settled])

    def answered(self, name: str, way: str) -> None:
        """A switch has answered the barrier request of one way of the running round."""
        own = [number for number, change in enumerate(self.running()) if change.switch == name]
        if way == FORWARD:
            for number in own:
                self.log(f"change {number}")
            self.in_force |= {*own}
        else:
            for number in sorted(self.in_force & {*own}, reverse=True):
                self.log(f"undo {number}")
            self.in_force -= {*own}
        if self.sending is not None and way == self.sending.way:
            self.sending.unanswered.discard(name)
            self.settle_if_answered()

    # -- sessions

    def reopen(self, name: str) -> None:
        self.sessions[name] = Session()
        self.send(name, HELLO_BYTES)

    def dead(self, name: str) -> None:
        if self.sessions[name].state != DEAD:
            self.sessions[name] = Session(DEAD)
            self.settle_if_answered()

    def feed(self, name: str, piece: bytes) -> None:
        session = self.sessions[name]
        if session.state in (FAILED, DEAD):
            return
        session.unread += piece
        while session.state != FAILED and len(session.unread) >= 8:
            cause = fault_of_header(session.unread)
            length = int.from_bytes(session.unread[2:4], "big")
            if cause:
                self.fail(name, cause)
            elif len(session.unread) < length:
                return
            else:
                taken, session.unread = session.unread[:length], session.unread[length:]
                self.take(name, session, taken)

    def take(self, name: str, session: Session, taken: bytes) -> None:
        """A whole message came."""
        kind, xid = taken[1], int.from_bytes(taken[4:8], "big")
        if kind == HELLO:
            if session.state == WAITING:
                session.state = OPEN
                self.send_again(name)
        elif session.state == WAITING:
            self.fail(name, "NoHello")
        elif kind == ERROR:
            self.fail(name, "Error %d %d" % struct.unpack("!HH", taken[8:12]))
        elif kind == ECHO_REQUEST:
            self.send(name, taken[:1] + bytes([ECHO_REPLY]) + taken[2:])
        elif kind == BARRIER_REPLY:
            if session.due and session.due[0][0] == xid:
                self.answered(name, session.due.pop(0)[1])
            else:
                self.fail(name, f"Xid {xid}")

    def send_again(self, name: str) -> None:
        """A session is open: the switch gets what it hasn't answered of the running round."""
        if self.sending and name in self.sending.unanswered:
            for piece in self.sending.messages[name]:
                self.send(name, piece)

    def fail(self, name: str, cause: str) -> None:
        session = self.sessions[name]
        session.state, session.unread = FAILED, b""
        session.due = []
        self.block.append(f"failed {name} {cause}")

    def send(self, name: str, piece: bytes) -> None:
        self.block.append(f"send {name} {piece.hex()}")
        if piece[1] == BARRIER_REQUEST and self.sending is not None:
            self.sessions[name].due.append((int.from_bytes(piece[4:8], "big"), self.sending.way))

    def log(self, event: str) -> None:
        self.block.append(event)
        self.events.append(event)


def fault_of_header(unread: bytes) -> str | None:
    """What is wrong with the header of the message that comes next, or None."""
    version, kind, length = struct.unpack("!BBH", unread[:4])
    if version == 0 or (version != 1 and kind != HELLO):
        return "Version"
    if length < 8 or (kind == BARRIER_REPLY and length != 8) or (kind == ERROR and length < 12):
        return "Length"
    return None


def lines_of(text: bytes) -> Any:
    """The lines of an input, without their ends. The last one may lack its end."""
    lines = text.split(b"\n")
    return lines[:-1] if lines[-1] == b"" else lines


def said(topology: dict[str, Any], old: dict[str, Any], plan: dict[str, Any], text: bytes) -> Any:
    """Everything that is said of an input, the block of line 0 first."""
    serve = Serve(topology, old, plan)
    return [serve.begin(), *(serve.line(line) for line in lines_of(text))]
