"""What `planner apply` says to the program and to the switches, and hears from them. Every message that comes is noted
before anything follows from it."""
from __future__ import annotations

import argparse
import contextlib
import math
import pathlib
import struct
import tempfile
import time
from typing import Iterator, Protocol, Sequence

import planner
from planner.core import Core
from planner_tools import events
from planner_tools.proved import say_why
from planner_tools.switches import beside, ends, openflow
from planner_tools.switches.collect import Tables
from planner_tools.switches.connections import OWN, Connection, Heard, Listed, Stop, Switches, progress
from planner_tools.switches.failures import files_of, serve_ended, session_failed
from planner_tools.switches.pace import AnswerTimes
from planner_tools.switches.patience import ProgramPatience, SwitchPatience
from planner_tools.switches.record import Record

# What of a session is fed: all on which `serve` acts, but requests for an echo, which are answered at once. It passes
# over the rest.
FED = (openflow.HELLO, openflow.ERROR, openflow.ECHO_REQUEST, openflow.BARRIER_REPLY)
# Reading the files may take so many times the patience with the program.
READING = 10
# How long the connection has to have stood on which the messages of a round are sent again, in seconds; with a shorter
# --wait that long.
STANDS = 2.0


def is_own(message: bytes) -> bool:
    """Whether a message answers one of these scripts' own, of which `serve` knows nothing."""
    is_answer = openflow.type_of(message) in (openflow.ERROR, openflow.BARRIER_REPLY)
    return is_answer and openflow.xid_of(message) >> 16 == OWN >> 16


class Follower(Protocol):
    """Who acts on what a conversation hears."""

    def has_answered(self, connection: Connection) -> None:
        """A switch has answered all questions for its table on a connection on which the update doesn't go on yet."""

    def may_ask(self) -> bool:
        """Whether a switch may be asked for its table now."""

    def was_refused(self, name: str, xid: int, words: str) -> None:
        """A switch refuses a message of these scripts' own."""

    def has_settled(self) -> None:
        """A round was settled or undone."""


class Conversation:
    """The record, the session of the library that is given its lines, and the switches."""

    def __init__(
        self, options: argparse.Namespace, listed: Listed, record: Record, times: AnswerTimes, follower: Follower
    ) -> None:
        self.options, self.listed, self.record, self.times, self.follower = options, listed, record, times, follower
        self.session: planner.Session | None = None      # there is one when `serve` has taken the lines of the record
        self.followed = 0                # how often lines were given to it
        self.unsure: set[str] = set()    # the switches with a session of an earlier run, until it is opened anew
        self.switches: Switches | None = None            # made when `serve` has accepted the plan
        self.heard: list[Heard] = []     # what came while a program ran
        self.tables = Tables(list(listed))
        self.absent: set[str] = set()    # the dead switches, with which this run doesn't speak
        # by switch: messages of these scripts that aren't answered, and the xid of the barrier request behind them
        self.owed: dict[str, tuple[bytes, int]] = {}
        self.program = ProgramPatience(options.patience)
        self.waiting = SwitchPatience(options.patience)

    @property
    def core(self) -> Core:
        """What `serve` has said."""
        assert self.session is not None
        return self.session.core

    @property
    def names(self) -> list[str]:
        """The switches with which this run speaks."""
        return [name for name in self.listed if name not in self.absent]

    @property
    def named(self) -> dict[str, Connection]:
        """The connection of each switch that has one."""
        return self.switches.named if self.switches is not None else {}

    # ---- the program

    def ask(self, *words: str) -> tuple[int, str]:
        """The exit status of a run of the program, and its text. What comes meanwhile is kept, and requests for an echo
        are answered."""
        self.program.wait_for(words[0])
        try:
            return beside.run_beside(words, self.keep_listening)
        finally:
            self.program.answered()

    def keep_listening(self) -> None:
        self.program.mind()
        if self.switches is None:
            time.sleep(0.002)
        else:
            self.heard += self.switches.poll(0.005, quiet=0.0)

    def open_session(self) -> None:
        """Begins `planner serve`, and gives it the lines of the record. What it says of those has been sent, or is said
        again behind `reopen`."""
        self.record.keep()
        lines = self.record.take_unfollowed()
        self.program.wait_for("serve", READING)
        with contextlib.ExitStack() as opened:
            try:
                session = planner.Session(
                    *files_of(self.options), patience=math.inf, program=beside.path(), meanwhile=self.keep_listening
                )
                opened.callback(session.close)
                for _ in self.replies(session, lines):
                    pass
            except planner.NoProgram as fault:
                raise beside.not_run(fault.__cause__ or fault) from None
            except (planner.Refused, planner.ServeEnded) as end:
                say_why("check", *files_of(self.options), good=(0,))
                raise serve_ended(self.options, self.record, end) from None
            opened.pop_all()
        self.session = session
        self.unsure = set(self.listed) if lines else set()

    def replies(self, session: planner.Session, lines: Sequence[str]) -> Iterator[planner.Reply]:
        """What `planner serve` answers to some lines, each within the patience."""
        self.program.wait_for("serve")
        for reply in session.replies(lines):
            self.program.answered()
            yield reply
            self.program.wait_for("serve")
        self.program.answered()

    def follow(self) -> None:
        """Has the record on the disk, gives `serve` the lines that it hasn't been given, and sends what it says."""
        lines = self.record.take_unfollowed()
        if not lines:
            return
        self.record.keep()
        assert self.session is not None
        core = self.core
        settled, failures = (core.carried_out, core.undone), core.failures
        try:
            for reply in self.replies(self.session, lines):
                events.tell_events(reply.events)
                self.send(reply.messages)
                if not reply.is_taken:
                    self.mind_refusal(reply)
        except (planner.Refused, planner.ServeEnded) as end:
            raise serve_ended(self.options, self.record, end) from None
        self.followed += 1
        if settled != (core.carried_out, core.undone):
            self.follower.has_settled()
        if core.failures > failures:
            raise session_failed(self.record, core, *list(core.failed.items())[-1])

    def mind_refusal(self, reply: planner.Reply) -> None:
        """It is Stop where `serve` didn't take a line that says how the update goes on."""
        what = f"`planner serve` answers `{reply.last}` to `{reply.line}`"
        if reply.line in ("start", "back"):
            raise Stop(what, "see what the record has; then go on with --resume")
        if reply.line.startswith("dead "):
            raise Stop(what, "see that the program is as new as these scripts; then go on with --resume")

    # ---- the switches

    def connect(self) -> None:
        """Makes connections, and takes them, from now on: of the dead switches only with those that are put right."""
        self.absent = self.core.dead - set(self.options.repair)
        self.tables = Tables(self.names)
        self.switches = Switches(
            {name: self.listed[name] for name in self.names}, self.options.listen, self.options.patience,
            {self.listed[name][0]: name for name in sorted(self.absent)},
        )

    def send(self, messages: Sequence[planner.Message]) -> None:
        """Sends what `serve` says, to those whose connection is good. The others get it when theirs is, behind
        `reopen`. HELLO was sent as a connection was made."""
        pieces: dict[str, list[bytes]] = {}
        for one in messages:
            if openflow.type_of(one.data) != openflow.HELLO:
                pieces.setdefault(one.switch, []).append(one.data)
        for name, those in pieces.items():
            connection = self.named.get(name)
            if connection is not None and connection.is_good:
                connection.send(b"".join(those))
                self.times.note_sent(name)

    def say_to(self, name: str, data: bytes, barrier: int) -> None:
        """Sends messages of these scripts that end with a barrier request: they are owed until it is answered, and sent
        again on a new connection."""
        before = self.owed.get(name, (b"", 0))[0]
        self.owed[name] = before + data, barrier
        if name in self.named:
            self.named[name].send(data)

    def pump_until_answered(self) -> None:
        """Takes what comes until the messages of these scripts are answered."""
        while self.owed:
            self.pump()

    def pump(self) -> None:
        """Notes what the switches sent, and sends what follows from it."""
        assert self.switches is not None
        heard, self.heard = self.heard + self.switches.poll(0.02), []
        for what, connection, message in heard:
            self.take(what, connection, message)
        self.follow()
        ends.see_that_it_is_heard()
        self.ask_again()
        self.waiting.mind(
            self.awaited(), min(self.options.wait, STANDS) if self.core.begun else 0, self.why_awaited, self.state,
            self.core.dead,
        )

    def take(self, what: str, connection: Connection, message: bytes) -> None:
        name = connection.name
        if what == "up":
            self.up(connection)
        elif what == "down":
            self.record.remark_seldom(name, f"{name} closed its connection")
            progress(f"{name} closed its connection; {self.state()}")
            self.tables.lost(connection)
        elif self.tables.take(connection, message):
            if self.tables.are_of(connection) and not connection.is_good:
                connection.heard_at = connection.heard_at or time.monotonic()
                self.follower.has_answered(connection)
        elif not openflow.is_message(message):
            self.record.feed(name, message)
        elif is_own(message):
            self.take_own(name, message)
        elif openflow.type_of(message) in FED and connection.is_good:
            if openflow.type_of(message) == openflow.BARRIER_REPLY:
                self.times.note_answer(name)
            self.record.feed(name, message)
        elif openflow.type_of(message) in FED:
            connection.kept.append(message)      # it is of the session that is opened by it

    def take_own(self, name: str, message: bytes) -> None:
        """Takes an answer to a message of these scripts that isn't a question."""
        xid = openflow.xid_of(message)
        if openflow.type_of(message) == openflow.BARRIER_REPLY:
            if name in self.owed and self.owed[name][1] == xid:
                del self.owed[name]
            return
        words = openflow.error_words(*struct.unpack("!HH", message[8:12])) if len(message) >= 12 else "an error"
        self.follower.was_refused(name, xid, words)

    def up(self, connection: Connection) -> None:
        """A switch has connected: it is asked for its table before anything else is sent to it."""
        name = connection.name
        words = f"{name} is connected: {connection.peer}, datapath id {connection.datapath:016x}"
        self.record.remark_seldom(name, words)
        progress(words)
        if name in self.owed:
            connection.send(self.owed[name][0])
        self.tables.ask(connection)

    def ask_again(self) -> None:
        """Asks the switches anew whose connection has stood long enough to be a new session."""
        for one in self.named.values():
            if not (one.is_good or one.is_asked_again) and self.follower.may_ask() and self.has_stood(one):
                one.is_asked_again = True
                self.tables.ask(one)

    def let_on(self, connection: Connection) -> None:
        """A switch has what it must have, so the update goes on on its connection, on which it answered so. Where an
        older one leaves it unsure what the switch has got, that is a new session, and `serve` says what the switch has
        to be sent again."""
        name = connection.name
        if self.named.get(name) is not connection or not self.stands(name):
            return               # it has connected anew while a program ran, and is asked first
        is_anew, followed = self.must_reopen(name), self.followed
        if connection.is_good or is_anew and self.core.begun and not self.has_stood(connection):
            return
        self.follow()
        if name in self.core.dead and self.followed != followed:
            connection.is_asked_again = False        # a round may be settled without it: what it must have is another
            return
        connection.is_good = True
        if is_anew:
            self.tell_reopened(name)
            self.unsure.discard(name)
            self.record.give(f"reopen {name}")
        for message in connection.kept:
            self.record.feed(name, message)
        self.follow()

    def tell_reopened(self, name: str) -> None:
        if name in self.core.dead:
            words = f"{name} has what it must have, and is dead no more"
            self.record.remark(words)
            progress(words)
        elif self.core.is_running:
            words = (
                f"{name} has what it must have; its session is opened anew, and what it hasn't answered of"
                f" {self.round_words()} is sent again"
            )
            self.record.remark_seldom(name + " again", words)
            progress(words)

    def close(self) -> None:
        """Ends `planner serve`, and closes the connections when what is unsent is sent."""
        if self.session is not None:
            self.session.close()
        if self.switches is None:
            return
        try:
            self.switches.flush(2.0)
        except Stop:
            pass
        self.switches.close()

    # ---- how far it is

    def must_reopen(self, name: str) -> bool:
        """Whether what was sent to a switch on its session is perhaps not carried out, and not answered, or the switch
        is dead: its next connection is a new session."""
        return name in self.unsure or name in self.core.owing() or name in self.core.dead

    def has_stood(self, connection: Connection) -> bool:
        """Whether a connection has stood for a while since its switch answered on it. By then the switch has taken up
        what it takes of an older one."""
        return connection.heard_at is not None and time.monotonic() - connection.heard_at >= min(
            self.options.wait, STANDS
        )

    def stands(self, name: str) -> bool:
        """Whether a switch has a connection, and has answered on it for its table. What it answered on an older one
        says nothing of the table it has by now."""
        return name in self.named and self.tables.are_of(self.named[name])

    def has_all(self) -> bool:
        """Whether each switch stands, and nothing waits to be heard or answered."""
        return not self.heard and not self.owed and all(self.stands(name) for name in self.names)

    def awaited(self) -> list[str]:
        """The switches for which the update waits: they are away, or owe an answer."""
        away = {
            name
            for name in self.names
            if name not in self.named or name not in self.core.open and not self.named[name].kept
        }
        return sorted(away | self.core.owing() | self.tables.missing() | set(self.owed))

    def why_awaited(self, name: str) -> str:
        if name not in self.named:
            return f"isn't connected{self.switches.why_away(name) if self.switches else ''}"
        if name not in self.core.open and not self.named[name].kept:
            return "has sent no HELLO"
        if name in self.tables.missing():
            return "hasn't answered the question for its table"
        return "hasn't answered the messages of the round" if name in self.core.owing() else "hasn't answered"

    def are_all_there(self) -> bool:
        """Whether a round can begin: no switch is waited for, and the update goes on on the connection of each."""
        return not self.awaited() and all(one.is_good for one in self.named.values())

    def round_words(self) -> str:
        return f"{'the undoing of ' if self.core.is_back else ''}round {self.core.number()}"

    def state(self) -> str:
        """How far the update is."""
        core = self.core
        words = f"{core.settled} of {core.rounds} rounds are settled"
        words += f" ({core.carried_out} were carried out and {core.undone} undone)" if core.undone else ""
        words += (
            f", round {core.number()} is {'being undone' if core.is_back else 'running'}" if core.is_running else ""
        )
        words += f", without {', '.join(sorted(core.dead))}" if core.dead else ""
        names = self.awaited() if self.switches is not None else []
        return words + (f", no answer yet from {', '.join(names)}" if names else "")


@contextlib.contextmanager
def temporary(word: str, data: bytes) -> Iterator[str]:
    """The name of a file with these bytes, for a run of the program."""
    try:
        with tempfile.NamedTemporaryFile(prefix="planner-", suffix=f".{word}") as file:
            file.write(data)
            file.flush()
            yield file.name
    except OSError as fault:
        raise Stop(
            f"a file in {tempfile.gettempdir()} can't be written: {fault.strerror or fault}",
            "make room there; then go on with --resume",
        ) from None


def write(path: str, text: str) -> None:
    try:
        pathlib.Path(path).write_text(text, encoding="ascii")
    except OSError as fault:
        raise Stop(
            f"{path} can't be written: {fault.strerror or fault}", "make room on its disk; then go on with --resume"
        ) from None
