"""Asks each switch for its flow table, and writes the file REPLIES that `planner import TOPOLOGY REPLIES` reads.

    planner collect TOPOLOGY --switches FILE [--listen HOST:PORT] [--patience SECONDS] > REPLIES

FILE has a line for each switch, `NAME DATAPATH [HOST:PORT]`: the datapath id in 16 hexadecimal digits, and where the switch listens. A switch
without an address connects to the address behind --listen. --patience is how long a switch may take to answer (15 s).

What a switch answers is written as it came, but for three things that change nothing for any IPv4 packet. A comment line tells of each:

- an entry for untagged packets that tests the priority of the tag, as Open vSwitch reports it: the test is taken away;
- an entry for packets of another type (ARP, IPv6, LLDP) is left out;
- an entry of priority 0 that does what a miss does (nothing, or to the controller) is left out.

Everything else that a configuration can't say is refused, all entries at once and in words; where an update is under way its own entries are counted
alone, and it is said how to go on with it. The extended statistics of Open vSwitch (NXST_FLOW) are
asked for too: an entry that they show with a match that OpenFlow 1.0 can't say is refused, since the other statistics show it wider than it is.

Exit status: 0 written; 1 refused, or a switch didn't answer; 2 wrong words.
"""
from __future__ import annotations

import argparse
import re
import struct
import sys
import time

from planner_tools.switches import openflow
from planner_tools.switches.connections import (
    OWN, Stop, Switches, fault_words, listening_address, read_switches, say,
)
from planner_tools.switches.entries import Entry, ExtendedEntry, cut_entries
from planner_tools.switches.expected import Answers
from planner_tools.switches.marks import Mark

TYPE_CHECKING = False
if TYPE_CHECKING:
    from typing import Collection, Sequence

    from planner_tools.switches.connections import Connection

# The xids of a run of questions: these, over a number of its own.
FLOW_XID, EXTENDED_XID, BARRIER_XID = 1, 2, 3
FIRST_RUN, RUNS = OWN + 0x1000, 0x3000
# Priorities above this one are those of the entries that a two-phase plan makes.
LAST_PRIORITY = 16383
EVERY_PACKET = struct.pack("!I", 0x003FFFFF) + bytes(36)
NICIRA = 0x2320


def questions(base: int) -> bytes:
    """The questions for the table of a switch, with xids over this number."""
    return (
        openflow.message(
            openflow.STATS_REQUEST, base + FLOW_XID,
            struct.pack("!HH", 1, 0) + EVERY_PACKET + struct.pack("!BxH", 0xFF, 0xFFFF),
        )
        + openflow.message(
            openflow.STATS_REQUEST, base + EXTENDED_XID,
            struct.pack("!HHII4xHHB3x", 0xFFFF, 0, NICIRA, 0, 0xFFFF, 0, 0xFF),
        )
        + openflow.message(openflow.BARRIER_REQUEST, base + BARRIER_XID)
    )


class Tables:
    """What the switches answered, and what is to be written of it."""

    def __init__(self, names: Sequence[str]) -> None:
        self.names, self.runs = names, 0
        self.answers = {name: Answers() for name in names}

    def missing(self) -> set[str]:
        """The switches that haven't answered."""
        return {name for name, answers in self.answers.items() if not answers.is_whole}

    def forget(self, name: str) -> None:
        """A switch has to answer anew."""
        self.answers[name] = Answers()

    def lost(self, connection: Connection) -> None:
        """A connection is lost: what its switch answered on it counts no more."""
        if self.answers[connection.name].connection is connection:
            self.forget(connection.name)

    def ask(self, connection: Connection) -> None:
        """Asks a switch, from the beginning. What it still answers to earlier questions is passed over, by its xid."""
        self.runs += 1
        base = FIRST_RUN + 4 * (self.runs % RUNS)
        self.answers[connection.name] = Answers(base, connection)
        connection.send(questions(base))

    def are_of(self, connection: Connection) -> bool:
        """Whether the switch has answered all on this connection."""
        answers = self.answers[connection.name]
        return answers.is_whole and answers.connection is connection

    def take(self, connection: Connection, message: bytes) -> bool:
        """Takes a message where it answers a question."""
        answers, kind = self.answers[connection.name], openflow.type_of(message)
        xid = openflow.xid_of(message)
        if not openflow.is_message(message) or not FIRST_RUN <= xid < FIRST_RUN + 4 * RUNS:
            return False
        if connection is not answers.connection:
            return True               # it came on an older connection
        xid -= answers.base
        if kind == openflow.STATS_REPLY and xid == FLOW_XID:
            answers.flow.append(message)
        elif kind == openflow.STATS_REPLY and xid == EXTENDED_XID and answers.extended is not None:
            answers.extended.append(message)
        elif kind == openflow.ERROR and xid == EXTENDED_XID:
            answers.extended = None       # the switch has no such statistics
        elif kind == openflow.ERROR and xid in (FLOW_XID, BARRIER_XID):
            words = openflow.error_words(int.from_bytes(message[8:10], "big"), int.from_bytes(message[10:12], "big"))
            raise Stop(
                f"{connection.name} refused the question for its table: {words}",
                "see that it speaks OpenFlow 1.0, and ask again",
            )
        elif kind == openflow.BARRIER_REPLY and xid == BARRIER_XID:
            answers.is_whole = True
        return True

    def marks(self) -> dict[Mark, list[str]]:
        """The marks of updates, each with the switches that have it."""
        found: dict[Mark, list[str]] = {}
        for name in self.names:
            for mark in filter(None, map(Mark.of, self.entries(name))):
                found.setdefault(mark, []).append(name)
        return found

    def entries(self, name: str) -> list[Entry]:
        """The entries of a switch; none where they don't fill its statistics, which is said elsewhere."""
        try:
            return self.answers[name].entries()
        except (ValueError, struct.error):
            return []

    def has_tagging_entries(self) -> bool:
        """Whether there are entries of the priorities that only two-phase plans use."""
        return any(
            one.priority > LAST_PRIORITY and not one.oddity() for name in self.names for one in self.entries(name)
        )

    def replies(self) -> str:
        """The text of the file REPLIES. Where an entry must be refused, all such are said, and then it is Stop. Those
        that an update under way has made are counted alone."""
        lines, faults, of_update = [], [], 0
        marks = self.marks()
        for name in self.names:
            reading = Reading(name, self.answers[name].flow, self.answers[name].extended)
            lines += reading.lines
            faults += reading.faults if not marks else [one for one in reading.faults if one not in reading.of_update]
            of_update += len(reading.of_update) if marks else 0
        for name, answers in self.answers.items():
            for mark in answers.marks() if not faults else ():
                lines.append(f"# {name}: has the mark of an update at work, {mark}")
        for fault in faults:
            say(fault)
        if of_update:
            marked = [name for names in marks.values() for name in names]
            raise Stop(
                (
                    f"an update is under way: {', '.join(marked)} {'has' if len(marked) == 1 else 'have'} its mark,"
                    f" {'; '.join(map(str, marks))}; {of_update} entries are of its making, of priorities above"
                    f" {LAST_PRIORITY}, and can't be said in a"
                    f" configuration{f'; {len(faults)} more stand above' if faults else ''}"
                ),
                (
                    "carry it on with its record by `planner apply .. RECORD --resume`, or turn it back by --back"
                    " (--recover makes the record anew where it is lost); then ask again"
                ),
            )
        if faults:
            raise Stop(
                f"{len(faults)} of the entries can't be said in a configuration: they stand above",
                "change them at the switches; docs/CONTROLLER.md says how",
            )
        return "".join(f"{line}\n" for line in lines)


class Reading:
    """The answers of one switch as lines of REPLIES, and the faults of its entries."""

    def __init__(self, name: str, flow: Sequence[bytes], extended: Sequence[bytes] | None) -> None:
        self.name = name
        self.lines = []
        self.faults = []
        # those of the faults that speak of entries as a two-phase plan makes them
        self.of_update: list[str] = []
        self.untagged, self.cookies, self.is_to_controller = 0, 0, False
        self.tests: list[tuple[int, int | str, int | str, int, int]] = []
        self.left_out: dict[str, int] = {}
        try:
            for reply in flow:
                kept = b"".join(self.keep(Entry(data)) for data in cut_entries(reply[12:], 88))
                self.lines.append(
                    f"{name} {openflow.message(openflow.STATS_REPLY, OWN + FLOW_XID, reply[8:12] + kept).hex()}"
                )
            if extended is not None:
                self.compare([ExtendedEntry(data) for reply in extended for data in cut_entries(reply[24:], 48)])
        except (ValueError, struct.error):
            self.faults.append(f"{name}: entries don't fill its statistics")
        remarks = [
            f"# {name}: left out {count} entries {why}; they take room beside the capacity"
            for why, count in self.left_out.items()
        ]
        remarks += (
            [f"# {name}: a test of the priority of the tag was taken from {self.untagged} entries for untagged packets"]
            if self.untagged
            else []
        )
        remarks += [f"# {name}: what no entry takes is sent to the controller"] if self.is_to_controller else []
        remarks += [f"# {name}: {self.cookies} of its entries have a cookie"] if self.cookies else []
        remarks += [f"# {name}: it has no extended statistics, and is taken at its word"] if extended is None else []
        self.lines = remarks + self.lines

    def keep(self, entry: Entry) -> bytes:
        """The bytes of an entry that stay."""
        why = entry.without_effect()
        if why:
            self.left_out[why] = self.left_out.get(why, 0) + 1
            self.is_to_controller |= why == "for a miss" and bool(entry.actions)
        elif entry.fault():
            self.faults.append(f"{self.name}: {entry}: {entry.fault()}")
            self.of_update += self.faults[-1:] if entry.priority > LAST_PRIORITY and not entry.oddity() else []
        else:
            self.tests.append(entry.test())
            self.untagged += entry.has_tag_priority()
            self.cookies += entry.cookie != 0
            return entry.normalised()
        return b""

    def compare(self, extended: Sequence[ExtendedEntry]) -> None:
        """Refuses what the extended statistics show otherwise."""
        shown, faults = [one for one in extended if one.table == 0 and not one.without_effect()], []
        for one in shown:
            if one.widened:
                faults.append(
                    f"{self.name}: an entry of priority {one.priority} tests {', '.join(one.widened)}, which OpenFlow"
                    " 1.0 can't say: its statistics show it wider than it is"
                )
        if (
            not faults
            and not self.faults
            and sorted(map(repr, self.tests)) != sorted(repr(one.test()) for one in shown)
        ):
            faults.append(
                f"{self.name}: its two statistics differ: the table changed meanwhile, or has what isn't understood"
                " here"
            )
        self.faults += faults


def entry_at(path: str, refusal: str) -> str | None:
    """The switch and the entry of which a refusal of `planner import` speaks, in words, or None. `path` has the
    statistics; of entries it names the number, counted from 0 over the file."""
    shown = re.fullmatch(r"bad replies: \d+ (\w+)(?: \w+)? at (\d+)\n?", refusal)
    if shown is None or shown[1] in ("TooLong", "TooMany", "Incomplete", "OverCapacity"):
        return None
    place, count = int(shown[2]), 0
    with open(path, encoding="ascii") as file:
        for number, line in enumerate(file, 1):
            if shown[1] in ("BadLine", "BadMessage"):
                if number == place:
                    return f"line {number}, of the switch {line.split(' ')[0]}"
                continue
            if line.startswith("#") or not line.strip():
                continue
            name, data = line.split()
            for entry in cut_entries(bytes.fromhex(data)[12:], 88):
                if count == place:
                    return f"an entry of the switch {name}: {Entry(entry)}"
                count += 1
    return None


def read(options: argparse.Namespace, without: Collection[str] = ()) -> Tables:
    """Reads the tables of all switches but some: `options` has the topology, the file of switches, where they connect
    to, and the patience."""
    switches = None
    try:
        listed = read_switches(options.switches, options.topology)
        listed = {name: one for name, one in listed.items() if name not in without}
        switches = Switches(listed, options.listen, options.patience)
        tables, until = Tables(list(listed)), time.monotonic() + options.patience
        while tables.missing():
            if time.monotonic() > until:
                names = ", ".join(f"{name}{switches.why_away(name)}" for name in sorted(tables.missing()))
                raise Stop(
                    f"no answer from {names} within {options.patience:g} s",
                    "see that they are connected, and ask again",
                )
            for what, connection, message in switches.poll(0.05):
                if what == "up":
                    tables.ask(connection)
                elif what == "message":
                    tables.take(connection, message)
        return tables
    finally:
        if switches is not None:
            switches.close()


def main(words: Sequence[str]) -> int:
    parser = argparse.ArgumentParser(
        prog="planner collect", description=__doc__, formatter_class=argparse.RawDescriptionHelpFormatter
    )
    parser.add_argument("topology", metavar="TOPOLOGY")
    parser.add_argument("--switches", metavar="FILE", required=True)
    parser.add_argument("--listen", metavar="HOST:PORT", type=listening_address)
    parser.add_argument("--patience", metavar="SECONDS", type=float, default=15.0)
    options = parser.parse_args(words)
    try:
        sys.stdout.write(read(options).replies())
        return 0
    except (Stop, OSError) as stop:
        say(f"stopped: {fault_words(stop)}. Next: {getattr(stop, 'then', 'see to it, and ask again')}")
        return 1
