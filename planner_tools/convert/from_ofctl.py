"""`planner from-ofctl`: makes a configuration of the text of `ovs-ofctl dump-flows`.

The entries are written as the flow statistics that the switches would send, and `planner import` reads those: it
decides what they mean.
"""
from __future__ import annotations

import argparse
import json
import os
import re
import struct
import tempfile

from planner_tools import program
from planner_tools.convert.common import (
    BAD_FILE, REFUSED, UNREADABLE, WRONG_WORDS, NotConverted, nearest, read_text, run, say,
)
from planner_tools.convert.flow_text import FlowText
from planner_tools.switches.entries import Entry

TYPE_CHECKING = False
if TYPE_CHECKING:
    from typing import Iterator, Sequence

    from planner_tools.convert.flow_text import TextEntry

# How many entries a message of statistics has here: its length is a number of 16 bits.
ENTRIES_PER_MESSAGE = 500
# Open vSwitch has two entries for untagged packets: with this test, which no command of OpenFlow 1.0 reaches, and with
# `vlan_tci=0x0000`. Newer versions of OpenFlow show both alike.
MASKED_UNTAGGED = "vlan_tci=0x0000/0x1fff"
WITHOUT_EFFECT = {"of other types": "it is for no IPv4 packet", "for a miss": "it does what a miss does"}
IMPORT_WORDS = {
    "BadPort": (
        "its ingress port or its output port is neither a host port nor a link's end of {switch} in the topology"
    ),
    "ReservedVlan": "its VLAN is one of the tags of the topology, and isn't declared",
    "KeyTwice": "an earlier entry of {switch} has the same priority and match{other}",
    "Overlap": (
        "an earlier entry of {switch} has the same priority, and some packet matches both{other}: OpenFlow leaves open"
        " which one counts"
    ),
}


class Table:
    """The text of one bridge: what it's called, where it came from, and its entries."""

    def __init__(self, switch: str, path: str, may_drop: bool) -> None:
        self.switch, self.path = switch, path
        self.droppable = 0
        self.kept: list[TextEntry] = []
        self.faults: list[str] = []
        self.left_out: dict[str, int] = {}
        text = FlowText(read_text(path), switch)
        self.faults += [f"{path}:{number}: {switch}: the line {why}" for number, why in text.bad]
        if text.is_version_1_0:
            say(
                f"{path}: note: this is an answer by OpenFlow 1.0, which shows some matches wider than they are, as"
                " masks, registers and connection states; it is taken at its word. `ovs-ofctl dump-flows` without `-O`"
                " and `-F` shows them all"
            )
        if not text.entries and not text.bad:
            say(f"{path}: note: there is no entry in it; the table of {switch} is taken to be empty")
        for entry in text.entries:
            self.take(entry, may_drop, text.is_newer)

    def take(self, entry: TextEntry, may_drop: bool, is_newer: bool) -> None:
        why, fault = entry.without_effect(), entry.fault()
        if fault and MASKED_UNTAGGED in fault and is_newer:
            fault += "; untagged entries look so in an answer by a newer version: ask again without -O"
        if why and may_drop:
            self.left_out[why] = self.left_out.get(why, 0) + 1
        elif why or fault:
            self.droppable += bool(why)
            words = f"{WITHOUT_EFFECT[why]}: --drop-unsayable leaves it out" if why else fault
            self.faults.append(f"{self.place(entry)}: {words}")
        else:
            self.kept.append(entry)

    def place(self, entry: TextEntry) -> str:
        return f"{self.path}:{entry.number}: {self.switch}: {entry.words}"

    def messages(self) -> Iterator[str]:
        """The lines of the flow statistics, for `planner import`."""
        pieces = [self.kept[at:at + ENTRIES_PER_MESSAGE] for at in range(0, len(self.kept), ENTRIES_PER_MESSAGE)]
        for number, piece in enumerate(pieces, 1):
            body = b"".join(Entry(entry.data()).normalised() for entry in piece)
            head = struct.pack("!BBHIHH", 1, 17, 12 + len(body), 1, 1, number < len(pieces))
            yield f"{self.switch} {(head + body).hex()}\n"


def names_of(path: str) -> list[str]:
    """The switches of a topology. Whether it is one the program says, when it reads it."""
    try:
        names = [one["name"] for one in json.loads(read_text(path))["switches"]]
    except (ValueError, TypeError, KeyError, RecursionError) as fault:
        raise NotConverted(f"{path}: it is no topology", "docs/FORMATS.md has the members of one") from fault
    return names


def read_tables(topology: str, given: Sequence[str], may_drop: bool) -> list[Table]:
    """The tables of the bridges that are given."""
    names, found = names_of(topology), {}
    for word in given:
        switch, _, path = word.partition("=")
        if not switch or not path:
            raise NotConverted(f"{word!r} isn't BRIDGE=FILE", status=2)
        if switch not in names:
            raise NotConverted(
                f"{topology} has no switch {switch}{nearest(switch, names)}", "name the bridge as the topology does", 2
            )
        if switch in found:
            raise NotConverted(f"{switch} is given twice", status=2)
        found[switch] = path
    missing = [name for name in names if name not in found]
    if missing:
        raise NotConverted(
            f"no file is given for {', '.join(missing)}, and {topology} has {'it' if len(missing) == 1 else 'them'}",
            f"give `{missing[0]}=FILE`, or `{missing[0]}=/dev/null` where its table is empty", WRONG_WORDS,
        )
    return [Table(switch, path, may_drop) for switch, path in found.items()]


def refuse_faults(tables: Sequence[Table]) -> None:
    """Refuses all entries at once that a configuration can't say."""
    faults = [fault for table in tables for fault in table.faults]
    if not faults:
        return
    then = "change them at the switches, and ask again; docs/CONTROLLER.md says how"
    droppable = sum(table.droppable for table in tables)
    if droppable == len(faults):
        then = "--drop-unsayable leaves them out: no IPv4 packet fares otherwise without them"
    elif droppable:
        then += f". --drop-unsayable leaves out {droppable} of them, without which no IPv4 packet fares otherwise"
    raise NotConverted(
        [*faults, f"{len(faults)} of the lines can't be said in a configuration: they stand above"], then, REFUSED
    )


def other_of(entry: TextEntry, table: Table, word: str) -> str:
    """Where the earlier entry stands with which an entry collides."""
    priority, in_port, vlan, base, length = Entry(entry.data()).test()
    for other in table.kept[:table.kept.index(entry)]:
        test = Entry(other.data()).test()
        short = min(length, test[4])
        meets = (
            test[0] == priority
            and all("any" in (one, two) or one == two for one, two in ((in_port, test[1]), (vlan, test[2])))
            and (base ^ test[3]) >> 32 - short == 0
        )
        if test == (priority, in_port, vlan, base, length) if word == "KeyTwice" else meets:
            return f" (line {other.number}: {other.words})"
    return ""


def import_fault(text: str, topology: str, tables: Sequence[Table]) -> str:
    """What `planner import` said, with the line of the text that it means."""
    found = re.fullmatch(r"bad replies: \d+ (\w+)(?: \w+)? at (\d+)\n", text)
    if not found:
        return text.rstrip("\n") or "`planner import` said nothing"
    word, at = found[1], int(found[2])
    listed = [(entry, table) for table in tables for entry in table.kept]
    if word in IMPORT_WORDS and at < len(listed):
        entry, table = listed[at]
        other = other_of(entry, table, word) if word in ("KeyTwice", "Overlap") else ""
        return f"{table.place(entry)}: {IMPORT_WORDS[word].format(switch=table.switch, other=other)}"
    if word == "TooMany":
        return f"there are {len(listed)} entries, and a configuration has at most 2048"
    if word == "OverCapacity":
        return f"{names_of(topology)[at]} has more entries than its capacity in {topology}"
    return text.rstrip("\n")


def configuration(topology: str, tables: Sequence[Table]) -> str:
    """The configuration that `planner import` makes of the entries."""
    with tempfile.TemporaryDirectory() as folder:
        replies = os.path.join(folder, "replies")
        with open(replies, "w", encoding="ascii") as file:
            file.writelines(line for table in tables for line in table.messages())
        try:
            status, text = program.run("import", topology, replies)
        except program.CannotRun as fault:
            raise NotConverted(str(fault), status=program.NO_PROGRAM) from fault
    if status != 0:
        why = import_fault(text, topology, tables)
        raise NotConverted(
            why.replace("bad topology:", f"{topology}: bad topology:"),
            status=status if status in (REFUSED, BAD_FILE, UNREADABLE, 9) else program.NO_PROGRAM,
        )
    return text


def convert(words: Sequence[str]) -> str:
    parser = argparse.ArgumentParser(
        prog="planner from-ofctl",
        description="Makes a configuration of the text of `ovs-ofctl dump-flows BRIDGE`, and writes it.",
    )
    parser.add_argument("topology", metavar="TOPOLOGY")
    parser.add_argument(
        "tables", metavar="BRIDGE=FILE", nargs="+",
        help=(
            "a switch of the topology, and the text of its table; - is the standard input. Each switch has to be given:"
            " one without entries by `SWITCH=/dev/null`"
        ),
    )
    parser.add_argument(
        "--drop-unsayable", action="store_true",
        help=(
            "leave out entries for other packets than IPv4, and entries of priority 0 that do what a miss "
            "does; everything else that can't be said is refused all the same"
        ),
    )
    options = parser.parse_args(words)
    if os.path.isdir(options.topology):
        options.topology = os.path.join(options.topology, "topology.json")
    tables = read_tables(options.topology, options.tables, options.drop_unsayable)
    refuse_faults(tables)
    text = configuration(options.topology, tables)
    for table in tables:
        for why, count in table.left_out.items():
            say(f"{table.path}: {table.switch}: left out {count} entries {why}; they take room beside the capacity")
    return text


def main(words: Sequence[str]) -> int:
    return run(convert, words)
