"""Where a refused text of lines goes wrong: a schedule, the inputs of a driver, or flow statistics."""
from __future__ import annotations

import re

from planner_tools import network as nets
from planner_tools.files import Text, did_you_mean, read_bytes, short

TYPE_CHECKING = False
if TYPE_CHECKING:
    from typing import Any, Sequence

    from planner_tools.explanations import Explainer
    from planner_tools.network import Network
    from planner_tools.switches.entries import Entry

KINDS = ("schedule", "input", "replies")
NUMBER = re.compile(r"0|[1-9][0-9]*")
EVENTS = {
    "start": "start", "change": "change N", "settle": "settle", "enter": "enter SWITCH:PORT VLAN ADDRESS",
    "hop": "hop N", "lose": "lose N",
}
# What the schedules of `tables` have besides.
TURNS = {"back": "back", "undo": "undo N"}
INPUTS = {"start": "start", "feed": "feed SWITCH HEX"}
MOST = {"schedule": "4,000,000 events", "input": "1,000,000 inputs", "replies": "2048 entries"}
# What a field of a flow entry has to be.
PROFILE = {
    "Wildcards": (
        "the type of the packet has to count, and of the other fields only the ingress port, the VLAN and the"
        " destination"
    ),
    "InPort": "any port, or one from 1 to 65279", "Vlan": "any VLAN, an id from 1 to 4094, or untagged",
    "DlType": "0x0800, IPv4", "Priority": "1 to 16383: the bands above belong to two-phase plans",
    "Timeouts": "both 0: an entry that goes away by itself would change the table",
    "Actions": "none, or one output to a port from 1 to 65279",
}


def explain(explainer: Explainer, kind: str, name: str, field: str, place: int) -> None:
    found = explainer.run.files[{"schedule": "SCHEDULE", "input": "INPUT", "replies": "REPLIES"}[kind]]
    text = Text(found.shown, read_bytes(found.real))
    net, voice = explainer.network(), explainer.voice
    lines = text.text.split("\n")
    if name == "TooMany":
        voice.refuse(f"{found.shown}: it has more than {MOST[kind]}")
    elif name == "BadLine":
        line = lines[place - 1] if place <= len(lines) else ""
        names = net.names if net is not None else []
        if kind == "schedule":
            what, right = bad_event(line, names, explainer.run.command.name)
        else:
            what, right = {"input": bad_input, "replies": bad_reply}[kind](line, names)
        what += (
            "; the file looks like JSON: are the words in the right order?"
            if line.strip().startswith(("{", "["))
            else ""
        )
        voice.refuse(
            f"{found.shown}, line {place}: {what}",
            [f"the line: {short(line)}" if line else "the line is empty", f"right: {right}"],
        )
    elif name == "BadMessage":
        voice.refuse(
            f"{found.shown}, line {place}: {bad_message(lines[place - 1])}",
            ["right: the bytes of one whole statistics reply of OpenFlow 1.0; `planner collect` writes such lines"],
        )
    else:
        explain_entry(explainer, found.shown, lines, net, name, field, place)


def bad_number(text: str) -> str:
    if re.fullmatch(r"-?[0-9]+", text):
        return "a number is written in decimal without leading zeros, up to 4294967295"
    return f"{short(text)} is no number"


def shape_fault(line: str) -> str | None:
    """What is wrong with the white space of a line, or None."""
    if line.endswith("\r"):
        return "the line ends with a carriage return; lines end with a line feed alone"
    if line != line.strip():
        return "white space stands before or behind the line's words"
    if "  " in line or "\t" in line:
        return "the words aren't joined by single spaces"
    return None


def bad_event(line: str, names: Sequence[str], command: str = "replay") -> tuple[str, str]:
    """What is wrong with a line of a schedule of a command, and what would be right."""
    words, events = line.split(), {**EVENTS, **TURNS} if command == "tables" else EVENTS
    known = events.get(words[0]) if words else None
    if not words or known is None:
        guess = did_you_mean(words[0], events) if words else ""
        what = f"`{short(words[0])}` is no event{guess}" if words else "the line has nothing but white space"
        if words and words[0] in TURNS:
            what = f"`{words[0]}` is a line of schedules for `tables`, and none of those for `{command}`"
        return what, ", ".join(f"`{one}`" for one in events.values())
    fault = shape_fault(line)
    if fault:
        return fault, f"`{known}`"
    if len(words) != len(known.split()):
        return f"{len(words) - 1} words stand behind `{words[0]}`", f"`{known}`"
    if words[0] == "enter":
        fault = (
            bad_place(words[1], names)
            or bad_vlan(words[2])
            or (f"{short(words[3])} is no address" if nets.prefix(f"{words[3]}/32") is None else "it can't be read")
        )
        return fault, "`enter SWITCH:PORT VLAN ADDRESS`, as `enter s1:1 untagged 10.0.0.1`"
    return bad_number(words[1]) if len(words) > 1 else "it can't be read", f"`{known}`"


def bad_place(text: str, names: Sequence[str]) -> str | None:
    found = nets.port_reference(text)
    if found is None:
        return f"{short(text)} is no port: it is written SWITCH:PORT"
    if found[0] not in names:
        return f"no switch is named `{found[0]}`{did_you_mean(found[0], [one for one in names if one])}"
    return None if 1 <= found[1] <= nets.LAST_PORT else f"a port number is 1 to {nets.LAST_PORT}"


def bad_vlan(text: str) -> Any:
    good = text == "untagged" or NUMBER.fullmatch(text) and len(text) < 5 and 1 <= int(text) <= nets.LAST_VLAN
    return None if good else f"{short(text)} is no VLAN: it is `untagged` or 1 to {nets.LAST_VLAN}"


def bad_hex(text: str) -> str:
    at = re.search("[^0-9a-fA-F]", text)
    if at:
        return f"{short(at[0])} is no hexadecimal digit (character {at.start() + 1} of the bytes)"
    return (
        "the bytes have an odd number of digits"
        if len(text) % 2
        else "no bytes are given"
        if not text
        else "it can't be read"
    )


def bad_switch(name: str, names: Sequence[str]) -> str | None:
    return (
        None
        if name in names
        else f"no switch is named `{short(name)}`{did_you_mean(name, [one for one in names if one])}"
    )


def bad_input(line: str, names: Sequence[str]) -> tuple[str, str]:
    """What is wrong with a line of the inputs of a driver, and what would be right."""
    words = line.split()
    right = "`start`, or `feed SWITCH HEX`"
    if words and words[0] in ("back", "reopen", "dead"):
        return (
            f"`{words[0]}` is a line of `serve`, and none of `drive`",
            f"{right}; `planner serve` takes such a record from its standard input",
        )
    if not words or words[0] not in INPUTS:
        return (
            f"`{short(words[0])}` is no input{did_you_mean(words[0], INPUTS)}"
            if words
            else "the line has nothing but white space"
        ), right
    fault = shape_fault(line)
    if fault:
        return fault, right
    if len(words) != len(INPUTS[words[0]].split()):
        return f"{len(words) - 1} words stand behind `{words[0]}`", right
    return bad_switch(words[1], names) or bad_hex(words[2]), right


def bad_reply(line: str, names: Sequence[str]) -> tuple[str, str]:
    """What is wrong with a line of flow statistics, and what would be right."""
    words, right = line.split(), "the name of a switch, a space, and the bytes of one message in hexadecimal digits"
    if re.search(r"(NXST|OFPST)_FLOW reply|(^|[ ,])actions=|^\s*cookie=0x", line):
        return (
            "it is text of `ovs-ofctl dump-flows`, and no bytes of a message",
            f"{right}; `planner from-ofctl TOPO SWITCH=FILE` makes a configuration of that text",
        )
    if not words:
        return "the line has nothing but white space", right
    return (
        bad_switch(words[0], names)
        or shape_fault(line)
        or ("two words have to stand in a line" if len(words) != 2 else bad_hex(words[1])),
        right,
    )


def bad_message(line: str) -> str:
    """Why some bytes aren't one statistics reply."""
    data = bytes.fromhex(line.split(" ")[1])
    if len(data) < 12:
        return f"it has {len(data)} bytes, and a statistics reply has at least 12"
    if data[0] != 1:
        return f"its version is {data[0]}, and that of OpenFlow 1.0 is 1"
    if data[1] != 17:
        from planner_tools.switches import openflow
        names = {
            getattr(openflow, name): name
            for name in dir(openflow)
            if name.isupper() and isinstance(getattr(openflow, name), int)
        }
        return (
            f"it is a message of type {data[1]}{f', {names[data[1]]}' if data[1] in names else ''}, and a statistics"
            " reply has type 17"
        )
    length = int.from_bytes(data[2:4], "big")
    if length != len(data):
        return (
            f"it says that it has {length} bytes, and has {len(data)}: it is cut off, or two messages stand in one line"
        )
    if data[8:10] != b"\0\1":
        return f"it has statistics of type {int.from_bytes(data[8:10], 'big')}, and those of flows have type 1"
    try:
        from planner_tools.switches.entries import cut_entries
        cut_entries(data[12:], 88)
    except ValueError:
        return "its entries don't fill it: one is cut off, or shorter than 88 bytes"
    return (
        "an earlier line of the switch was the last one of its answer: only a message that says that more follow may"
        " have another one behind it"
    )


def explain_entry(
    explainer: Explainer, path: str, lines: Sequence[str], net: Network, name: str, field: str, place: int
) -> None:
    """A refusal of an entry, or of all entries of a switch."""
    voice = explainer.voice
    if name in ("Incomplete", "OverCapacity") and net is not None and place < len(net.names):
        switch = net.names[place]
        words = (
            f"the last message of {switch} says that more follow, and none does: its answer is cut off"
            if name == "Incomplete"
            else f"{switch} has more entries than its `capacity` of {net.capacities[place]} in {net.json.path}"
        )
        voice.refuse(
            f"{path}: {words}",
            [] if name == "Incomplete" else ["Next: the true `capacity` of the switch in the topology"],
        )
        return
    found = entry_at(lines, place)
    if found is None:
        voice.refuse(f"{path}: {name} {field} at {place}".replace("  ", " "))
        return
    line, switch, entry, earlier = found
    what = {
        "BadPort": bad_port(entry, switch, net), "ReservedVlan": "its VLAN is one of the tags that the planner may use",
        "KeyTwice": "an earlier entry of the switch has the same priority and match",
        "Overlap": "an earlier entry of the switch has the same priority, and some packet matches both",
        "Profile": entry.fault() or f"its field {field} can't be said in a configuration",
    }.get(name, name)
    more = [f"right: {PROFILE[field]}"] if field in PROFILE else []
    if name in ("KeyTwice", "Overlap"):
        twins = [
            (at, one)
            for at, where, one in earlier
            if where == switch and one.priority == entry.priority and alike(one, entry, name == "KeyTwice")
        ]
        more += [f"the earlier entry, line {twins[0][0]}: {twins[0][1]}"] if twins else []
    if name == "BadPort" and net is not None:
        more += [f"the ports of {switch} are {', '.join(map(str, sorted(net.ports.get(switch, ())))) or 'none'}"]
    voice.refuse(
        f"{path}, line {line}: {switch}: {entry}: {what}",
        [*more, "docs/CONTROLLER.md says what to do about entries that can't be said"],
    )


def bad_port(entry: Entry, switch: str, net: Network) -> str:
    """Which port of an entry isn't there."""
    ports = net.ports.get(switch, set()) if net is not None else set()
    out = int.from_bytes(entry.actions[4:6], "big") if entry.actions else None
    port = entry.in_port if entry.is_exact(0) and entry.in_port not in ports else out
    return f"no link and no host is at port {port} of {switch}"


def alike(one: Entry, other: Entry, is_key: bool) -> bool:
    _, in_port, vlan, base, length = one.test()
    _, other_port, other_vlan, other_base, other_length = other.test()
    test, other_test = (in_port, vlan, (base, length)), (other_port, other_vlan, (other_base, other_length))
    if is_key:
        return test == other_test
    from planner_tools.faults import overlap
    return overlap(test, other_test)


def entry_at(lines: Sequence[str], number: int) -> tuple[int, str, Entry, list[Any]] | None:
    """The line, the switch, and the entry with a number, counted over all lines; and the earlier ones. None where it
    isn't there."""
    from planner_tools.switches.entries import Entry, cut_entries

    earlier: list[tuple[int, str, Entry]] = []
    for at, line in enumerate(lines, 1):
        if not line or line.startswith("#"):
            continue
        switch, _, digits = line.partition(" ")
        try:
            entries = cut_entries(bytes.fromhex(digits)[12:], 88)
        except ValueError:
            return None
        for data in entries:
            if len(earlier) == number:
                return at, switch, Entry(data), earlier
            earlier.append((at, switch, Entry(data)))
    return None
