"""What the converters share: how they say no, the options of a topology, and how a topology is written."""
from __future__ import annotations

import argparse
import difflib
import json
import re
import sys

TYPE_CHECKING = False
if TYPE_CHECKING:
    from typing import Any, Callable, Iterable, Sequence

# Exit statuses, as those of the program.
DONE, REFUSED, WRONG_WORDS, BAD_FILE, UNREADABLE, UNWRITABLE = 0, 1, 2, 3, 6, 7
UNTAGGED = "untagged"
NAME = re.compile(r"[A-Za-z0-9_-]{1,32}")
MOST_SWITCHES, MOST_PORTS, MOST_VLANS, MOST_CAPACITY = 128, 64, 64, 8192
LAST_PORT = 65279


class NotConverted(Exception):
    """No file is written: why, a line each, what to do next, and the exit status."""

    def __init__(self, lines: Sequence[str] | str, then: str = "", status: int = BAD_FILE) -> None:
        self.lines = [lines] if isinstance(lines, str) else list(lines)
        self.then, self.status = then, status
        super().__init__(self.lines[0])


def say(words: str) -> None:
    print(words, file=sys.stderr)


def run(work: Callable[..., Any], words: Sequence[str]) -> int:
    """Does the work of a converter, which returns the text to write, and returns the exit status."""
    try:
        text = work(words)
    except NotConverted as fault:
        for line in fault.lines:
            say(line)
        say("nothing was written" + (f". Next: {fault.then}" if fault.then else ""))
        return fault.status
    try:
        sys.stdout.write(text)
        sys.stdout.flush()
    except OSError as fault:
        say(f"the output can't be written: {fault.strerror}")
        return UNWRITABLE
    return DONE


def read_bytes(path: str) -> bytes:
    """The bytes of a file, or of the standard input for `-`."""
    try:
        if path == "-" and sys.stdin is None:
            raise NotConverted("the standard input is closed", status=UNREADABLE)
        if path == "-":
            return sys.stdin.buffer.read()
        with open(path, "rb") as file:
            return file.read()
    except OSError as fault:
        raise NotConverted(f"{path}: it can't be read: {fault.strerror}", status=UNREADABLE) from fault


def read_text(path: str) -> str:
    """The text of a file, or of the standard input for `-`."""
    data = read_bytes(path)
    try:
        return data.decode("utf-8-sig")
    except UnicodeDecodeError as fault:
        raise NotConverted(f"{path}: it is no text in UTF-8: byte {fault.start} is {data[fault.start]:#04x}") from fault


def nearest(word: str, known: Sequence[str]) -> str:
    """` (did you mean ..?)` where a known word is near, otherwise nothing."""
    found = difflib.get_close_matches(word, list(known), 1)
    return f" (did you mean {found[0]}?)" if found else ""


# ---- options of a topology

def vlan(text: str) -> int | str:
    if text == UNTAGGED:
        return text
    if not re.fullmatch(r"[1-9]\d{0,3}", text) or int(text) > 4094:
        raise argparse.ArgumentTypeError(f"{text!r} is neither `untagged` nor an id from 1 to 4094")
    return int(text)


def vlan_list(text: str) -> list[int | str]:
    found = [vlan(one) for one in text.split(",")]
    if len(set(found)) < len(found) or len(found) > MOST_VLANS:
        raise argparse.ArgumentTypeError(f"{text!r} has a VLAN twice, or more than {MOST_VLANS}")
    return found


def tag_range(text: str) -> list[int]:
    if text == "none":
        return []
    if not re.fullmatch(r"[1-9]\d{0,3}-[1-9]\d{0,3}", text):
        raise argparse.ArgumentTypeError(f"{text!r} is neither `none` nor a range as 3000-3009")
    first, last = map(int, text.split("-"))
    if not first <= last <= 4094:
        raise argparse.ArgumentTypeError(f"{text!r} isn't a range within 1 to 4094")
    return [first, last]


def capacity(text: str) -> int:
    if not re.fullmatch(r"[1-9]\d{0,3}", text) or int(text) > MOST_CAPACITY:
        raise argparse.ArgumentTypeError(f"{text!r} isn't a number from 1 to {MOST_CAPACITY}")
    return int(text)


def name_list(text: str) -> list[str]:
    return [one for one in text.split(",") if one]


# ---- a topology

class Topology:
    """A network that is being put together. Switches are named before their ports are used."""

    def __init__(self, vlans: Sequence[int | str], tags: Sequence[int]) -> None:
        self.vlans, self.tags = vlans, tags
        self.capacities: dict[str, int] = {}
        self.links: list[list[str]] = []
        self.hosts: list[str] = []
        self.edge_of: list[int] = []     # for each link the number of its edge, where it was made of a graph
        self.used: dict[str, set[int]] = {}           # the ports of each switch

    def add_switch(self, name: str, capacity_of_it: int) -> None:
        self.capacities[name] = capacity_of_it
        self.used[name] = set()

    def free_port(self, name: str) -> int:
        """The least port number that the switch doesn't use yet."""
        return next(port for port in range(1, LAST_PORT + 1) if port not in self.used[name])

    def take_port(self, name: str, port: int) -> str:
        self.used[name].add(port)
        return f"{name}:{port}"

    def add_link(self, one: tuple[str, int], other: tuple[str, int]) -> None:
        self.links.append([self.take_port(*one), self.take_port(*other)])

    def add_host(self, name: str, port: int) -> None:
        self.hosts.append(self.take_port(name, port))

    def faults(self) -> list[str]:
        """What of it the planner would refuse."""
        found = [
            f"switch {name!r}: a name has 1 to 32 ASCII letters, digits, `-` and `_`"
            for name in self.capacities
            if not NAME.fullmatch(name)
        ]
        if not self.capacities:
            found.append("there is no switch")
        if len(self.capacities) > MOST_SWITCHES:
            found.append(f"there are {len(self.capacities)} switches, and a topology has at most {MOST_SWITCHES}")
        return found + [
            f"switch {name} uses {len(ports)} ports, and at most {MOST_PORTS} can be used"
            for name, ports in self.used.items()
            if len(ports) > MOST_PORTS
        ]

    def text(self) -> str:
        """The file, a line for each switch and link."""
        def listed(values: Iterable[Any] | Sequence[Sequence[str]]) -> str:
            lines = [f"    {json.dumps(value)}" for value in values]
            return "[\n" + ",\n".join(lines) + "\n  ]" if lines else "[]"

        members = [
            ("switches", listed({"name": name, "capacity": most} for name, most in self.capacities.items())),
            ("links", listed(self.links)), ("hosts", json.dumps(self.hosts)), ("vlans", json.dumps(self.vlans)),
            ("tags", json.dumps(self.tags)),
        ]
        return "{\n" + ",\n".join(f'  "{name}": {value}' for name, value in members) + "\n}\n"


def checked(topology: Topology, path: str) -> str:
    """The text of a topology that the planner reads."""
    faults = topology.faults()
    if faults:
        raise NotConverted([f"{path}: {fault}" for fault in faults])
    return topology.text()
