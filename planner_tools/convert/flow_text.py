"""Reads the text of `ovs-ofctl dump-flows` into entries of flow statistics of OpenFlow 1.0.0, of which `entries.py`
says what a configuration can't say."""
from __future__ import annotations

import ipaddress
import re
import struct

from planner_tools.switches.entries import IPV4, PREFIX_MASKS, UNTAGGED, Entry

TYPE_CHECKING = False
if TYPE_CHECKING:
    from typing import Iterator

# Words for the type of a packet, some with a protocol.
TYPES = {
    "ip": IPV4, "arp": 0x0806, "rarp": 0x8035, "ipv6": 0x86DD, "mpls": 0x8847, "mplsm": 0x8848, "icmp6": 0x86DD,
    "tcp6": 0x86DD, "udp6": 0x86DD, "sctp6": 0x86DD, "icmp": IPV4, "tcp": IPV4, "udp": IPV4, "sctp": IPV4,
}
PROTOCOLS = {"icmp": 1, "tcp": 6, "udp": 17, "sctp": 132, "icmp6": 58, "tcp6": 6, "udp6": 17, "sctp6": 132}
# What stands before the match and says nothing of it.
COUNTS = {"cookie", "duration", "n_packets", "n_bytes", "idle_age", "hard_age", "importance"}
FLAGS = {"send_flow_rem", "check_overlap", "reset_counts", "no_packet_counts", "no_byte_counts"}
NUMBERS = {"priority", "idle_timeout", "hard_timeout"}
PORTS = {
    "IN_PORT": 0xFFF8, "TABLE": 0xFFF9, "NORMAL": 0xFFFA, "FLOOD": 0xFFFB, "ALL": 0xFFFC, "CONTROLLER": 0xFFFD,
    "LOCAL": 0xFFFE,
}
DEFAULT_PRIORITY = 32768
# Fields that OpenFlow 1.0 has and a configuration hasn't, with their bit of `wildcards`.
OTHERS = {
    "dl_src": 2, "dl_dst": 3, "nw_proto": 5, "tp_src": 6, "tp_dst": 7, "icmp_type": 6, "icmp_code": 7, "nw_tos": 21,
}
TOKEN = re.compile(r'\s*,?\s*([A-Za-z_][\w.\[\]]*)(?:=("(?:[^"\\]|\\.)*"|\([^()]*\)|[^\s,]*))?')
HEADER = re.compile(
    r"(?:NXST|OFPST)_FLOW reply(?P<version> \(OF[\d.]+\))? \(xid=0x[0-9a-fA-F]+\):(?P<more> flags=\[more\])?\s*"
)
# What Mininet writes above the answer of each bridge.
TITLE = re.compile(r"\*\*\* (\S+) -+\s*")
# An action that no entry of a configuration has: its type is that of a vendor's.
VENDOR = bytes.fromhex("ffff000800000000")


class BadLine(Exception):
    """The line isn't an entry: why."""


class TextEntry:
    """An entry of the text: the entry of OpenFlow 1.0 that the same switch would report, and what of it that one can't
    say."""

    def __init__(self, line: str) -> None:
        head, actions = split_actions(line)
        self.number = 0                            # of its line
        self.table, self.priority, self.timeouts = "0", DEFAULT_PRIORITY, {"idle_timeout": 0, "hard_timeout": 0}
        self.in_port: int | None = None
        self.vlan: int | None = None
        self.type: int | None = None
        self.has_pcp, self.base, self.length, self.others, self.sources = False, 0, 0, 0, 0
        self.widened: list[str] = []
        self.named: list[str] = []
        self.words = words_of(head, actions)
        seen: set[str] = set()
        # a prefix is read by the type
        for name, value in sorted(tokens(head), key=lambda word: word[0] not in (*TYPES, "dl_type")):
            if name in seen:
                raise BadLine(f"{name} stands twice")
            seen.add(name)
            self.read(name, value)
        self.actions = b"".join(self.action(one) for one in split_top(actions) if one != "drop")

    def read(self, name: str, value: str | None) -> None:
        """Takes one of the words before the actions."""
        if name in COUNTS or name in FLAGS and value is None:
            return
        if name in ("table", "table_id") and value:
            self.table = value
        elif name == "priority":
            self.priority = whole(name, value, 0xFFFFFFFF)
        elif name in NUMBERS:
            self.timeouts[name] = whole(name, value, 0xFFFF)
        else:
            self.read_field(name, value)

    def read_field(self, name: str, value: str | None) -> None:
        """Takes a field of the match."""
        if self.type is not None and (name in TYPES and value is None or name == "dl_type"):
            raise BadLine("the type of its packets stands twice")
        if name in TYPES and value is None:
            self.type = TYPES[name]
            self.others |= 1 << 5 if name in PROTOCOLS else 0
        elif name == "dl_type":
            self.type = whole(name, value, 0xFFFF)
        elif name == "in_port":
            self.in_port = self.port(value)
        elif name in ("dl_vlan", "vlan_tci"):
            self.read_vlan(name, value)
        elif name == "dl_vlan_pcp":
            self.has_pcp = True
        elif name == "nw_dst" and self.type == IPV4:
            self.read_prefix(value)
        elif name == "nw_src" and self.type in (None, IPV4) and (found := prefix_of(value)):
            self.sources = found[1]
        elif name in OTHERS and value and "/" not in value:
            self.others |= 1 << OTHERS[name]
        else:
            self.widened.append(name if value is None else f"{name}={value}")

    def read_vlan(self, name: str, value: str | None) -> None:
        """A tag: `vlan_tci=0x0000` is that there is none. Other tests of some bits alone can't be said."""
        first, slash, last = (value or "").partition("/")
        number, mask = whole(name, first, 0xFFFF), whole(name, last, 0xFFFF) if slash else 0xFFFF
        if name == "dl_vlan" and not slash:
            self.vlan = number
        elif name == "dl_vlan":
            self.widened.append(f"{name}={value}")
        elif mask == 0xFFFF and number == 0:
            self.vlan = UNTAGGED
        elif mask in (0x1FFF, 0xFFFF) and number & 0x1000:
            self.vlan, self.has_pcp = number & 0xFFF, mask == 0xFFFF
        else:
            self.widened.append(f"{name}={value}")

    def read_prefix(self, value: str | None) -> None:
        found = prefix_of(value)
        if found is None:
            self.widened.append(f"nw_dst={value}")
        else:
            self.base, self.length = found

    def port(self, text: str | None) -> int:
        """The number of a port. A name is none: which port has it isn't said here."""
        if text is not None and text.upper() in PORTS:
            return PORTS[text.upper()]
        if text is None or not re.fullmatch(r"\d+", text):
            self.named.append(text or "")
            return 0
        return min(int(text), 0xFFFF)

    def action(self, text: str) -> bytes:
        """The bytes of an action of OpenFlow 1.0, or those of a vendor's."""
        name, _, value = text.partition(":")
        if name.upper() in PORTS and (not value or name.upper() == "CONTROLLER" and value.isdigit()):
            return output(PORTS[name.upper()])
        if re.fullmatch(r"\d+", text):
            return output(min(int(text), 0xFFFF))
        if name == "output" and not re.search(r"[\[(]", value):
            return output(self.port(value))
        if name in ("mod_vlan_vid", "set_vlan_vid"):
            return struct.pack("!HHHH", 1, 8, 0, 0)
        if text in ("strip_vlan", "pop_vlan"):
            return struct.pack("!HHHH", 3, 8, 0, 0)
        if name == "enqueue":
            return struct.pack("!HHHHII", 11, 16, 0, 0, 0, 0)
        return VENDOR

    def data(self) -> bytes:
        """The bytes of the entry in flow statistics."""
        wildcards = 0x003FFFFF & ~self.others
        for is_exact, bit in (
            (self.in_port is not None, 0), (self.vlan is not None, 1), (self.type is not None, 4), (self.has_pcp, 20),
        ):
            wildcards &= ~(1 << bit) if is_exact else wildcards
        wildcards = wildcards & ~(63 << 8 | 63 << 14) | 32 - self.sources << 8 | 32 - self.length << 14
        table = int(self.table) if self.table.isdigit() else 255
        match = struct.pack(
            "!IH12xHBxHBB2xIIHH", wildcards, self.in_port or 0, self.vlan or 0, 0, self.type or 0, 0, 0, 0, self.base,
            0, 0,
        )
        body = (
            struct.pack("!Bx", min(table, 255))
            + match
            + struct.pack("!8xHHH6x24x", min(self.priority, 0xFFFF), *self.timeouts.values())
        )
        return struct.pack("!H", 2 + len(body) + len(self.actions)) + body + self.actions

    def without_effect(self) -> str | None:
        """Why no IPv4 packet of the model fares otherwise without it, or None."""
        return Entry(self.data()).without_effect()

    def fault(self) -> str | None:
        """What of it a configuration can't say, in words, or None."""
        if self.table != "0":
            return f"it stands in table {self.table}"
        if self.named:
            return (
                f"its port has a name, {', '.join(self.named)}, in place of a number: ask again with `ovs-ofctl"
                " --no-names dump-flows`"
            )
        words = Entry(self.data()).fault()
        return words or (f"it tests {', '.join(self.widened)}, which OpenFlow 1.0 can't say" if self.widened else None)


def output(port: int) -> bytes:
    return struct.pack("!HHHH", 0, 8, port, 0xFFFF if port == PORTS["CONTROLLER"] else 0)


def whole(name: str, value: str | None, most: int) -> int:
    """A number, decimal or after 0x hexadecimal."""
    if value is None or not re.fullmatch(r"0[xX][0-9a-fA-F]+|\d+", value):
        raise BadLine(f"{name} has no number")
    number = int(value, 16 if value[:2] in ("0x", "0X") else 10)
    if number > most:
        raise BadLine(f"{name}={value} is above {most}")
    return number


def prefix_of(value: str | None) -> tuple[int, int] | None:
    """The base and the length of `ADDRESS`, `ADDRESS/LENGTH` or `ADDRESS/MASK`; None where the mask is no prefix."""
    address, _, mask = (value or "").partition("/")
    try:
        base = int(ipaddress.IPv4Address(address))
        if re.fullmatch(r"\d{1,2}", mask or "32"):
            length = int(mask or 32)
            bits = 0xFFFFFFFF << 32 - length & 0xFFFFFFFF if length <= 32 else None
        else:
            bits = int(ipaddress.IPv4Address(mask))
    except ValueError as fault:
        raise BadLine(f"{value} is no address") from fault
    if bits is None:
        raise BadLine(f"{value} is no address")
    return (base & bits, bits.bit_count()) if bits in PREFIX_MASKS else None


def split_actions(line: str) -> tuple[str, str]:
    """The words before ` actions=`, and what stands behind it."""
    found = re.match(r"(.*?)(?:^|[\s,])actions=(.*)$", line)
    if not found:
        raise BadLine("it has no `actions=`")
    return found[1], found[2].strip()


def tokens(text: str) -> Iterator[tuple[str, str | None]]:
    """The words of a match with their values, or None for a word alone."""
    at = 0
    text = text.strip().rstrip(",")
    while at < len(text):
        found = TOKEN.match(text, at)
        if not found:
            raise BadLine(f"{text[at:].strip()!r} can't be read")
        yield found[1], found[2]
        at = found.end()


def words_of(head: str, actions: str) -> str:
    """An entry without its counts, as it is named in what is said of it."""
    words = [
        name if value is None else f"{name}={value}"
        for name, value in tokens(head)
        if name not in COUNTS and name not in FLAGS and (name, value) != ("table", "0")
    ]
    return f"{','.join(words)} actions={actions}".strip()


def split_top(text: str) -> list[str]:
    """The actions of a list: cut at the commas that stand in no parentheses."""
    parts, depth = [""], 0
    for letter in text:
        depth += (letter in "([{") - (letter in ")]}")
        if letter == "," and depth == 0:
            parts.append("")
        else:
            parts[-1] += letter
    return [part.strip() for part in parts if part.strip()]


class FlowText:
    """A whole text: its entries, the lines that are none, and what is to be said of it. Of a text of several bridges,
    as Mininet's `dpctl dump-flows` prints it, only the part of one bridge counts."""

    def __init__(self, text: str, bridge: str) -> None:
        self.is_version_1_0, self.is_newer, more = False, False, False
        self.entries = []
        self.bad = []
        titles = [found[1] for found in map(TITLE.fullmatch, text.splitlines()) if found]
        if titles and bridge not in titles:
            self.bad.append((1, f"begins a text of the bridges {', '.join(titles)}, of which none is {bridge}"))
        is_here = not titles
        for number, line in enumerate(text.splitlines(), 1):
            header, title = HEADER.fullmatch(line), TITLE.fullmatch(line)
            if title:
                is_here = title[1] == bridge
            elif not is_here:
                continue
            elif header:
                more = bool(header["more"])
                self.is_version_1_0 |= line.startswith("OFPST") and not header["version"]
                self.is_newer |= bool(header["version"])
            elif line.strip() and not line.lstrip().startswith("#"):
                try:
                    entry = TextEntry(line)
                    entry.number = number
                    self.entries.append(entry)
                except BadLine as fault:
                    self.bad.append((number, f"isn't an entry as `ovs-ofctl dump-flows` prints it: {fault}"))
        if more:
            self.bad.append(
                (
                    len(text.splitlines()),
                    "is the last one, though its message says that more follow: the text was cut off",
                )
            )
