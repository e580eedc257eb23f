"""The entries of flow statistics: which may be passed on to `planner import`, what of them may be made alike, and why
the others are refused.

Two kinds of statistics are read: those of OpenFlow 1.0.0 (section 5.3.5), which `import` reads too, and the extended
ones of Open vSwitch (NXST_FLOW), which show matches that OpenFlow 1.0 can't say.
"""
from __future__ import annotations

import socket
import struct

TYPE_CHECKING = False
if TYPE_CHECKING:
    from typing import Iterator

IPV4 = 0x0800
# A packet of these types may be an IPv4 packet behind a tag.
TAGGED = (0x8100, 0x88A8)
UNTAGGED = 0xFFFF
SPECIAL_PORTS = {
    0xFFF8: "IN_PORT", 0xFFF9: "TABLE", 0xFFFA: "NORMAL", 0xFFFB: "FLOOD", 0xFFFC: "ALL", 0xFFFD: "CONTROLLER",
    0xFFFE: "LOCAL",
}
ACTIONS = {3: "strip VLAN", 11: "enqueue", 0xFFFF: "vendor action"}
# by their bit of `wildcards`
OTHER_FIELDS = {2: "dl_src", 3: "dl_dst", 5: "nw_proto", 6: "tp_src", 7: "tp_dst", 21: "nw_tos"}
# The priority of an entry that was added without one.
DEFAULT_PRIORITY = 32768
DEFAULT_WORDS = (
    ": 32768 is what `ovs-ofctl add-flow` takes where no priority is given; add it again with one, and then take this"
    " one away"
)
STANDALONE = (
    "it is the default entry of a switch in standalone mode, NORMAL: put entries of your own in first, and then take it"
    " away alone, by a strict command; `planner adopt` does so. (Setting the fail mode empties the table.)"
)
TO_CONTROLLER = bytes.fromhex("00000008fffd")
TO_NORMAL = bytes.fromhex("00000008fffa")


def cut_entries(data: bytes, least: int) -> list[bytes]:
    """The entries that fill these bytes exactly, each of at least so many bytes; ValueError where they don't."""
    entries = []
    while data:
        length = int.from_bytes(data[:2], "big")
        if length < least or length > len(data):
            raise ValueError
        entries.append(data[:length])
        data = data[length:]
    return entries


def is_miss(priority: int, actions: bytes) -> bool:
    """Whether an entry of priority 0 does what a miss does: drop the packet, or send it to the controller."""
    return priority == 0 and (not actions or actions[:6] == TO_CONTROLLER and len(actions) == 8)


def entry_words(test: tuple[int, int | str, int | str, int, int], kind: str, actions: bytes) -> str:
    priority, in_port, vlan, base, length = test
    words = f"priority {priority} {kind}"
    words += f" in_port {in_port}" if in_port != "any" else ""
    words += f" VLAN {vlan}" if vlan != "any" else ""
    words += f" {socket.inet_ntoa(struct.pack('!I', base))}/{length}" if length else ""
    return words + " -> " + (", ".join(action_words(actions)) or "drop")


class Entry:
    """An entry of statistics of OpenFlow 1.0.0."""

    def __init__(self, data: bytes) -> None:
        self.data = data
        self.table = data[2]
        self.wildcards, self.in_port = struct.unpack("!IH", data[4:10])
        self.vlan, self.type = struct.unpack("!H2xH", data[22:28])
        self.source, self.cookie = data[10:16], int.from_bytes(data[64:72], "big")
        self.priority, self.idle, self.hard = struct.unpack("!HHH", data[52:58])
        self.actions = data[88:]
        self.length = 32 - min(32, self.wildcards >> 14 & 63)
        self.base = int.from_bytes(data[36:40], "big") & (0xFFFFFFFF << 32 - self.length)

    def is_exact(self, bit: int) -> bool:
        return not self.wildcards >> bit & 1

    def test(self) -> tuple[int, int | str, int | str, int, int]:
        """What `import` reads of it, but its action: priority, ingress port, VLAN, prefix."""
        vlan = "any" if not self.is_exact(1) else "untagged" if self.vlan == UNTAGGED else self.vlan
        return self.priority, self.in_port if self.is_exact(0) else "any", vlan, self.base & 0xFFFFFFFF, self.length

    def __str__(self) -> str:
        return entry_words(self.test(), f"type {self.type:04x}" if self.is_exact(4) else "any type", self.actions)

    def without_effect(self) -> str | None:
        """Why no IPv4 packet of the model fares otherwise without the entry, or None. An entry without any wildcard
        comes before all others."""
        if self.table == 0 and self.is_exact(4) and self.type not in (IPV4, *TAGGED):
            return "of other types"
        if self.table == 0 and self.wildcards & 0x3FFFFF and is_miss(self.priority, self.actions):
            return "for a miss"
        return None

    def has_tag_priority(self) -> bool:
        """Whether it is an entry for untagged packets that tests the priority of the tag, which they don't have."""
        return self.is_exact(20) and self.is_exact(1) and self.vlan == UNTAGGED

    def normalised(self) -> bytes:
        """Its bytes, where a test of the priority of a tag that isn't there is taken away."""
        if not self.has_tag_priority():
            return self.data
        return self.data[:4] + struct.pack("!I", self.wildcards | 1 << 20) + self.data[8:24] + b"\0" + self.data[25:]

    def fault(self) -> str | None:
        """What of it a configuration can't say, in words, or None."""
        if self.table == 0 and not self.is_exact(4) and self.priority == 0 and self.actions[:6] == TO_NORMAL:
            return STANDALONE
        if self.oddity():
            return self.oddity()
        if not 1 <= self.priority <= 16383:
            return f"its priority isn't 1 to 16383{DEFAULT_WORDS if self.priority == DEFAULT_PRIORITY else ''}"
        if self.time_words():
            return self.time_words()
        if self.actions and not (
            len(self.actions) == 8
            and self.actions[:4] == bytes.fromhex("00000008")
            and 1 <= int.from_bytes(self.actions[4:6], "big") <= 65279
        ):
            return "its actions are neither none nor one output to a port"
        return None

    def oddity(self) -> str | None:
        """What of its place and its match no rule of a plan can say, in words, or None."""
        others = [name for bit, name in OTHER_FIELDS.items() if self.is_exact(bit)] + (
            ["nw_src"] if self.wildcards >> 8 & 63 < 32 else []
        )
        if self.table != 0:
            return f"it stands in table {self.table}"
        if not self.is_exact(4):
            return "it is for packets of any type, and no command of a plan would reach it"
        if self.type != IPV4:
            return "whether a tagged IPv4 packet meets it is the switch's choice"
        if self.is_exact(20) and not self.has_tag_priority():
            return "it tests the priority of the tag"
        if others:
            return f"it tests {', '.join(others)}"
        if self.is_exact(0) and not 1 <= self.in_port <= 65279:
            return f"its ingress port is {SPECIAL_PORTS.get(self.in_port, self.in_port)}"
        if self.is_exact(1) and self.vlan != UNTAGGED and not 1 <= self.vlan <= 4094:
            return f"its VLAN is {self.vlan}"
        return None

    def time_words(self) -> str | None:
        return time_words(self.idle, self.hard)


def time_words(idle: int, hard: int) -> str | None:
    """That an entry has timeouts, in words, or None."""
    return f"it goes away by itself (idle timeout {idle} s, hard timeout {hard} s)" if idle or hard else None


def action_words(actions: bytes) -> Iterator[str]:
    """Each action of an entry in words, by which actions differ where rules can say them."""
    while len(actions) >= 4:
        kind, length = struct.unpack("!HH", actions[:4])
        argument = int.from_bytes(actions[4:6], "big")
        if kind == 0 and len(actions) >= 6:
            yield f"output {SPECIAL_PORTS.get(argument, argument)}"
        elif kind == 1:
            yield f"set VLAN {argument}"
        else:
            yield ACTIONS.get(kind, f"action {kind}")
        actions = actions[max(length, 8):]


# Headers of the fields of an extended match that an entry of OpenFlow 1.0 has too.
SOURCE_MASKED = 0x0F08
IN_PORT, TYPE, TAG, TAG_MASKED, DESTINATION, DESTINATION_MASKED = 0x002, 0x602, 0x802, 0x904, 0x1004, 0x1108
# Those that a configuration can't say, but OpenFlow 1.0 can: the other statistics show them truly, and they are refused
# there.
SHOWN = {0x206, 0x406, 0xA01, 0xC01, 0xE04, 0x1202, 0x1402, 0x1602, 0x1802, 0x1A01, 0x1C01}
PREFIX_MASKS = {0xFFFFFFFF << n & 0xFFFFFFFF for n in range(33)}


class ExtendedEntry:
    """An entry of extended statistics."""

    def __init__(self, data: bytes) -> None:
        self.table = data[2]
        self.priority, self.idle, self.hard, size = struct.unpack("!HHHH", data[12:20])
        self.actions = data[48 + (size + 7) // 8 * 8:]
        self.in_port: int | str = "any"
        self.vlan: int | str = "any"
        self.base, self.length = 0, 0
        self.type: int | None = None
        self.widened: list[str] = []        # what OpenFlow 1.0 can't say of its match
        self.others: list[str] = []         # what OpenFlow 1.0 can say of its match, but no rule
        at, end = 48, 48 + size
        if end > len(data):
            raise ValueError
        while at < end:
            header = int.from_bytes(data[at:at + 4], "big")
            value = data[at + 4:at + 4 + (header & 255)]
            self.read_field(header, value)
            at += 4 + (header & 255)

    def read_field(self, header: int, value: bytes) -> None:
        number = int.from_bytes(value, "big")
        if header == IN_PORT:
            self.in_port = number
        elif header == TYPE:
            self.type = number
        elif header == TAG and number == 0:
            self.vlan = "untagged"
        elif header == TAG_MASKED and number & 0xFFFF == 0x1FFF and number >> 16 & 0x1000:
            self.vlan = number >> 16 & 0xFFF
        elif header == DESTINATION:
            self.base, self.length = number, 32
        elif header == DESTINATION_MASKED and number & 0xFFFFFFFF in PREFIX_MASKS:
            self.base, self.length = number >> 32, (number & 0xFFFFFFFF).bit_count()
        elif (
            header in SHOWN
            or header == TAG
            and number & 0x1000
            or header == SOURCE_MASKED
            and number & 0xFFFFFFFF in PREFIX_MASKS
        ):  # a tag has a tag priority
            self.others.append(f"{field_name(header)} {value.hex()}")
        else:
            self.widened.append(f"{field_name(header)} {value.hex()}")

    def without_effect(self) -> bool:
        return self.type not in (None, IPV4, *TAGGED) or is_miss(self.priority, self.actions)

    def test(self) -> tuple[int, int | str, int | str, int, int]:
        return self.priority, self.in_port, self.vlan, self.base, self.length

    def oddity(self) -> str | None:
        """What of its place and its match no rule of a plan can say, in words, or None."""
        if self.table != 0:
            return f"it stands in table {self.table}"
        if self.widened:
            return f"it tests {', '.join(self.widened)}, which OpenFlow 1.0 can't say"
        if self.type != IPV4:
            return (
                "it is for packets of any type" if self.type is None else f"it is for packets of type {self.type:04x}"
            )
        return f"it tests {', '.join(self.others)}" if self.others else None

    def time_words(self) -> str | None:
        return time_words(self.idle, self.hard)

    def __str__(self) -> str:
        return entry_words(self.test(), f"type {self.type:04x}" if self.type is not None else "any type", self.actions)


def field_name(header: int) -> str:
    """A field of an extended match by its Open vSwitch name, as far as it may be met in ordinary tables."""
    vendor, field = header >> 16, header >> 9 & 127
    names = {
        (0, 1): "dl_dst", (0, 2): "dl_src", (0, 5): "nw_tos", (0, 6): "nw_proto", (0, 4): "vlan_tci", (0, 7): "nw_src",
        (0, 8): "nw_dst", (1, 16): "tun_id", (1, 26): "ip_frag", (1, 28): "nw_ecn", (1, 29): "nw_ttl",
        (1, 33): "pkt_mark", (1, 105): "ct_state",
    }
    name = f"reg{field}" if vendor == 1 and field < 16 else names.get((vendor, field), f"field {vendor:04x}:{field}")
    return name + (" with a mask" if header >> 8 & 1 else "")
