"""The little of OpenFlow 1.0.0 (section 5) that these scripts need: where messages end, their types, the words for
errors. No message that changes a table for an IP packet is made here."""
from __future__ import annotations

import struct

HELLO, ERROR, ECHO_REQUEST, ECHO_REPLY, FEATURES_REQUEST, FEATURES_REPLY = 0, 1, 2, 3, 5, 6
FLOW_MOD, STATS_REQUEST, STATS_REPLY, BARRIER_REQUEST, BARRIER_REPLY = 14, 16, 17, 18, 19
HELLO_BYTES = bytes.fromhex("0100000800000000")
VERSIONS = {1: "1.0", 2: "1.1", 3: "1.2", 4: "1.3", 5: "1.4", 6: "1.5"}

# Section 5.4.4: the types of errors, and their codes as far as flow messages and questions can meet them.
ERROR_TYPES = [
    "hello failed", "bad request", "bad action", "flow message failed", "port message failed", "queue operation failed",
]
ERROR_CODES = [
    ["incompatible", "permission error"],
    [
        "bad version", "bad type", "bad statistics type", "bad vendor", "bad subtype", "permission error", "bad length",
        "buffer empty", "buffer unknown",
    ],
    [
        "bad type", "bad length", "bad vendor", "bad vendor type", "bad out port", "bad argument", "permission error",
        "too many", "bad queue",
    ],
    ["all tables full", "overlap", "permission error", "bad emergency timeout", "bad command", "unsupported"],
]


def error_words(kind: int, code: int) -> str:
    """The standard's words for an error, as far as they are known."""
    codes = ERROR_CODES[kind] if kind < len(ERROR_CODES) else []
    return (
        f"{ERROR_TYPES[kind] if kind < len(ERROR_TYPES) else 'unknown type'}:"
        f" {codes[code] if code < len(codes) else 'unknown code'}"
    )


def message(kind: int, xid: int, body: bytes = b"") -> bytes:
    return struct.pack("!BBHI", 1, kind, 8 + len(body), xid) + body


def type_of(piece: bytes) -> int:
    return piece[1]


def xid_of(piece: bytes) -> int:
    return int.from_bytes(piece[4:8], "big")


def is_message(piece: bytes) -> bool:
    """Whether a header can be that of a message of version 1, or of a HELLO, which may offer newer versions."""
    return piece[0] != 0 and (piece[0] == 1 or type_of(piece) == HELLO) and int.from_bytes(piece[2:4], "big") >= 8


def cut(data: bytes) -> tuple[list[bytes], bytes]:
    """Cuts bytes into whole messages, and the rest. From a header on that is none, all bytes are one piece."""
    at = 0
    pieces: list[bytes] = []
    while len(data) - at >= 8:
        if not is_message(data[at:at + 8]):
            return pieces + [data[at:]], b""
        end = at + int.from_bytes(data[at + 2:at + 4], "big")
        if end > len(data):
            break
        pieces.append(data[at:end])
        at = end
    return pieces, data[at:]


def version_words(number: int) -> str:
    return f"OpenFlow {VERSIONS[number]}" if number in VERSIONS else f"an unknown version ({number}) of OpenFlow"


def other_version(piece: bytes) -> str | None:
    """By what a first message shows that the switch doesn't speak OpenFlow 1.0, in words behind its name; or None."""
    version, kind = piece[0], piece[1]
    if kind == HELLO and version > 1:
        offered = offered_versions(piece)
        if offered and 1 not in offered:
            return f"offers {', '.join(version_words(one) for one in offered)}, and not OpenFlow 1.0"
    elif kind == ERROR and piece[8:10] == b"\0\0":
        return f"refuses OpenFlow 1.0: its highest version is {version_words(version)}"
    elif kind != HELLO and version in VERSIONS and version > 1:
        return f"answers in {version_words(version)}, and not in OpenFlow 1.0"
    return None


def offered_versions(hello: bytes) -> list[int]:
    """The versions that the bitmap of a HELLO lists (OpenFlow 1.3.1, section 7.5.1), ascending; none where it has no
    bitmap."""
    at = 8
    while at + 8 <= len(hello):
        kind, length = struct.unpack("!HH", hello[at:at + 4])
        if kind == 1:
            return [bit for bit in range(32) if int.from_bytes(hello[at + 4:at + 8], "big") >> bit & 1]
        at += max(8, (length + 7) // 8 * 8)
    return []


def change_words(piece: bytes) -> str:
    """What a flow message of `planner serve` does, in words."""
    wildcards, in_port = struct.unpack("!IH", piece[8:14])
    vlan, command, priority = (
        int.from_bytes(piece[26:28], "big"), int.from_bytes(piece[56:58], "big"), int.from_bytes(piece[62:64], "big"),
    )
    length = 32 - min(32, wildcards >> 14 & 63)
    words = (
        f"{ {0: 'insert', 2: 'replace', 4: 'delete'}.get(command, 'change')} priority"
        f" {priority} {'.'.join(map(str, piece[40:44]))}/{length}"
    )
    words += f" in_port {in_port}" if not wildcards & 1 else ""
    words += "" if wildcards & 2 else " untagged" if vlan == 0xFFFF else f" VLAN {vlan}"
    return words
