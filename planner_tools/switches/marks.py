"""The mark of an update on a switch: an entry that no IP packet can match, by which another controller is told that an
update is at work.

It is an entry of table 0 for packets of the type 88B5, which is for local experiments and carries no IP, from an
address that stands for the update, without actions. Its cookie says when the update was begun. Open vSwitch keeps and
shows all of it, whoever asks. An update puts its mark on every switch before its first round, and then reads the
tables: whoever does so too puts theirs on before they read, so one at least sees the other. It is taken away when the
update is over.

These are the only messages that are made here and change a table.
"""
from __future__ import annotations

import datetime
import struct

from planner_tools.switches import openflow
from planner_tools.switches.connections import OWN

TYPE_CHECKING = False
if TYPE_CHECKING:
    from planner_tools.switches.entries import Entry

MARK_XID = OWN + 0x10
MARK_BARRIER = OWN + 0x11
TYPE = 0x88B5
PRIORITY = 1
# The upper half of the cookie of a mark: "plan". The lower one is the second, of Unix time, at which the update was
# begun.
COOKIE = 0x706C616E << 32
# Every field may have any value but the source address and the type.
WILDCARDS = 0x003FFFFF & ~(1 << 2) & ~(1 << 4)
ADD, DELETE_STRICT = 0, 4


class Mark:
    """A mark: six bytes that stand for the update, and the second at which it was begun."""

    def __init__(self, token: bytes, begun: int) -> None:
        self.token, self.begun = token, begun

    @staticmethod
    def of(entry: Entry) -> Mark | None:
        """The mark that an entry of statistics of OpenFlow 1.0 is, or None."""
        is_mark = (
            entry.table == 0
            and entry.is_exact(4)
            and entry.is_exact(2)
            and entry.type == TYPE
            and entry.priority == PRIORITY
            and entry.cookie >> 32 == COOKIE >> 32
        )
        return Mark(entry.source, entry.cookie & 0xFFFFFFFF) if is_mark else None

    def __eq__(self, other: object) -> bool:
        return isinstance(other, Mark) and self.token == other.token

    def __hash__(self) -> int:
        return hash(self.token)

    def __str__(self) -> str:
        try:
            begun = datetime.datetime.fromtimestamp(self.begun, datetime.timezone.utc).strftime("%Y-%m-%d %H:%M:%S UTC")
        except (OverflowError, ValueError):
            begun = "an unknown time"
        return f"{self.token.hex()}, begun {begun}"

    def put(self) -> bytes:
        """The messages that put it on a switch."""
        return self.message(ADD)

    def take_away(self) -> bytes:
        return self.message(DELETE_STRICT)

    def message(self, command: int) -> bytes:
        match = struct.pack("!IH6s6xHBxH16x", WILDCARDS, 0, self.token, 0, 0, TYPE)
        body = match + struct.pack(
            "!QHHHHIHH", COOKIE | self.begun & 0xFFFFFFFF, command, 0, 0, PRIORITY, 0xFFFFFFFF, 0xFFFF, 0
        )
        return openflow.message(openflow.FLOW_MOD, MARK_XID, body) + openflow.message(
            openflow.BARRIER_REQUEST, MARK_BARRIER
        )
