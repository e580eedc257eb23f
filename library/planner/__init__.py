"""Updates of OpenFlow 1.0 networks from a controller of one's own: plans and checks as values, and sessions that carry
a plan out. docs/LIBRARY.md says what is promised. What decides is the proved program; this package carries what it is
given and what it answers."""
from __future__ import annotations

import typing

from planner.answers import (
    Answer, Failed, Packet, Path, Place, Reason, Said, Stop, ask, certify, check, config, configuration, explain, pack,
    plan,
)
from planner.core import HELLO, OWN_XIDS, Event, Message, NotNow, Refused, Reply, ServeEnded, Step, cut, is_own
from planner.programs import NoProgram
from planner.session import Session

if typing.TYPE_CHECKING:
    from planner.tasks import AsyncSession

__version__ = "3.0.0"
__all__ = [
    "Answer", "AsyncSession", "Event", "Failed", "HELLO", "Message", "NoProgram", "NotNow", "OWN_XIDS", "Packet",
    "Path", "Place", "Reason", "Refused", "Reply", "Said", "ServeEnded", "Session", "Step", "Stop", "ask", "certify",
    "check", "config", "configuration", "cut", "explain", "is_own", "pack", "plan",
]


def __getattr__(name: str) -> typing.Any:
    """Sessions for asyncio, which takes as long to load as all the rest: where they are asked for."""
    if name != "AsyncSession":
        raise AttributeError(f"module {__name__!r} has no attribute {name!r}")
    from planner.tasks import AsyncSession
    return AsyncSession
