"""How a run ends: by a signal, or where nobody hears it any more."""
from __future__ import annotations

import signal

from planner_tools.switches.connections import Stop
from planner_tools.voice import TELLING

ENDING = (signal.SIGINT, signal.SIGTERM, signal.SIGHUP)


class Hangup(KeyboardInterrupt):
    """The terminal was closed."""


def hang_up(*_: object) -> None:
    raise Hangup


def heed_signals() -> None:
    """Has signals end a run in good order. A run that was begun by `nohup` goes on where its terminal is closed."""
    signal.signal(signal.SIGTERM, signal.default_int_handler)
    if signal.getsignal(signal.SIGHUP) != signal.SIG_IGN:
        signal.signal(signal.SIGHUP, hang_up)


def mind_no_signals() -> None:
    """Has the end of a run come to its own end: a key that is pressed twice ends it once."""
    for one in ENDING:
        signal.signal(one, signal.SIG_IGN)


def interrupt_words(why: KeyboardInterrupt) -> str:
    """What ended a run from outside."""
    return "its terminal was closed (SIGHUP)" if isinstance(why, Hangup) else "the operator ended it"


def see_that_it_is_heard() -> None:
    """It is Stop where the error stream can't be written any more: an update isn't carried out where nobody hears what
    becomes of it."""
    if TELLING.fault is not None:
        raise Stop(
            f"the error stream is closed, and nobody hears what happens ({TELLING.fault.strerror})",
            "go on with --resume",
        )
