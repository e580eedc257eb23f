"""The pace of an update: how long is waited between its rounds, how long they take, and which switches are slow."""
from __future__ import annotations

import argparse
import math
import os
import select
import sys
import time

from planner.core import Core
from planner_tools.switches.connections import Stop, progress, say

# By so many of the last rounds the time that is left is reckoned.
RECKONED = 20


class AnswerTimes:
    """How long switches take to answer what they are sent of a round."""

    def __init__(self) -> None:
        self.sent_at: dict[str, float] = {}      # by switch: when it was sent its last barrier request of a round
        # how long the slowest answer to one took since the last round was told, and whose
        self.slowest = (0.0, "")

    def note_sent(self, name: str) -> None:
        self.sent_at[name] = time.monotonic()

    def note_answer(self, name: str) -> None:
        if name in self.sent_at:
            self.slowest = max(self.slowest, (time.monotonic() - self.sent_at.pop(name), name), key=lambda one: one[0])

    def take_slowest(self) -> tuple[float, str]:
        """The slowest answer since this was asked last."""
        slowest, self.slowest = self.slowest, (0.0, "")
        return slowest


class Pace:
    """When the rounds of this run began and were settled."""

    def __init__(self, options: argparse.Namespace) -> None:
        self.options = options
        self.times = AnswerTimes()
        self.settled_at = time.monotonic()       # since when packets may be under way by what was settled last
        self.started_at: float | None = None
        self.sent_rounds = 0                     # how many rounds this run has begun, in either way
        self.cycles: list[float] = []            # the seconds of each round of this run, with its wait
        self.asked = False                       # whether the operator was asked whether the next one may begin
        self.slowest_told = 0.0                  # the longest time for an answer that was told
        self.slow_words = ""                     # what was told of it, for the remark on the next round

    def packets_are_under_way(self) -> None:
        """From now on packets may be under way that have to leave before the next round."""
        self.settled_at, self.asked = time.monotonic(), False

    def may_begin(self, next_round: str) -> bool:
        """Whether the packets that entered before have left, by the operator's rule, so that the next round may begin,
        which these words name."""
        return (
            self.operator_says_so(next_round)
            if self.options.ask
            else time.monotonic() - self.settled_at >= self.options.wait
        )

    def operator_says_so(self, next_round: str) -> bool:
        if not self.asked:
            say(f"{next_round} is next: press Enter when all packets that entered before have left")
            self.asked = True
        if sys.stdin is not None and not select.select([sys.stdin], [], [], 0)[0]:
            return False
        if sys.stdin is None or not os.read(sys.stdin.fileno(), 4096):
            raise Stop("the input with the operator's answers ended", "go on with --resume")
        return True

    def waited(self) -> str:
        """How long was waited before the round that begins now, for the record."""
        seconds = time.monotonic() - self.settled_at
        by_whom = ", as the operator said" if self.options.ask else ""
        words = f"after a wait of {seconds:.3f} s{by_whom}{self.slow_words}"
        self.slow_words = ""
        return words

    def round_begins(self) -> None:
        self.started_at, self.asked = time.monotonic(), False
        self.sent_rounds += 1

    def round_is_settled(self, core: Core) -> None:
        """Tells that a round is settled or undone, how long it took, and how long the others will take."""
        now = time.monotonic()
        left = core.settled if self.options.back else core.rounds - core.settled
        if self.sent_rounds > 1:
            self.cycles.append(now - self.settled_at)
        self.settled_at = now
        seconds = f", {now - self.started_at:.3f} s after its start" if self.started_at else ""
        least = self.options.wait + (now - self.started_at if self.started_at else 0.0)
        last = self.cycles[-RECKONED:]
        each = sum(last) / len(last) if last else least
        time_left = "" if self.options.ask or not left else f"; {left} left, some {duration(each * left)}"
        is_undone = core.is_back and not core.is_running
        progress(
            f"round {core.settled + is_undone} of {core.rounds} is"
            f" {'undone' if is_undone else 'settled'}{seconds}{time_left}"
        )
        self.tell_slow_answers()

    def tell_slow_answers(self) -> None:
        """Says that switches took long to answer, beside the wait: as long as an answer packets may be under way too.
        It is said again where that grows."""
        seconds, name = self.times.take_slowest()
        if self.options.ask or seconds <= self.options.wait / 2 or seconds <= 1.25 * self.slowest_told:
            return
        self.slowest_told = seconds
        share = "the" if seconds > self.options.wait else "half of the"
        words = (
            f"{name} took {seconds:.{1 if seconds >= 1 else 3}f} s to answer, more than {share} wait of"
            f" {self.options.wait:g} s: where switches are that busy packets may be under way for longer than it too,"
            f" and be broken by the next round; --wait {math.ceil(2 * seconds)} would do"
        )
        self.slow_words = f"; {words}"
        progress(words)


def duration(seconds: float) -> str:
    return (
        f"{seconds:.0f} s"
        if seconds < 120
        else f"{seconds / 60:.0f} min"
        if seconds < 7200
        else f"{seconds / 3600:.1f} h"
    )
