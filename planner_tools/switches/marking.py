"""The marks on the switches while an update is carried out: its own, which it puts and takes away, and those of
others."""
from __future__ import annotations

import argparse
from typing import Sequence

from planner_tools.switches import under_way
from planner_tools.switches.connections import Stop, progress
from planner_tools.switches.conversation import Conversation
from planner_tools.switches.marks import MARK_BARRIER, MARK_XID, Mark
from planner_tools.switches.record import MARKED, UNMARKED


class Marking:
    """The mark of an update, and the marks of others that are seen."""

    def __init__(self, options: argparse.Namespace, conversation: Conversation) -> None:
        self.options, self.conversation, self.record = options, conversation, conversation.record
        self.mark = Mark(self.record.token, self.record.begun)
        self.is_marked = False           # whether each switch has, or should have, the mark
        # by switch: the marks of other updates that were seen when all were read last
        self.foreign: dict[str, list[Mark]] = {}
        self.taken_away: set[tuple[str, Mark]] = set()   # those that were taken away, each with its switch

    def put(self) -> None:
        """Puts the mark on every switch."""
        self.is_marked = self.record.is_marked = True
        self.record.remark(MARKED.strip())
        for name in self.conversation.names:
            self.put_at(name)
        self.conversation.pump_until_answered()

    def put_at(self, name: str) -> None:
        self.conversation.say_to(name, self.mark.put(), MARK_BARRIER)

    def take_away(self) -> None:
        """Takes the mark away from every switch."""
        if self.options.no_mark:
            return
        self.is_marked = False
        for name in self.conversation.names:
            self.conversation.say_to(name, self.mark.take_away(), MARK_BARRIER)
        self.conversation.pump_until_answered()
        if self.record.is_marked:
            self.record.remark(UNMARKED.strip())
            self.record.is_marked = False

    def take_away_unheard(self) -> None:
        """Takes the mark away without waiting for answers, where nothing of the update was begun."""
        if self.is_marked and not self.conversation.core.begun and not self.record.starts:
            for one in self.conversation.named.values():
                one.send(self.mark.take_away())

    def was_refused(self, name: str, xid: int, words: str) -> None:
        """A switch refuses a message: where it is the mark, it is Stop."""
        if xid == MARK_XID and self.is_marked:
            raise Stop(
                f"{name} refuses the mark of the update: {words}",
                (
                    "make room for one entry in its table; or put no mark there, by --no-mark: "
                    "then another controller isn't told of this update"
                ),
            )

    # ---- the marks of others

    def mind_others(self, name: str, marks: Sequence[Mark]) -> None:
        """Takes the marks that a switch has. Where another update has put its mark there it is Stop, or by --take-over
        it is taken away, once it is known that the update can go on."""
        others = [mark for mark in marks if mark != self.mark]
        if not others or self.options.no_mark:
            return
        if not self.options.take_over or any((name, mark) in self.taken_away for mark in others):
            record = under_way.record_near(self.options.input, others)
            raise Stop(
                f"another update is at work: {name} has its mark, {'; '.join(map(str, others))}",
                "wait for its end, then go on with --resume; where nothing is at work with it any more, --resume"
                " --take-over takes its mark away"
                + (
                    f"; its record is {record}: with that one --resume carries it on, and --back turns it back"
                    if record
                    else ""
                ),
            )
        self.foreign[name] = others

    def take_over(self) -> None:
        """Takes away the marks of other updates, by --take-over. What they did until then is found when the tables are
        read again."""
        for name, marks in self.foreign.items():
            for mark in marks:
                self.taken_away.add((name, mark))
                progress(f"{name}: the mark of the update {mark} is taken away")
                self.record.remark(f"{name}: the mark of the update {mark} is taken away")
            self.conversation.say_to(name, b"".join(mark.take_away() for mark in marks), MARK_BARRIER)
        self.conversation.pump_until_answered()

    def foreign_words(self) -> str:
        """That the marks of other updates stay where this one can't go on."""
        marks = sorted({str(mark) for those in self.foreign.values() for mark in those})
        return (
            f". The mark of the update {'; '.join(marks)} stays: this one can't go on from what that one has made"
            if marks
            else ""
        )

    def foreign_record(self) -> str | None:
        """The record of an update whose mark was seen, near this one's; or None."""
        return under_way.record_near(self.options.input, [mark for those in self.foreign.values() for mark in those])
