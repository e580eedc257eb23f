"""What the switches have, beside what they must have: read, compared, told, and put right."""
from __future__ import annotations

import argparse
import contextlib
import json
import struct
import time
from typing import Sequence

from planner_tools.files import read_json
from planner_tools.network import plain
from planner_tools.proved import say_why
from planner_tools.switches import under_way
from planner_tools.switches.collect import entry_at
from planner_tools.switches.connections import OWN, Connection, Stop, progress, say
from planner_tools.switches.conversation import Conversation, temporary, write
from planner_tools.switches.expected import Difference, Expected, repair_plan
from planner_tools.switches.failures import files_of
from planner_tools.switches.marking import Marking
from planner_tools.switches.marks import Mark
from planner_tools.switches.pace import Pace

REPAIR_XID, REPAIR_BARRIER = OWN + 0x20, OWN + 0x21
# `check` accepts it exactly where the two configurations have the same tables and good paths.
NO_ROUNDS = {
    "format": 2, "kind": "ordered", "rules": [], "rounds": [], "numberings": [], "befores": [], "uses": [], "picks": [],
}
# So many differences are noted in the record, and so often a repair is tried.
NOTED, TRIES = 50, 3


class Comparison:
    """Compares the tables of the switches with what they must have."""

    def __init__(self, options: argparse.Namespace, conversation: Conversation, marking: Marking, pace: Pace) -> None:
        self.options, self.conversation, self.marking, self.pace = options, conversation, marking, pace
        self.record = conversation.record
        # what the switches must have, and how much `serve` had been given by then
        self.expected: tuple[int, Expected] | None = None
        self.suspects: set[str] = set()  # the switches that answered otherwise when they came back
        self.is_reading = False          # whether all switches are being read
        # when the tables were last as they must be
        self.compared_at = self.record.last_compared and f"{self.record.last_compared}Z"

    def must_have(self) -> Expected:
        """What the switches must have by what `serve` has said."""
        followed = self.conversation.followed
        if self.expected is None or self.expected[0] != followed:
            with temporary("schedule", self.conversation.core.schedule().encode()) as name:
                status, text = self.conversation.ask(
                    "tables", self.options.topology, self.options.old, self.options.plan, name
                )
            if status != 0:
                raise Stop(f"`planner tables` ended with status {status}{f' and said: {text.strip()}' if text else ''}",
                           "see that the program can run, and is as new as these scripts; then go on with --resume")
            self.expected = followed, Expected(text)
        return self.expected[1]

    def differences(self, name: str) -> "list[Difference | MissingMark]":
        """What of a switch's answers isn't as it must be. Where it has the mark of another update it is Stop."""
        # a dead switch must have what it must have when it is dead no more, and no change of the running round besides
        is_decided = name in self.conversation.core.dead
        try:
            answers = self.conversation.tables.answers[name]
            found: list[Difference | MissingMark] = [*self.must_have().differences(name, answers, is_decided)]
            marks = answers.marks()
        except (ValueError, struct.error):
            raise Stop(
                f"{name}: entries don't fill its statistics", "see what is at the other end of the connection"
            ) from None
        self.marking.mind_others(name, marks)
        if self.marking.is_marked and self.marking.mark not in marks:
            found.append(MissingMark(name, self.marking.mark))
        return found

    def may_repair(self, found: "Sequence[Difference | MissingMark]") -> bool:
        """Whether these differences may be put right, by --repair: all, or those of some switches."""
        return all({"", one.switch} & set(self.options.repair) for one in found)

    def can_go_on(self, found: "Sequence[Difference | MissingMark]") -> bool:
        """Whether the update can go on from these differences: there are none, or they are put right."""
        return not found or self.may_repair(found) and all(one.can_be_repaired() for one in found)

    def look_at_returned(self, connection: Connection) -> None:
        """A switch that has connected has answered the questions for its table. Where all switches are being read, it
        is compared with them."""
        if self.is_reading:
            return
        if connection.name in self.conversation.core.dead:
            self.conversation.follow()       # it must have what is to be there by all that came before
        if self.suspects or self.differences(connection.name):
            self.suspects.add(connection.name)
        else:
            self.conversation.let_on(connection)

    def may_ask(self) -> bool:
        """Whether a switch may be asked for its table, beside those that are being read."""
        return not self.is_reading and not self.suspects

    def compare(self) -> bool:
        """Asks every switch for its table, and compares. Whether nothing had to be put right; where something isn't as
        it must be it is Stop, or is put right, by --repair."""
        is_first, tries = True, 0
        while True:
            found = self.read_all()
            if self.marking.foreign and self.can_go_on(found):
                self.marking.take_over()
                continue
            if not found:
                for answers in list(self.conversation.tables.answers.values()):
                    if answers.connection is not None:
                        self.conversation.let_on(answers.connection)
                self.compared_at = now_words()
                return is_first
            self.tell_differences(found)
            if not self.may_repair(found) or tries == TRIES:
                raise self.differs(found)
            self.repair(found)
            is_first, tries = False, tries + 1

    def compare_suspects(self) -> None:
        """Compares all switches, where one came back that answered otherwise."""
        if self.suspects:
            self.compare()

    def read_all(self) -> "list[Difference | MissingMark]":
        """The differences of all switches, which are asked now."""
        conversation = self.conversation
        # nothing is sent that changes a table meanwhile, so all answers are of the same state
        self.is_reading = True
        for name in conversation.names:
            conversation.tables.forget(name)
        for connection in list(conversation.named.values()):
            conversation.tables.ask(connection)
        found = None
        # a switch that came back while a program ran has answered on a connection that is no more
        while found is None or not conversation.has_all():
            while not conversation.has_all():
                conversation.pump()
            self.marking.foreign = {}
            found = [one for name in conversation.names for one in self.differences(name)]
        self.is_reading = False
        self.suspects.clear()
        return found

    def tell_differences(self, found: "Sequence[Difference | MissingMark]") -> None:
        for one in found:
            say(str(one))
        for one in found[:NOTED]:
            self.record.remark(str(one))
        since = f"since {self.compared_at}, when all was as it must be, " if self.compared_at else ""
        names = sorted({one.switch for one in found} - self.conversation.core.dead)
        if names:
            say(
                f"{since}packets that fit these entries may have been dropped, sent elsewhere or sent with another VLAN"
                f" at {', '.join(names)}"
            )

    def differs(self, found: "Sequence[Difference | MissingMark]") -> Stop:
        names = sorted({one.switch for one in found})
        what = (
            f"{entries(len(found))} of {', '.join(names)} {'is' if len(found) == 1 else 'are'} not as they must be, and"
            " said above"
        )
        what += self.marking.foreign_words()
        by_hand = [str(one) for one in found if not one.can_be_repaired()]
        if by_hand:
            return Stop(
                f"{what}; {entries(len(by_hand))} of them no message of a plan can reach, as {by_hand[0]}",
                (
                    f"take these away at the switch by hand; then go on with --resume{self.named_repairs()}, or"
                    f" --resume --repair{self.named_repairs()}"
                ),
            )
        if self.conversation.core.begun:
            return Stop(
                what,
                (
                    f"go on with --resume --repair{self.named_repairs()}, which sends what is missing and takes away"
                    " what is too much; or put it right by hand, and go on with --resume"
                ),
            )
        return Stop(f"{what}. So the switches don't have the tables of {self.options.old}", self.before_the_beginning())

    def named_repairs(self) -> str:
        """The dead switches that are put right by this run, as words behind others."""
        dead = self.conversation.core.dead & set(self.options.repair)
        return "".join(f" --repair {name}" for name in sorted(dead))

    def before_the_beginning(self) -> str:
        """What to do where the switches don't have OLD: the program says whether a plan can start from what they
        have."""
        repair = self.ways_to_repair()
        config = f"{self.options.input}.before.json"
        try:
            status, text = self.import_tables("before")
        except Stop:
            return f"{repair}. No plan can start from what they have: a configuration can't say it"
        if status != 0:
            where = entry_at(f"{self.options.input}.before", text)
            return (
                f"{repair}. No plan can start from what they have: `planner import` says"
                f" {text.strip()}{f', which is {where}' if where else ''}"
            )
        write(config, text)
        status, text = self.conversation.ask("config", self.options.topology, config, self.options.policy)
        if status != 0:
            return f"{repair}. No plan can start from what they have: `planner config` says {text.strip()}"
        return (
            f"make a plan from {config}, which has those that they have, and begin it with a record of its own; or"
            f" {repair}"
        )

    def ways_to_repair(self) -> str:
        """How the switches get the tables of OLD, or how an update is gone on with that was begun before."""
        repair = f"go on with --resume --repair, which gives the switches the tables of {self.options.old}"
        if self.marking.foreign:
            record = self.marking.foreign_record()
            repair = (
                f"carry that update on with its own record{f', {record},' if record else ''} by --resume, or turn it"
                " back by --back (--recover makes its record anew where it is lost); or go on with --resume"
                f" --take-over --repair, which gives the switches the tables of {self.options.old}, entry by entry:"
                " packets may be dropped meanwhile"
            )
        where = under_way.standing_of(files_of(self.options), self.conversation.tables)
        if where is not None and not where.wrong and where.settled + where.is_running:
            repair = (
                f"where they are those of this plan, as it was carried out ({where}), and its record is lost, --recover"
                f" with another record goes on from there; or {repair}"
            )
        return repair

    def repair(self, found: "Sequence[Difference | MissingMark]") -> None:
        """Puts differences right by the messages that `planner emit` says for them."""
        if any(not one.can_be_repaired() for one in found):
            raise self.differs(found)
        for name in sorted({one.switch for one in found if isinstance(one, MissingMark)}):
            self.marking.put_at(name)
        others = [one for one in found if not isinstance(one, MissingMark)]
        path = f"{self.options.input}.repair.json"
        for name, pieces in self.repairing_messages(path, others).items():
            self.conversation.say_to(
                name, b"".join(with_own_xid(one, is_last=one is pieces[-1]) for one in pieces), REPAIR_BARRIER
            )
        words = (
            f"what differs at {', '.join(sorted({one.switch for one in found}))} is put right:"
            f" {entries(len(others))} by the messages of `planner emit` for {path}"
        )
        self.record.remark(words)
        self.record.keep()
        progress(words)
        self.conversation.pump_until_answered()
        self.pace.packets_are_under_way()        # those that met it

    def repairing_messages(self, path: str, others: Sequence[Difference]) -> dict[str, list[bytes]]:
        """By switch the messages of `planner emit` that put differences right. Its plan is written to a path."""
        write(path, json.dumps(repair_plan(others, self.conversation.core.dead)) + "\n")
        status, text = self.conversation.ask("emit", self.options.topology, path) if others else (0, "")
        if status != 0:
            raise Stop(
                f"`planner emit` refuses the repair {path}: {text.strip()}",
                "put the entries right by hand; then go on with --resume",
            )
        messages: dict[str, list[bytes]] = {}
        for line in text.splitlines():
            _, name, data = line.split(" ")
            messages.setdefault(name, []).append(bytes.fromhex(data))
        return messages

    def put_marks(self) -> None:
        """Puts the mark of the update on every switch, and reads the tables again, so of two controllers one at least
        sees the other's mark."""
        if not self.options.no_mark:
            self.marking.put()
            self.compare()

    def was_refused(self, name: str, xid: int, words: str) -> None:
        """A switch refuses a message: where it is one of a repair, it is Stop."""
        if xid == REPAIR_XID:
            raise Stop(
                f"{name} refuses a message of the repair: {words}",
                "see why; then go on with --resume --repair, or put its table right by hand and go on with --resume",
            )

    def import_tables(self, word: str) -> tuple[int, str]:
        """What `planner import` makes of what the switches answered."""
        replies = f"{self.options.input}.{word}"
        write(replies, self.conversation.tables.replies())
        return self.conversation.ask("import", self.options.topology, replies)

    def compare_as_configuration(self, word: str, path: str) -> None:
        """Has the program compare what the switches answered last with a configuration."""
        config = f"{self.options.input}.{word}.json"
        status, text = self.import_tables(word)
        if status != 0:
            where = entry_at(f"{self.options.input}.{word}", text)
            say_why("import", self.options.topology, f"{self.options.input}.{word}")
            next_step = "go on with --resume" if self.conversation.core.begun else "begin again with another record"
            raise Stop(
                (
                    "`planner import` refuses the tables of the switches:"
                    f" {text.strip()}{f', which is {where}' if where else ''}"
                ),
                f"change it at the switch, docs/FORMATS.md says what is wrong with it; then {next_step}",
            )
        write(config, text)
        status, text = self.check_tables(text, config, path)
        if status != 0:
            raise Stop(
                f"the switches don't have the tables of {path}: {text.strip()}",
                f"compare {config}, which has those that they have, with {path}",
            )
        words = f"the switches have the tables of {path}{self.but_the_absent()}"
        self.record.remark(words)
        progress(words)

    def check_tables(self, text: str, config: str, path: str) -> tuple[int, str]:
        """Has the program compare the configuration in a file with that of a path. A switch that isn't spoken with
        counts as having what it is to have."""
        absent = self.conversation.absent
        with contextlib.ExitStack() as files:
            plan = files.enter_context(temporary("plan", json.dumps(NO_ROUNDS).encode()))
            if absent:
                wanted, had = plain(read_json(path).root)["rules"], json.loads(text)
                had["rules"] += [rule for rule in wanted if rule["switch"] in absent]
                config = files.enter_context(temporary("json", json.dumps(had).encode()))
            words = ["check", self.options.topology, config, path, self.options.policy, plan]
            status, text = self.conversation.ask(*words)
            if status != 0:
                say_why(*words)
        return status, text

    def but_the_absent(self) -> str:
        """Which switches aren't spoken with, behind what is said of all."""
        names = sorted(self.conversation.absent)
        return f", but {', '.join(names)}, which {'is' if len(names) == 1 else 'are'} dead" if names else ""

    def to_be_given(self, name: str) -> int:
        """How many entries a switch must have by now."""
        return len(self.must_have().rules.get(name, {}))


class MissingMark:
    """The mark of the update isn't on a switch where it was put."""

    def __init__(self, switch: str, mark: Mark) -> None:
        self.switch, self.mark = switch, mark

    def __str__(self) -> str:
        return f"{self.switch}: missing: the mark of this update, {self.mark}: somebody took it away, or all entries"

    def can_be_repaired(self) -> bool:
        return True


def with_own_xid(message: bytes, is_last: bool) -> bytes:
    """A message of `emit` with an xid of this script's, so that its answer isn't taken for one to `serve`. The rest
    stays."""
    return message[:4] + (REPAIR_BARRIER if is_last else REPAIR_XID).to_bytes(4, "big") + message[8:]


def entries(count: int) -> str:
    return f"{count} entr{'y' if count == 1 else 'ies'}"


def now_words() -> str:
    return time.strftime("%Y-%m-%dT%H:%M:%SZ", time.gmtime())
