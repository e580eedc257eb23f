"""Carries out a plan on the switches of a network, or takes it back. Every byte that changes what becomes of a packet is decided by the program; this script
carries bytes.

    planner apply TOPOLOGY OLD NEW POLICY PLAN INPUT --switches FILE [--listen HOST:PORT] [--wait SECONDS | --ask] [--patience SECONDS]
                  [--resume] [--back] [--without SWITCH].. [--recover] [--repair [SWITCH]].. [--take-over] [--no-mark] [--strict] [--quiet]

FILE and --listen are those of `planner collect`. INPUT is the record of the update, a new file. `planner serve` stays beside this script for the whole run: it
is given a line for each round that begins, for what the switches send, and for each session that is opened anew, and what it answers is sent. Each line is
on the disk, in INPUT, before it is given. So `planner serve TOPOLOGY OLD NEW POLICY PLAN < INPUT` tells anyone later what was sent, what was answered,
and how far the update came.

    --wait SECONDS      a round begins so long after the one before was settled, the first one so long after the tables were read (2 s). It has to be
                        longer than any packet is on its way: this no message shows
    --ask               instead, a round begins when the operator presses Enter
    --patience SECONDS  how long a switch may be away, or may take for anything it is asked (60 s)
    --resume            go on with an INPUT that an earlier run left
    --recover           where INPUT is lost: make it anew from what the switches have, and go on with it as by --resume or --back. It takes away the mark of
                        the update: a controller that had put it is to stop
    --back              go on with it backwards: turn the round that runs, and undo those that are settled, one by one, up to OLD. Any update can be turned
                        back, also one that is done, after a failed session, and in the middle of a round; --resume then carries it out once more
    --without SWITCH    go on, or back, or begin, without a switch that is gone: no packet passes it any more. It is waited for no more, and not compared.
                        The record keeps that, until
    --repair SWITCH     the switch is there again, and no packet has passed it: give it the table that it must have by now. Then it takes part again
    --repair            where a switch doesn't have what it must have, give it that, by messages of `planner emit`, in place of stopping
    --take-over         take away the marks of other updates from the switches, once it is known that this one can go on: their controllers are to stop
    --no-mark           put no mark on the switches: another controller isn't told of this update, and its mark isn't minded
    --strict, --quiet   end where there is something to warn of in the files; say nothing but refusals, and what is asked by --ask

What the switches have is read when a run begins, before each round, after each lost connection and at the end, and compared with what `planner tables`
says they must have. At the beginning and at the end the program itself compares it with OLD and NEW: INPUT.before and INPUT.after keep what the switches
answered, and INPUT.before.json and INPUT.after.json the configurations.

Exit status: 0 all rounds are settled and the switches have NEW, or with --back none is and they have OLD; 1 stopped, a line says why, how far it came, and
what to do next; 2 wrong words; 3 warnings, with --strict: nothing was sent.
"""
from __future__ import annotations

import argparse
import hashlib
import pathlib
import re
import shlex
import sys
import time
from typing import Collection, Sequence

from planner.core import Core
from planner_tools import events, program
from planner_tools.proved import How, look
from planner_tools.switches import ends, under_way
from planner_tools.switches.comparison import Comparison, entries
from planner_tools.switches.connections import (
    Connection, Stop, fault_words, listening_address, lock, progress, read_switches, say,
)
from planner_tools.switches.conversation import Conversation
from planner_tools.switches.failures import files_of
from planner_tools.switches.marking import Marking
from planner_tools.switches.pace import Pace
from planner_tools.switches.record import Record
from planner_tools.voice import TELLING

# The exit status where warnings end it.
WARNED = 3
# The words by which a record is gone on with, as they stand in what is next; they take the place of those that were
# given. Behind those that name a switch its name stands in the same word.
MODE_WORDS = ("--resume", "--back", "--recover", "--repair=", "--take-over")
NAMING = ("--repair", "--without")
NAME = r"[A-Za-z0-9_][A-Za-z0-9_-]{0,31}"
MODES = re.compile(
    rf"--(?:resume|back)(?: --(?:(?:repair|without) {NAME}|repair|take-over|recover|no-mark)(?![A-Za-z0-9_-]))*"
)


class Update:
    """An update, round by round: a conversation with the program and the switches, the comparison of their tables, the
    marks on them, and the pace of rounds."""

    def __init__(self, options: argparse.Namespace) -> None:
        self.options = options
        listed = read_switches(options.switches, options.topology)
        see_that_they_are_listed(options, listed)
        self.lock = lock(options.switches)
        sums = [hashlib.sha256(pathlib.Path(one).read_bytes()).hexdigest() for one in files_of(options)]
        self.record = Record(options.input, options.resume, f"files {' '.join(one[:16] for one in sums)}")
        self.pace = Pace(options)
        self.conversation = Conversation(options, listed, self.record, self.pace.times, self)
        self.marking = Marking(options, self.conversation)
        self.comparison = Comparison(options, self.conversation, self.marking, self.pace)

    @property
    def core(self) -> Core:
        """What `planner serve` has said."""
        return self.conversation.core

    def is_open(self) -> bool:
        """Whether `planner serve` has accepted the plan, and taken the lines of the record."""
        return self.conversation.session is not None

    def run(self) -> None:
        begun = time.monotonic()
        self.conversation.open_session()
        progress(f"the plan is accepted; {self.conversation.state()}")
        self.leave_out()
        if self.options.back and self.core.is_running and not self.core.is_back:
            self.turn()
        self.conversation.connect()
        self.marking.is_marked = self.record.is_marked and self.is_on_the_way() and not self.options.no_mark
        self.comparison.compare()
        if self.is_to_go_on() and not self.marking.is_marked:
            self.comparison.put_marks()
        if not self.core.begun:
            self.comparison.compare_as_configuration("before", self.options.old)
        self.pace.packets_are_under_way()
        while self.is_to_go_on():
            self.conversation.pump()
            self.comparison.compare_suspects()
            if self.may_begin():
                self.pace.asked = False
                if self.comparison.compare() and self.conversation.are_all_there():
                    self.begin_round()
        self.end(begun)

    def end(self, begun: float) -> None:
        """All is done: compares the tables with those that are wanted, and takes the marks away."""
        wanted = self.options.old if self.options.back else self.options.new
        self.comparison.compare()
        while self.core.dead - self.conversation.absent:
            self.conversation.pump()         # they take part again when their connection has stood
            self.comparison.compare_suspects()
        self.comparison.compare_as_configuration("after", wanted)
        self.marking.take_away()
        # a switch whose connection was lost meanwhile is looked at again
        while not self.conversation.has_all():
            self.conversation.pump()
        self.comparison.compare_suspects()
        self.record.keep()
        progress(
            f"done: {self.what_is_done()}, and the switches have the tables of"
            f" {wanted}{self.comparison.but_the_absent()}; {time.monotonic() - begun:.1f} s; the record is"
            f" {self.options.input}{self.for_the_absent(wanted)}"
        )

    def for_the_absent(self, wanted: str) -> str:
        """What the switches that are gone have to be given, and how."""
        names = sorted(self.conversation.absent)
        if not names:
            return ""
        each = ", ".join(f"{name} the {entries(self.comparison.to_be_given(name))}" for name in names)
        way = "--back" if self.options.back else "--resume"
        then = way + "".join(f" --repair {name}" for name in names)
        return (
            f". Next: when {'it is' if len(names) == 1 else 'they are'} there again, and before a packet passes, give"
            f" {each} that {wanted} has for {'it' if len(names) == 1 else 'them'}: {then} does"
            f" so{typed(self.options.words, then, self.core.dead)}"
        )

    def what_is_done(self) -> str:
        if not self.options.back:
            return f"all {self.core.rounds} rounds are settled"
        if not self.core.begun:
            return "no round was begun"
        return f"no round is settled any more, {self.core.carried_out} were carried out and {self.core.undone} undone"

    def is_on_the_way(self) -> bool:
        """Whether the update is neither at its beginning nor at its end."""
        return self.core.is_running or 0 < self.core.settled < self.core.rounds

    def is_to_go_on(self) -> bool:
        """Whether there is a round that runs, or a next one on the way that is asked for."""
        return self.core.is_running or (
            self.core.settled > 0 if self.options.back else self.core.settled < self.core.rounds
        )

    def leave_out(self) -> None:
        """Says of the switches that are gone that they are dead, where the record doesn't say it yet."""
        for name in self.options.without:
            if name not in self.core.dead:
                words = f"{name} is gone, and is waited for no more: no packet may pass it before --repair {name}"
                self.record.remark(words)
                progress(words)
                self.record.give(f"dead {name}")
        self.conversation.follow()

    def turn(self) -> None:
        """Turns the running round. Its messages are sent when the switches are there: to each that has what it must
        have, behind `reopen`."""
        words = f"round {self.core.number()} is turned back"
        self.record.remark(words)
        progress(words)
        self.record.give("back")
        self.conversation.follow()

    def may_begin(self) -> bool:
        """Whether there is a next round, every switch is there, and the packets that entered before have left, by the
        operator's rule."""
        if self.core.is_running or not self.is_to_go_on() or not self.conversation.are_all_there():
            return False
        next_round = (
            f"the undoing of round {self.core.settled}" if self.options.back else f"round {self.core.settled + 1}"
        )
        return self.pace.may_begin(f"{next_round} of {self.core.rounds}")

    def begin_round(self) -> None:
        """Begins the next round, or to undo the one that was settled last."""
        waited = self.pace.waited()
        self.record.remark(
            f"round {self.core.settled} is undone, {waited}"
            if self.options.back
            else f"round {self.core.settled + 1} starts, {waited}"
        )
        self.pace.round_begins()
        self.record.give("back" if self.options.back else "start")
        self.conversation.follow()

    # ---- what the conversation hears

    def has_answered(self, connection: Connection) -> None:
        self.comparison.look_at_returned(connection)

    def may_ask(self) -> bool:
        return self.comparison.may_ask()

    def was_refused(self, name: str, xid: int, words: str) -> None:
        self.marking.was_refused(name, xid, words)
        self.comparison.was_refused(name, xid, words)

    def has_settled(self) -> None:
        self.pace.round_is_settled(self.core)

    def leave(self) -> None:
        """Takes the mark away where nothing of the update was begun, and closes the connections."""
        self.marking.take_away_unheard()
        self.conversation.close()


def see_that_they_are_listed(options: argparse.Namespace, names: Collection[str]) -> None:
    """It is Stop where an option names what is no switch."""
    for option, given in (("--without", options.without), ("--repair", options.repair)):
        for name in given:
            if name and name not in names:
                raise Stop(
                    f"{option} {name}: {options.topology} has no switch {name}", f"name one of {', '.join(names)}"
                )


def stopped(update: Update | None, options: argparse.Namespace, why: BaseException, words: Sequence[str]) -> None:
    """Says in one line why it stopped, how far it came, and what to do next."""
    is_begun = options.resume or update is not None and update.record.starts
    go_on = "go on with --resume" if is_begun or update is not None and update.is_open() else "begin again"
    if isinstance(why, Stop):
        what, then = why.what, why.then
    elif isinstance(why, KeyboardInterrupt):
        what, then = ends.interrupt_words(why), go_on
    else:
        what, then = fault_words(why), f"see to it; then {go_on}"
    then, far = other_ways(update, options, then), how_far(update, options)
    if update is not None:
        note_end(update, options, f"stopped: {what}; {far}. Next: {then}")
    dead = update.core.dead if update is not None and update.is_open() else set()
    say(f"stopped: {what}; {far}. Next: {then}{typed(words, then, dead)}")
    events.tell("stopped", what=what, far=far, next=then)


def how_far(update: Update | None, options: argparse.Namespace) -> str:
    if update is not None and update.is_open():
        return update.conversation.state()
    if update is not None and options.resume:
        return f"{update.record.starts} rounds were started by the record, and nothing was sent in this run"
    return "nothing was sent in this run" if options.resume else "nothing was sent"


def note_end(update: Update, options: argparse.Namespace, words: str) -> None:
    """Notes the end in the record; where nothing was begun, there is none."""
    if not update.is_open() and not options.resume:
        update.record.remove()
        return
    try:
        update.record.remark(words)
        update.record.keep()
    except Stop:
        pass


def typed(words: Sequence[str], then: str, dead: Collection[str] = ()) -> str:
    """The command that does what is next, as it can be typed, behind the words that say it. Of the switches that are
    dead the record says so: the command may be typed when they are there again."""
    found = MODES.search(then)
    if not found or "--recover with another record" in then:
        return ""
    mode = [] if f"leave out {found[0]}" in then else found[0].split()
    others = [parted(word) for word in words if not word.startswith(MODE_WORDS)]
    said = {*mode, *dead}
    kept = [part for parts in others if parts[0] != "--without" or parts[1] not in said for part in parts]
    return f" (`{shlex.join([program.typed(), 'apply', *kept, *mode])}`)"


def parted(word: str) -> list[str]:
    """An option and the name of a switch, which stand in one word, as two."""
    option, sign, name = word.partition("=")
    return [option, name] if sign and option in NAMING else [word]


def with_names(words: Sequence[str]) -> list[str]:
    """The words, where the name of a switch behind an option stands in the same word with it. So the name of a file
    that stands behind `--repair` isn't taken for that of a switch."""
    found: list[str] = []
    for word in words:
        if found and found[-1] in NAMING and re.fullmatch(NAME, word):
            found[-1] += f"={word}"
        else:
            found.append(word)
    return ["--repair=" if word == "--repair" else word for word in found]


def other_ways(update: Update | None, options: argparse.Namespace, then: str) -> str:
    """What to do next, for the way on which the update is; and that it can be turned."""
    is_begun = update is not None and update.is_open() and update.core.begun
    if options.back:
        return then.replace("--resume", "--back") + (
            "; --resume in its place carries the update out again" if is_begun else ""
        )
    return then + ("; --back in its place turns the update back" if is_begun and "--resume" in then else "")


def add_pace(parser: argparse.ArgumentParser) -> None:
    """Adds the options that say when a round begins, and how long a switch may be away."""
    parser.add_argument("--wait", metavar="SECONDS", type=float, default=2.0)
    parser.add_argument("--ask", action="store_true")
    parser.add_argument("--patience", metavar="SECONDS", type=float, default=60.0)


def parser_of_words() -> argparse.ArgumentParser:
    parser = argparse.ArgumentParser(
        prog="planner apply", description=__doc__, formatter_class=argparse.RawDescriptionHelpFormatter
    )
    for name in ("topology", "old", "new", "policy", "plan", "input"):
        parser.add_argument(name, metavar=name.upper())
    parser.add_argument("--switches", metavar="FILE", required=True)
    parser.add_argument("--listen", metavar="HOST:PORT", type=listening_address)
    add_pace(parser)
    parser.add_argument("--resume", action="store_true")
    parser.add_argument("--back", action="store_true")
    parser.add_argument("--without", metavar="SWITCH", action="append", default=[])
    parser.add_argument("--recover", action="store_true")
    parser.add_argument("--repair", metavar="SWITCH", nargs="?", const="", action="append", default=[])
    parser.add_argument("--take-over", action="store_true")
    parser.add_argument("--no-mark", action="store_true")
    parser.add_argument("--strict", action="store_true")
    parser.add_argument("--quiet", action="store_true")
    return parser


def is_ended_by_warnings(options: argparse.Namespace, how: How) -> bool:
    """Says the warnings about the files. Whether they are the end; nothing was done by then."""
    try:
        _, is_ended = look(how, "check", options.topology, options.old, options.new, options.policy, options.plan)
    except program.CannotRun:
        return False         # that is said where the program is begun
    if is_ended:
        say(
            "stopped: there are warnings, and --strict is given; nothing was"
            f" sent{' in this run' if options.resume else ''}. Next: correct what they name, or leave out --strict"
        )
    return is_ended


def main(words: Sequence[str], how: How | None = None) -> int:
    """Does what the words say. `how` is that of a command that does this one as its last step."""
    words = with_names(words)
    parser = parser_of_words()
    options = parser.parse_args(words)
    options.words = words
    if set(options.without) & set(options.repair):
        parser.error("--without and --repair of one switch: it is either gone or there again")
    options.resume = options.resume or options.back       # only what is begun can be turned
    TELLING.is_quiet = TELLING.is_quiet or options.quiet
    ends.heed_signals()
    update = None
    try:
        if is_ended_by_warnings(options, how or How(options.quiet, options.strict)):
            return WARNED
        if options.recover:
            options.resume, options.take_over = False, True      # where that ends it there is no record
            under_way.recover(options)
            options.resume = True
        update = Update(options)
        update.run()
        return 0
    except (Stop, OSError, KeyboardInterrupt) as why:
        ends.mind_no_signals()
        stopped(update, options, why, words)
        return 1
    finally:
        if update is not None:
            update.leave()


if __name__ == "__main__":
    sys.exit(main(sys.argv[1:]))
