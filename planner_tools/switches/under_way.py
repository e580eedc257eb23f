"""Updates under way: whose marks and entries are on the switches, where the record of such an update is and how far it
came; and where the record is lost, which round of its plan the tables stand in, and a record made anew from that.

A record that is made anew has the lines by which `planner serve` comes to that round: each switch's HELLO, the rounds
that were started, and the answers that each switch gave by then. What is sent from there on follows from these lines,
as from any record.
"""
from __future__ import annotations

import fcntl
import glob
import hashlib
import json
import math
import os

import planner
from planner_tools.files import NotJson, read_json
from planner_tools.network import plain
from planner_tools.proved import REFUSALS, answer_for
from planner_tools.switches import beside, collect, openflow
from planner_tools.switches.connections import Stop, lock, progress
from planner_tools.switches.entries import action_words
from planner_tools.switches.expected import rule_action, rule_key
from planner_tools.switches.record import HEAD, SUM, Record

TYPE_CHECKING = False
if TYPE_CHECKING:
    import argparse
    import re
    from typing import Any, Callable, Iterator, Sequence

    from planner.core import Core, Message
    from planner.session import Session
    from planner_tools.switches.marks import Mark

FILES = ("topology", "old", "new", "policy", "plan")
# So many names of switches are told of a longer list.
TOLD = 4


# ---- records

class Head:
    """The first line of a record: the mark of its update, and the sums of its files."""

    def __init__(self, path: str, found: re.Match) -> None:
        self.path, self.token, self.begun = path, bytes.fromhex(found[1]), int(found[2])
        self.sums = found[3].split(" ")[1:]

    def files(self) -> list[str] | None:
        """Its five files, as they were when it was begun, from the record's folder or the one above; or None where one
        isn't there."""
        folder = os.path.dirname(self.path)
        found = [
            next(
                (
                    path
                    for path in (
                        os.path.join(folder, f"{name}.json"), os.path.join(os.path.dirname(folder), f"{name}.json"),
                    )
                    if sum_of(path) == total
                ),
                "",
            )
            for name, total in zip(FILES, self.sums)
        ]
        return found if len(found) == len(FILES) and all(found) else None

    def is_at_work(self) -> bool:
        """Whether a run is at work with it."""
        with open(self.path, "rb") as file:
            try:
                fcntl.flock(file, fcntl.LOCK_EX | fcntl.LOCK_NB)
            except BlockingIOError:
                return True
        return False

    def core(self, files: Sequence[str]) -> Core | None:
        """How far the update came, by what `planner serve` says of its lines; or None where it doesn't take them."""
        with open(self.path, encoding="ascii", errors="replace") as file:
            lines = [line[:-1] for line in file if line.endswith("\n") and not line.startswith("#") and line.strip()]
        try:
            with session_of(files) as session:
                for _ in session.replies(lines):
                    pass
                return session.core
        except (planner.Refused, planner.ServeEnded):
            return None


def session_of(files: Sequence[str]) -> Session:
    """A session of the library over five files."""
    try:
        return planner.Session(*files, patience=math.inf, program=beside.path())
    except planner.NoProgram as fault:
        raise beside.not_run(fault.__cause__ or fault) from None


def sum_of(path: str) -> str | None:
    try:
        with open(path, "rb") as file:
            return hashlib.sha256(file.read()).hexdigest()[:16]
    except OSError:
        return None


def head_of(path: str) -> Head | None:
    """The head of a record, or None where the file is none."""
    try:
        with open(path, "rb") as file:
            lines = file.read(512).decode("ascii", "replace").split("\n")
    except OSError:
        return None
    found = HEAD.fullmatch(lines[1]) if len(lines) > 2 and SUM.fullmatch(lines[0]) else None
    return Head(path, found) if found else None


def heads_in(folder: str) -> list[Head]:
    """The heads of the records that `planner update` left in a folder, and of those that stand in it, the newest
    first."""
    paths = [
        *glob.glob(os.path.join(glob.escape(folder), "update-*", "*")),
        *glob.glob(os.path.join(glob.escape(folder), "*")),
    ]
    heads = [head_of(path) for path in paths if os.path.isfile(path)]
    return sorted((one for one in heads if one is not None), key=lambda one: -one.begun)


def record_near(path: str, marks: Sequence[Mark]) -> str | None:
    """The record of an update that has one of these marks, near another record; or None."""
    folder = os.path.dirname(os.path.abspath(path))
    tokens = {mark.token for mark in marks}
    for at in (folder, os.path.dirname(folder)):
        for head in heads_in(at):
            if head.token in tokens:
                return os.path.relpath(head.path) if not os.path.isabs(path) else head.path
    return None


# ---- which round the tables stand in

class Standing:
    """Where tables stand in a plan: so many rounds are settled, whether the next one is half made, and the entries that
    are as in no such state."""

    def __init__(self, rounds: int, settled: int, is_running: bool, wrong: set[tuple[str, Any]]) -> None:
        self.rounds, self.settled, self.is_running, self.wrong = rounds, settled, is_running, wrong

    def __str__(self) -> str:
        words = f"{self.settled} of {self.rounds} rounds are settled"
        return words + (f", and round {self.settled + 1} is half made" if self.is_running else "")


def tables_of(tables: collect.Tables) -> dict[tuple[str, Any], str]:
    """The entries that the switches have: what each does, by the switch and its test; of one that no rule can say its
    own words."""
    found = {}
    for name, answers in tables.answers.items():
        for entry in answers.shown():
            odd = entry.oddity() or entry.time_words()
            found[name, entry.test()] = odd or ", ".join(action_words(entry.actions)) or "drop"
    return found


def states(rules: Sequence[dict[str, Any]], plan: dict[str, Any]) -> Iterator[tuple[Any, Any]]:
    """For each number of settled rounds the entries by then, and what the next round makes of those that it changes."""
    state = {(rule["switch"], rule_key(rule)): rule_action(rule) for rule in rules}
    for changes in [*plan["rounds"], []]:
        after: dict[Any, str | None]
        after = {
            (rule["switch"], rule_key(rule)): None if do == "delete" else rule_action(rule)
            for do, rule in ((do, plan["rules"][at]) for do, at in changes)
        }
        yield state, after
        state = {key: it for key, it in {**state, **after}.items() if it is not None}


def standing(rules: Sequence[dict[str, Any]], plan: dict[str, Any], there: dict[tuple[str, Any], str]) -> Standing:
    """Where tables stand in a plan. Where they are those of no state of it, it is the state to which the fewest entries
    are wanting."""
    rounds = len(plan["rounds"])
    best: Standing | None = None
    for number, (state, after) in enumerate(states(rules, plan)):
        wrong = {key for key in state.keys() | there.keys() if state.get(key) != there.get(key)}
        made = {key for key in wrong & after.keys() if there.get(key) == after[key]}
        one = Standing(rounds, number, bool(made) and number < rounds, wrong - made)
        if best is None or (len(one.wrong), one.is_running) <= (len(best.wrong), best.is_running):
            best = one
    assert best is not None          # there is a state before the first round
    return best


def standing_of(files: Sequence[str], tables: collect.Tables) -> Standing | None:
    """Where the tables stand in the plan of five files, by the switches that were asked; None where the files can't be
    read as such."""
    topology, old, _, _, plan = files
    status, text = answer_for(REFUSALS, "upgrade", topology, plan)
    try:
        if status != 0:
            return None
        made = json.loads(text)
        asked = [
            [(do, at) for do, at in changes if made["rules"][at]["switch"] in tables.names]
            for changes in made["rounds"]
        ]
        rules = [rule for rule in plain(read_json(old).root)["rules"] if rule["switch"] in tables.names]
        return standing(rules, {**made, "rounds": asked}, tables_of(tables))
    except (NotJson, OSError, KeyError, ValueError, TypeError):
        return None


def recover(options: argparse.Namespace) -> None:
    """Makes the record of an update anew, from what the switches have."""
    if os.path.exists(options.input):
        raise Stop(
            f"{options.input} is there already",
            "go on with it by --resume or --back, or give the record that is made anew another name",
        )
    files = [options.topology, options.old, options.new, options.policy, options.plan]
    held = lock(options.switches)
    try:
        found = standing_of(files, collect.read(options, options.without))
    finally:
        held.close()
    if found is None:
        raise Stop(
            f"{options.old} or {options.plan} can't be read",
            "give the files of the update: `planner check` says more of them",
        )
    if found.wrong and not options.repair:
        names = ", ".join(sorted({name for name, _ in found.wrong}))
        raise Stop(
            (
                f"the tables of the switches are those of no round of {options.plan}: they come nearest to where"
                f" {found}, and {len(found.wrong)} entries of {names} are otherwise"
            ),
            (
                "see that these are the files of the update; then --recover --repair goes on from there, and puts those"
                " entries right"
            ),
        )
    write_record(options.input, files, found)
    progress(f"the record {options.input} is made anew from what the switches have: {found}")


def write_record(path: str, files: Sequence[str], found: Standing) -> None:
    """Writes the record of an update that came so far."""
    record = Record(path, False, f"files {' '.join(sum_of(one) or '' for one in files)}")
    try:
        with session_of(files) as session:
            give_lines(record, session, files[0], found)
            core = session.core
    except (planner.Refused, planner.ServeEnded) as end:
        record.remove()
        raise Stop(
            f"`planner serve` ended with status {end.status}{f' and said: {end.text.strip()}' if end.text else ''}",
            "give the files of the update",
        ) from None
    finally:
        record.file.close()
    if (core.settled, core.is_running) != (found.settled, found.is_running):
        os.unlink(path)
        raise Stop(f"`planner serve` doesn't come to where {found}", "see that the program is as new as these scripts")


def give_lines(record: Record, session: Session, topology: str, found: Standing) -> None:
    """Gives the lines by which `serve` comes so far, and has them in the record."""
    def give(line: str) -> list[Message]:
        record.give(line)
        return [message for reply in session.replies([line]) for message in reply.messages]

    record.remark("this record is made anew from what the switches have; its lines are no answers that were heard")
    for one in plain(read_json(topology).root)["switches"]:
        give(f"feed {one['name']} {openflow.HELLO_BYTES.hex()}")
    for _ in range(found.settled):
        for one in give("start"):
            if openflow.type_of(one.data) == openflow.BARRIER_REQUEST:
                give(f"feed {one.switch} {openflow.message(openflow.BARRIER_REPLY, openflow.xid_of(one.data)).hex()}")
    if found.is_running:
        give("start")
    record.keep()


# ---- what `planner update` finds

def listed(names: Sequence[str]) -> str:
    return ", ".join(names[:TOLD]) + (f" and {len(names) - TOLD} more" if len(names) > TOLD else "")


class Found:
    """An update under way that was found on the switches: what is said of it, and what to do next."""

    def __init__(self, what: str, then: str) -> None:
        self.what, self.then = what, then


def find(folder: str, tables: collect.Tables, command: Callable[..., Any]) -> Found | None:
    """The update under way of which the tables have marks, or entries of a two-phase plan; or None. Its record is
    looked for in a folder. `command` makes the line of `planner apply` for five files and a record."""
    marks = tables.marks()
    if not marks and not tables.has_tagging_entries():
        return None
    heads = heads_in(folder)
    for mark, names in marks.items():
        what = f"an update is under way: {listed(names)} {'has' if len(names) == 1 else 'have'} its mark, {mark}"
        head = next((one for one in heads if one.token == mark.token), None)
        return of_record(what, head, command) if head else of_lost_record(what, mark, folder, tables, command)
    return of_entries(folder, heads, tables, command)


def core_words(core: Core) -> str:
    words = f"{core.settled} of {core.rounds} rounds are settled"
    if core.is_running:
        words += f", and round {core.number()} is {'being undone' if core.is_back else 'running'}"
    return words + (f", without {', '.join(sorted(core.dead))}" if core.dead else "")


def of_record(what: str, head: Head, command: Callable[..., Any]) -> Found:
    """What there is to say of an update whose record is there."""
    what, files = f"{what}; its record is {head.path}", head.files()
    is_at_work = head.is_at_work()
    if files is None:
        return Found(
            what,
            (
                f"go on with that record by `planner apply .. {head.path} --resume`, or turn it back by --back, with"
                " the files as they were when it was begun: one of them isn't there any more, or was changed"
            ),
        )
    core = None if is_at_work else head.core(files)
    what += ", and a run is at work with it" if is_at_work else f": {core_words(core)}" if core else ""
    lines = f"`{command(files, head.path)} --resume` carries it on, `{command(files, head.path)} --back` turns it back"
    return Found(
        what, f"wait for the end of that run, or end it there by Ctrl-C; then {lines}" if is_at_work else lines
    )


def plans_in(folder: str, tables: collect.Tables) -> Iterator[tuple[str, list[str], Standing]]:
    """Five files of an update in a folder, in whose plan the tables stand between the beginning and the end, or at one
    of them; with where they stand."""
    for at in sorted(
        glob.glob(os.path.join(glob.escape(folder), "update-*")),
        key=lambda one: -int(one.rpartition("-")[2]) if one.rpartition("-")[2].isdigit() else 0,
    ):
        files = [
            next(
                (
                    path
                    for path in (os.path.join(at, f"{name}.json"), os.path.join(folder, f"{name}.json"))
                    if os.path.isfile(path)
                ),
                "",
            )
            for name in FILES
        ]
        where = standing_of(files, tables) if all(files) else None
        if where is not None and not where.wrong:
            yield at, files, where


def of_lost_record(what: str, mark: Mark, folder: str, tables: collect.Tables, command: Callable[..., Any]) -> Found:
    """What there is to say of an update whose record isn't there."""
    for at, files, where in plans_in(folder, tables):
        line = command(files, free_name(at))
        return Found(
            f"{what}. Its record isn't in {folder}; by the tables of the switches {where}, of {files[4]}",
            (
                f"see that nothing is at work with it any more; then `{line} --recover` carries it on from there,"
                f" `{line} --recover --back` turns it back"
            ),
        )
    return Found(
        f"{what}. Its record isn't in {folder}, nor a plan whose tables these are",
        (
            f"look for its record, a file whose second line begins with `# update {mark.token.hex()}`, where it was"
            " begun: `planner apply .. RECORD --resume` carries it on, and --back turns it back; with its plan alone"
            " --recover makes the record anew. Where both are lost, `planner apply` with --take-over --repair gives"
            " the switches the tables of an OLD, entry by entry: packets may be dropped meanwhile"
        ),
    )


def of_entries(folder: str, heads: Sequence[Head], tables: collect.Tables, command: Callable[..., Any]) -> Found | None:
    """What there is to say where no mark is there, but the entries of a two-phase plan that was begun here."""
    for at, files, where in plans_in(folder, tables):
        if not 0 < where.settled + where.is_running or where.settled == where.rounds:
            continue
        what = f"an update is under way: the switches have the entries of {files[4]}, in which {where}"
        head = next((one for one in heads if os.path.dirname(one.path) == at), None)
        if head is not None:
            return of_record(what, head, command)
        line = command(files, free_name(at))
        return Found(
            f"{what}. Its record isn't in {folder}",
            f"`{line} --recover` carries it on from there, `{line} --recover --back` turns it back",
        )
    return None


def free_name(folder: str) -> str:
    """The name of a record that isn't there yet."""
    name, number = os.path.join(folder, "record"), 1
    while os.path.exists(name):
        number += 1
        name = os.path.join(folder, f"record-{number}")
    return name
