"""Takes over a network as one finds it: says what of the switches' tables the planner takes, what it leaves out and what it can't say, and writes the old
configuration. Where switches are in standalone mode, or empty, it leads them to entries of one's own.

    planner adopt NET --switches FILE [--own CONFIG] [--listen HOST:PORT] [--patience SECONDS] [--yes | --dry-run]
                  [--strict] [--quiet]

NET has topology.json, and may have policy.json and new.json; FILE and --listen are those of `planner collect`. What is found at each switch is printed. Where
an entry can't be said in a configuration nothing is done. Otherwise the rules that are taken, and with them those of CONFIG that aren't there yet, are what
`planner config` has to find good, and NET/old.json; a file that is there and says something else stays, and ends it. CONFIG is NET/new.json where no
switch has an entry that is taken.

The default entry of a bridge in standalone mode (NORMAL) can't be said, and no plan reaches it. Where a switch has it, or rules of CONFIG are missing, it is
asked whether they may be put in. Then, in this order, at all switches:

- the missing rules are put in, by the messages of `planner emit`, from the greatest priority down. They lie above the default entry;
- the tables are read again, and have to be as they must be;
- the default entries are taken away, each alone, by a strict command with the match that the switch reports;
- the tables are read once more.

Between the first and the last of these messages nothing is claimed of packets: some go by NORMAL, some by the rules. Behind them IP packets for which there is
no rule, and packets of other types (ARP, IPv6) without an entry of their own, are dropped, where NORMAL had sent them.

With --strict it ends where there is something to warn of in the files, and nothing is written or sent. With --quiet nothing is said but refusals and the question.

Exit status: 0 done, or nothing was to be done, or it was a dry run; 1 refused, not wanted, or a switch didn't answer; 2 wrong words; 3 and others those of
`planner import` and `planner config`.
"""
from __future__ import annotations

import argparse
import json
import os
import struct
import sys
import tempfile
import time

from planner_tools.files import like_folder
from planner_tools.proved import BAD_FILE, Given, How, look, say_why
from planner_tools.switches import openflow
from planner_tools.switches.collect import Reading, Tables
from planner_tools.switches.connections import (
    OWN, Stop, Switches, fault_words, listening_address, progress, read_switches, say,
)
from planner_tools.switches.entries import STANDALONE, TO_NORMAL
from planner_tools.switches.expected import rule_action, rule_key
from planner_tools.voice import TELLING

TYPE_CHECKING = False
if TYPE_CHECKING:
    from typing import Any, Callable, Sequence

    from planner_tools.switches.connections import Connection
    from planner_tools.switches.entries import Entry, ExtendedEntry
    from planner_tools.switches.expected import Answers

ADOPT_XID, ADOPT_BARRIER = OWN + 0x30, OWN + 0x31
DELETE_STRICT = 4
REFUSED = 1


class Finding(Reading):
    """What a switch has: what is taken and left out as in `Reading`; and its default entry of standalone mode, or
    None."""

    def __init__(self, name: str, answers: Answers) -> None:
        self.default: Entry | None = None
        super().__init__(name, answers.flow, answers.extended)

    def keep(self, entry: Entry) -> bytes:
        if entry.fault() == STANDALONE:
            self.default = entry
            return b""
        return super().keep(entry)

    def compare(self, extended: Sequence[ExtendedEntry]) -> None:
        super().compare(
            [
                one
                for one in extended
                if not (one.table == 0 and one.priority == 0 and one.type is None and one.actions[:6] == TO_NORMAL)
            ]
        )

    def words(self) -> str:
        """What is found, in a line."""
        left = ", ".join(f"{count} {why}" for why, count in self.left_out.items())
        words = f"{self.name}: {count_words(len(self.tests))} taken"
        words += f", {count_words(sum(self.left_out.values()))} left out ({left})" if left else ""
        words += f", {count_words(len(self.faults))} can't be said" if self.faults else ""
        return words + (", and the default entry of standalone mode, NORMAL" if self.default else "")


def count_words(number: int) -> str:
    return f"{number} entr{'y' if number == 1 else 'ies'}"


class Adopting:
    def __init__(self, options: argparse.Namespace) -> None:
        self.options = options
        self.topology = os.path.join(options.folder, "topology.json")
        self.policy, self.new, self.old = (
            os.path.join(options.folder, f"{name}.json") for name in ("policy", "new", "old")
        )
        if not os.path.isdir(options.folder):
            raise Stop(
                f"{options.folder} is no folder", f"name the one with topology.json{like_folder(options.folder)}"
            )
        self.listed = read_switches(options.switches, self.topology)
        self.switches: Switches | None = None
        self.owed: set[str] = set()
        self.findings: dict[str, Finding] = {}

    def run(self) -> int:
        """Does all of it, and returns the exit status."""
        self.switches = Switches(self.listed, self.options.listen, self.options.patience)
        self.read()
        for one in self.findings.values():
            progress(one.words())
        for one in self.findings.values():
            for fault in one.faults:
                say(fault)
        self.refuse_what_cannot_be_said()
        status, there = self.imported()
        if status != 0:
            return status
        missing = self.missing(there)
        rules = there + missing
        status = self.judged(rules)
        if status != 0:
            return status
        self.write_old(rules)
        defaults = [name for name, one in self.findings.items() if one.default]
        if not missing and not defaults:
            progress(f"nothing is to be done at the switches: they have the tables of {self.old}")
            return 0
        if not self.is_wanted(missing, defaults):
            return 0
        self.put(missing)
        self.look(rules)
        self.take_defaults_away(defaults)
        self.look(rules, without_defaults=True)
        progress(f"done: the switches have the tables of {self.old}, and no default entry")
        return 0

    def connections(self) -> Switches:
        """The connections, once they are made or taken."""
        assert self.switches is not None
        return self.switches

    # ---- what the switches have

    def read(self) -> None:
        """Reads the tables of all switches."""
        tables = Tables(list(self.listed))
        for connection in self.connections().named.values():
            tables.ask(connection)
        self.until(lambda: not tables.missing(), tables)
        self.findings = {name: Finding(name, tables.answers[name]) for name in self.listed}
        marks = [f"{name} has the mark {mark}" for name, answers in tables.answers.items() for mark in answers.marks()]
        if marks:
            raise Stop(
                f"an update is at work: {'; '.join(marks)}",
                "wait for its end, or take its record up by `planner apply --resume` or `--back`",
            )

    def until(self, is_done: Callable[..., Any], tables: Tables | None = None) -> None:
        """Takes what comes until something is so."""
        end = time.monotonic() + self.options.patience
        while not is_done():
            if time.monotonic() > end:
                names = sorted(tables.missing() if tables else self.owed)
                raise Stop(
                    (
                        "no answer from"
                        f" {', '.join(f'{name}{self.connections().why_away(name)}' for name in names)} within"
                        f" {self.options.patience:g} s"
                    ),
                    "see that they are connected, and begin again: what they have then is read anew",
                )
            for what, connection, message in self.connections().poll(0.05):
                if what == "up" and tables:
                    tables.ask(connection)
                elif what == "down" and connection.name in self.owed:
                    raise Stop(
                        f"{connection.name} closed its connection",
                        "begin again: what the switches have then is read anew",
                    )
                elif what == "down" and tables:
                    tables.lost(connection)
                elif what == "message" and not (tables and tables.take(connection, message)):
                    self.take(connection, message)

    def take(self, connection: Connection, message: bytes) -> None:
        """Takes an answer to what was sent."""
        if openflow.xid_of(message) not in (ADOPT_XID, ADOPT_BARRIER):
            return
        if openflow.type_of(message) == openflow.ERROR:
            words = openflow.error_words(int.from_bytes(message[8:10], "big"), int.from_bytes(message[10:12], "big"))
            raise Stop(
                f"{connection.name} refuses a change: {words}",
                "see to that, and begin again: what the switches have then is read anew",
            )
        if openflow.type_of(message) == openflow.BARRIER_REPLY:
            self.owed.discard(connection.name)

    def refuse_what_cannot_be_said(self) -> None:
        faults = sum(len(one.faults) for one in self.findings.values())
        if faults:
            raise Stop(
                f"{count_words(faults)} can't be said in a configuration: they stand above",
                "change them at the switches; docs/CONTROLLER.md says how, and README what can't be said",
            )

    def imported(self) -> tuple[int, list[dict[str, Any]]]:
        """The status of `planner import`, and the rules that the switches have."""
        text = "".join(f"{line}\n" for one in self.findings.values() for line in one.lines)
        with tempfile.NamedTemporaryFile("w", encoding="ascii", prefix="planner-", suffix=".replies") as file:
            file.write(text)
            file.flush()
            status, said = say_why("import", self.topology, file.name)
        return status, json.loads(said)["rules"] if status == 0 else []

    # ---- what they are to have

    def missing(self, there: Sequence[dict[str, Any]]) -> list[dict[str, Any]]:
        """The rules of one's own that aren't there."""
        path = self.options.own or (self.new if not there and os.path.isfile(self.new) else None)
        if path is None:
            return []
        try:
            with open(path, encoding="utf-8") as file:
                own = json.load(file)["rules"]
            held = {(rule["switch"], rule_key(rule)): rule for rule in there}
            others = [
                f"{one['switch']} {one['dst']}"
                for one in own
                if (one["switch"], rule_key(one)) in held
                and rule_action(held[one["switch"], rule_key(one)]) != rule_action(one)
            ]
        except (ValueError, KeyError, TypeError, AttributeError, OSError) as fault:
            raise Stop(
                f"{path} isn't read as a configuration: {fault}",
                f"`planner config {self.topology} {path}` says what is wrong with it",
            ) from None
        if others:
            raise Stop(
                f"a rule of {path} is there with another output: {', '.join(others[:6])}",
                (
                    "`planner update` leads from the rules that are there to others; without --own they are taken as"
                    " they are"
                ),
            )
        return [one for one in own if (one["switch"], rule_key(one)) not in held]

    def judged(self, rules: Sequence[dict[str, Any]]) -> int:
        """The status of `planner config` for the rules, with the policy where there is one."""
        policy = [self.policy] if os.path.isfile(self.policy) else []
        with tempfile.NamedTemporaryFile("w", encoding="utf-8", prefix="planner-", suffix=".json") as file:
            json.dump({"rules": rules}, file)
            file.flush()
            words: list[Given | str] = ["config", self.topology, Given(file.name, self.old), *policy]
            if look(How(self.options.quiet, self.options.strict), *words)[1]:
                say(
                    "stopped: there are warnings, and --strict is given; nothing was written or sent. Next: correct"
                    " what they name, or leave out --strict"
                )
                return BAD_FILE
            status, _ = say_why(*words)
        if status != 0:
            say(
                "stopped: no plan can start from these rules; nothing was written or sent. Next: --own CONFIG names"
                " rules that are put in beside those that are there; docs/CONTROLLER.md says what to do with a network"
                " that is empty or broken"
            )
        return status

    def write_old(self, rules: Sequence[dict[str, Any]]) -> None:
        """Writes the old configuration, where it isn't there."""
        def ordered(listed: Sequence[dict[str, Any]]) -> list[str]:
            return sorted(json.dumps(rule, sort_keys=True) for rule in listed)

        try:
            with open(self.old, "x", encoding="utf-8") as file:
                file.write(json.dumps({"rules": rules}, separators=(",", ":"), sort_keys=True) + "\n")
            progress(f"{self.old} is written: {len(rules)} rules")
        except FileExistsError:
            try:
                with open(self.old, encoding="utf-8") as file:
                    is_same = ordered(json.load(file)["rules"]) == ordered(rules)
            except (ValueError, KeyError, TypeError, OSError):
                is_same = False
            if not is_same:
                raise Stop(
                    f"{self.old} is there, and says something else than the switches would have",
                    "move it away, and begin again",
                ) from None
            progress(f"{self.old} has these rules already")

    def is_wanted(self, missing: Sequence[dict[str, Any]], defaults: Sequence[str]) -> bool:
        """Whether the switches may be changed."""
        tell: Callable[..., None] = say
        if self.options.yes or self.options.dry_run:
            tell = progress
        if missing:
            tell(
                f"{count_words(len(missing))} will be put in, at"
                f" {', '.join(sorted({rule['switch'] for rule in missing}))}"
            )
        if defaults:
            tell(
                f"then the default entry of {', '.join(defaults)} will be taken away, alone: packets that no rule"
                " takes, and those of other types (ARP, IPv6) without an entry of their own, are dropped from then on"
            )
        if self.options.dry_run:
            progress("a dry run ends here: nothing was sent")
            return False
        if self.options.yes:
            return True
        if sys.stdin is None or not (sys.stdin.isatty() and sys.stderr.isatty()):
            raise Stop(
                "there is no terminal to ask; nothing was sent", "answer it with --yes, or look first with --dry-run"
            )
        print("Do it? [y/N] ", end="", file=sys.stderr, flush=True)
        if sys.stdin.readline().strip().lower() in ("y", "yes"):
            return True
        raise Stop("it isn't wanted; nothing was sent", f"{self.old} stays")

    # ---- what is sent

    def send(self, messages: dict[str, list[bytes]]) -> None:
        """Sends messages to each switch, with a barrier request behind them, and waits for the answers."""
        self.owed = set(messages)
        for name, pieces in messages.items():
            self.connections().named[name].send(
                b"".join(pieces) + openflow.message(openflow.BARRIER_REQUEST, ADOPT_BARRIER)
            )
        self.until(lambda: not self.owed)

    def put(self, missing: Sequence[dict[str, Any]]) -> None:
        """Puts rules in, those of greater priority first."""
        rules = sorted(missing, key=lambda rule: -rule["priority"])
        plan = {
            "format": 2, "kind": "ordered", "rules": rules,
            "rounds": [[["insert", number] for number in range(len(rules))]], "numberings": [], "befores": [],
            "uses": [], "picks": [],
        }
        with tempfile.NamedTemporaryFile("w", encoding="utf-8", prefix="planner-", suffix=".json") as file:
            json.dump(plan, file)
            file.flush()
            status, text = say_why("emit", self.topology, file.name)
        if status != 0:
            raise Stop("`planner emit` refuses them", "correct the configuration that --own names")
        messages: dict[str, list[bytes]] = {}
        for line in text.splitlines():
            _, name, data = line.split(" ")
            piece = bytes.fromhex(data)
            if openflow.type_of(piece) == openflow.FLOW_MOD:
                messages.setdefault(name, []).append(piece[:4] + ADOPT_XID.to_bytes(4, "big") + piece[8:])
        self.send(messages)

    def take_defaults_away(self, names: Sequence[str]) -> None:
        """Takes the default entry of each of some switches away, and no other one."""
        def strict_delete(entry: Entry) -> bytes:
            return openflow.message(
                openflow.FLOW_MOD, ADOPT_XID,
                entry.data[4:44]
                + struct.pack("!QHHHHIHH", 0, DELETE_STRICT, 0, 0, entry.priority, 0xFFFFFFFF, 0xFFFF, 0),
            )

        defaults = {name: self.findings[name].default for name in names}
        self.send({name: [strict_delete(entry)] for name, entry in defaults.items() if entry is not None})

    def look(self, rules: Sequence[dict[str, Any]], without_defaults: bool = False) -> None:
        """Reads the tables again: they have to be the rules, and below them perhaps the default entries."""
        self.read()
        wanted = {
            name: sorted(map(repr, (rule_key(rule) for rule in rules if rule["switch"] == name)))
            for name in self.listed
        }
        odd = [
            name
            for name, one in self.findings.items()
            if one.faults or sorted(map(repr, one.tests)) != wanted[name] or without_defaults and one.default
        ]
        if odd:
            raise Stop(
                f"{', '.join(odd)} {'has' if len(odd) == 1 else 'have'} not what {self.old} says",
                "see who else changes the tables, and begin again: what they have then is read anew",
            )


def parser_of() -> argparse.ArgumentParser:
    parser = argparse.ArgumentParser(
        prog="planner adopt", description=__doc__, formatter_class=argparse.RawDescriptionHelpFormatter
    )
    parser.add_argument("folder", metavar="NET")
    parser.add_argument("--switches", metavar="FILE", required=True)
    parser.add_argument("--own", metavar="CONFIG")
    parser.add_argument("--listen", metavar="HOST:PORT", type=listening_address)
    parser.add_argument("--patience", metavar="SECONDS", type=float, default=15.0)
    parser.add_argument("--yes", action="store_true")
    parser.add_argument("--dry-run", action="store_true")
    parser.add_argument("--strict", action="store_true")
    parser.add_argument("--quiet", action="store_true")
    return parser


def main(words: Sequence[str]) -> int:
    options, adopting = parser_of().parse_args(words), None
    TELLING.is_quiet = options.quiet
    try:
        adopting = Adopting(options)
        return adopting.run()
    except (Stop, OSError) as stop:
        say(f"stopped: {fault_words(stop)}. Next: {getattr(stop, 'then', 'see to it, and begin again')}")
        return REFUSED
    finally:
        if adopting is not None and adopting.switches is not None:
            adopting.switches.close()
