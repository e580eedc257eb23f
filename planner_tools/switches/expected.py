"""What each switch must have by `planner tables`, and what differs from that in what it answers. The comparison is made
here, entry by entry, and isn't proved; the tables are the program's."""
from __future__ import annotations

import json
import socket
import struct

from planner_tools.switches.entries import Entry, ExtendedEntry, action_words, cut_entries
from planner_tools.switches.marks import Mark

TYPE_CHECKING = False
if TYPE_CHECKING:
    from typing import Any, Collection, Sequence

    from planner_tools.switches.connections import Connection


def rule_key(rule: dict[str, Any]) -> tuple[int, int | str, int | str, int, int]:
    """What names an entry: priority, ingress port, VLAN, prefix. It is that of `Entry.test`."""
    base, _, length = rule["dst"].partition("/")
    return (
        rule["priority"], rule.get("in_port", "any"), rule.get("vlan", "any"),
        int.from_bytes(socket.inet_aton(base), "big"), int(length),
    )


def rule_action(rule: dict[str, Any]) -> str:
    """What a rule does with a packet, in the words of `action_words`."""
    if rule["out"] == "drop":
        return "drop"
    rewrite = f"set VLAN {rule['set']}, " if "set" in rule else "strip VLAN, " if rule.get("strip") else ""
    return f"{rewrite}output {rule['out']}"


def key_words(key: tuple[int, int | str, int | str, int, int]) -> str:
    priority, in_port, vlan, base, length = key
    words = f"priority {priority} {socket.inet_ntoa(struct.pack('!I', base))}/{length}"
    words += f" in_port {in_port}" if in_port != "any" else ""
    return words + (f" VLAN {vlan}" if isinstance(vlan, int) else f" {vlan}" if vlan != "any" else "")


class Expected:
    """The tables that the switches must have. Of an entry that a pending change of the running round is about, either
    state may be there."""

    def __init__(self, text: str) -> None:
        value = json.loads(text)
        self.rules: dict[str, Any] = {}        # by switch: rules by key, and what their pending changes make of keys
        self.pending: dict[str, Any] = {}
        for rule in value["rules"]:
            self.rules.setdefault(rule["switch"], {})[rule_key(rule)] = rule
        for change in value["pending"]:
            after = None if change["do"] == "delete" else {word: it for word, it in change.items() if word != "do"}
            self.pending.setdefault(change["switch"], {})[rule_key(change)] = after

    def differences(self, name: str, answers: Answers, is_decided: bool = False) -> list[Difference]:
        """What of a switch's answers isn't as it must be. Where it is decided that no pending change of the switch is
        in force, each entry must be as before."""
        rules, pending = self.rules.get(name, {}), {} if is_decided else self.pending.get(name, {})
        found, seen = [], set()
        for entry in answers.shown():
            key, odd = entry.test(), entry.oddity()
            allowed = (
                {action_of(rules.get(key)), action_of(pending[key])} if key in pending else {action_of(rules.get(key))}
            )
            if odd or key in seen or allowed == {None}:
                found.append(Difference(name, key, None, str(entry), odd or entry.time_words(), is_named=odd is None))
                continue
            seen.add(key)
            action = ", ".join(action_words(entry.actions)) or "drop"
            if action not in allowed or entry.time_words():
                found.append(
                    Difference(name, key, rules.get(key), action if key in rules else str(entry), entry.time_words())
                )
        for key, rule in rules.items():
            if key not in seen and not (key in pending and pending[key] is None):
                found.append(Difference(name, key, rule, None))
        return sorted(found, key=lambda one: (-one.key[0], str(one.key)))


def action_of(rule: dict[str, Any] | None) -> str | None:
    return None if rule is None else rule_action(rule)


class Difference:
    """An entry of a switch that isn't as it must be: the rule that must stand there, or None; what is there, in words,
    or None; what is odd of it; and whether a rule's message reaches it."""

    def __init__(
        self, switch: str, key: tuple[int, int | str, int | str, int, int], rule: dict[str, Any] | None,
        there: str | None, odd: str | None = None, is_named: bool = True,
    ) -> None:
        self.switch, self.key, self.rule, self.there, self.odd, self.is_named = switch, key, rule, there, odd, is_named

    def __str__(self) -> str:
        if self.there is None:
            return f"{self.switch}: missing: {key_words(self.key)} -> {action_of(self.rule)}"
        if self.rule is None:
            return f"{self.switch}: too much: {self.there}{f': {self.odd}' if self.odd else ''}"
        must = f"must be {rule_action(self.rule)}" if self.odd is None else self.odd
        return f"{self.switch}: not as it must be: {key_words(self.key)} -> {self.there}: {must}"

    def can_be_repaired(self) -> bool:
        """Whether a message of the program can put it right: it names an entry of table 0 by priority, ingress port,
        VLAN and prefix alone."""
        return self.rule is not None or self.is_named and 1 <= self.key[0] <= 65535

    def repair(self) -> tuple[str, dict[str, Any]]:
        """The change that puts it right, with its rule, as in a plan."""
        if self.rule is None:
            priority, in_port, vlan, base, length = self.key
            return "delete", {
                "switch": self.switch, "priority": priority, "in_port": in_port, "vlan": vlan, "out": "drop",
                "dst": f"{socket.inet_ntoa(struct.pack('!I', base))}/{length}",
            }
        return "insert" if self.there is None or self.odd else "replace", self.rule


def repair_plan(found: Sequence[Difference], dead: Collection[str] = ()) -> dict[str, Any]:
    """A plan, for `planner emit`, that puts differences right, a change a round. Entries are put in from the greatest
    priority down, and then taken out from the least up. So at each moment each packet meets at the switch what it met
    since the difference came about, or what it must meet: no rule is in force before those above it, and none is laid
    open that stood under one that goes later. At dead switches, which no packet passes, entries are taken out first:
    there may be no room for more."""
    wanted = sorted((one for one in found if one.rule is not None), key=lambda one: -one.key[0])
    other = sorted((one for one in found if one.rule is None), key=lambda one: one.key[0])
    first = [one for one in other if one.switch in dead]
    changes = [one.repair() for one in [*first, *wanted, *(one for one in other if one.switch not in dead)]]
    return {
        "format": 2, "kind": "ordered", "rules": [rule for _, rule in changes],
        "rounds": [[[do, at]] for at, (do, _) in enumerate(changes)], "numberings": [], "befores": [], "uses": [],
        "picks": [],
    }


class Answers:
    """What a switch answers to the questions for its table on one connection: messages of statistics, of both kinds
    where it has both."""

    def __init__(self, base: int = 0, connection: Connection | None = None) -> None:
        self.base = base             # what the xids of the questions are counted from
        self.connection = connection     # where it was asked
        self.is_whole = False
        self.flow: list[bytes] = []
        self.extended: list[bytes] | None = []

    def marks(self) -> list[Mark]:
        """The marks of updates."""
        return [mark for mark in map(Mark.of, self.entries()) if mark is not None]

    def entries(self) -> list[Entry]:
        """The entries of its statistics of OpenFlow 1.0. ValueError where they don't fill it."""
        return [Entry(data) for reply in self.flow for data in cut_entries(reply[12:], 88)]

    def shown(self) -> list[Entry | ExtendedEntry]:
        """The entries that may matter to an IPv4 packet, as its extended statistics show them where it has such,
        otherwise as the others do."""
        if self.extended is None:
            return [one for one in self.entries() if not one.without_effect()]
        shown = [ExtendedEntry(data) for reply in self.extended for data in cut_entries(reply[24:], 48)]
        return [one for one in shown if one.table != 0 or not one.without_effect()]
