"""`planner show`: a plan, a configuration, what differs between two, or a schedule in words, or as JSON for machines.

What a file holds is what the program reads of it: a plan is read through `upgrade`, a configuration is looked at by
`config`, a schedule is carried out by `replay`. Where the program refuses one, that is said, and nothing is shown.
"""
from __future__ import annotations

import argparse
import json
import os
import sys

from planner_tools import network as nets
from planner_tools import story
from planner_tools.files import NotJson, counted, like, read_json
from planner_tools.intent import entries
from planner_tools.proved import Names, Unable, beside, doubtful, joined, say_why
from planner_tools.voice import Voice

TYPE_CHECKING = False
if TYPE_CHECKING:
    from typing import Any, Sequence

    from planner_tools.network import Network

WAIT = 2.0
BAD_FILE = 3
# The kind of a configuration behind another one.
OTHER = "other configuration"


def kind_of(path: str, shown: str | None = None) -> str:
    """What a file holds, as far as its form tells: a topology, a plan, a configuration, or a schedule. `shown` is its
    name as it is told."""
    shown = shown or path
    try:
        root = read_json(path).root
    except NotJson as fault:
        with open(path, "rb") as file:
            begins = file.read(200).lstrip(b" \t\r\n\xef\xbb\xbf")[:1]
        if begins in (b"{", b"["):
            raise Unable(f"{shown}: it is no JSON that can be shown: {fault.what}", BAD_FILE) from fault
        return "schedule"
    for member, kind in (
        ("rounds", "plan"), ("switches", "topology"), ("rules", "configuration"), ("demands", "policy"),
    ):
        if root.member(member) is not None:
            return kind
    raise Unable(
        f"{shown}: it is neither a plan nor a configuration", BAD_FILE, ["a plan has `rounds`, a configuration `rules`"]
    )


def at_folder(folder: str, name: str) -> str:
    """A name behind a folder: where it is no file, but one of the folder, it is that one."""
    path = joined(folder, name)
    return path if not os.path.exists(name) and os.path.isfile(path) else name


class Shown:
    """The files that are to be shown, by their kinds, with the last one as what is shown."""

    def __init__(self, names: Sequence[str]) -> None:
        self.names = Names()
        self.files: dict[str, str] = {}
        names = self.unfolded([self.names.real(name) for name in ([".", "-"] if names == ["-"] else names)])
        for name in names:
            if not os.path.exists(name):
                raise Unable(f"{name}: No such file or directory{like(name)}", 6)
        for name in names[1:]:
            kind, shown = kind_of(name, self.names.shown(name)), self.names.shown(name)
            if kind == "configuration" and len(names) == 3 and kind in self.files:
                kind = OTHER
            if kind in ("topology", "policy") or kind in self.files:
                raise Unable(
                    f"{shown}: a {kind} isn't shown"
                    if kind not in self.files
                    else f"{shown}: a {kind} stands among the words already",
                    BAD_FILE, ["planner show TOPO [OLD] [PLAN] FILE"],
                )
            self.files[kind] = name
        self.topology, self.last = names[0], OTHER if OTHER in self.files else kind_of(
            names[-1], self.names.shown(names[-1])
        )

    def unfolded(self, names: list[str]) -> list[str]:
        """The names, where a folder in place of the topology stands for the files of it that are left out."""
        folder = names[0]
        if not os.path.isdir(folder):
            if not os.path.exists(folder) and len(names) < 2:
                raise Unable(
                    f"{folder}: No such file or directory{like(folder)}", 2,
                    ["a folder stands for the files that are left out", "planner show TOPO [OLD] [PLAN] FILE"],
                )
            if len(names) < 2:
                raise Unable("the file that is to be shown is missing", 2, ["planner show TOPO [OLD] [PLAN] FILE"])
            return names
        inside = {
            kind: beside(folder, name) or joined(folder, name)
            for kind, name in (("topology", "topology.json"), ("configuration", "old.json"), ("plan", "plan.json"))
        }
        for what, more in doubtful(folder, names[1:]):
            Voice().warn(what, more)
        given = [at_folder(folder, name) for name in names[1:]] or [inside["plan"]]
        before = {"plan": ["configuration"], "schedule": ["configuration", "plan"]}.get(self.kind_of(given[-1]), [])
        have = {self.kind_of(name) for name in given}
        return [
            inside["topology"], *(inside[kind] for kind in before if kind not in have and os.path.isfile(inside[kind])),
            *given,
        ]

    def kind_of(self, name: str) -> str:
        """What a file holds, or nothing where it isn't there."""
        return kind_of(name, self.names.shown(name)) if os.path.exists(name) else ""

    def ask(self, *given: str) -> str:
        """The text of a run of the program over files. Where it refuses them, it is said why, and it is Unable."""
        status, text = say_why(*map(self.names.given, given), good=(0, 1))
        if status not in (0, 1):
            raise Unable(None, status)
        return text

    def network(self) -> Network:
        return nets.Network(read_json(self.topology, self.names.shown(self.topology)))

    def rules(self, kind: str = "configuration") -> list[dict[str, Any]] | None:
        """The rules of a configuration, or None where none is given."""
        name = self.files.get(kind)
        if name is None:
            return None
        self.ask("config", self.topology, name)
        return nets.plain(read_json(name).root)["rules"]

    def plan(self) -> dict[str, Any] | None:
        name = self.files.get("plan")
        return json.loads(self.ask("upgrade", self.topology, name)) if name is not None else None


# ---- a plan

def plan_values(
    plan: dict[str, Any], rules: Sequence[dict[str, Any]] | None, network: Network, wait: float
) -> dict[str, Any]:
    """A plan as values: round by round the changes, each with what was there before."""
    tables, counts = story.Tables(rules or []), {"insert": 0, "delete": 0, "replace": 0}
    rounds: list[dict[str, Any]] = []
    tags: set[int] = set()
    for number, changes in enumerate(plan["rounds"], 1):
        made = []
        for do, at in changes:
            rule = plan["rules"][at]
            before = tables.make(do, rule)
            counts[do] += 1
            tags |= {rule["set"]} if "set" in rule else set()
            made.append(
                {
                    "do": do, "rule": rule, "before": before if do != "insert" else None, "to": next_of(rule, network),
                    "was": next_of(before, network) if before is not None and do != "insert" else None,
                }
            )
        rounds.append({"round": number, "changes": made})
    return {
        "kind": plan["kind"], "rounds": rounds, "counts": counts,
        "switches": sorted({one["rule"]["switch"] for it in rounds for one in it["changes"]}), "tags": sorted(tags),
        "labels": {str(vlan): user for table in plan.get("labels", []) for vlan, _, user in table if vlan in tags},
        "wait": wait, "seconds": wait * len(rounds),
    }


def next_of(rule: dict[str, Any], network: Network) -> str | None:
    """The switch or the host port to which a rule sends, or None where it drops."""
    if rule["out"] == "drop":
        return None
    end = f"{rule['switch']}:{rule['out']}"
    return network.peers[end].rpartition(":")[0] if end in network.peers else end


def change_line(change: dict[str, Any], network: Network, has_priority: bool) -> str:
    """A change in words, as `s1: 10.0.0.0/24 to s4 (port 4), was s2 (port 2)`."""
    return (
        f"{change['rule']['switch']}:"
        f" {nets.change_words(change['do'], change['rule'], change['before'], network, has_priority)}"
    )


def plan_lines(
    name: str, values: dict[str, Any], network: Network, rules: Sequence[dict[str, Any]] | None
) -> list[str]:
    counts, rounds = values["counts"], values["rounds"]
    changes = sum(counts.values())
    priorities = {one["rule"]["priority"] for it in rounds for one in it["changes"]} | {
        one["priority"] for one in rules or []
    }
    lines = [
        f"{name}: {values['kind']}, {counted(len(rounds), 'round')}, {counted(changes, 'change')} at"
        f" {counted(len(values['switches']), 'switch', 'switches')}: {counts['insert']} new,"
        f" {counts['replace']} changed, {counts['delete']} deleted"
    ]
    lines += (
        [f"tags: {', '.join(tag_words(tag, values['labels']) for tag in values['tags'])}"]
        if values["tags"]
        else ["no tags: packets keep the VLANs with which they come"]
        if values["kind"] == "ordered"
        else []
    )
    lines += [
        f"time: with a wait of {values['wait']:g} s before each round {duration(values['seconds'])}, and what the"
        " switches take"
    ]
    for it in rounds:
        lines += ["", f"round {it['round']}: {counted(len(it['changes']), 'change')}"]
        lines += ["  " + change_line(one, network, len(priorities) > 1) for one in it["changes"]]
    return lines


def tag_words(tag: int, labels: dict[str, str]) -> str:
    """A tag, and which packets carry it."""
    user = labels.get(str(tag))
    return (
        f"{tag}"
        if user is None
        else f"{tag} for {'untagged packets' if user == 'untagged' else f'packets with VLAN {user}'}"
    )


def duration(seconds: float) -> str:
    if seconds < 120:
        return f"{seconds:g} s"
    minutes = round(seconds / 60)
    return (
        f"{seconds:g} s, about {minutes} minutes" if minutes < 120 else f"{seconds:g} s, about {minutes / 60:.1f} hours"
    )


# ---- a configuration, a schedule

def configuration_values(rules: Sequence[dict[str, Any]], network: Network) -> dict[str, Any]:
    by_switch = []
    for name, capacity in zip(network.names, network.capacities):
        mine = sorted(
            (one for one in rules if one["switch"] == name),
            key=lambda one: (-one["priority"], nets.prefix(one["dst"]), str(one.get("in_port", ""))),
        )
        by_switch.append(
            {"switch": name, "capacity": capacity, "rules": [{**one, "to": next_of(one, network)} for one in mine]}
        )
    return {"rules": len(rules), "switches": by_switch}


def configuration_lines(name: str, values: dict[str, Any], network: Network) -> list[str]:
    lines = [
        f"{name}: {counted(values['rules'], 'rule')} at"
        f" {counted(sum(bool(one['rules']) for one in values['switches']), 'switch', 'switches')}"
    ]
    for one in values["switches"]:
        lines += ["", f"{one['switch']}: {len(one['rules'])} of {one['capacity']} entries"]
        lines += [
            f"  {nets.match_words(rule)} {nets.action_words(rule, network)}, priority {rule['priority']}"
            for rule in one["rules"]
        ]
    return lines


def schedule_lines(shown: Shown, network: Network) -> list[str]:
    """The events of a schedule in words: whole where the old configuration and the plan are given."""
    path = shown.files["schedule"]
    name = shown.names.shown(path)
    with open(path, encoding="utf-8", errors="replace") as file:
        text = file.read()
    rules, plan = shown.rules(), shown.plan()
    if rules is None or plan is None:
        events = [line for line in text.splitlines() if line and not line.startswith("#")]
        return [
            f"{name}: {counted(len(events), 'event')}; with OLD and PLAN before it, what each one does is shown", "",
            *events,
        ]
    replay = shown.ask("replay", shown.topology, shown.files["configuration"], shown.files["plan"], path)
    rounds = story.Changes(plan)
    lines = story.events_in_words(text, network, rules, rounds, story.traces(replay))
    return [f"{name}: {counted(len(lines), 'event')}, {replay.splitlines()[-1]} rounds", "", *lines]


def parser_of() -> argparse.ArgumentParser:
    parser = argparse.ArgumentParser(
        prog="planner show", description="Shows a plan, a configuration or a schedule in words."
    )
    parser.add_argument(
        "files", metavar="FILE", nargs="+",
        help=(
            "the topology, or a folder; and behind it the file that is shown: before a plan the old configuration, "
            "and before a schedule both, where they are there; of two configurations it is shown what differs"
        ),
    )
    parser.add_argument("--json", action="store_true", help="writes JSON, for machines")
    parser.add_argument(
        "--wait", metavar="SECONDS", type=float, default=WAIT,
        help=f"the wait before each round, for the time that a plan takes ({WAIT:g} s)",
    )
    return parser


def main(words: Sequence[str]) -> int:
    asked = parser_of().parse_args(words)
    try:
        shown = Shown(asked.files)
        network, name = None, shown.names.shown(shown.files[shown.last])
        if shown.last == "plan":
            plan, rules = shown.plan(), shown.rules()
            assert plan is not None
            network = shown.network()
            values = plan_values(plan, rules, network, asked.wait)
            lines = plan_lines(name, values, network, rules)
        elif shown.last == "configuration":
            rules = shown.rules()
            assert rules is not None
            network = shown.network()
            values = configuration_values(rules, network)
            lines = configuration_lines(name, values, network)
        elif shown.last == OTHER:
            rules, others = shown.rules(), shown.rules(OTHER)
            assert rules is not None and others is not None
            network = shown.network()
            values = entries.values_of(rules, others, network)
            lines = entries.lines_of(shown.names.shown(shown.files["configuration"]), name, values, network)
        else:
            lines = schedule_lines(shown, shown.network())
            values = {"events": lines[2:]}
    except Unable as stop:
        if stop.args[0] is None:
            return stop.status       # what the program refused is said already
        raise
    sys.stdout.write(json.dumps(values, indent=1) + "\n" if asked.json else "\n".join(lines) + "\n")
    return 0
