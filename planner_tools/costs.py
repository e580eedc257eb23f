"""What a plan of `pack` costs, and what one of the other kind would: rounds, changes, switches, and the time that it
takes at least. Where there is no ordered plan, which packets the changes that are left could harm.

For this the program is run again: with the other KIND, and where there is no ordered plan by `certify`, once for each
of the changes that are left.
"""
from __future__ import annotations

import json
import re
import tempfile
import time

from planner_tools import network as nets
from planner_tools.files import counted
from planner_tools.story import Tables, action_of

TYPE_CHECKING = False
if TYPE_CHECKING:
    from typing import Any, Sequence

ORDERED, TWO_PHASE = "ordered", "two-phase"
OTHER = {ORDERED: TWO_PHASE, TWO_PHASE: ORDERED}
ARTICLES = {ORDERED: "an ordered plan", TWO_PHASE: "a two-phase plan"}
WAIT = 2.0
# So many seconds are spent at most on the changes that are left, and so many classes of packets are named.
LONGEST, NAMED = 5.0, 8
NO_EVIDENCE = re.compile(r"no evidence: round \d+ at (\S+) (\S+) ([\d.]+)\n")


def duration(seconds: float) -> str:
    """Seconds, or minutes from two of them on, or hours from two of those on."""
    if seconds < 120:
        return f"{seconds:g} s"
    return f"{round(seconds / 60)} minutes" if seconds < 7200 else f"{seconds / 3600:.1f} hours"


def cost_words(plan: dict[str, Any], switches: int, wait: float | None) -> str:
    """The cost of a plan in format 2 for a network of so many switches, where it is waited so many seconds before each
    round; None where nobody knows."""
    changed = [plan["rules"][rule]["switch"] for changes in plan["rounds"] for _, rule in changes]
    least = "" if wait is None else f", at least {duration(len(plan['rounds']) * wait)}"
    return (
        f"{counted(len(plan['rounds']), 'round')}, {counted(len(changed), 'change')} at {len(set(changed))} of"
        f" {counted(switches, 'switch', 'switches')}{least}"
    )


class Costs:
    """The costs of plans for one update: `ask` runs the program with some words, `paths` are the four files."""

    def __init__(self, ask: Any, paths: Sequence[str], wait: float | None) -> None:
        self.ask, self.paths, self.wait = ask, paths, wait
        with open(paths[0], encoding="utf-8") as file:
            self.switches = len(json.load(file)["switches"])

    def words(self, plan: dict[str, Any]) -> list[str]:
        """A line for the plan, and what the other kind would cost."""
        return [
            f"this is {ARTICLES[plan['kind']]}: {cost_words(plan, self.switches, self.wait)}",
            *self.other_words(OTHER[plan["kind"]]),
        ]

    def other_words(self, kind: str) -> list[str]:
        """What a plan of a kind would cost, or why there is none."""
        status, text = self.ask("pack", *self.paths, kind)
        if status == 0:
            return [
                f"{ARTICLES[kind]} (KIND `{kind}`) would have {cost_words(json.loads(text), self.switches, self.wait)}"
            ]
        if status == 1 and text.startswith("no ordered plan\n"):
            return self.needed_words(text)
        if status in (4, 5):
            return [f"there is no {kind} plan: {text.splitlines()[0]}"]
        return []

    def needed_words(self, text: str) -> list[str]:
        """Why there is no ordered plan, by the text that says so: the classes that the changes left would harm."""
        rounds = json.loads(text.partition("\ntried: ")[2])
        left = self.left_after(rounds)
        harmed, others, seen = self.harmed(rounds, left)
        before = f"behind {counted(len(rounds), 'round')} of one change none" if rounds else "none"
        lines = [
            f"there is no ordered plan: {before} of the {counted(len(left), 'change')} that"
            f" {'is' if len(left) == 1 else 'are'} left is safe alone"
        ]
        lines += [
            f"  packets that enter at {host} {nets.vlan_words(vlan)} for {address} could be harmed by the change"
            f" {listed(switches)}"
            for (host, vlan, address), switches in list(harmed.items())[:NAMED]
        ]
        if len(harmed) > NAMED:
            lines.append(f"  and {counted(len(harmed) - NAMED, 'more class', 'more classes')} of packets")
        lines += (
            [f"  {listed(others)} there is no room for the change, or it meets an entry of its priority"]
            if others
            else []
        )
        if seen < len(left):
            lines.append(
                f"  {counted(len(left) - seen, 'change')} of them {'was' if len(left) - seen == 1 else 'were'} not"
                " looked at, for want of time"
            )
        return lines

    def left_after(self, rounds: Sequence[Sequence[dict[str, Any]]]) -> list[dict[str, Any]]:
        """The changes that lead from the tables behind some rounds to the new ones."""
        with open(self.paths[1], encoding="utf-8") as old, open(self.paths[2], encoding="utf-8") as new:
            tables, wanted = Tables(json.load(old)["rules"]), Tables(json.load(new)["rules"]).rules
        for changes in rounds:
            for change in changes:
                tables.make(change["do"], {name: value for name, value in change.items() if name != "do"})
        have = tables.rules
        left = [{"do": "delete", **have[key]} for key in have if key not in wanted]
        return left + [
            {"do": "replace" if key in have else "insert", **rule}
            for key, rule in wanted.items()
            if key not in have or action_of(have[key]) != action_of(rule)
        ]

    def harmed(self, rounds: Sequence[Any], left: Sequence[dict[str, Any]]) -> tuple[Any, list[str], int]:
        """By the first class of packets that no evidence keeps safe the switches whose changes could harm it; the
        switches of the other changes; and how many changes were looked at."""
        until = time.monotonic() + LONGEST
        found: dict[tuple[str, str, str], list[str]] = {}
        others: list[str] = []
        for seen, change in enumerate(left):
            if time.monotonic() > until:
                return found, others, seen
            harm = NO_EVIDENCE.match(self.certified([*rounds, [change]]))
            if harm:
                found.setdefault((harm[1], harm[2], harm[3]), []).append(change["switch"])
            else:
                others.append(change["switch"])
        return found, others, len(left)

    def certified(self, rounds: Sequence[Sequence[dict[str, Any]]]) -> str:
        """What `certify` says of rounds without evidence."""
        plan = {"format": 1, "kind": ORDERED, "rounds": rounds, "numberings": [], "befores": [], "picks": []}
        with tempfile.NamedTemporaryFile("w", suffix=".json", encoding="utf-8") as file:
            json.dump(plan, file)
            file.flush()
            return self.ask("certify", *self.paths, file.name)[1]


def listed(switches: Sequence[str]) -> str:
    """Switches by name, each once."""
    names = list(dict.fromkeys(switches))
    return "at " + ", ".join(names[:NAMED]) + (f" and {len(names) - NAMED} more" if len(names) > NAMED else "")
