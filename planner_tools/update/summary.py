"""What a plan is, in words: for whoever has to say whether it may be carried out."""
from __future__ import annotations


TYPE_CHECKING = False
if TYPE_CHECKING:
    from typing import Any

VERBS = {"insert": "inserted", "replace": "replaced", "delete": "deleted"}


def counted(number: int, one: str, many: str | None = None) -> str:
    """`1 round`, `2 rounds`."""
    return f"{number} {one if number == 1 else many or one + 's'}"


def duration(seconds: float) -> str:
    """Seconds, or minutes from two of them on, or hours from two of those on."""
    if seconds < 120:
        return counted(round(seconds), "second")
    return f"{round(seconds / 60)} minutes" if seconds < 7200 else f"{seconds / 3600:.1f} hours"


def changes_of(plan: dict[str, Any]) -> list[list[tuple[str, str]]]:
    """The changes of each round of a plan in format 2: what is done, and at which switch."""
    return [[(do, plan["rules"][rule]["switch"]) for do, rule in changes] for changes in plan["rounds"]]


def summary(plan: dict[str, Any], switches: int, wait: float | None) -> list[str]:
    """Sentences on a plan in format 2 for a network of so many switches, where it is waited so many seconds before each
    round; None for the wait where the operator says when a round begins."""
    rounds = changes_of(plan)
    changes = [change for one in rounds for change in one]
    kinds = [
        f"{sum(do == kind for do, _ in changes)} {verb}"
        for kind, verb in VERBS.items()
        if any(do == kind for do, _ in changes)
    ]
    lines = [
        f"The plan has {counted(len(rounds), 'round')} with {counted(len(changes), 'change')} at"
        f" {len({switch for _, switch in changes})} of {counted(switches, 'switch', 'switches')}:"
        f" {', '.join(kinds) or 'nothing'} ({'entry' if len(changes) == 1 else 'entries'})."
    ]
    if plan["kind"] == "two-phase":
        lines.append(
            "It works in two phases: packets that enter are marked with a tag, and each goes by the old or by the new"
            " rules all the way."
        )
    else:
        lines.append("It is ordered: packets keep the VLANs with which they came.")
    if wait is None:
        lines.append("Each round begins when you say so.")
    else:
        lines.append(f"With {wait:g} s before each round it takes at least {duration(len(rounds) * wait)}.")
    return lines
