"""What becomes of packets outside of the model while an update is carried out, and of what the switches keep beside
their entries: said before the question."""
from __future__ import annotations

import re

TYPE_CHECKING = False
if TYPE_CHECKING:
    from typing import Any, Sequence

# Entries above this priority are those that a two-phase plan puts in and takes away again.
LAST_PRIORITY = 16383
TO_CONTROLLER = re.compile(r"^# (\S+): what no entry takes is sent to the controller$", re.M)
COOKIES = re.compile(r"^# (\S+): (\d+) of its entries have a cookie$", re.M)


def meanwhile(plan: dict[str, Any], old: Sequence[dict[str, Any]], replies: str) -> list[str]:
    """Sentences for a plan in format 2, the rules that the switches have, and the text of the file REPLIES."""
    return [*dropped(plan, old, set(TO_CONTROLLER.findall(replies))), *cookies(plan, dict(COOKIES.findall(replies)))]


def spans(plan: dict[str, Any]) -> dict[str, tuple[int, int]]:
    """By switch the rounds, from the first to the last one, in which a two-phase plan has entries that drop at an
    ingress port all that its other ones don't take."""
    found: dict[str, tuple[int, int]] = {}
    for number, changes in enumerate(plan["rounds"], 1):
        for _, at in changes:
            rule = plan["rules"][at]
            if rule["out"] == "drop" and rule["priority"] > LAST_PRIORITY and rule.get("vlan", "any") == "any":
                found[rule["switch"]] = (found.get(rule["switch"], (number,))[0], number)
    return found


def dropped(plan: dict[str, Any], old: Sequence[dict[str, Any]], to_controller: set[str]) -> list[str]:
    """Which packets are dropped in which rounds that aren't now: a line for each kind of packets and span of rounds."""
    if plan["kind"] != "two-phase":
        return []
    taking = {rule["switch"] for rule in old if rule.get("vlan", "any") == "any"}
    found: dict[tuple[bool, int, int], list[str]] = {}
    for switch, (first, last) in spans(plan).items():
        for is_sent_up, names in ((True, to_controller), (False, taking)):
            if switch in names:
                found.setdefault((not is_sent_up, first, last), []).append(switch)
    return [
        f"Note: in rounds {first} to {last} {', '.join(names)} drop{'s' if len(names) == 1 else ''} IP packets of hosts"
        + (
            " with VLANs that the topology doesn't declare, which rules for any VLAN take now."
            if is_undeclared
            else f" that no rule takes, as of DHCP, which {'it sends' if len(names) == 1 else 'they send'} to the"
            " controller now."
        )
        for (is_undeclared, first, last), names in sorted(found.items())
    ]


def cookies(plan: dict[str, Any], counts: dict[str, str]) -> list[str]:
    """That entries with cookies lose them where they are put back."""
    changed = {plan["rules"][at]["switch"] for changes in plan["rounds"] for do, at in changes if do != "insert"}
    names = sorted(name for name in counts if name in changed)
    if not names:
        return []
    told = ", ".join(f"{counts[name]} at {name}" for name in names)
    return [
        f"Note: entries have cookies ({told}): one that the plan deletes, and that is put back where the update is"
        " turned back, has the cookie 0 then."
    ]
