"""What differs between two configurations, entry by entry: for `planner show`."""
from __future__ import annotations

from planner_tools import network as nets
from planner_tools.files import counted

TYPE_CHECKING = False
if TYPE_CHECKING:
    from typing import Any, Sequence

    from planner_tools.network import Network

KINDS = {"insert": "new", "replace": "changed", "delete": "deleted"}


def key_of(rule: dict[str, Any]) -> tuple[str, int, int | str, int | str, str]:
    """What names an entry: its switch, priority and match."""
    return rule["switch"], rule["priority"], rule.get("in_port", "any"), rule.get("vlan", "any"), rule["dst"]


def values_of(old: Sequence[dict[str, Any]], new: Sequence[dict[str, Any]], network: Network) -> dict[str, Any]:
    """The entries that differ, by switch: what is done, the rule, and what was there before."""
    before, after = ({key_of(rule): rule for rule in rules} for rules in (old, new))
    changes: list[tuple[str, dict[str, Any], dict[str, Any] | None]]
    changes = [("delete", rule, rule) for key, rule in before.items() if key not in after]
    changes += [("insert", rule, None) for key, rule in after.items() if key not in before]
    changes += [
        ("replace", rule, before[key])
        for key, rule in after.items()
        if key in before and before[key]["out"] != rule["out"]
    ]
    changes.sort(
        key=lambda one: (
            network.numbers[one[1]["switch"]], -one[1]["priority"], nets.prefix(one[1]["dst"]), str(key_of(one[1])),
        )
    )
    return {
        "counts": {kind: sum(do == kind for do, _, _ in changes) for kind in KINDS},
        "same": len(after) - sum(do != "delete" for do, _, _ in changes),
        "changes": [{"do": do, "rule": rule, "before": was} for do, rule, was in changes],
    }


def lines_of(old_name: str, new_name: str, values: dict[str, Any], network: Network) -> list[str]:
    counts, changes = values["counts"], values["changes"]
    switches = list(dict.fromkeys(one["rule"]["switch"] for one in changes))
    has_priority = len({one["rule"]["priority"] for one in changes}) > 1
    lines = [
        f"{old_name} to {new_name}: {counted(len(changes), 'entry differs', 'entries differ')} at"
        f" {counted(len(switches), 'switch', 'switches')}: "
        + ", ".join(f"{counts[kind]} {word}" for kind, word in KINDS.items())
        + f"; {values['same']} as before"
    ]
    for switch in switches:
        mine = [one for one in changes if one["rule"]["switch"] == switch]
        lines += ["", f"{switch}: {counted(len(mine), 'entry', 'entries')}"]
        lines += [
            "  " + nets.change_words(one["do"], one["rule"], one["before"], network, has_priority) for one in mine
        ]
    return lines
