"""Which rule counts for a packet at a switch, found by the kinds of patterns that the switch has. `trace` of the
program says the same of one packet."""
from __future__ import annotations

from planner_tools import network as nets

TYPE_CHECKING = False
if TYPE_CHECKING:
    from typing import Any, Sequence


class Tables:
    """The rules of a configuration, by switch, kind of pattern, and what the pattern asks for."""

    def __init__(self, rules: Sequence[dict[str, Any]]) -> None:
        self.kinds: dict[str, dict[tuple[bool, bool, int], Any]] = {}
        for rule in rules:
            first, length = nets.span(rule["dst"])
            port, vlan = rule.get("in_port", "any"), str(rule.get("vlan", "any"))
            kind = self.kinds.setdefault(rule["switch"], {}).setdefault((port != "any", vlan != "any", length), {})
            before = kind.get((port, vlan, first))
            if before is None or before["priority"] < rule["priority"]:
                kind[port, vlan, first] = rule

    def rule(self, switch: str, port: int, vlan: str, address: int) -> dict[str, Any] | None:
        """The rule of the greatest priority among those that cover a packet, or None where none does."""
        best: dict[str, Any] | None = None
        for (has_port, has_vlan, length), kind in self.kinds.get(switch, {}).items():
            found = kind.get(
                (port if has_port else "any", vlan if has_vlan else "any", address >> 32 - length << 32 - length)
            )
            if found is not None and (best is None or found["priority"] > best["priority"]):
                best = found
        return best
