"""The weights of links that a graph tells: how long they are, and how fast."""
from __future__ import annotations

import math

TYPE_CHECKING = False
if TYPE_CHECKING:
    from typing import Any, Callable, Sequence

    from planner_tools.convert.from_graphml import Graph

# The radius of the earth in km, and the speed in bits a second at which a link counts 1, as routers have it for links
# of that speed.
EARTH, REFERENCE = 6371.0, 1e11
# The members of an edge that say how long it is, in small letters.
LENGTHS = ("distance", "length", "linklength", "dist")
UNITS = {"": 1.0, "K": 1e3, "M": 1e6, "G": 1e9, "T": 1e12}
LEAST, MOST = 0.001, 1e9


def number(text: str | None) -> float | None:
    """The positive finite number of a text, or None where it is none."""
    try:
        found = float(text or "")
    except ValueError:
        return None
    return found if math.isfinite(found) and found > 0 else None


def place(values: dict[str, str]) -> list[float] | None:
    """Where a node is, in radians, or None where it isn't told."""
    try:
        found = [math.radians(float(values[name])) for name in ("Latitude", "Longitude")]
    except (KeyError, ValueError):
        return None
    return found if all(map(math.isfinite, found)) else None


def distance(edge: dict[str, str], one: dict[str, str], other: dict[str, str]) -> float | None:
    """The length of an edge: what it says, otherwise that of the great circle between its nodes, in km; None where
    neither is told."""
    named = {name.lower(): value for name, value in edge.items() if name}
    told = next((number(named[name]) for name in LENGTHS if number(named.get(name)) is not None), None)
    end, other_end = place(one), place(other)
    if told is not None or end is None or other_end is None:
        return told
    (north, east), (other_north, other_east) = end, other_end
    half = (
        math.sin((other_north - north) / 2) ** 2
        + math.cos(north) * math.cos(other_north) * math.sin((other_east - east) / 2) ** 2
    )
    return 2 * EARTH * math.asin(min(1.0, math.sqrt(half)))


def speed(edge: dict[str, str], _one: dict[Any, Any], _other: dict[Any, Any]) -> float | None:
    """The weight of an edge by its speed: the faster, the less; None where it isn't told."""
    bits, speed_of_link = number(edge.get("LinkSpeedRaw")), number(edge.get("LinkSpeed"))
    if bits is None and speed_of_link is not None and edge.get("LinkSpeedUnits", "") in UNITS:
        bits = speed_of_link * UNITS[edge.get("LinkSpeedUnits", "")]
    return None if bits is None else REFERENCE / bits


HEADS = {
    distance: "# The ends of each link, and its length, in km where the graph has no other.",
    speed: "# The ends of each link, and 100 Gbit/s over its speed.",
}


def weights_text(
    measure: Callable[..., Any], graph: Graph, links: Sequence[tuple[list[str], int]]
) -> tuple[str, list[str]]:
    """The file of weights for `planner route`, and the links that have none. `links` has the ends of each with the
    number of its edge."""
    lines, lacking = [HEADS[measure]], []
    for ends, at in links:
        weight = measure(graph.edge_values[at], *(graph.nodes[node] for node in graph.edges[at]))
        if weight is None:
            lacking.append(" - ".join(ends))
        else:
            lines.append(f"{' '.join(ends)} {min(max(weight, LEAST), MOST):.3f}")
    return "\n".join(lines) + "\n", lacking
