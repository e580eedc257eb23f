#!/usr/bin/env python3
"""Draws the networks of examples/ from their files: docs/NAME.svg shows the links with their ports, and the old and the
new rules for one prefix.

    tools/draw.py             writes the drawings
    tools/draw.py --check     writes nothing, and fails where a drawing is not what this script makes

Only where a switch stands in the drawing is said here. All else is the example's.
"""
from __future__ import annotations

import json
import sys
from typing import NamedTuple

import making

TYPE_CHECKING = False
if TYPE_CHECKING:
    from typing import Any, Iterator

Place = tuple[int, int]
Point = tuple[float, float]


class Layout(NamedTuple):
    """What is said here of an example's drawing."""
    size: Place                              # the width and the height
    prefix: str                              # the prefix whose rules are drawn
    switches: dict[str, Place]               # the middle of each switch
    hosts: dict[str, Place]                  # where the host ports lie, from the middle of their switch
    bends: dict[tuple[str, str], int] = {}   # by how much a link bends aside


LAYOUTS = {
    "square": Layout(
        size=(600, 280),
        prefix="10.0.0.0/24",
        switches={"s1": (190, 45), "s2": (410, 45), "s3": (410, 195), "s4": (190, 195)},
        hosts={"s1:1": (-80, 0), "s2:3": (80, 0), "s3:4": (80, 0), "s4:3": (-80, 0)},
    ),
    "detour": Layout(
        size=(760, 240),
        prefix="10.0.0.0/24",
        switches={"s": (120, 105), "x": (250, 105), "w": (380, 105), "y": (510, 105), "d": (640, 105)},
        hosts={"s:1": (-75, 0), "d:3": (75, 0)},
        bends={("s:3", "y:3"): 75, ("x:3", "d:2"): -75},
    ),
    "leaf-spine": Layout(
        size=(700, 300),
        prefix="10.1.1.0/24",
        switches={"p1": (240, 40), "p2": (460, 40),
                  "l1": (90, 180), "l2": (265, 180), "l3": (435, 180), "l4": (610, 180)},
        hosts={f"l{i}:{j}": (-28 if j == 1 else 28, 70) for i in range(1, 5) for j in (1, 2)},
    ),
}
BOX = (34, 20)
OLD, NEW, BOTH = "#c2570c", "#1d4ed8", "#374151"
STYLE = (
    "text{font-family:sans-serif;fill:#111827}.name{font-size:15px;text-anchor:middle}"
    ".port{font-size:11px;fill:#4b5563;text-anchor:middle}.legend{font-size:12px}"
)


def read(path: str) -> dict[str, Any]:
    """Returns what a JSON file of the repository holds."""
    found: dict[str, Any] = json.loads(making.read(path))
    return found


def port_of(switch: str, number: int) -> str:
    return f"{switch}:{number}"


def outputs(configuration: dict[str, Any], prefix: str) -> dict[str, Any]:
    """Returns the output of each switch for the prefix, as its rules in the file say."""
    return {it["switch"]: it["out"] for it in configuration["rules"] if it["dst"] == prefix}


def ends_of(topology: dict[str, Any]) -> dict[str, str]:
    """Returns the port at the other end of each port of a link."""
    ends = {}
    for one, other in topology["links"]:
        ends[one], ends[other] = other, one
    return ends


def length_of(one: Point, other: Point) -> float:
    return ((other[0] - one[0]) ** 2 + (other[1] - one[1]) ** 2) ** 0.5


def curve(one: Point, other: Point, bend: float) -> list[Point]:
    """Returns points of a line between two points that bends aside by so much at its middle."""
    (x0, y0), (x1, y1) = one, other
    length = max(length_of(one, other), 1)
    nx, ny = (y1 - y0) / length, -(x1 - x0) / length
    cx, cy = (x0 + x1) / 2 + 2 * bend * nx, (y0 + y1) / 2 + 2 * bend * ny
    steps = [it / 60 for it in range(61)]
    weights = [((1 - t) ** 2, 2 * t * (1 - t), t * t) for t in steps]
    return [(a * x0 + b * cx + c * x1, a * y0 + b * cy + c * y1) for a, b, c in weights]


def outside(points: list[Point], middle: Point, box: Place) -> list[Point]:
    """Returns the points that lie outside of a box around a middle."""
    return [(x, y) for x, y in points if abs(x - middle[0]) > box[0] or abs(y - middle[1]) > box[1]]


def aside(points: list[Point], much: float) -> list[Point]:
    """Returns the points moved to their right hand by so much."""
    (x0, y0), (x1, y1) = points[0], points[-1]
    length = max(length_of(points[0], points[-1]), 1)
    return [(x - much * (y1 - y0) / length, y + much * (x1 - x0) / length) for x, y in points]


def along(points: list[Point], much: float) -> Point:
    """Returns the point so far along a line."""
    for (x0, y0), (x1, y1) in zip(points, points[1:]):
        step = length_of((x0, y0), (x1, y1))
        if much <= step:
            return x0 + (x1 - x0) * much / step, y0 + (y1 - y0) * much / step
        much -= step
    return points[-1]


def is_straight(points: list[Point]) -> bool:
    (x0, y0), (x1, y1), (x2, y2) = points[0], points[len(points) // 2], points[-1]
    return abs((x1 - x0) * (y2 - y0) - (y1 - y0) * (x2 - x0)) < 1


def path(points: list[Point], style: str) -> str:
    points = [points[0], points[-1]] if is_straight(points) else points
    text = " ".join(f"{'L' if at else 'M'}{x:.1f} {y:.1f}" for at, (x, y) in enumerate(points))
    return f'<path d="{text}" fill="none" {style}/>'


def label(x: float, y: float, text: str, style: str = "") -> str:
    return f'<text x="{x:.1f}" y="{y:.1f}" {style}>{text}</text>'


def arrow(points: list[Point], colour: str) -> str:
    """Returns a line with a head at its end; that of an old rule is dashed."""
    dashes = ' stroke-dasharray="6 4"' if colour == OLD else ""
    return path(points, f'stroke="{colour}" stroke-width="2.5"{dashes} marker-end="url(#m{colour[1:]})"')


def marker(colour: str) -> str:
    """Returns the head of arrows of a colour."""
    return (
        f'<marker id="m{colour[1:]}" viewBox="0 0 10 10" refX="8" refY="5" markerWidth="6" markerHeight="6" '
        f'orient="auto"><path d="M0 0L10 5L0 10z" fill="{colour}"/></marker>'
    )


class Drawing:
    """The drawing of an example."""

    def __init__(self, name: str) -> None:
        self.layout = LAYOUTS[name]
        self.topology, old, new = (read(f"examples/{name}/{it}.json") for it in ("topology", "old", "new"))
        self.old, self.new = outputs(old, self.layout.prefix), outputs(new, self.layout.prefix)
        self.ends, self.places = ends_of(self.topology), self.layout.switches
        self.bends = {}
        for (one, other), much in self.layout.bends.items():
            self.bends[one, other], self.bends[other, one] = much, -much

    def middle(self, port: str) -> Place:
        return self.places[port.rpartition(":")[0]]

    def host(self, port: str) -> Place:
        (x, y), (dx, dy) = self.middle(port), self.layout.hosts[port]
        return x + dx, y + dy

    def line(self, one: str) -> list[Point]:
        """Returns the points of the line from a port's switch to what is at the port, and the box that each end has."""
        if one in self.ends:
            other = self.ends[one]
            points = curve(self.middle(one), self.middle(other), self.bends.get((one, other), 0))
            return outside(outside(points, self.middle(one), BOX), self.middle(other), BOX)
        points = curve(self.middle(one), self.host(one), 0)
        return outside(outside(points, self.middle(one), BOX), self.host(one), (8, 8))

    def links(self) -> Iterator[str]:
        for port in [*[it[0] for it in self.topology["links"]], *self.topology["hosts"]]:
            yield path(self.line(port), 'stroke="#9ca3af" stroke-width="2"')

    def ports(self) -> Iterator[str]:
        """Yields the number of each port, on its link beside the switch."""
        for port in [*self.ends, *self.topology["hosts"]]:
            x, y = along(self.line(port), 11)
            yield f'<circle cx="{x:.1f}" cy="{y:.1f}" r="6.5" fill="#fff"/>'
            yield label(x, y + 4, port.rpartition(":")[2], 'class="port"')

    def arrows(self) -> Iterator[str]:
        """Yields an arrow for each rule: beside the link on one side for the old ones, on the other side for the new
        ones."""
        for switch in self.places:
            old, new = self.old.get(switch), self.new.get(switch)
            shown = [(old, BOTH, 9)] if old == new else [(old, OLD, 9), (new, NEW, 9)]
            for out, colour, much in shown:
                if isinstance(out, int):
                    points = aside(self.line(port_of(switch, out)), much)
                    cut = max(1, len(points) // 10)
                    yield arrow(points[cut:-cut], colour)

    def switches(self) -> Iterator[str]:
        for name, (x, y) in self.places.items():
            yield (f'<rect x="{x - BOX[0]}" y="{y - BOX[1]}" width="{2 * BOX[0]}" height="{2 * BOX[1]}" rx="6" '
                   f'fill="#f3f4f6" stroke="#374151" stroke-width="1.5"/>')
            yield label(x, y + 5, name, 'class="name"')
        for port in self.topology["hosts"]:
            x, y = self.host(port)
            yield f'<circle cx="{x}" cy="{y}" r="7" fill="#fff" stroke="#374151" stroke-width="1.5"/>'

    def legend(self) -> Iterator[str]:
        y = self.layout.size[1] - 18
        parts = [(OLD, "old rule"), (NEW, "new rule"), (BOTH, "in both")]
        for at, (colour, text) in enumerate(parts):
            x = 20 + 110 * at
            yield arrow([(x, y), (x + 30, y)], colour)
            yield label(x + 42, y + 4, text, 'class="legend"')
        about = f"for {self.layout.prefix}; circles are host ports"
        yield label(20 + 110 * len(parts), y + 4, about, 'class="legend"')

    def text(self) -> str:
        width, height = self.layout.size
        size = f'width="{width}" height="{height}"'
        markers = "".join(map(marker, (OLD, NEW, BOTH)))
        return "\n".join([
            f'<svg xmlns="http://www.w3.org/2000/svg" {size} viewBox="0 0 {width} {height}">',
            f"<defs>{markers}</defs><style>{STYLE}</style>",
            f'<rect {size} fill="#ffffff"/>',
            *self.links(), *self.arrows(), *self.ports(), *self.switches(), *self.legend(),
            "</svg>",
        ]) + "\n"


def make() -> making.Made:
    """Returns the texts of all drawings."""
    return {f"docs/{it}.svg": Drawing(it).text() for it in LAYOUTS}, []


if __name__ == "__main__":
    sys.exit(making.run("draw", sys.argv[1:], __doc__, make))
