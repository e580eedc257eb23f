"""Says where the switches and the host ports of a network are drawn: in layers where it has them, otherwise by Graphviz
where it is on the machine, and otherwise by a layout of its own."""
from __future__ import annotations

import math
import subprocess
from collections import deque

TYPE_CHECKING = False
if TYPE_CHECKING:
    from typing import Any, Sequence

WIDTH, HEIGHT, MARGIN = 760, 560, 26
SECONDS = 20
ROUNDS = 80
SWEEPS = 12
# The half height of a switch of full size, and how far its host ports lie from its middle, in half heights.
SIZE, HOST_AWAY = 20, 3.6
DIRECTIONS = [turn * math.pi / 12 for turn in range(24)]


def by_graphviz(count: int, edges: Sequence[tuple[int, int]]) -> Any:
    """Returns the places of the switches as `neato` lays them out, or None where that can't be had."""
    lines = ["graph {", "graph [overlap=true];", "node [shape=box, width=0.5, height=0.4, label=\"\"];"]
    lines += [f'n{number} [pos="{x:.3f},{y:.3f}"];' for number, (x, y) in enumerate(on_circle(count, edges))]
    lines += [f"n{one} -- n{other} [len=1.6];" for one, other in edges] + ["}"]
    try:
        done = subprocess.run(
            ["neato", "-Tplain"], input="\n".join(lines), capture_output=True, text=True, timeout=SECONDS, check=True
        )
    except (OSError, subprocess.SubprocessError):
        return None
    places = {}
    for line in done.stdout.splitlines():
        words = line.split()
        if words[:1] == ["node"]:
            places[int(words[1][1:])] = (float(words[2]), -float(words[3]))
    return [places[number] for number in range(count)] if len(places) == count else None


def distances(count: int, edges: Sequence[tuple[int, int]]) -> list[list[int]]:
    """Returns for each switch how many links each other one is away; where no links lead there, one more than the
    greatest distance."""
    beside: list[set[int]] = [set() for _ in range(count)]
    for one, other in edges:
        beside[one].add(other)
        beside[other].add(one)
    found = []
    for start in range(count):
        away, queue = {start: 0}, deque([start])
        while queue:
            at = queue.popleft()
            for other in sorted(beside[at] - away.keys()):
                away[other] = away[at] + 1
                queue.append(other)
        found.append(away)
    far = 1 + max(max(away.values()) for away in found)
    return [[away.get(other, far) for other in range(count)] for away in found]


def walk_order(count: int, edges: Sequence[tuple[int, int]]) -> list[int]:
    """Returns the switches in the order of a walk that goes as far as it can before it turns back."""
    beside: list[list[int]] = [[] for _ in range(count)]
    for one, other in edges:
        beside[one].append(other)
        beside[other].append(one)
    order, seen, stack = [], set(), list(reversed(range(count)))
    while stack:
        at = stack.pop()
        if at not in seen:
            seen.add(at)
            order.append(at)
            stack += [other for other in reversed(beside[at]) if other not in seen]
    return order


def on_circle(count: int, edges: Sequence[tuple[int, int]]) -> list[tuple[float, float]]:
    """Returns places on a circle in the order of that walk: where both layouts begin."""
    places = [(0.0, 0.0)] * count
    for turn, switch in enumerate(walk_order(count, edges)):
        angle = 2 * math.pi * turn / count
        places[switch] = (count / 6 * math.cos(angle), count / 6 * math.sin(angle))
    return places


def by_ourselves(count: int, edges: Sequence[tuple[int, int]]) -> list[tuple[float, float]]:
    """Returns places at which switches are about as far from one another as links lie between them: from a circle on,
    each switch moves again and again to the mean of where the others want it."""
    wanted, places = distances(count, edges), on_circle(count, edges)
    for _ in range(ROUNDS):
        for one in range(count):
            x0, y0 = places[one]
            x, y, whole = 0.0, 0.0, 0.0
            for other, (x1, y1) in enumerate(places):
                if other != one:
                    weight, away = wanted[one][other] ** -2, math.hypot(x0 - x1, y0 - y1) or 1e-6
                    x += weight * (x1 + wanted[one][other] * (x0 - x1) / away)
                    y += weight * (y1 + wanted[one][other] * (y0 - y1) / away)
                    whole += weight
            if whole:
                places[one] = (x / whole, y / whole)
    return places


def layers_of(count: int, edges: Sequence[tuple[int, int]], host_switches: Sequence[int]) -> list[int] | None:
    """Returns how far each switch is from the nearest host port, in links; None where the network has no layers: some
    switch reaches no host port, or a link joins two switches that are equally far, or none is farther than another."""
    beside: list[set[int]] = [set() for _ in range(count)]
    for one, other in edges:
        beside[one].add(other)
        beside[other].add(one)
    layer, queue = {at: 0 for at in host_switches}, deque(sorted(set(host_switches)))
    while queue:
        at = queue.popleft()
        for other in sorted(beside[at] - layer.keys()):
            layer[other] = layer[at] + 1
            queue.append(other)
    if (
        len(layer) < count
        or any(abs(layer[one] - layer[other]) != 1 for one, other in edges)
        or max(layer.values(), default=0) == 0
    ):
        return None
    return [layer[at] for at in range(count)]


def in_layers(
    count: int, edges: Sequence[tuple[int, int]], host_switches: Sequence[int]
) -> list[tuple[float, float]] | None:
    """Returns places in layers, or None where the network has none. The farthest from hosts stand at the top. In its
    layer a switch stands where the mean of its neighbours wants it."""
    layer = layers_of(count, edges, host_switches)
    if layer is None:
        return None
    rows = [[at for at in walk_order(count, edges) if layer[at] == number] for number in range(max(layer) + 1)]
    beside: list[list[int]] = [[] for _ in range(count)]
    for one, other in edges:
        beside[one].append(other)
        beside[other].append(one)
    x: dict[int, float] = {}

    def spread(row: Sequence[int]) -> None:
        for place, at in enumerate(row):
            x[at] = (place + 0.5) / len(row)

    for row in rows:
        spread(row)
    for _ in range(SWEEPS):
        for row in (*rows, *reversed(rows)):
            mean = {at: sum(x[it] for it in beside[at]) / max(len(beside[at]), 1) for at in row}
            row.sort(key=lambda at: mean[at])        # those that are wanted at one place stay in their order
            spread(row)
    wide = max(*(len(row) for row in rows), 1.6 * len(rows))
    deep = 0.8 * wide * HEIGHT / WIDTH / (len(rows) - 1)
    return [(x[at] * wide, -layer[at] * deep) for at in range(count)]


def turned(places: Sequence[tuple[float, float]], edges: Sequence[tuple[int, int]]) -> list[tuple[float, float]]:
    """Returns the places turned, or mirrored and turned, so that they fill the picture, links lie level or upright, the
    first switch is at the top left and the second one to its right."""
    best: tuple[float, list[tuple[float, float]]] = 0.0, []
    for sign in (1, -1):
        mirrored = [(sign * x, y) for x, y in places]
        angles = [
            math.atan2(mirrored[other][1] - mirrored[one][1], mirrored[other][0] - mirrored[one][0])
            for one, other in edges
            if one != other
        ]
        for turn in [math.radians(degree) for degree in range(0, 180, 5)] + [-angle for angle in angles[:90]]:
            now = first_top_left(
                [
                    (x * math.cos(turn) - y * math.sin(turn), x * math.sin(turn) + y * math.cos(turn))
                    for x, y in mirrored
                ]
            )
            wide, high = (max(it[axis] for it in now) - min(it[axis] for it in now) for axis in (0, 1))
            fill = min(WIDTH / (wide or 1e-6), HEIGHT / (high or 1e-6))
            level = sum(abs(math.cos(2 * (angle + turn))) > 0.9999 for angle in angles) / max(len(angles), 1)
            right = math.cos(math.atan2(now[1][1] - now[0][1], now[1][0] - now[0][0])) if len(now) > 1 else 0
            if not best[1] or fill * (1 + level + 0.1 * right) > best[0] + 1e-9:
                best = (fill * (1 + level + 0.1 * right), now)
    return best[1]


def first_top_left(places: Sequence[tuple[float, float]]) -> list[tuple[float, float]]:
    x, y = (sum(it[axis] for it in places) / len(places) for axis in (0, 1))
    right, low = places[0][0] > x + 1e-6, places[0][1] > y + 1e-6
    return [(-px if right else px, -py if low else py) for px, py in places]


def host_directions(
    places: Sequence[tuple[float, float]], links: Sequence[tuple[int, int]], hosts: Sequence[Sequence[int]],
    is_layered: bool = False,
) -> list[float]:
    """Returns for each host port the direction in which it lies from its switch: away from links, other host ports and
    the middle of the network, and in layers downward."""
    middle = [sum(it[axis] for it in places) / len(places) for axis in (0, 1)]
    taken: list[list[float]] = [[] for _ in places]
    for one, other in links:
        if one != other:
            (x0, y0), (x1, y1) = places[one], places[other]
            taken[one].append(math.atan2(y1 - y0, x1 - x0))
            taken[other].append(math.atan2(y0 - y1, x0 - x1))
    directions = []
    for switch, _ in hosts:
        x, y = places[switch]
        outward = math.pi / 2 if is_layered else math.atan2(y - middle[1], x - middle[0])

        def room(angle: float) -> float:
            least = min((abs(math.remainder(angle - it, 2 * math.pi)) for it in taken[switch]), default=math.pi)
            return min(least, 1.2) + 0.3 * math.cos(angle - outward) + 0.05 * abs(math.cos(angle))

        directions.append(max(DIRECTIONS, key=room))
        taken[switch].append(directions[-1])
    return directions


def layout(
    count: int, links: Sequence[Sequence[int]], hosts: Sequence[Sequence[int]], graphviz: bool = True
) -> dict[str, Any]:
    """Returns the size of the picture and of a switch, and the places of switches and of host ports."""
    if count == 0:
        return {"width": WIDTH, "height": HEIGHT, "size": SIZE, "switches": [], "hosts": []}
    edges = [(link[0], link[2]) for link in links]
    layered = in_layers(count, edges, [host[0] for host in hosts])
    places = layered or turned((by_graphviz(count, edges) if graphviz else None) or by_ourselves(count, edges), edges)
    directions = host_directions(places, edges, hosts, layered is not None)
    nearest = min((math.dist(one, other) for at, one in enumerate(places) for other in places[:at]), default=0) or 1.0
    # How far host ports lie away depends on the scale, which depends on where they lie: so it is tried from the
    # greatest on.
    xs, ys = [x for x, _ in places], [y for _, y in places]
    scale = min(
        (WIDTH - 2 * MARGIN) / (max(xs) - min(xs) or 1e-6), (HEIGHT - 2 * MARGIN) / (max(ys) - min(ys) or 1e-6),
        330 / nearest,
    )
    for _ in range(400):
        size = min(SIZE, 0.23 * scale * nearest)
        switches = [(x * scale, y * scale) for x, y in places]
        ends = [
            (
                switches[host[0]][0] + HOST_AWAY * size * math.cos(angle),
                switches[host[0]][1] + HOST_AWAY * size * math.sin(angle),
            )
            for host, angle in zip(hosts, directions)
        ]
        around = [(x + dx * size, y + dy * size) for x, y in switches for dx, dy in ((-2, -1.6), (2, 1.6))] + ends
        left, right, top, low = (pick(it[axis] for it in around) for axis in (0, 1) for pick in (min, max))
        if right - left <= WIDTH - 2 * MARGIN and low - top <= HEIGHT - 2 * MARGIN:
            break
        scale *= 0.985
    across, down = (WIDTH - left - right) / 2, (HEIGHT - top - low) / 2
    moved = [[[round(x + across, 2), round(y + down, 2)] for x, y in it] for it in (switches, ends)]
    return {"width": WIDTH, "height": HEIGHT, "size": round(size, 2), "switches": moved[0], "hosts": moved[1]}
