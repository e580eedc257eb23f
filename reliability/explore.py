#!/usr/bin/env python3
"""Explores every interleaving of the changes and hops of one packet, and of two, in small networks: for plans that
`plan` wrote and `check` accepted, of the examples and of random networks of 3 to 5 switches; and looks for a packet
that comes to a switch twice, leaves without its waypoints, is dropped though it must arrive, or under a two-phase plan
goes a path that is neither the old nor the new one. The model is its own (model.py). Prints plans, states and
counterexamples; the exit status is 1 where there is a counterexample.

    PLANNER=.. reliability/explore.py [--networks N] [--pairs N] [--seed N]
    PLANNER=.. reliability/explore.py --refused

One packet of each class is tried alone, and --pairs (5) pairs of classes a plan, chosen by the seed. Plans with a round
of more than 10 changes are left out. With --refused it takes plans with all changes in one round that `check` refuses
for reason 7, and shows the first counterexample of the square network, as lines of a schedule; the exit status is 1
where that network has none."""
from __future__ import annotations

import argparse
import collections
import itertools
import json
import pathlib
import random
import subprocess
import sys
import tempfile

import model
import runs

TYPE_CHECKING = False
if TYPE_CHECKING:
    from typing import Any, Sequence

FILES = ("topology", "old", "new", "policy")
MOST_CHANGES = 10


def random_tree(rng: random.Random, links: dict[tuple[str, int], tuple[str, int]], home: str) -> dict[str, int]:
    """A random tree over the links to a switch: the port of each other switch on its way there."""
    inside = [home]
    ways: dict[str, int] = {}
    while True:
        open_ends = [
            (mine, port) for (mine, port), (other, _) in links.items() if other in inside and mine not in inside
        ]
        if not open_ends:
            return ways
        switch, port = rng.choice(sorted(open_ends))
        ways[switch] = port
        inside.append(switch)


def topology_of(
    rng: random.Random, names: Sequence[str], joined: Sequence[tuple[str, str]], hosts: Sequence[str]
) -> dict[str, list[Any]]:
    """A topology with links between these pairs of switches and a host at each of these."""
    used: collections.Counter[str] = collections.Counter()

    def port(switch: str) -> str:
        used[switch] += 1
        return f"{switch}:{used[switch]}"
    links = [[port(one), port(other)] for one, other in joined]
    vlans: list[int | str] = rng.choice([["untagged"], ["untagged"], ["untagged"], ["untagged", 10]])
    return {
        "switches": [{"name": name, "capacity": 64} for name in names], "links": links,
        "hosts": [port(switch) for switch in hosts], "vlans": vlans, "tags": [3000, 3009],
    }


def rules_of(ways: dict[str, int], dst: str, priority: int) -> list[dict[str, Any]]:
    return [{"switch": switch, "priority": priority, "dst": dst, "out": port} for switch, port in ways.items()]


def demand(rng: random.Random, host: tuple[str, int], dst: str, through: Sequence[str]) -> dict[str, Any]:
    return {"from": f"{host[0]}:{host[1]}", "dst": dst, "through": through, "deliver": rng.random() < 0.8}


def random_trees(rng: random.Random) -> dict[str, dict[str, list[Any]]]:
    """An update of one or two destinations, each along one tree before and another after; the demands are met by
    both."""
    names = [f"s{i}" for i in range(rng.randint(3, 5))]
    joined = [(rng.choice(names[:i]), names[i]) for i in range(1, len(names))]
    joined += rng.choices(list(itertools.combinations(names, 2)), k=rng.randint(1, 4))
    topology = topology_of(rng, names, joined, rng.sample(names, rng.randint(2, 3)))
    network = model.Network.read(topology)
    links = {end: other for end, other in network.ends.items() if other != model.HOST}
    destinations = [("10.0.0.0/24", 100), ("10.0.0.7/32", 200)][:rng.randint(1, 2)]
    old: list[dict[str, Any]] = []
    new: list[dict[str, Any]] = []
    demands = []
    for dst, priority in destinations:
        home, out = rng.choice(network.hosts)
        for rules in (old, new):
            rules += rules_of({home: out} | random_tree(rng, links, home), dst, priority)
    tables = [model.tables_in(network, {"rules": rules}) for rules in (old, new)]
    for dst, _ in destinations:
        for host in network.hosts:
            entry = (*host, network.vlans[0])
            walks = [model.path(network, table, entry, model.bounds(dst)[0]) or ((), ("again",)) for table in tables]
            if all(walk[1][0] == "leave" for walk in walks):
                shared = sorted({stop[0] for stop in walks[0][0]} & {stop[0] for stop in walks[1][0]})
                own = "10.0.0.0/30" if len(destinations) == 2 and dst == "10.0.0.0/24" else dst
                demands.append(demand(rng, host, own, rng.sample(shared, min(len(shared), rng.randint(0, 1)))))
    return dict(zip(FILES, (topology, {"rules": old}, {"rules": new}, {"demands": demands})))


def random_detour(rng: random.Random) -> dict[str, dict[str, list[Any]]]:
    """An update after which packets pass the inner switches of their path in the opposite order, and have to pass each
    of them, or one."""
    names = [f"s{i}" for i in range(rng.randint(4, 5))]
    walks = [names, [names[0], *names[-2:0:-1], names[-1]]]
    joined = sorted({(min(pair), max(pair)) for walk in walks for pair in zip(walk, walk[1:])})
    topology = topology_of(rng, names, joined, [names[0], names[-1], rng.choice(names[1:-1])])
    network = model.Network.read(topology)
    configs = []
    for walk in walks:
        ways = {
            one: next(port for (at, port), end in network.ends.items() if at == one and end[0] == other)
            for one, other in zip(walk, walk[1:])
        }
        ways[names[-1]] = dict(network.hosts)[names[-1]]
        configs.append({"rules": rules_of(ways, "10.0.0.0/24", 100)})
    inner = names[1:-1] if rng.random() < 0.5 else names[2:3]
    demands = [demand(rng, network.hosts[0], "10.0.0.0/24", [switch]) for switch in inner]
    return dict(zip(FILES, (topology, *configs, {"demands": demands})))


def put_together(update: dict[str, dict[str, Any]], rng: random.Random) -> dict[str, dict[str, Any]]:
    """The same update of a wide network, in which demands that differ in their host ports alone are one, with a list of
    them in random order, some of them twice."""
    ports: dict[str, list[str]] = {}
    for one in update["policy"]["demands"]:
        ports.setdefault(json.dumps({**one, "from": None}), []).append(one["from"])
    demands = []
    for about, mine in ports.items():
        mine += rng.choices(mine, k=rng.randint(0, 2))
        rng.shuffle(mine)
        demands.append(json.loads(about) | {"from": mine})
    return update | {"topology": {"format": 2, **update["topology"]}, "policy": {"demands": demands}}


def random_update(seed: str) -> dict[str, dict[str, Any]]:
    """The four files of a random update that changes something, of a wide network in half of the cases."""
    rng, other = random.Random(seed), random.Random(f"{seed} wide")
    while True:
        update = random_detour(rng) if rng.random() < 0.25 else random_trees(rng)
        if any(rule not in update["new"]["rules"] for rule in update["old"]["rules"]):
            return put_together(update, other) if other.random() < 0.5 else update


def example(name: str) -> dict[str, dict[str, list[Any]]]:
    return {file: json.loads((runs.ROOT / "examples" / name / f"{file}.json").read_text()) for file in FILES}


def ask(program: str, folder: pathlib.Path, *words: str) -> tuple[int, str]:
    """The exit status and the text of the program."""
    done = subprocess.run([program, *words], cwd=folder, stdout=subprocess.PIPE, text=True)
    return done.returncode, done.stdout


class Planner:
    """The program, over the files of one update in a folder."""

    def __init__(self, program: str, folder: pathlib.Path, update: dict[str, dict[str, list[Any]]]) -> None:
        self.program, self.folder = program, folder
        for file in FILES:
            (folder / f"{file}.json").write_text(json.dumps(update[file]))
        self.names = [f"{file}.json" for file in FILES]

    def plan(self) -> dict[str, Any]:
        """A plan, or None."""
        status, text = ask(self.program, self.folder, "plan", *self.names)
        return json.loads(text) if status == 0 else None

    def check(self, plan: dict[str, Any]) -> tuple[int, str]:
        (self.folder / "plan.json").write_text(json.dumps(plan))
        return ask(self.program, self.folder, "check", *self.names, "plan.json")


def at_once(plan: dict[str, Any], update: dict[str, dict[str, list[Any]]]) -> dict[str, Any]:
    """The plan with all changes in one round, and with evidence that names a numbering for every class."""
    switches = len(update["topology"]["switches"])
    return plan | {
        "rounds": [[change for round_ in plan["rounds"] for change in round_]], "befores": [],
        "numberings": [list(range(switches, 0, -1))], "uses": [[0, []]], "picks": [[1, i, 0] for i in range(8192)],
    }


def explore(
    update: dict[str, dict[str, list[Any]]], plan: dict[str, Any], rng: random.Random, pairs: int
) -> tuple[int, int, list[tuple[list[str], str]]]:
    """Explores one plan; answers the number of states, of explorations with two packets, and the counterexamples."""
    motion = model.Update(**update, plan=plan)
    classes = motion.classes()
    chosen: list[tuple[tuple[tuple[str, int, Any], int], ...]] = [(c,) for c in classes]
    two: list[tuple[tuple[tuple[str, int, Any], int], ...]]
    two = list(itertools.combinations_with_replacement(classes, 2))
    chosen += rng.sample(two, min(pairs, len(two)))
    states, wrong = 0, []
    for some in chosen:
        count, found = motion.explore(some)
        states += count
        wrong += found
    return states, len(chosen) - len(classes), wrong


def show(run: Sequence[str], breaks: str) -> None:
    print("  " + "; ".join(run) + ": the packet " + breaks)


def accepted(program: str, chosen: argparse.Namespace, folder: pathlib.Path) -> bool:
    """Explores accepted plans; answers whether there is a counterexample."""
    found: collections.Counter[str] = collections.Counter()
    updates = [example("square"), example("detour")] + [
        random_update(f"{chosen.seed} {i}") for i in range(chosen.networks)
    ]
    for i, update in enumerate(updates):
        planner = Planner(program, folder, update)
        plan = planner.plan()
        if plan is None:
            found["without a plan"] += 1
            continue
        if planner.check(plan)[0] != 0:
            print(f"update {i}: check refuses what plan wrote")
            found["refused"] += 1
            continue
        if max(len(round_) for round_ in plan["rounds"]) > MOST_CHANGES:
            found["left out"] += 1
            continue
        states, two, wrong = explore(update, plan, random.Random(f"{chosen.seed} {i} pairs"), chosen.pairs)
        found.update(
            {
                plan["kind"]: 1, "plans": 1, "rounds": len(plan["rounds"]), "states": states, "pairs": two,
                "wrong": len(wrong),
            }
        )
        if wrong:
            print(f"update {i}, {plan['kind']}: {len(wrong)} counterexamples")
            show(*wrong[0])
        if i % 20 == 19:
            print(f"so far, {i + 1} updates: {summary(found)}", flush=True)
    print(summary(found))
    return found["wrong"] > 0 or found["refused"] > 0 or not found["plans"]


def summary(found: collections.Counter) -> str:
    return (
        f"{found['plans']} plans ({found['ordered']} ordered, {found['two-phase']} two-phase,"
        f" {found['rounds']} rounds), {found['without a plan']} updates without a plan, {found['left out']} left out,"
        f" {found['pairs']} pairs of packets, {found['states']} states, {found['wrong']} counterexamples"
    )


def refused(program: str, chosen: argparse.Namespace, folder: pathlib.Path) -> Any:
    """Explores plans that are refused for reason 7; answers whether the one of the square network has no
    counterexample."""
    square = example("square")
    tried = [(square, json.loads((runs.ROOT / "examples" / "square" / "plan-at-once.json").read_text()))]
    for i in range(chosen.networks):
        update = random_update(f"{chosen.seed} {i}")
        plan = Planner(program, folder, update).plan()
        if plan and plan["kind"] == "ordered" and len(plan["rounds"]) > 1:
            tried.append((update, at_once(plan, update)))
    plans = broken = 0
    missing = True
    for i, (update, plan) in enumerate(tried):
        status, text = Planner(program, folder, update).check(plan)
        if status != 1 or not text.startswith("refused: 7 "):
            continue
        states, _, wrong = explore(update, plan, random.Random(f"{chosen.seed} {i} pairs"), chosen.pairs)
        plans, broken = plans + 1, broken + bool(wrong)
        if i == 0:
            missing = not wrong
            print(f"the square network, all at once: {states} states, {len(wrong)} counterexamples, the first of them:")
            for one in wrong[:1]:
                show(*one)
    print(f"{plans} plans refused for reason 7, {broken} of them with counterexamples")
    return missing


def main() -> None:
    parser = argparse.ArgumentParser()
    parser.add_argument("--networks", type=int, default=200)
    parser.add_argument("--pairs", type=int, default=5)
    parser.add_argument("--seed", type=int, default=1)
    parser.add_argument("--refused", action="store_true")
    chosen = parser.parse_args()
    with tempfile.TemporaryDirectory() as name:
        sys.exit(1 if (refused if chosen.refused else accepted)(runs.program(), chosen, pathlib.Path(name)) else 0)


if __name__ == "__main__":
    main()
