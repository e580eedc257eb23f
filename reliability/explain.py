#!/usr/bin/env python3
"""Compares `explain` with every interleaving of the changes and hops of one packet, in small networks: for careless
plans of the examples and of random networks of 3 to 5 switches, in which the rules that differ are changed in one to
three rounds by chance. Where `explain` writes a run, the model (model.py, which shares no code with the program) has to
carry it out, with a packet that breaks the policy by the last event and by none before; and the round and the class
have to be the first in which the exploration finds such a packet. Where it says that every mixed walk is good, the
exploration has to find none. Prints how many of each; the exit status is 1 where they differ.

    PLANNER=.. reliability/explain.py [--networks N] [--seed N]"""
from __future__ import annotations

import argparse
import collections
import pathlib
import random
import sys
import tempfile

import explore
import model
import runs

TYPE_CHECKING = False
if TYPE_CHECKING:
    from typing import Any, Sequence

NOTHING = "no run: every mixed walk is good\n"


def careless(update: dict[str, dict[str, list[Any]]], rng: random.Random) -> Any:
    """A plan without evidence."""
    def by_key(rules: Sequence[dict[str, Any]]) -> Any:
        return {(rule["switch"], *model.rule_in(rule).key): rule for rule in rules}

    old, new = by_key(update["old"]["rules"]), by_key(update["new"]["rules"])
    changes = [("delete", old[key]) for key in old if key not in new]
    changes += [("replace" if key in old else "insert", new[key]) for key in new if old.get(key) != new[key]]
    rng.shuffle(changes)
    changes = changes[:rng.choice([len(changes), len(changes), (len(changes) + 1) // 2])]
    cuts = sorted(rng.choices(range(len(changes) + 1), k=rng.randint(0, 2)))
    numbered = [[do, i] for i, (do, _) in enumerate(changes)]
    rounds = [numbered[begin:end] for begin, end in zip([0, *cuts], [*cuts, len(changes)])]
    return {
        "format": 2, "kind": "ordered", "numberings": [], "befores": [], "uses": [], "picks": [],
        "rules": [rule for _, rule in changes], "rounds": rounds,
    }


def first_break(motion: model.Update) -> tuple[int, int] | None:
    """The first round, and in it the first class, for which some run of one packet breaks; None where none does."""
    found = []
    for number, one in enumerate(motion.classes()):
        for run, _ in motion.explore((one,))[1]:
            entry = next(i for i, event in enumerate(run) if event.startswith("enter"))
            found.append((run[:entry].count("settle"), number))
    return min(found) if found else None


def shown_by(motion: model.Update, events: Sequence[str]) -> tuple[int, int] | None:
    """The round and the class of a run that breaks by its last event and by none before; None where it is no such
    run."""
    classes = motion.classes()
    entered = next(event for event in events if event.startswith("enter"))
    for number, one in enumerate(classes):
        state, breaks = (0, model.IDLE, (model.WAITS,)), None
        allowed = [(model.path(motion.network, motion.old, *one), model.path(motion.network, motion.new, *one))]
        duties = [model.Duties(motion.demands, *one)]
        for event in events:
            steps = [step for step in motion.successors(state, (one,), duties, allowed) if step[0] == event]
            if breaks or len(steps) != 1:
                break
            _, state, breaks = steps[0]
        else:
            if breaks:
                return events[:events.index(entered)].count("settle"), number
    return None


def compare(program: str, chosen: argparse.Namespace, folder: pathlib.Path) -> Any:
    """Compares over all updates; answers whether something differs."""
    found: collections.Counter[str] = collections.Counter()
    updates = [explore.example("square"), explore.example("detour")] + [
        explore.random_update(f"{chosen.seed} {i}") for i in range(chosen.networks)
    ]
    for i, update in enumerate(updates):
        rng = random.Random(f"{chosen.seed} {i} careless")
        plan = careless(update, rng)
        planner = explore.Planner(program, folder, update)
        planner.check(plan)
        status, text = explore.ask(program, folder, "explain", *planner.names, "plan.json")
        if status != 0:
            found[text.split(" at ")[0].strip()] += 1
            continue
        motion = model.Update(**update, plan=plan)
        wanted = first_break(motion)
        said = None if text == NOTHING else shown_by(motion, text.splitlines())
        found.update({"runs" if wanted else "nothing": 1, "differ": said != wanted})
        if text != NOTHING:
            found.update({"in a later round": wanted is not None and wanted[0] > 0, "events": text.count("\n")})
        if said != wanted:
            print(f"update {i}: explain shows {said}, the exploration {wanted}:\n{text}")
    print(", ".join(f"{count} {what}" for what, count in sorted(found.items())))
    return found["differ"] > 0 or not found["runs"]


def main() -> None:
    parser = argparse.ArgumentParser()
    parser.add_argument("--networks", type=int, default=300)
    parser.add_argument("--seed", type=int, default=1)
    chosen = parser.parse_args()
    with tempfile.TemporaryDirectory() as name:
        sys.exit(1 if compare(runs.program(), chosen, pathlib.Path(name)) else 0)


if __name__ == "__main__":
    main()
