#!/usr/bin/env python3
"""Updates of Open vSwitch bridges by the controllers of examples/controllers, under the traffic of traffic.py.

    lab/controllers.py FOLDER [--only CONTROLLER].. [--way WAY].. [--wait SECONDS]

FOLDER has topology.json, old.json, new.json and policy.json, as examples/square has. CONTROLLER is `sockets`
(sockets.py, which connects to the bridges) or `os_ken` (os_ken_app.py, to which the bridges connect; of Debian's package
python3-os-ken only /usr/bin/python3 knows, by which this script is then to be run). Each run has bridges of its own with
the old tables. The controller plans by itself, as `pack` does, and has to lead:

    onward            to the new tables
    there and back    to the new tables, and on to the old ones by a plan of their own
    ended in between  it is ended (SIGKILL) in the middle of the update; 2 s later it is started anew, to lead from the
                      tables that the bridges have then to the old ones
    cut               all connections are cut in the middle of the update. os_ken_app.py goes on by itself; sockets.py
                      ends, and is started anew, to lead to the new tables

Where neither controller can be started anew, since it keeps no record and the tables between two phases are no
configuration, that is said. Exit status: 0 where each other run came to its end, the bridges have the tables of the last
target, and no packet was broken in any run.
"""
from __future__ import annotations

import argparse
import contextlib
import json
import os
import pathlib
import random
import re
import socket
import subprocess
import sys
import time

HERE = pathlib.Path(__file__).resolve().parent
sys.path[:0] = [str(HERE), str(HERE.parent)]
import traffic
from faults import FRONT_END, Lab, made_by
from planner_tools import program

TYPE_CHECKING = False
if TYPE_CHECKING:
    from typing import Any, Callable, Sequence

CONTROLLERS = HERE.parent / "examples" / "controllers"
ARRIVED = "the switches have the tables of "
# No wait is longer, in seconds.
LONGEST = 90
# So long it takes until what an ended controller sent is known to be done.
STANDS = 2.0


class Run:
    """A controller that leads the bridges of a laboratory to targets."""

    def __init__(self, lab: Lab, kind: str, stack: contextlib.ExitStack) -> None:
        self.lab, self.kind, self.number, self.targets = lab, kind, 0, 0
        self.run: subprocess.Popen[bytes] | None = None
        self.said = lab.dir / "said-0"
        self.situation = {
            **os.environ, "PLANNER": program.path(), "PLANNER_JOB": str(lab.dir / "job.json"), "PYTHONUNBUFFERED": "1",
            "PYTHONPATH": str(HERE.parent / "library"), "PYTHONDONTWRITEBYTECODE": "1",
        }
        stack.callback(self.end)
        if kind == "os_ken":
            with socket.create_server(("127.0.0.1", 0)) as free:
                self.port = free.getsockname()[1]
            lab.pause()              # with its first controller to connect to, a bridge empties its table
            for name in lab.names:
                lab.vsctl(
                    "--", "--id=@it", "create", "controller", f'target="tcp:127.0.0.1:{self.port}"',
                    "inactivity_probe=0", "max_backoff=1000", "--", "add", "bridge", name, "controller", "@it",
                )
            traffic.load(lab.dir, lab.topology, json.loads((lab.folder / "old.json").read_text()))
            lab.go_on_pouring()

    def start(self, old: str, *targets: str) -> None:
        """Starts the controller. What the bridges have is read by sockets.py, and told to os_ken_app.py."""
        topology, policy = self.lab.files[0], self.lab.files[3]
        self.number, self.targets = self.number + 1, len(targets)
        lines = [line.split() for line in (self.lab.dir / "switches").read_text().splitlines()]
        job = {
            "topology": topology, "policy": policy, "old": old, "targets": targets, "wait": float(self.lab.wait),
            "datapaths": {datapath: name for name, datapath, _ in lines}, "keeps_tables": True,
        }
        (self.lab.dir / "job.json").write_text(json.dumps(job))
        words: list[object] = [
            CONTROLLERS / "sockets.py", topology, policy, self.lab.wait, *(f"{name}={at}" for name, _, at in lines),
            "--", *targets,
        ] if self.kind == "sockets" else [
            "-m", "os_ken.cmd.manager", "--ofp-listen-host", "127.0.0.1", "--ofp-tcp-listen-port", self.port,
            CONTROLLERS / "os_ken_app.py",
        ]
        self.said = self.lab.dir / f"said-{self.number}"
        with open(self.said, "wb") as said:
            command = [sys.executable, *map(str, words)]
            self.run = subprocess.Popen(command, stdout=said, stderr=said, env=self.situation)

    def end(self) -> None:
        if self.run is not None:
            self.run.kill()
            self.run.wait()

    def until(self, is_so: Callable[[str], object]) -> bool:
        """Waits until what was said is so, or the controller has ended or given up. Whether it is so."""
        assert self.run is not None
        limit = time.monotonic() + LONGEST
        while True:
            is_over = self.run.poll() is not None or time.monotonic() > limit
            text = self.said.read_text()
            if is_so(text) or is_over or "isn't settled" in text or "Traceback" in text:
                return bool(is_so(text))
            time.sleep(0.005)

    def has_arrived(self) -> bool:
        return self.until(lambda text: text.count(ARRIVED) == self.targets)

    def is_in_the_middle(self) -> bool:
        """A change of the middle round that has any has been answered."""
        rounds = json.loads(pathlib.Path(self.lab.files[4]).read_text())["rounds"]
        middle = next(at for at in range(len(rounds) // 2, len(rounds)) if rounds[at]) + 1
        return self.until(re.compile(rf"^(.* )?changed (round )?{middle} ", re.M).search)

    def tables(self) -> str:
        """The path of the configuration that the bridges have; empty where what they have is none."""
        replies, found = self.lab.dir / "replies", self.lab.dir / "found.json"
        asked: tuple[tuple[pathlib.Path, list[object]], ...] = (
            (replies, ["collect", self.lab.files[0], "--switches", self.lab.dir / "switches"]),
            (found, ["import", self.lab.files[0], replies]),
        )
        for path, words in asked:
            command = [sys.executable, "-B", str(FRONT_END), *map(str, words)]
            with open(path, "wb") as answer, open(self.lab.dir / "collected", "ab") as said:
                done = subprocess.run(
                    command, stdout=answer, stderr=said, env=self.situation, timeout=LONGEST, check=False
                )
            if done.returncode:
                return ""
        return str(found)


def rules(path: str) -> set[tuple[Any, ...]]:
    names = ("switch", "priority", "in_port", "vlan", "dst", "out")
    held = json.loads(pathlib.Path(path).read_text())["rules"] if path else []
    return {tuple(str(rule.get(name, "any")) for name in names) for rule in held}


def lead(run: Run, way: str, old: str, new: str) -> str:
    """Goes one of the ways. Whether it came to its end, and the bridges have the tables of the last target."""
    last = old if way in ("there and back", "ended in between") else new
    run.start(old, *([new, old] if way == "there and back" else [new]))
    is_there = way in ("onward", "there and back") or run.is_in_the_middle()
    if way == "cut":
        for name in run.lab.names:
            appctl = ["ovs-appctl", "-t", str(run.lab.dir / "ovs-vswitchd.ctl"), "bridge/reconnect", name]
            subprocess.run(appctl, check=True, timeout=60, capture_output=True)
        if run.kind == "sockets":
            run.until(lambda _: False)           # it ends
    if way == "ended in between" or way == "cut" and run.kind == "sockets":
        run.end()
        time.sleep(STANDS)
        middle = run.tables()
        if is_there and not middle:
            return "can't be started anew: between two phases the tables are no configuration"
        run.start(middle, last)
    is_led = is_there and run.has_arrived() and rules(run.tables()) == rules(last)
    return "came to its end" if is_led else "FAILED"


def main(words: Sequence[str]) -> int:
    ways, kinds = ("onward", "there and back", "ended in between", "cut"), ("sockets", "os_ken")
    parser = argparse.ArgumentParser(description=__doc__, formatter_class=argparse.RawDescriptionHelpFormatter)
    parser.add_argument("folder", metavar="FOLDER", type=pathlib.Path)
    parser.add_argument("--only", metavar="CONTROLLER", choices=kinds, action="append")
    parser.add_argument("--way", metavar="WAY", choices=ways, action="append")
    parser.add_argument("--wait", metavar="SECONDS", default="0.5")
    asked = parser.parse_args(words)
    is_good = True
    print("| Controller | Way | Rounds | End | Packets sent | Broken |\n|---|---|---|---|---|---|", flush=True)
    for kind, way in ((kind, way) for kind in asked.only or kinds for way in asked.way or ways):
        with contextlib.ExitStack() as stack:
            lab = Lab(asked.folder.resolve(), stack, asked.wait, random.Random(1), made_by(["pack", "plan"]))
            run = Run(lab, kind, stack)
            end = lead(run, way, lab.files[1], lab.files[2])
            lab.end_traffic()
            sent, _, broken = lab.judge()
            print(f"| {kind} | {way} | {lab.rounds} | {end} | {sent} | {len(broken)} |", flush=True)
            if broken or end == "FAILED":
                is_good = False
                print("\n".join([*broken[:5], run.said.read_text()]), file=sys.stderr)
    return 0 if is_good else 1


if __name__ == "__main__":
    sys.exit(main(sys.argv[1:]))
