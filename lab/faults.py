#!/usr/bin/env python3
"""Updates of Open vSwitch bridges under traffic, among faults: what is told, what was broken, and whether the next step that is told works.

    lab/faults.py FOLDER [--only FAULT].. [--wait SECONDS] [--seed N] [--by COMMAND] [--plan FILE]

FOLDER has topology.json, old.json, new.json and policy.json, as examples/square has. The plan is that of `pack`, or of `plan` where the program has no
`pack`; --by names another command, and --plan a plan that is there already. Each fault has bridges of its own, made by bridges.sh in a userspace
datapath without any interface of the machine; what is started here is ended here. Packets enter at every host port all the time, and the records of the
ports show what became of each. A packet is broken BY THE FAULT where it was lost at the switch at which the fault is, and BESIDE IT in any other way:
that is what `planner apply` answers for. PLANNER names another program than the built one, FIRST_PORT the port of the first bridge (17100).

    two controllers   a second `planner apply`, with a record and a file of switches of its own, begins during the wait before round 1
    emptied switch    in the middle of the update a switch loses its connection and its table, as where its daemon is started anew
    change by hand    an entry is put in by hand during the wait before round 1, and another one is taken away in the middle
    kills             `planner apply` is killed (SIGKILL), six times, at random moments, and goes on by --resume
    cuts              connections are cut at random moments, three times a second
    late              all that one switch says comes 3 s late
    silent            one switch says nothing any more from the middle of the update on; then it speaks again
    cut in mid-round  the connection of a switch is cut when it has been given its messages of the middle round, and before it is heard
    full table        a switch takes no further entry; then it has room again
    turned from full  the same, and the update is turned back while the table is full
    turned back       the update is ended in the middle of the middle round, and turned back
    turned at the end the update comes to its end, and is turned back
    full disk         the record can't be written any more in the middle of the update (a limit on the size of files); then it can

and those of hard_faults.py:

    lost while compared  a switch loses its table and its connection while `planner tables` runs in a comparison, and is back before that ends
    closed terminal   SIGHUP in the middle
    closed stream     nobody reads the error stream any more, from the middle on
    hanging serve     `planner serve` says nothing any more from its first change on
    second update     `planner update` is ended by a key, and begun once more
    late barriers     all that one switch says comes later than the wait
    gone, onward      a switch is gone in the middle round, with its table: --resume --without, and when it is there again --resume --repair
    gone, back        the same with --back
    adopted           bridges in standalone mode are given the old tables by `planner adopt` (networks without cycles alone)

Exit status: 0 where each fault was told, none broke a packet beside it, and each next step led to the new tables, or those that turn back to the old ones.
"""
from __future__ import annotations

import argparse
import contextlib
import json
import os
import pathlib
import random
import re
import resource
import shlex
import shutil
import signal
import subprocess
import sys
import tempfile
import time

HERE = pathlib.Path(__file__).resolve().parent
sys.path[:0] = [str(HERE), str(HERE.parent)]
import traffic
from between import Between
from hard_faults import HARD
from planner_tools import program

TYPE_CHECKING = False
if TYPE_CHECKING:
    from typing import Any, Callable, Sequence

FRONT_END = HERE.parent / "planner"
# No run takes longer, in seconds.
LONGEST = 300


class Lab:
    """The bridges of a network with their old tables, under traffic, and one update of them."""

    def __init__(
        self, folder: pathlib.Path, stack: contextlib.ExitStack, wait: float, chance: random.Random,
        make: Callable[[Sequence[str]], str],
    ) -> None:
        self.dir = pathlib.Path(stack.enter_context(tempfile.TemporaryDirectory(prefix="planner-lab-")))
        self.folder, self.wait, self.chance = folder, wait, chance
        self.topology = json.loads((folder / "topology.json").read_text())
        self.names = [one["name"] for one in self.topology["switches"]]
        subprocess.run([HERE / "bridges.sh", "start", self.dir, folder / "topology.json"], check=True)
        stack.callback(lambda: subprocess.run([HERE / "bridges.sh", "stop", self.dir], check=False))
        traffic.load(self.dir, self.topology, json.loads((folder / "old.json").read_text()))
        self.files = [str(folder / f"{word}.json") for word in ("topology", "old", "new", "policy")]
        plan = self.dir / "plan.json"
        plan.write_text(make(self.files))
        self.rounds = len(json.loads(plan.read_text())["rounds"])
        self.files.append(str(plan))
        lines = [line.split() for line in (self.dir / "switches").read_text().splitlines()]
        self.between = Between({name: ("127.0.0.1", int(where.rpartition(":")[2])) for name, _, where in lines})
        self.between.start()
        stack.callback(self.between.stop)
        self.listed = self.dir / "through"           # the file of switches, behind the connections that fail
        self.listed.write_text(
            "".join("%s %s %s:%d\n" % (name, datapath, *self.between.addresses[name]) for name, datapath, _ in lines)
        )
        self.record = self.dir / "update"
        self.said: list[str] = []
        self.sent = self.dir / "sent"
        self.pour = subprocess.Popen(
            [sys.executable, "-B", HERE / "traffic.py", "pour", self.dir, *self.files[:4], self.sent]
        )
        stack.callback(self.end_traffic)
        self.fault_at = ""           # the switch at which the fault is
        self.led_to = "new"          # to which tables the last run was to lead
        time.sleep(0.5)

    def ofctl(self, *words: str) -> None:
        subprocess.run(
            ["ovs-ofctl", "-O", "OpenFlow10", words[0], f"unix:{self.dir}/{words[1]}.mgmt", *words[2:]], check=True,
            timeout=60, capture_output=True,
        )

    def vsctl(self, *words: str) -> None:
        subprocess.run(
            ["ovs-vsctl", f"--db=unix:{self.dir}/db.sock", *words], check=True, timeout=60, capture_output=True
        )

    def ports(self, name: str, state: str) -> None:
        """Takes all ports of a switch down, or up."""
        ends = [*self.topology["hosts"], *(end for link in self.topology["links"] for end in link)]
        for end in ends:
            if end.split(":")[0] == name:
                self.ofctl("mod-port", name, end.replace(":", "_"), state)

    def pause(self) -> None:
        """No packets enter, and those that are under way leave."""
        self.pour.send_signal(signal.SIGSTOP)
        time.sleep(1)

    def go_on_pouring(self) -> None:
        self.pour.send_signal(signal.SIGCONT)

    def begin(
        self, *more: Any, record: pathlib.Path | None = None, listed: pathlib.Path | None = None,
        before: Sequence[Any] = (), wait: float | str | None = None, planner: str | None = None,
    ) -> subprocess.Popen[str]:
        words = [
            *before, sys.executable, "-B", FRONT_END, "apply", *self.files, record or self.record, "--switches",
            listed or self.listed, "--wait", wait or self.wait, *more,
        ]
        return subprocess.Popen(
            [str(one) for one in words], stderr=subprocess.PIPE, text=True,
            env={**os.environ, "PLANNER": planner or program.path()},
        )

    def end_of(self, run: subprocess.Popen[str]) -> tuple[int, str]:
        """Its exit status and what it said."""
        said = run.communicate(timeout=LONGEST)[1]
        self.said.append(said)
        return run.returncode, said

    def until(self, words: str, run: subprocess.Popen[str] | None = None) -> None:
        """Waits until the record has the words, or the run is at its end."""
        end = time.monotonic() + LONGEST
        while time.monotonic() < end and (run is None or run.poll() is None):
            if self.record.exists() and words in self.record.read_text():
                return
            time.sleep(0.005)

    def middle(self) -> str:
        """What the record has from the middle of the update on."""
        return f"round {self.rounds // 2 + 1} starts"

    def go_on(self, said: str) -> tuple[str, int, str]:
        """Does what the last line says is next. What it did, and the end of that."""
        then = said.strip().splitlines()[-1].partition("Next: ")[2]
        shell = re.search(r"`(head -n [^`]*)`", then)
        if shell:
            subprocess.run(["sh", "-c", shell[1]], check=True)
            self.record = pathlib.Path(shlex.split(shell[1])[-1])
        more = (
            ["--resume"]
            + (["--repair"] if "--repair" in then else [])
            + (["--take-over"] if "--take-over" in then else [])
        )
        return f"{'`head`, ' if shell else ''}{' '.join(more)}", *self.end_of(self.begin(*more))

    def turn_back(self) -> tuple[str, int, str]:
        """Turns the update back. What it did, and the end of that."""
        self.led_to = "old"
        return "--back", *self.end_of(self.begin("--back"))

    def begin_slowly(self, *more: str) -> tuple[subprocess.Popen[str], str]:
        """A run in whose middle round a switch has been given its messages and isn't heard yet; and that switch. A
        round without changes is passed over."""
        plan = json.loads(pathlib.Path(self.files[4]).read_text())
        at = next(at for at in range(self.rounds // 2, self.rounds) if plan["rounds"][at])
        name = plan["rules"][plan["rounds"][at][0][1]]["switch"]
        self.between.delay[name] = 1.5
        run = self.begin(*more)
        self.until(f"round {at + 1} starts", run)
        time.sleep(0.5)
        return run, name

    def end_traffic(self) -> None:
        if self.pour.poll() is None:
            time.sleep(0.5)
            self.pour.send_signal(signal.SIGTERM)
            self.pour.wait(20)
            before, now = None, -1
            while before != now:
                before = now
                time.sleep(1)
                now = sum(it.stat().st_size for it in self.dir.glob("*.rx"))

    def judge(self) -> tuple[int, int, list[str]]:
        """How many packets were sent, broken by the fault, and broken beside it; and an example of these."""
        policy = json.loads((self.folder / "policy.json").read_text())
        stops, ends = traffic.ways(self.dir, self.topology)
        packets = [json.loads(line) for line in self.sent.read_text().splitlines()]
        by_fault, beside = 0, []
        for number, entry, vlan, address in packets:
            way, end = stops.get(number, []), ends.get(number)
            what = list(traffic.faults(policy, entry, vlan, address, way, end))
            if what == ["lost"] and way and way[-1].split(":")[0] == self.fault_at:
                by_fault += 1
            elif what:
                beside.append(f"{', '.join(what)}: {' '.join(way)}")
        return len(packets), by_fault, beside


def made_by(commands: Sequence[str]) -> Callable[[Sequence[str]], str]:
    """Returns what makes a plan of an update: the first of these commands that the program has."""
    def make(files: Sequence[str]) -> str:
        for command in commands:
            done = subprocess.run([program.path(), command, *files], capture_output=True, text=True, check=False)
            if done.returncode != 2:
                break
        if done.returncode != 0:
            sys.exit(f"no plan: {done.stdout}{done.stderr}")
        return done.stdout
    return make


# ---- the faults: each returns what was told first, what was done next, and the end of that

def two_controllers(lab: Lab) -> tuple[str, str, int, str]:
    first = lab.begin(wait="3")
    lab.until("the switches have the tables of")
    other = lab.dir / "other-switches"
    shutil.copy(lab.listed, other)
    told = lab.end_of(lab.begin(record=lab.dir / "other", listed=other, wait="0.4"))[1]
    return told, "the first one goes on", *lab.end_of(first)


def emptied_switch(lab: Lab) -> tuple[str, str, int, str]:
    lab.fault_at = lab.chance.choice(lab.names)
    run = lab.begin()
    lab.until(lab.middle(), run)
    lab.ofctl("del-flows", lab.fault_at)
    lab.between.cut(lab.fault_at)
    told = lab.end_of(run)[1]
    return told, *lab.go_on(told)


def change_by_hand(lab: Lab) -> tuple[str, str, int, str]:
    lab.fault_at = json.loads((lab.folder / "old.json").read_text())["rules"][0]["switch"]
    run = lab.begin(wait="1.5")
    lab.until("the switches have the tables of", run)
    lab.ofctl("add-flow", lab.fault_at, "priority=60000,ip,nw_dst=203.0.113.0/24,actions=drop")
    told = lab.end_of(run)[1]
    if "203.0.113.0/24" not in told:
        return told, "nothing", 1, told
    run = lab.begin("--resume", "--repair")
    lab.until(lab.middle(), run)
    lab.ofctl("del-flows", lab.fault_at, "ip")
    told = lab.end_of(run)[1]
    done, status, end = "--resume --repair", 0 if run.returncode == 0 else 1, told
    return (told, done, status, end) if status == 0 else (told, *lab.go_on(told))


def kills(lab: Lab) -> tuple[str, str, int, str]:
    more: list[str] = []
    for _ in range(6):
        run = lab.begin(*more)
        time.sleep(0.4 + lab.chance.random() * (float(lab.wait) + 0.6))
        run.kill()
        lab.end_of(run)
        more = ["--resume"] if lab.record.exists() else []
    status, end = lab.end_of(lab.begin(*more))
    return end.splitlines()[0], "--resume, six times", status, end


def cuts(lab: Lab) -> tuple[str, str, int, str]:
    run = lab.begin()
    end = time.monotonic() + LONGEST
    while run.poll() is None and time.monotonic() < end:
        time.sleep(lab.chance.random() * 2 / 3)
        lab.between.cut(lab.chance.choice(lab.names))
    status, told = lab.end_of(run)
    return told, "it goes on by itself", status, told


def late(lab: Lab) -> tuple[str, str, int, str]:
    lab.between.delay[lab.chance.choice(lab.names)] = 3.0
    status, told = lab.end_of(lab.begin("--patience", "12"))
    return told, "it goes on by itself", status, told


def silent(lab: Lab) -> tuple[str, str, int, str]:
    name = lab.chance.choice(lab.names)
    run = lab.begin("--patience", "3")
    lab.until(lab.middle(), run)
    lab.between.silent.add(name)
    told = lab.end_of(run)[1]
    lab.between.silent.clear()
    return told, *lab.go_on(told)


def cut_in_mid_round(lab: Lab) -> tuple[str, str, int, str]:
    run, name = lab.begin_slowly()
    lab.between.cut(name)
    lab.between.delay.clear()
    status, told = lab.end_of(run)
    return told, "it goes on by itself", status, told


def turned_back(lab: Lab) -> tuple[str, str, int, str]:
    run, _ = lab.begin_slowly()
    run.send_signal(signal.SIGTERM)
    told = lab.end_of(run)[1]
    lab.between.delay.clear()
    return told, *lab.turn_back()


def turned_at_the_end(lab: Lab) -> tuple[str, str, int, str]:
    told = lab.end_of(lab.begin())[1]
    return told, *lab.turn_back()


def fill(lab: Lab) -> tuple[str, int, str]:
    """Lets one switch that inserts take one entry alone beyond its old table, and the mark; and carries the plan out.
    Which switch it is, and the end of that."""
    plan = json.loads(pathlib.Path(lab.files[4]).read_text())
    inserts = [plan["rules"][at]["switch"] for one in plan["rounds"] for do, at in one if do == "insert"]
    name = inserts[-1] if inserts else lab.names[0]
    old = sum(rule["switch"] == name for rule in json.loads((lab.folder / "old.json").read_text())["rules"])
    lab.vsctl(
        "--", "--id=@table", "create", "flow_table", f"flow_limit={old + 1}", "overflow_policy=refuse", "--", "set",
        "bridge", name, "flow_tables:0=@table",
    )
    return name, *lab.end_of(lab.begin())


def full_table(lab: Lab) -> tuple[str, str, int, str]:
    name, status, told = fill(lab)
    lab.vsctl("clear", "bridge", name, "flow_tables")
    return (told, *lab.go_on(told)) if status else (told, "no round inserts", status, told)


def turned_from_full(lab: Lab) -> tuple[str, str, int, str]:
    _, status, told = fill(lab)
    return (told, *lab.turn_back()) if status else (told, "no round inserts", status, told)


def full_disk(lab: Lab) -> tuple[str, str, int, str]:
    run = lab.begin()
    lab.until(lab.middle(), run)
    size = lab.record.stat().st_size
    resource.prlimit(run.pid, resource.RLIMIT_FSIZE, (size + 200, size + 200))
    told = lab.end_of(run)[1]
    return told, *lab.go_on(told)


FAULTS = {
    "two controllers": two_controllers, "emptied switch": emptied_switch, "change by hand": change_by_hand,
    "kills": kills, "cuts": cuts, "late": late, "silent": silent, "cut in mid-round": cut_in_mid_round,
    "full table": full_table, "turned from full": turned_from_full, "full disk": full_disk, "turned back": turned_back,
    "turned at the end": turned_at_the_end, **HARD,
}


def telling(said: str) -> str:
    """The line that tells of the fault."""
    lines = said.strip().splitlines() or ["nothing"]
    shown = [line for line in lines if line.startswith("stopped: ")] or [
        line for line in lines if re.search("missing|too much|closed its|no answer", line)
    ]
    return (shown or lines[-1:])[0].replace("|", "/")


def main(words: Sequence[str]) -> Any:
    parser = argparse.ArgumentParser(description=__doc__, formatter_class=argparse.RawDescriptionHelpFormatter)
    parser.add_argument("folder", metavar="FOLDER", type=pathlib.Path)
    parser.add_argument("--only", metavar="FAULT", choices=FAULTS, action="append")
    parser.add_argument("--wait", metavar="SECONDS", default="0.5")
    parser.add_argument("--seed", metavar="N", type=int, default=1)
    parser.add_argument("--by", metavar="COMMAND")
    parser.add_argument("--plan", metavar="FILE", type=pathlib.Path)
    asked = parser.parse_args(words)
    make = (
        made_by([asked.by] if asked.by else ["pack", "plan"])
        if asked.plan is None
        else lambda _: asked.plan.read_text()
    )
    is_good = True
    print(
        (
            "| Fault | What is told | Next step | Packets sent | Broken by the fault | Broken beside it"
            " |\n|---|---|---|---|---|---|"
        ),
        flush=True,
    )
    for name, fault in FAULTS.items():
        if asked.only and name not in asked.only:
            continue
        with contextlib.ExitStack() as stack:
            lab = Lab(asked.folder, stack, asked.wait, random.Random(asked.seed), make)
            told, done, status, end = fault(lab)
            lab.end_traffic()
            sent, by_fault, beside = lab.judge()
        print(
            (
                f"| {name} | {telling(told)} | {done}:"
                f" {f'led to the {lab.led_to} tables' if status == 0 else 'FAILED'} | {sent} | {by_fault} |"
                f" {len(beside)} |"
            ),
            flush=True,
        )
        if beside or status:
            is_good = False
            print("\n".join([*beside[:5], *lab.said]), file=sys.stderr)
    return 0 if is_good else 1


if __name__ == "__main__":
    sys.exit(main(sys.argv[1:]))
