"""Further faults for faults.py: at the ends of runs, between two runs, while tables are compared, and switches that are
gone. Each returns what was told first, what was done next, and the end of that."""
from __future__ import annotations

import json
import os
import pathlib
import re
import shlex
import signal
import stat
import subprocess
import sys
import time

sys.path[:0] = [str(pathlib.Path(__file__).resolve().parent), str(pathlib.Path(__file__).resolve().parents[1])]
from planner_tools import program

TYPE_CHECKING = False
if TYPE_CHECKING:
    from faults import Lab

FRONT_END = pathlib.Path(__file__).resolve().parents[1] / "planner"
LONGEST = 300
# A program of which the run number `at` of a command waits until it may go on.
HOLDING = """#!{python}
import os, sys, time
if sys.argv[1] == {command!r}:
    number = sum(name.startswith("held-") for name in os.listdir({folder!r})) + 1
    with open(os.path.join({folder!r}, "held-%d" % number), "w"):
        pass
    while number == {at} and not os.path.exists(os.path.join({folder!r}, "go")):
        time.sleep(0.01)
os.execv({planner!r}, [{planner!r}, *sys.argv[1:]])
"""
# A program whose `serve` says nothing any more from its first `change` on.
HANGING = """#!{python}
import os, subprocess, sys, time
if sys.argv[1] != "serve":
    os.execv({planner!r}, [{planner!r}, *sys.argv[1:]])
with subprocess.Popen([{planner!r}, *sys.argv[1:]], stdout=subprocess.PIPE, text=True) as run:
    for line in run.stdout:
        if line.startswith("change "):
            time.sleep(600)
        print(line, end="", flush=True)
"""
Told = tuple[str, str, int, str]


def script(lab: Lab, name: str, text: str, **values: object) -> str:
    """The path of a script of the laboratory."""
    path = lab.dir / name
    path.write_text(text.format(python=sys.executable, planner=os.path.abspath(program.path()), **values))
    path.chmod(stat.S_IRWXU)
    return str(path)


def until(is_so: object, *words: object) -> None:
    end = time.monotonic() + LONGEST
    while time.monotonic() < end and not is_so(*words):         # type: ignore[operator]
        time.sleep(0.01)


# ---- while tables are compared

def lost_while_compared(lab: Lab) -> Told:
    """The switch loses its table and its connection while `planner tables` runs, and is back before that ends."""
    old = json.loads((lab.folder / "old.json").read_text())["rules"]
    lab.fault_at, at = lab.chance.choice(old)["switch"], lab.chance.randrange(1, 5)
    run = lab.begin(planner=script(lab, "holding", HOLDING, command="tables", folder=str(lab.dir), at=at))
    until(lambda: (lab.dir / f"held-{at}").exists() or run.poll() is not None)
    lab.ofctl("del-flows", lab.fault_at)
    lab.between.cut(lab.fault_at)
    time.sleep(2.5)              # by then it is connected anew
    (lab.dir / "go").touch()
    status, told = lab.end_of(run)
    return (told, *lab.go_on(told)) if status else (told, "the lost table isn't told", 1, told)


# ---- ends of a run

def closed_terminal(lab: Lab) -> Told:
    run = lab.begin()
    lab.until(lab.middle(), run)
    run.send_signal(signal.SIGHUP)
    told = lab.end_of(run)[1]
    if "its terminal was closed (SIGHUP)" not in lab.record.read_text().splitlines()[-1]:
        return told, "the record doesn't say it", 1, told
    return told, *lab.go_on(told)


def closed_stream(lab: Lab) -> Told:
    """Nobody reads the error stream any more, as behind `2>&1 | head`."""
    run = lab.begin()
    lab.until(lab.middle(), run)
    assert run.stderr is not None
    run.stderr.close()
    run.wait(LONGEST)
    told = lab.record.read_text().splitlines()[-1]
    lab.said.append(told)
    if "the error stream is closed" not in told:
        return told, "the record doesn't say it", 1, told
    return f"in the record: {told.partition(' ')[2].partition(' ')[2]}", *lab.go_on(told)


def hanging_serve(lab: Lab) -> Told:
    told = lab.end_of(lab.begin("--patience", "2", planner=script(lab, "hanging", HANGING)))[1]
    return told, *lab.go_on(told)


def second_update(lab: Lab) -> Told:
    """`planner update` is ended by a key, and begun once more; then what that says is typed."""
    net = lab.dir / "net"
    net.mkdir()
    for word, path in zip(("topology", "old", "new", "policy"), lab.files):
        if word != "old":
            (net / f"{word}.json").write_text(pathlib.Path(path).read_text())
    words = [
        sys.executable, "-B", str(FRONT_END), "update", str(net), "--switches", str(lab.listed), "--wait",
        str(lab.wait), "--yes",
    ]
    situation = {**os.environ, "PLANNER": program.path()}
    run = subprocess.Popen(words, stderr=subprocess.PIPE, text=True, env=situation)
    lab.record = net / "update-1" / "record"
    lab.until("round 1 starts" if lab.rounds == 1 else "round 2 starts", run)
    run.send_signal(signal.SIGINT)
    lab.end_of(run)
    told = lab.end_of(subprocess.Popen(words, stderr=subprocess.PIPE, text=True, env=situation))[1]
    typed = re.search(r"`\S*planner (apply [^`]* --resume)`", told)
    if "an update is under way" not in told or typed is None:
        return told, "the update under way isn't told", 1, told
    again = [sys.executable, "-B", str(FRONT_END), *shlex.split(typed[1])]
    return told, "the line for --resume", *lab.end_of(
        subprocess.Popen(again, stderr=subprocess.PIPE, text=True, env=situation)
    )


def late_barriers(lab: Lab) -> Told:
    """All that one switch of the plan says comes later than the wait."""
    plan = json.loads(pathlib.Path(lab.files[4]).read_text())
    name = plan["rules"][next(one for one in plan["rounds"] if one)[0][1]]["switch"]
    lab.between.delay[name] = 2 * float(lab.wait)
    status, told = lab.end_of(lab.begin())
    words = re.search(r"took [0-9.]+ s to answer, more than the wait of .*; --wait [0-9]+ would do", told)
    return (words[0] if words else told), "it goes on by itself", status if words else 1, told


# ---- switches that are gone

def gone(lab: Lab, way: str) -> Told:
    """A switch is gone in the middle of a round, with its table; the update goes on, or back, without it; then the
    switch is there again, and is given its table before packets pass it."""
    run, lab.fault_at = lab.begin_slowly("--patience", "8")
    lab.between.silent.add(lab.fault_at)
    lab.ports(lab.fault_at, "down")
    lab.ofctl("del-flows", lab.fault_at)
    lab.between.cut(lab.fault_at)
    first = lab.end_of(run)[1]
    status, told = lab.end_of(lab.begin(way, "--without", lab.fault_at))
    if status:
        return first, f"{way} --without {lab.fault_at}", status, told
    lab.between.silent.clear()
    lab.between.delay.clear()
    last = told.splitlines()[-1]
    typed = re.search(r"\(`\S*planner (apply [^`]*)`\)$", last)
    if typed is None or f"{way} --repair {lab.fault_at}" not in typed[1]:
        return last, "the last line doesn't say it", 1, told
    again = [sys.executable, "-B", str(FRONT_END), *shlex.split(typed[1])]
    status, end = lab.end_of(
        subprocess.Popen(
            again, stderr=subprocess.PIPE, text=True, env={**os.environ, "PLANNER": program.path()}
        )
    )
    lab.ports(lab.fault_at, "up")
    lab.led_to = "new" if way == "--resume" else "old"
    return first, f"{way} --without {lab.fault_at}, then the line for --repair", status, end


def gone_onward(lab: Lab) -> Told:
    return gone(lab, "--resume")


def gone_back(lab: Lab) -> Told:
    return gone(lab, "--back")


# ---- a network as one finds it

def adopted(lab: Lab) -> Told:
    """All bridges are in standalone mode, with their default entry alone, and are given the old tables by `planner
    adopt`. Only for networks without cycles: NORMAL floods."""
    if len(lab.topology["links"]) >= len(lab.names):
        return "the network has cycles", "nothing", 0, ""
    lab.pause()
    for name in lab.names:
        lab.vsctl("set-fail-mode", name, "standalone")
        lab.ofctl("del-flows", name)
        lab.ofctl("add-flow", name, "priority=0,actions=NORMAL")
    net = lab.dir / "net"
    net.mkdir()
    for word, path in zip(("topology", "old", "new", "policy"), lab.files):
        (net / f"{word}.json").write_text(pathlib.Path(path).read_text())
    (net / "old.json").rename(net / "own.json")
    lab.go_on_pouring()
    time.sleep(1)
    words = [
        sys.executable, "-B", str(FRONT_END), "adopt", str(net), "--switches", str(lab.listed), "--own",
        str(net / "own.json"), "--yes",
    ]
    status, told = lab.end_of(
        subprocess.Popen(
            words, stdout=subprocess.DEVNULL, stderr=subprocess.PIPE, text=True,
            env={**os.environ, "PLANNER": program.path()},
        )
    )
    lab.led_to = "old"
    time.sleep(1)
    return "nothing: adopt says what it takes", "`planner adopt --own`", status, told


HARD = {
    "lost while compared": lost_while_compared, "closed terminal": closed_terminal, "closed stream": closed_stream,
    "hanging serve": hanging_serve, "second update": second_update, "late barriers": late_barriers,
    "gone, onward": gone_onward, "gone, back": gone_back, "adopted": adopted,
}
