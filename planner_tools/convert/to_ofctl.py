"""`planner to-ofctl`: writes the rounds of a plan as commands of `ovs-ofctl`, a script for each round, for networks
without a controller.

Each command is strict: it names one entry by its priority and match, and says the same to the switch as the message
that `planner emit` writes.
"""
from __future__ import annotations

import argparse
import json
import os
import shlex

from planner_tools import program
from planner_tools.convert.common import UNWRITABLE, NotConverted, read_text, run, say
from planner_tools.proved import beside
from planner_tools.switches.connections import Stop, address_words, listed_address
from planner_tools.words import IN_FOLDER

TYPE_CHECKING = False
if TYPE_CHECKING:
    from typing import Any, Callable, Sequence

# The command for each change. `ovs-ofctl` waits for the barrier reply of the switch before it ends, and its status
# tells of an error.
COMMANDS = {"insert": "add-flow", "replace": "--strict mod-flows", "delete": "--strict del-flows"}


def rounds_of(path: str) -> list[list[tuple[str, dict[str, Any]]]]:
    """The rounds of a plan of either format: lists of what to do and the rule."""
    try:
        plan = json.loads(read_text(path))
        if plan["format"] == 1:
            return [[(change["do"], change) for change in changes] for changes in plan["rounds"]]
        return [[(do, plan["rules"][rule]) for do, rule in changes] for changes in plan["rounds"]]
    except (ValueError, TypeError, KeyError, IndexError, RecursionError) as fault:
        raise NotConverted(f"{path}: it is no plan", "`planner check` says what of it can't be read") from fault


def match_of(rule: dict[str, Any]) -> str:
    """The priority and the match, which name an entry."""
    words = [f"priority={rule['priority']}", "ip"]
    words += [f"in_port={rule['in_port']}"] if rule.get("in_port", "any") != "any" else []
    if rule.get("vlan", "any") != "any":
        words.append("vlan_tci=0x0000" if rule["vlan"] == "untagged" else f"dl_vlan={rule['vlan']}")
    return ",".join([*words, f"nw_dst={rule['dst']}"])


def actions_of(rule: dict[str, Any]) -> str:
    if rule["out"] == "drop":
        return "drop"
    rewrite = f"mod_vlan_vid:{rule['set']}," if "set" in rule else "strip_vlan," if rule.get("strip") else ""
    return f"{rewrite}output:{rule['out']}"


def command_of(do: str, rule: dict[str, Any], targets: dict[str, str]) -> str:
    """The line that makes a change."""
    match = match_of(rule)
    flow = match if do == "delete" else f"{match},actions={actions_of(rule)}"
    return (
        "ovs-ofctl -O OpenFlow10"
        f" {COMMANDS[do]} {shlex.quote(targets.get(rule['switch'], rule['switch']))} {shlex.quote(flow)}"
    )


def refused(path: str, is_quiet: bool = False, is_strict: bool = False) -> str | None:
    """Why `planner check` refuses a plan, in its words, or None; the files of the update are looked for beside the
    plan, and in the folder above an update's. It is said unless it is to be quiet; where it is strict, that is the
    end."""
    folder = os.path.dirname(path) or "."
    beside_it = [beside(folder, IN_FOLDER[word]) for word in ("TOPO", "OLD", "NEW", "POLICY")]
    files = [one for one in beside_it if one is not None]
    note = f"{path}: note: whether it is certified wasn't looked at: `planner check TOPO OLD NEW POLICY {path}` says it"
    tell: Callable[[str], None] = (lambda _: None) if is_quiet else say
    if len(files) < len(beside_it):
        tell(note)
        return None
    try:
        status, text = program.run("check", *files, path)
    except program.CannotRun:
        tell(note)
        return None
    if status == 0:
        return None
    said = "; ".join(text.splitlines())
    if is_strict:
        raise NotConverted(f"{path}: `planner check` refuses it: {said}", "leave out --strict to have the scripts")
    tell(
        f"{path}: warning: `planner check` refuses it: {said}. The scripts are written all the same; what holds of a"
        " plan that it accepts isn't said of them"
    )
    return said


def script_of(
    number: int, rounds: Sequence[Sequence[tuple[str, dict[str, Any]]]], plan: str, targets: dict[str, str],
    why: str | None = None,
) -> str:
    """The script of a round."""
    changes = rounds[number - 1]
    lines = [
        "#!/bin/sh",
        (
            f"# Round {number} of {len(rounds)} of {os.path.basename(plan).translate({10: ' ', 13: ' '})}:"
            f" {len(changes)} changes, in any order."
        ),
        (
            "# Begin when the round before is done and the packets that entered before that have left; where a command"
            " fails, see to it and run this again."
        ),
    ]
    lines += [f"# `planner check refuses it`: {why}".replace("`", "")] if why else []
    lines.append("set -e")
    lines += [command_of(do, rule, targets) for do, rule in changes]
    return "\n".join([*lines, f"echo 'round {number} of {len(rounds)} is done'"]) + "\n"


def read_targets(path: str) -> dict[str, str]:
    """Where each switch listens, from a file of switches."""
    targets: dict[str, str] = {}
    for number, line in enumerate(read_text(path).splitlines(), 1):
        words = line.split("#")[0].split()
        if words and not 2 <= len(words) <= 3:
            raise NotConverted(f"{path}:{number}: not `NAME DATAPATH [HOST:PORT]`")
        try:
            targets |= (
                {words[0]: f"tcp:{address_words(listed_address(words[2], f'{path}:{number}'))}"}
                if len(words) == 3
                else {}
            )
        except Stop as stop:
            raise NotConverted(stop.what, stop.then) from None
    return targets


def write_scripts(folder: str, scripts: Sequence[tuple[str, str]]) -> None:
    """Writes each script. A folder that has files already isn't touched."""
    try:
        os.makedirs(folder, exist_ok=True)
        if os.listdir(folder):
            raise NotConverted(f"{folder}: it has files already", "name another folder", UNWRITABLE)
        for name, text in scripts:
            with open(os.path.join(folder, name), "x", encoding="utf-8") as file:
                file.write(text)
            os.chmod(file.name, 0o755)
    except OSError as fault:
        raise NotConverted(
            f"{fault.filename or folder}: it can't be written: {fault.strerror}", status=UNWRITABLE
        ) from fault


def convert(words: Sequence[str]) -> str:
    parser = argparse.ArgumentParser(
        prog="planner to-ofctl",
        description="Writes the rounds of a plan as commands of `ovs-ofctl`, a script for each round.",
    )
    parser.add_argument("plan", metavar="PLAN")
    parser.add_argument(
        "folder", metavar="FOLDER", nargs="?",
        help="where the scripts are written, a new or an empty folder; PLAN without its ending, and `-rounds`",
    )
    parser.add_argument(
        "--switches", metavar="FILE",
        help=(
            "lines `NAME DATAPATH HOST:PORT`, as for `planner apply`: a switch is reached there; otherwise it is a"
            " bridge of its name on this machine"
        ),
    )
    parser.add_argument("--strict", action="store_true", help="writes nothing where `planner check` refuses the plan")
    parser.add_argument("--quiet", action="store_true", help="says nothing but refusals")
    options = parser.parse_args(words)
    rounds, targets = rounds_of(options.plan), read_targets(options.switches) if options.switches else {}
    wide = max(2, len(str(len(rounds))))
    try:
        [script_of(number, rounds, options.plan, targets) for number in range(1, len(rounds) + 1)]
        why = refused(options.plan, options.quiet, options.strict)
        scripts = [
            (f"round-{number:0{wide}}.sh", script_of(number, rounds, options.plan, targets, why))
            for number in range(1, len(rounds) + 1)
        ]
    except (KeyError, TypeError, AttributeError) as fault:
        raise NotConverted(
            f"{options.plan}: a change of it can't be read", "`planner check` says what of it can't be read"
        ) from fault
    folder = options.folder or f"{os.path.splitext(os.path.basename(options.plan))[0]}-rounds"
    write_scripts(folder, scripts)
    return "".join(f"{os.path.join(folder, name)}\n" for name, _ in scripts)


def main(words: Sequence[str]) -> int:
    return run(convert, words)
