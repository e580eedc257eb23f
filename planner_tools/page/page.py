"""Writes a page that shows what a plan does, or where packets go under a configuration, one HTML file that needs
nothing else:

    planner page TOPO OLD NEW POLICY PLAN [--schedule FILE] > update.html
    planner page TOPO CONFIG [POLICY] > now.html
"""
from __future__ import annotations

import argparse
import html
import json
import os
import re
import sys
import tempfile

from planner_tools import program
from planner_tools.page.layout import layout
from planner_tools.page.values import Files
from planner_tools.page.verdict import NoVerdict, driven, traces, verdict, verdict_of_configuration
from planner_tools.proved import BAD_FILE, UNREAD, How, Names, Unable, look, say_why

TYPE_CHECKING = False
if TYPE_CHECKING:
    from typing import Any, Sequence

HERE = os.path.dirname(os.path.realpath(__file__))

SCRIPTS = (
    "model.js", "walks.js", "search.js", "words.js", "changes.js", "picture.js", "player.js", "survey.js", "views.js",
    "main.js",
)
# How many files there are: of an update, and of a configuration without and with a policy.
UPDATE, CONFIGURATION = 5, (2, 3)


def asked_by(words: Sequence[str]) -> argparse.Namespace:
    parser = argparse.ArgumentParser(
        prog="planner page",
        usage=(
            "planner page [-h] TOPO OLD NEW POLICY PLAN [--schedule FILE] [--layout graphviz|own] [--planner PATH]\n"
            "       planner page [-h] TOPO CONFIG [POLICY] [--layout graphviz|own] [--planner PATH]"
        ),
        description=(
            "Writes a page that shows what a plan does; or, without a plan, where packets go under a configuration."
        ),
    )
    parser.add_argument(
        "files", metavar="FILE", nargs="+",
        help=(
            "the network, the rules now, the rules wanted, what packets must do, and the plan, from any source; "
            "or the network, the rules, and what packets must do"
        ),
    )
    parser.add_argument(
        "--schedule", metavar="FILE",
        help=(
            "a run of the plan, to be played: what `planner simulate` or `planner explain` wrote, or the record of an"
            " update"
        ),
    )
    parser.add_argument(
        "--planner", metavar="PATH",
        help="the program; else the variable PLANNER, else the one that is built or installed",
    )
    parser.add_argument(
        "--layout", choices=("graphviz", "own"), default="graphviz",
        help="own: Graphviz isn't used, even where it is there",
    )
    parser.add_argument("--strict", action="store_true", help="warnings end it, and nothing is written")
    parser.add_argument("--quiet", action="store_true", help="nothing is said but refusals")
    asked = parser.parse_args(words)
    if len(asked.files) != UPDATE and len(asked.files) not in CONFIGURATION:
        parser.error(f"{len(asked.files)} files are given: it takes the {UPDATE} of an update, or TOPO CONFIG [POLICY]")
    if asked.schedule and len(asked.files) != UPDATE:
        parser.error("--schedule goes with a plan")
    return asked


def part(name: str) -> str:
    with open(os.path.join(HERE, name), encoding="utf-8") as file:
        return file.read()


def page(values: dict[str, Any]) -> str:
    """Returns the page for some values. Nothing in them can end the script in which they stand."""
    data = json.dumps(values, separators=(",", ":")).replace("<", "\\u003c")
    script = "".join(part(name) for name in SCRIPTS)
    filled = {"TITLE": html.escape(values["title"]), "STYLE": part("page.css"), "DATA": data, "SCRIPT": script}
    return re.sub("@([A-Z]+)@", lambda place: filled[place[1]], part("page.html"))


def values_of(asked: argparse.Namespace, names: Names) -> dict[str, Any]:
    planner, paths = asked.planner or program.path(), asked.files
    if len(paths) == UPDATE:
        said, files = verdict(planner, paths), Files(*paths)
        title = f"{os.path.basename(names.shown(paths[4]))}: what the plan does"
    else:
        said, files = verdict_of_configuration(planner, paths), Files.of_configuration(*paths)
        title = f"{os.path.basename(names.shown(paths[1]))}: where packets go"
    values = {
        "title": title, "files": [names.shown(path) for path in paths],
        "command": "check" if len(paths) == UPDATE else "config", "verdict": said, **files.values(),
        "layout": layout(len(files.names), files.links, files.hosts, asked.layout == "graphviz"),
    }
    if asked.schedule:
        values["schedule"] = {**schedule_values(planner, paths, asked.schedule), "name": names.shown(asked.schedule)}
    return values


def schedule_values(planner: str, update: Sequence[str], name: str) -> dict[str, Any]:
    """The lines of a schedule, and what `planner replay` says of it. A record of an update, which has what switches
    sent, is no schedule: the events that `planner drive` or `planner serve` says of it are one."""
    topology, old, _, _, plan = update
    with open(name, encoding="utf-8", errors="replace", newline="") as file:
        text = file.read()
    if not any(line.startswith("feed ") for line in text.split("\n")):
        return {"name": name, "lines": lines_of(text), **traces(planner, topology, old, plan, name)}
    text = driven(planner, update, name)
    with tempfile.NamedTemporaryFile("w", encoding="utf-8", prefix="planner-", suffix=".schedule") as file:
        file.write(text)
        file.flush()
        return {"name": name, "lines": lines_of(text), **traces(planner, topology, old, plan, file.name)}


def lines_of(text: str) -> list[str]:
    return text.removesuffix("\n").split("\n") if text else []


def words_of_refused(asked: argparse.Namespace, line: str) -> tuple[str, ...]:
    """The words of the command that refused a file of the page."""
    if asked.schedule and line.startswith(("bad schedule", "planner replay")):
        return "replay", asked.files[0], asked.files[1], asked.files[4], asked.schedule
    if asked.schedule and line.startswith(("bad input", "not a run", "planner drive")):
        return "drive", *asked.files, asked.schedule
    return "check" if len(asked.files) == UPDATE else "config", *asked.files


def warn(asked: argparse.Namespace, names: Names) -> None:
    """Says what there is to warn of in the files, before they are shown."""
    command = "check" if len(asked.files) == UPDATE else "config"
    try:
        _, is_ended = look(
            How(asked.quiet, asked.strict), command, *map(names.given, asked.files), has_notes=False
        )
    except program.CannotRun:
        return               # that is said where the program is begun
    if is_ended:
        raise Unable("nothing is written, as there are warnings and --strict is given", BAD_FILE)


def main(words: Sequence[str]) -> int:
    asked, names = asked_by(words), Names()
    asked.files = [names.real(word) for word in asked.files]
    asked.schedule = names.real(asked.schedule) if asked.schedule else None
    if asked.planner:
        os.environ["PLANNER"] = asked.planner          # whatever is run for this page
    try:
        warn(asked, names)
        text = page(values_of(asked, names))
    except NoVerdict as fault:
        if fault.status != UNREAD:
            print(fault, file=sys.stderr)
        say_why(*map(names.given, words_of_refused(asked, str(fault))), good=(0, 1))
        return fault.status
    except program.CannotRun as fault:
        print(fault, file=sys.stderr)
        return program.NO_PROGRAM
    except OSError as fault:
        print(f"{fault.filename or 'a file'} can't be read: {fault.strerror or fault}", file=sys.stderr)
        return UNREAD
    sys.stdout.buffer.write(text.encode())
    return 0

