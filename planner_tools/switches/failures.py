"""What the end of `planner serve`, or of a session with a switch, means, and what to do next."""
import argparse

from planner.core import Core, Refused, ServeEnded
from planner_tools import program
from planner_tools.switches import openflow
from planner_tools.switches.connections import Stop
from planner_tools.switches.record import Record

# What to do after an error of a switch, by its type and code; then the update is taken up.
AFTER_ERROR = {
    (3, 0): "make room in its table (entries for other traffic; the capacity in the topology has to leave them room)",
    (3, 2): "let this controller change its table",
    (1, 5): "let this controller change its table: has another one made itself its master?",
}


def files_of(options: argparse.Namespace) -> list[str]:
    """The five files of an update, as they were given."""
    return [options.topology, options.old, options.new, options.policy, options.plan]


def serve_ended(options: argparse.Namespace, record: Record, end: Refused | ServeEnded) -> Stop:
    """The end after that of `planner serve`."""
    text = f" and said: {end.text.strip()}" if end.text else ""
    return Stop(f"`planner serve` ended with status {end.status}{text}", after_refusal(options, record, end))


def after_refusal(options: argparse.Namespace, record: Record, end: Refused | ServeEnded) -> str:
    go_on = "go on with --resume" if options.resume or record.starts else "begin again"
    if end.status == 1 and end.text.startswith("refused: "):
        return f"make a plan that `planner check` accepts; nothing can be done with {options.plan}"
    if end.status == 3:
        return f"correct that file, docs/FORMATS.md has every refusal; then {go_on}"
    command = " ".join([program.typed(), "serve", *files_of(options)])
    return f"see that the program can run: `{command} < {options.input}`; then {go_on}"


def session_failed(record: Record, core: Core, name: str, cause: str) -> Stop:
    """The end after a failed session: its cause in words, what was refused, and how the update is taken up."""
    words, then = "", f"see what is at the other end of the connection with {name}"
    error, parts = record.errors.get(name), cause.split(" ")
    if parts[0] == "Error":
        kind, code = int(parts[1]), int(parts[2])
        words = f" ({openflow.error_words(kind, code)})"
        then = AFTER_ERROR.get((kind, code), f"see why {name} can't do that")
        change = core.sent.get(name, {}).get(openflow.xid_of(error) if error else 0)
        words += f"; it is about: {openflow.change_words(change)}" if change else ""
    return Stop(
        f"the session with {name} failed: {cause}{words}",
        (
            f"{then}; then go on with --resume: what {name} hasn't answered of the running round is sent again, on a"
            " new session"
        ),
    )
