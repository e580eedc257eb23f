"""`planner update`: from the tables that the switches have to those that are wanted, by one command.

    planner update DIR --switches FILE [--listen HOST:PORT] [--wait SECONDS | --ask] [--patience SECONDS] [--yes | --dry-run]
                   [--ordered | --two-phase] [--without SWITCH].. [--strict] [--quiet]

DIR has topology.json, new.json and policy.json. The steps are those that can be taken one by one as well: collect, import, plan, check, apply. What they make is
kept in a new folder in DIR, `update-1` and so on: `replies`, `old.json`, `plan.json`, copies of the three files, and `record`, the record of the update. At the
end stand the commands that go on with it, or turn it back to the tables that the switches had. Where no table could be read there is no folder.

What there is to warn of in the three files is said first; --strict ends it there. Before the first change the entries that are changed are shown round by
round, as `planner show` does, and what changes for whom, and it is asked whether the plan may be carried out; --yes answers so, and --dry-run ends there. With --quiet nothing is said
but refusals and the question.

--without is that of `planner apply`: a switch that is gone, and that no packet passes, isn't asked for its table. Its old rules are taken from the newest
update of DIR that came to an end; where there is none from DIR/old.json, or else from new.json. When it is there again it is given its table by the line
that stands at the end.

Exit status: 0 done, or nothing was to be done, or it was a dry run; 2 wrong words; otherwise that of the step that stopped it, which is named: 1 refused or not
wanted, 3 a bad file, or warnings with --strict, 4 too few tags, 5 too small a table, 6 and 7 a file can't be read or written.
"""
from __future__ import annotations

import argparse
import json
import os
import shlex
import shutil
import sys

from planner_tools import network as nets
from planner_tools import events, program, show
from planner_tools.costs import OTHER, Costs
from planner_tools.files import like_folder, read_json
from planner_tools.intent import diff
from planner_tools.proved import How, answer_beside, answer_for, look, say_why
from planner_tools.switches import apply, collect, connections, ends, under_way
from planner_tools.switches.connections import fault_words, host_and_port, listening_address, progress, say
from planner_tools.update.meanwhile import meanwhile
from planner_tools.update.summary import counted, summary
from planner_tools.voice import TELLING

TYPE_CHECKING = False
if TYPE_CHECKING:
    from typing import Any, Callable, Sequence

WANTED = ("topology", "new", "policy")
STEPS = ("collect", "import", "plan", "check", "apply")
# The commands of the program that make a plan, the preferred one first. A command that makes plans of fewer rounds has
# its place before `plan`.
PLANNERS = ("pack", "plan")
REFUSED, WRONG_WORDS, BAD_FILE, UNREADABLE, UNWRITABLE = 1, 2, 3, 6, 7
# What to do next where a step of the program doesn't end with 0, by the step and the status.
NEXT = {
    (
        "import", BAD_FILE,
    ): "change at the switches, or in topology.json, what it names; docs/FORMATS.md has every refusal",
    ("plan", REFUSED): (
        "in the tables of the switches (`old`) or in new.json (`new`) packets have no good path: `planner page"
        " {topology} {config} {policy}` shows it"
    ),
    ("old", REFUSED): (
        "in the tables of the switches (`old`) packets have no good path, so no plan can start from them: `planner page"
        " {topology} {config} {policy}` shows it. Where entries are missing, or there are none, `planner adopt {folder}"
        " --switches {switches} --own CONFIG` puts those of CONFIG in; where some are wrong docs/CONTROLLER.md says"
        " what to do (a network as one finds it)"
    ),
    ("plan", BAD_FILE): "correct that file; docs/FORMATS.md has every refusal",
    ("plan", 4): "no order of single changes was found, and two phases want more tags: widen `tags` in topology.json",
    ("plan", 5): (
        "no order of single changes was found, and two phases want more room: make room at the switch, or give its true"
        " capacity in topology.json"
    ),
}


# The same where a kind of plan is asked for.
NEXT_OF_KIND = {
    ("ordered", REFUSED): "without --ordered a two-phase plan is made, where there are tags and room for it",
    ("two-phase", 4): "two phases want more tags: widen `tags` in topology.json, or leave --two-phase out",
    ("two-phase", 5): (
        "two phases want more room: make room at the switch, give its true capacity in topology.json, or leave"
        " --two-phase out"
    ),
}


class Stopped(Exception):
    """A step stopped the update before anything was sent."""

    def __init__(self, step: str, what: str, then: str, status: int = REFUSED) -> None:
        super().__init__(what)
        self.step, self.what, self.then, self.status = step, what, then, status

    def line(self) -> str:
        where = f"step {STEPS.index(self.step) + 1} of {len(STEPS)}, {self.step}" if self.step in STEPS else self.step
        return f"stopped at {where}: {self.what}. Nothing was sent" + (f". Next: {self.then}" if self.then else "")


class Update:
    def __init__(self, options: argparse.Namespace) -> None:
        self.options = options
        self.how, self.warnings = How(options.quiet, options.strict), 0
        self.files = {name: os.path.join(options.folder, f"{name}.json") for name in WANTED}
        self.made: str | None = None

    def path(self, name: str) -> str:
        return os.path.join(self.made or "", name)

    def run(self) -> int:
        """Does all steps, and returns the exit status."""
        self.look()
        self.warn()
        replies = self.collect()
        self.make_folder()
        self.write("replies", replies)
        old = self.of_program("import", "import", self.files["topology"], self.path("replies"))
        self.write("old.json", self.with_the_absent(old) if self.options.without else old)
        plan = self.plan()
        if not plan["rounds"]:
            progress(f"the switches have the tables of {self.files['new']} already: nothing is to be done")
            return 0
        self.keep_files()
        self.show(plan)
        if self.options.dry_run:
            progress(f"a dry run ends here: nothing was sent. The plan is {self.path('plan.json')}")
            progress(f"it is carried out by: {shlex.join([*self.apply_words(), *self.without_words()])}")
            return 0
        self.ask()
        return self.apply()

    def look(self) -> None:
        """Sees that the files are there."""
        if not os.path.isdir(self.options.folder):
            raise Stopped(
                "the files", f"{self.options.folder} is no folder",
                f"name the one with {', '.join(f'{name}.json' for name in WANTED)}{like_folder(self.options.folder)}",
                UNREADABLE,
            )
        for path in (*self.files.values(), self.options.switches):
            try:
                with open(path, "rb") as file:
                    file.read(1)
            except OSError as fault:
                raise Stopped(
                    "the files", f"{path} can't be read: {fault.strerror}",
                    (
                        "--switches names the file that says which switches there are"
                        if path == self.options.switches
                        else f"{self.options.folder} has to have {', '.join(f'{name}.json' for name in WANTED)}"
                    ),
                    UNREADABLE,
                ) from fault
        try:
            with open(self.files["topology"], encoding="utf-8") as file:
                names = [one["name"] for one in json.load(file)["switches"]]
            self.switches = len(names)
            unknown = [name for name in self.options.without if name not in names]
        except (ValueError, KeyError, TypeError, RecursionError) as fault:
            say_why("config", self.files["topology"], self.files["new"], self.files["policy"])
            raise Stopped(
                "the files", f"{self.files['topology']} is no topology", "docs/FORMATS.md has the members of one",
                BAD_FILE,
            ) from fault
        if unknown:
            raise Stopped(
                "the files", f"--without {unknown[0]}: {self.files['topology']} has no switch {unknown[0]}",
                f"name one of {', '.join(names)}", WRONG_WORDS,
            )

    def warn(self) -> None:
        """Says what there is to warn of in the files. The runs behind that say no warning."""
        self.warnings, is_ended = look(
            self.how, "config", self.files["topology"], self.files["new"], self.files["policy"]
        )
        if is_ended:
            raise Stopped(
                "the files", "there are warnings, and --strict is given",
                "correct what they name, or leave out --strict", BAD_FILE,
            )
        self.how = self.how.behind_warnings()

    def make_folder(self) -> None:
        """Makes a new folder for this update."""
        number = 1
        while True:
            self.made = os.path.join(self.options.folder, f"update-{number}")
            try:
                os.mkdir(self.made)
                return
            except FileExistsError:
                number += 1
            except OSError as fault:
                raise Stopped(
                    "the files", f"{self.made} can't be made: {fault.strerror}",
                    "see that the folder may be written to", UNWRITABLE,
                ) from fault

    def write(self, name: str, text: str) -> None:
        try:
            with open(self.path(name), "x", encoding="utf-8") as file:
                file.write(text)
        except OSError as fault:
            raise Stopped(
                "the files", f"{self.path(name)} can't be written: {fault.strerror}", "make room, and begin again",
                UNWRITABLE,
            ) from fault

    def connection_words(self) -> list[str]:
        words = ["--switches", self.options.switches]
        return words + (["--listen", self.options.listen] if self.options.listen else [])

    def collect(self) -> str:
        """What the switches answer for their tables."""
        progress(f"step 1: the tables of {self.switches - len(set(self.options.without))} switches are read")
        asked = argparse.Namespace(
            topology=self.files["topology"], switches=self.options.switches, patience=self.options.patience,
            listen=host_and_port(self.options.listen) if self.options.listen else None,
        )
        try:
            tables = collect.read(asked, self.options.without)
            found = under_way.find(self.options.folder, tables, self.apply_line)
            if found is not None:
                raise Stopped("collect", found.what, found.then)
            return tables.replies()
        except (connections.Stop, OSError) as stop:
            say(f"stopped: {fault_words(stop)}. Next: {getattr(stop, 'then', 'see to it, and ask again')}")
            raise Stopped("collect", "the lines above say why", "") from stop

    def with_the_absent(self, text: str) -> str:
        """The configuration that the switches have, with the rules that those had that are gone, as far as it is
        known. What they have matters to no packet before they are there again, and are given their tables."""
        path = self.last_known()
        config = json.loads(text)
        added = [rule for rule in nets.plain(read_json(path).root)["rules"] if rule["switch"] in self.options.without]
        config["rules"] += added
        names = ", ".join(self.options.without)
        progress(f"{names}: the rules of {path} count as the old ({counted(len(added), 'rule')})")
        return json.dumps(config) + "\n"

    def last_known(self) -> str:
        """The configuration that the switches were given last, as far as this folder knows it."""
        for head in under_way.heads_in(self.options.folder):
            files = head.files()
            core = head.core(files) if files is not None else None
            if files is not None and core is not None and not core.is_running and core.settled in (0, core.rounds):
                return files[2] if core.settled else files[1]
        path = os.path.join(self.options.folder, "old.json")
        return path if os.path.isfile(path) else self.files["new"]

    def of_program(self, step: str, command: str, *words: str) -> str:
        """What a command of the program writes, where it ends with 0."""
        status, text = answer_for(self.how, command, *words)
        self.see_that_it_is_heard()
        if status == 0:
            return text
        is_old = text.startswith("refused: 1 EndBreaks old ")
        then = NEXT.get(("old" if is_old else step, status), "docs/FORMATS.md has every refusal")
        if text.startswith(("no ordered plan\n", "too ")):
            then = next(
                (NEXT_OF_KIND[kind, status] for kind in self.options.kind if (kind, status) in NEXT_OF_KIND), then
            )
        config = self.path("old.json") if " old " in text else self.files["new"]
        raise Stopped(
            step, f"`planner {command}` says: {'; '.join(text.splitlines()) or f'nothing, with status {status}'}",
            then.format(
                config=config, folder=self.options.folder, switches=self.options.switches, **self.files
            ),
            status,
        )

    def plan(self) -> dict[str, Any]:
        """The plan, which `check` accepts."""
        files = [self.files["topology"], self.path("old.json"), self.files["new"], self.files["policy"]]
        progress(f"step 3: a plan is made by `planner {PLANNERS[0]}`, from what they have to {self.files['new']}")
        text = self.of_program("plan", PLANNERS[0], *files, *self.options.kind)
        self.write("plan.json", text)
        events.tell("plan", file=self.path("plan.json"), plan=json.loads(text))
        progress(self.of_program("check", "check", *files, self.path("plan.json")).strip())
        return json.loads(text)

    def keep_files(self) -> None:
        """Keeps the files of the update with it: its record is taken up with these, whatever becomes of the others."""
        for name, path in self.files.items():
            try:
                shutil.copyfile(path, self.path(f"{name}.json"))
            except OSError as fault:
                raise Stopped(
                    "the files", f"{self.path(name)}.json can't be written: {fault.strerror}",
                    "make room, and begin again", UNWRITABLE,
                ) from fault

    def show(self, plan: dict[str, Any]) -> None:
        """Shows what the plan does: entry by entry where somebody is asked or only looks, in a summary, what changes
        for whom, and what is to be known of packets outside of the model and of cookies."""
        tell: Callable[..., None] = say
        if self.options.yes or self.options.dry_run:
            tell = progress
        whom = diff.summary(self.files["topology"], self.path("old.json"), self.files["new"], self.files["policy"])
        other = self.other_words(OTHER[plan["kind"]]) if self.options.dry_run or not self.options.yes else []
        told = [
            *summary(plan, self.switches, None if self.options.ask else self.options.wait), *other, *whom,
            *self.meanwhile(plan),
        ]
        for line in [*([] if self.options.yes else self.entries(plan)), *told]:
            tell(line)

    def entries(self, plan: dict[str, Any]) -> list[str]:
        """The lines of `show` for a plan."""
        network, rules = (
            nets.Network(read_json(self.files["topology"])), nets.plain(read_json(self.path("old.json")).root)["rules"],
        )
        lines = show.plan_lines(
            self.path("plan.json"), show.plan_values(plan, rules, network, self.options.wait), network, rules
        )
        return [line for line in lines if not (self.options.ask and line.startswith("time: "))] + [""]

    def meanwhile(self, plan: dict[str, Any]) -> list[str]:
        """What is to be known of packets outside of the model, and of cookies."""
        with open(self.path("old.json"), encoding="utf-8") as old, open(
            self.path("replies"), encoding="ascii"
        ) as replies:
            return meanwhile(plan, json.load(old)["rules"], replies.read())

    def see_that_it_is_heard(self) -> None:
        if TELLING.fault is not None:
            raise Stopped(
                "the question", "the error stream is closed, and nobody hears what happens",
                "do it where its lines are read",
            )

    def other_words(self, kind: str) -> list[str]:
        """What a plan of a kind would cost, or why there is none."""
        files = [self.files["topology"], self.path("old.json"), self.files["new"], self.files["policy"]]
        return Costs(answer_beside, files, None if self.options.ask else self.options.wait).other_words(kind)

    def ask(self) -> None:
        self.see_that_it_is_heard()
        if self.options.yes:
            return
        if sys.stdin is None or not sys.stdin.isatty():
            raise Stopped(
                "the question", "there is no terminal to ask", "answer it with --yes, or look first with --dry-run"
            )
        if self.warnings:
            say(
                f"There {'is 1 warning' if self.warnings == 1 else f'are {self.warnings} warnings'}: see the first"
                " lines."
            )
        say("Carry it out? [y/N] ", end="")
        self.see_that_it_is_heard()
        if sys.stdin.readline().strip().lower() not in ("y", "yes"):
            raise Stopped("the question", "it isn't wanted", f"the plan stays in {self.path('plan.json')}")

    def apply_words(self, files: Sequence[str] | None = None, record: str | None = None) -> list[str]:
        """The words of `planner apply` for this update, or for the files and the record of another one."""
        files = files or [self.path(f"{name}.json") for name in ("topology", "old", "new", "policy", "plan")]
        wait = ["--ask"] if self.options.ask else ["--wait", f"{self.options.wait:g}"]
        return [
            program.typed(), "apply", *files, record or self.path("record"), *self.connection_words(), *wait,
            "--patience", f"{self.options.patience:g}",
        ]

    def without_words(self) -> list[str]:
        """What says to a first run which switches are gone. The record keeps it for the others."""
        return [word for name in self.options.without for word in ("--without", name)]

    def apply_line(self, files: Sequence[str], record: str) -> str:
        return shlex.join(self.apply_words(files, record))

    def apply(self) -> int:
        """Carries the plan out. What stands in the way is said by `apply` itself; behind it come the lines to go on
        with and to turn back with."""
        words = self.apply_words()
        status = apply.main([*words[2:], *self.without_words()], self.how)
        record = self.path("record")
        if status == 0:
            progress(f"the record is {record}; `planner serve` prints from it what was sent")
            progress(f"this turns the update back: {shlex.join([*words, '--back'])}")
        elif os.path.exists(record):
            say(f"this turns the update back: {shlex.join([*words, '--back'])}")
            say(f"where the line above says to go on with --resume, this does it: {shlex.join([*words, '--resume'])}")
        else:
            say("stopped at step 5 of 5, apply. Nothing was sent")
        return status


def typed_address(text: str) -> str:
    """The word behind --listen, where it is an address."""
    listening_address(text)
    return text


def main(words: Sequence[str]) -> int:
    parser = argparse.ArgumentParser(
        prog="planner update", description=__doc__, formatter_class=argparse.RawDescriptionHelpFormatter
    )
    parser.add_argument("folder", metavar="DIR")
    parser.add_argument("--switches", metavar="FILE", required=True)
    parser.add_argument("--listen", metavar="HOST:PORT", type=typed_address)
    apply.add_pace(parser)
    parser.add_argument("--without", metavar="SWITCH", action="append", default=[])
    parser.add_argument("--yes", action="store_true")
    parser.add_argument("--dry-run", action="store_true")
    parser.add_argument("--strict", action="store_true")
    parser.add_argument("--quiet", action="store_true")
    kinds = parser.add_mutually_exclusive_group()
    kinds.add_argument("--ordered", dest="kind", action="store_const", const=["ordered"], default=[])
    kinds.add_argument("--two-phase", dest="kind", action="store_const", const=["two-phase"])
    options = parser.parse_args(words)
    TELLING.is_quiet = options.quiet
    ends.heed_signals()
    update = Update(options)
    try:
        return update.run()
    except Stopped as stop:
        events.tell("stopped", what=stop.what, far="nothing was sent", next=stop.then)
        say(stop.line())
        return stop.status
    except program.CannotRun as fault:
        say(f"stopped: {fault}. Nothing was sent")
        return program.NO_PROGRAM
    except KeyboardInterrupt as why:
        say(f"stopped: {ends.interrupt_words(why)}. Nothing was sent")
        return REFUSED
