"""One run of a proved command: the files that its words name, warnings before it, its text and status, which are handed
on as they are, and what is said beside them."""
from __future__ import annotations

import os
import sys

from planner_tools import program, words
from planner_tools.voice import Voice

TYPE_CHECKING = False
if TYPE_CHECKING:
    from typing import Any, Callable, IO, Sequence

    from planner_tools.cautions import Caution
    from planner_tools.costs import Costs
    from planner_tools.main import Options
    from planner_tools.report import Report as Listener

# So much of the text is kept for what is said of it.
KEPT = 4 << 20
WRONG_WORDS, BAD_FILE, UNREAD, UNWRITTEN = 2, 3, 6, 7
STANDARD_OUTPUT = 1
# Exit statuses are below this number.
ANY_STATUS = 256
INPUT_NAME = "the standard input"
TWICE = "`-` stands twice among the words, and the standard input can be read only once"


class How:
    """How a person wants runs of the program: quiet, where only refusals are told; strict, where warnings end them; or
    with the warnings about their files said already, by `look`."""

    output, wait = None, None

    def __init__(self, is_quiet: bool = False, is_strict: bool = False, is_warned: bool = False) -> None:
        self.is_quiet, self.is_strict, self.is_warned = is_quiet, is_strict, is_warned

    def behind_warnings(self) -> How:
        """The same for runs over files whose warnings were said."""
        return How(self.is_quiet, self.is_strict, True)


REFUSALS = How(is_quiet=True)


def answer_for(how: How, *given: Given | str, good: Sequence[int] = (0,)) -> tuple[int, str]:
    """Runs the program for a person, of whose answer more is to be made. Returns its status and its text."""
    run = Run([one if isinstance(one, Given) else str(one) for one in given], how)
    run.for_person(run.keep_all, program.path, good)
    return run.status, run.text


def answer_beside(*given: str) -> tuple[int, str]:
    """Runs the program for what is said beside another answer: of its own nothing is said, whatever it is. Returns its
    status and its text."""
    return answer_for(REFUSALS, *given, good=range(ANY_STATUS))


def say_why(*given: Given | str, good: Sequence[int] = (0,)) -> tuple[int, str]:
    """Runs the program, and says what its answer means where its status is no good one. Returns its status and its
    text."""
    return answer_for(REFUSALS, *given, good=good)


def look(how: How, *given: Given | str, has_notes: bool = True) -> tuple[int, bool]:
    """Says what there is to warn of in the files of a run that is to come, and what to note, unless `has_notes` isn't
    set. Returns how many warnings were said, and whether they end it: `how` is strict."""
    run = Run([one if isinstance(one, Given) else str(one) for one in given], how)
    run.resolve()
    run.program = program.path()
    is_ended = run.is_ended_by_warnings()
    if has_notes and not is_ended:
        run.say_notes()
    return run.warned, is_ended


class Unable(Exception):
    """The front end can't do what is asked: why, and the exit status."""

    def __init__(self, why: str | None, status: int, more: Sequence[str] = ()) -> None:
        super().__init__(why)
        self.status, self.more = status, more


class Given:
    """A file of a run: the path that the program gets, its name as it is told, the folder for which it stands, or None,
    and the word that was typed."""

    def __init__(self, real: str, shown: str, folder: str | None = None, typed: str | None = None) -> None:
        self.real, self.shown, self.folder, self.typed = real, shown, folder, typed or shown
        self.kept: IO[bytes] | None = None       # the file with the standard input, which is there as long as this


def standard_input() -> IO[bytes]:
    """All of the standard input, in a file that goes when it is closed."""
    import shutil
    import tempfile
    if sys.stdin is None:
        raise Unable("the standard input is closed", UNREAD)
    spooled = tempfile.NamedTemporaryFile(prefix="planner-")
    shutil.copyfileobj(sys.stdin.buffer, spooled)
    spooled.flush()
    return spooled


class Names:
    """The files that some words name, where one of them may be `-`, the standard input. Each is a path, which knows the
    name that is told."""

    def __init__(self) -> None:
        self.spooled: IO[bytes] | None = None

    def real(self, word: str) -> str:
        """The path of a file."""
        if word != "-":
            return word
        if self.spooled is not None:
            raise Unable(TWICE, WRONG_WORDS)
        self.spooled = standard_input()
        return self.spooled.name

    def is_input(self, path: str) -> bool:
        return self.spooled is not None and path == self.spooled.name

    def shown(self, path: str) -> str:
        """The name of a file, as it is told."""
        return INPUT_NAME if self.is_input(path) else path

    def given(self, path: str) -> Given | str:
        """The file for a run of the program."""
        return Given(path, INPUT_NAME) if self.is_input(path) else path


def joined(folder: str, name: str) -> str:
    return name if folder == "." else os.path.join(folder, name)


def beside(folder: str, name: str) -> str | None:
    """The path of a file of a folder; where it is an update's, of the folder above it, which has the files that the
    update began with. None where there is none."""
    above = os.path.normpath(os.path.join(folder, os.pardir))
    is_update = os.path.isfile(os.path.join(folder, "plan.json")) and not os.path.isfile(
        os.path.join(folder, "topology.json")
    )
    return next(
        (
            path
            for path in (joined(folder, name), *([joined(above, name)] if is_update else []))
            if os.path.isfile(path)
        ),
        None,
    )


def inside(folder: str, name: str) -> Given | str:
    """A word behind a folder: where it names no file, but one of the folder, it is that one."""
    path = joined(folder, name)
    return Given(path, path, typed=name) if not os.path.exists(name) and os.path.isfile(path) else name


def doubtful(folder: str, given: Sequence[Any]) -> list[tuple[str, list[str]]]:
    """Of words behind a folder those that name a file of the working folder, though the folder has another file of that
    name: what is said of each."""
    found = []
    for word in given:
        path = joined(folder, word) if isinstance(word, str) else ""
        if (
            os.path.basename(str(word)) == word
            and os.path.isfile(word)
            and os.path.isfile(path)
            and not is_same(word, path)
        ):
            found.append(
                (
                    f"{word} is the file of the working folder, and {folder} has another one of this name",
                    [
                        f"`{path}` names that one, and `{os.path.join('.', word)}` the one that is taken without this"
                        " warning"
                    ],
                )
            )
    return found


def is_same(one: str, other: str) -> bool:
    """Whether two files hold the same."""
    import filecmp
    try:
        return filecmp.cmp(one, other, shallow=False)
    except OSError:
        return False


class Run:
    """A run of a command of the program."""

    # what hears of each run of the program and of its answer, and of a run whose status was no good one, where the
    # answer is one for machines
    listener: Listener | None = None

    def __init__(self, given: Sequence[Any], options: Options | How) -> None:
        """`given` are the words: the command, and names of files, or each as a `Given`."""
        self.given, self.options = given, options
        self.voice: Voice = Voice(is_quiet=options.is_quiet)
        self.command: words.Command = words.BY_NAME.get(given[0]) if given else None
        if self.command is None or not self.command.is_proved:
            self.command = words.Command(given[0] if given else "", "", "", "")
        self.program: str | None = None
        self.files: dict[str, Given] = {}
        self.spooled: IO[bytes] | None = None
        self.folder: str | None = None
        self.text: str = ""
        self.target: str = options.output or "the standard output"
        self.status: int | None = None
        self.fault: BrokenPipeError | OSError | None = None
        self.passed: list[Any] = list(given)     # the words that the program gets
        self.warned: int = 0
        self.behind: list[Any] = list(given[1:])
        self.notes: list[Caution] = []

    def ask(self, *more: str) -> tuple[int, str]:
        """The status and the text of another run of the program."""
        status, text = program.run(*more, program=self.program)
        if Run.listener is not None:
            Run.listener.asked(self, more, status, text)
        return status, text

    # ---- the words

    def resolve(self) -> None:
        """Finds the files behind the words: a folder stands for the names that are left out, `-` for the standard
        input."""
        if not self.command.usage:
            return
        wanted, least = self.command.words()
        rest = self.given[1:]
        folder = (
            rest[0]
            if rest and wanted and wanted[0] == "TOPO" and isinstance(rest[0], str) and os.path.isdir(rest[0])
            else None
        )
        self.folder = folder
        if folder is not None:
            rest = self.unfolded(folder, wanted, least, rest[1:])
        self.behind = [getattr(text, "typed", text) for text in rest]
        if not least <= len(rest) <= len(wanted):
            return
        for word, text in zip(wanted, rest):
            if word in words.FILES:
                self.files[word] = text if isinstance(text, Given) else self.file(text)
        self.passed = [
            self.given[0],
            *(
                self.files[word].real if word in self.files else getattr(text, "typed", text)
                for word, text in zip(wanted, rest)
            ),
        ]

    @staticmethod
    def unfolded(folder: str, wanted: Sequence[str], least: int, behind: Sequence[Any]) -> list[Any]:
        """The words of a command whose first names are in a folder: as many as are left out stand for files of it."""
        names = next((at for at, word in enumerate(wanted) if word not in words.FILES), len(wanted))
        chosen = (
            behind[-1:]
            if behind and names == least < len(wanted) and behind[-1] in words.CHOICES.get(wanted[names], ())
            else []
        )
        behind = [inside(folder, word) for word in behind[:len(behind) - len(chosen)]]
        count = min(max(1, least - len(behind)), names)
        in_folder = [words.IN_FOLDER.get(word, "") for word in wanted]
        taken = [
            Given(path, path, folder)
            for path in (beside(folder, name) or joined(folder, name) for name in in_folder[:count])
        ]
        rest: list[Any] = [*taken, *behind, *chosen]
        for name in in_folder[len(rest):]:
            path = beside(folder, name) if name else None
            if path is not None:
                rest.append(Given(path, path, folder))
        return rest

    def refuse_options(self) -> None:
        """Refuses an option that isn't there, which would be taken for the name of a file."""
        from planner_tools.explanations import is_option, option_lines
        odd = [one.shown for one in self.files.values() if is_option(one.shown) and not os.path.exists(one.shown)]
        if odd:
            raise Unable(option_lines(odd)[0], WRONG_WORDS, ["`planner --help` has the options"])

    def file(self, text: str) -> Given:
        if text != "-":
            return Given(text, text)
        if self.spooled is not None:
            raise Unable(TWICE, WRONG_WORDS)
        self.spooled = standard_input()
        return Given(self.spooled.name, INPUT_NAME)

    # ---- the run

    def run(self) -> int:
        """Runs the program, hands its text on, and returns the exit status."""
        return self.for_person(self.hand_on, program.built)

    def for_person(self, work: Callable[..., Any], find: Callable[..., Any], good: Sequence[int] = (0,)) -> int:
        """The one way in which the program is run for a person: the warnings about its files before it, its answer as
        `work` takes it, and what that means behind it, where its status is no good one. Returns the exit status."""
        self.resolve()
        self.refuse_options()
        self.program = find()
        if self.is_ended_by_warnings():
            self.status = BAD_FILE
            self.voice.refuse("nothing is written, as there are warnings and --strict is given")
            return BAD_FILE
        work()
        if self.status not in good and Run.listener is not None:
            Run.listener.refused(self)
        if self.status not in good or self.status == 0:
            self.safely(self.explain)
            self.safely(self.tell_costs)
        if self.status == 0:
            self.say_notes()
        return self.status if self.status >= 0 else 128 - self.status

    def is_ended_by_warnings(self) -> bool:
        """Says the warnings about the files, where they aren't said already; and whether they are the end."""
        if not self.files or self.options.is_warned or self.options.is_quiet and not self.options.is_strict:
            return False
        return self.has_warnings() and self.options.is_strict

    def say_notes(self) -> None:
        for one in self.notes:
            self.voice.note(one.what, one.more)

    def has_warnings(self) -> bool:
        self.warn((Voice() if self.options.is_strict else self.voice).warn)
        return self.warned > 0

    def warn(self, warn: Callable[[str, Sequence[str]], None]) -> None:
        """Says what there is to warn of in the files, by `warn`, and keeps how many warnings there are, and the
        notes."""
        from planner_tools.cautions import Caution, cautions
        found = [Caution(what, more) for what, more in doubtful(self.folder, self.given[2:])] if self.folder else []
        found += self.safely(lambda: cautions(self)) or []
        warnings = [one for one in found if one.is_warning]
        self.notes = [one for one in found if not one.is_warning]
        for one in warnings:
            warn(one.what, one.more)
        self.warned = len(warnings)

    def explain(self) -> None:
        if self.status == 0 and self.command.name not in ("explain", "trace"):
            return
        from planner_tools.explanations import Explainer
        Explainer(self).explain()

    def tell_costs(self) -> None:
        """Behind a plan of `pack`, where a person reads: what it costs, and what one of the other kind would."""
        if (
            self.status != 0
            or self.command.name != "pack"
            or self.options.wait is None
            or not self.voice.is_read()
            or len(self.text.encode()) >= KEPT
        ):
            return
        import json
        plan = json.loads(self.text)
        if plan["rounds"]:
            first, *more = self.costs().words(plan)
            self.voice.note(first, more)

    def costs(self) -> Costs:
        """The costs of plans for the files of this run."""
        from planner_tools.costs import Costs
        return Costs(self.ask, [self.files[word].real for word in ("TOPO", "OLD", "NEW", "POLICY")], self.options.wait)

    def safely(self, work: Callable[..., Any]) -> list[Caution] | None:
        """Does what isn't needed for the answer. Where it fails the answer stands all the same."""
        try:
            return work()
        except Exception as fault:       # whatever it is: the program has the last word
            if os.environ.get("PLANNER_TOOLS_TEST"):
                raise
            self.voice.note(f"no more can be said of this: {type(fault).__name__}: {fault}")
            return None

    def keep_all(self) -> None:
        """Runs the program, and keeps its text, which isn't handed on."""
        self.status, self.text = self.ask(*self.passed)

    def hand_on(self) -> None:
        """Runs the program, and hands on what it writes as it comes."""
        output = Output(self.options.output)
        try:
            started = program.Started(self.program, *self.passed)
            try:
                self.hand_on_from(started, output)
            except OSError as fault:
                self.fault = fault
            except BaseException:
                started.end()
                raise
            finally:
                self.status = started.wait()
            if self.fault is None:
                self.end(output)
        finally:
            output.drop()
        if self.fault is not None:
            self.status = UNWRITTEN

    def hand_on_from(self, started: program.Started, output: Output) -> None:
        """Hands on what a run of the program writes, and keeps the beginning of it."""
        kept, size = [], 0
        while piece := started.read():
            if size < KEPT:
                kept.append(piece)
                size += len(piece)
            output.write(piece)
        self.text = b"".join(kept).decode("utf-8", "replace")

    def end(self, output: Output) -> None:
        try:
            output.end(self.status)
        except OSError as fault:
            self.fault = fault


class Output:
    """Where the text goes: to the standard output, or with `-o` into a file, which is there only where the answer is
    yes."""

    def __init__(self, path: str | None) -> None:
        self.path, self.handle = path, STANDARD_OUTPUT
        self.name: str | None = None
        if path is not None and (not os.path.exists(path) or os.path.isfile(path)):
            self.open_beside()
        elif path is not None:
            self.open_there()

    def open_beside(self) -> None:
        """Opens a new file beside the one that is to be written."""
        import tempfile
        try:
            self.handle, self.name = tempfile.mkstemp(
                prefix=f".{os.path.basename(self.path)}.", dir=os.path.dirname(self.path) or "."
            )
        except OSError as fault:
            raise Unable(f"{self.path}: {fault.strerror}", UNWRITTEN) from fault

    def open_there(self) -> None:
        """Opens what is no ordinary file, as /dev/stdout. A folder is none that can be written."""
        try:
            self.handle = os.open(self.path, os.O_WRONLY)
        except OSError as fault:
            raise Unable(
                f"{self.path}: {fault.strerror}", UNWRITTEN,
                ["-o takes the name of a file"] if os.path.isdir(self.path) else [],
            ) from fault

    def write(self, piece: bytes) -> None:
        while piece:
            piece = piece[os.write(self.handle, piece):]

    def end(self, status: int) -> None:
        """The text is whole: it is kept where the answer is yes. Another answer goes to the standard output."""
        if self.name is None:
            return
        if status == 0:
            mask = os.umask(0)
            os.umask(mask)
            os.fchmod(self.handle, 0o666 & ~mask)
            os.replace(self.name, self.path)
            os.close(self.handle)
        else:
            with open(self.name, "rb") as file:
                text = file.read()
            self.drop()
            while text:
                text = text[os.write(STANDARD_OUTPUT, text):]
        self.name = None

    def drop(self) -> None:
        if self.name is not None:
            os.close(self.handle)
            os.unlink(self.name)
            self.name = None
