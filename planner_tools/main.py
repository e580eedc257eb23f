"""The words of the command line: the front end's options, and which command is named."""
from __future__ import annotations

import os
import sys

from planner_tools import program

TYPE_CHECKING = False
if TYPE_CHECKING:
    from typing import Any, Callable, Sequence

# The modules of the front end's own commands. Each has `main`, which takes the words behind the command and returns the
# exit status.
MODULES = {
    "adopt": "planner_tools.switches.adopt",
    "apply": "planner_tools.switches.apply",
    "collect": "planner_tools.switches.collect",
    "diff": "planner_tools.intent.diff",
    "from-graphml": "planner_tools.convert.from_graphml",
    "from-mininet": "planner_tools.convert.from_mininet",
    "from-ofctl": "planner_tools.convert.from_ofctl",
    "install": "planner_tools.install.install",
    "links": "planner_tools.intent.links",
    "page": "planner_tools.page.page",
    "policy": "planner_tools.intent.policy",
    "route": "planner_tools.intent.route",
    "to-ofctl": "planner_tools.convert.to_ofctl",
    "update": "planner_tools.update.update",
    "show": "planner_tools.show",
}
# Those of them that are quiet or strict themselves.
WITH_FLAGS = ("apply", "diff", "links", "page", "policy", "route", "update")
# Those of them whose answer `-o FILE` takes.
WITH_OUTPUT = (
    "collect", "diff", "from-graphml", "from-mininet", "from-ofctl", "links", "page", "policy", "route", "show",
)
# Those of them in which a folder stands for names.
UNFOLDING = ("apply", "collect", "page")
WRONG_WORDS, UNWRITTEN, INTERRUPTED = 2, 7, 130
# So many seconds are waited before each round where `--wait` doesn't say otherwise.
WAIT = 2.0


class Options:
    """The options of the front end, taken out of the words."""

    def __init__(self) -> None:
        self.is_quiet, self.is_strict, self.is_warned, self.wait = False, False, False, WAIT
        self.output: str | None = None

    def flags(self) -> list[str]:
        """Those that a command of the front end takes itself."""
        return ["--quiet"] * self.is_quiet + ["--strict"] * self.is_strict


def take_options(words: Sequence[str]) -> tuple[Options, list[str]]:
    """The options of the front end among some words, and the other words."""
    options, given = Options(), iter(words)
    rest: list[str] = []
    for word in given:
        if word == "--quiet":
            options.is_quiet = True
        elif word == "--strict":
            options.is_strict = True
        elif word == "-o":
            options.output = next(given, "")
            if not options.output:
                raise ValueError("behind -o the name of a file is missing")
        else:
            rest.append(word)
    return options, rest


def take_wait(words: list[str], options: Options) -> list[str]:
    """The words of `pack` without `--wait SECONDS`."""
    if words[:1] != ["pack"] or "--wait" not in words:
        return words
    at = words.index("--wait")
    try:
        options.wait = float(words[at + 1])
    except (IndexError, ValueError):
        raise ValueError("behind --wait a number of seconds is missing") from None
    if not 0 <= options.wait < float("inf"):
        raise ValueError(f"--wait {words[at + 1]}: no number of seconds")
    return words[:at] + words[at + 2:]


def ended(number: int, _: object) -> None:
    """Ends the front end at a signal, by way of all that is to be put in order."""
    raise SystemExit(128 + number)


def fill_gaps() -> None:
    """Where the front end was begun without a standard stream, puts something in its place, so that no file that it
    opens gets its number: from the input nothing can be read, to the output nothing can be written, and what is said
    goes nowhere. The program is begun without that stream too."""
    for number, mode in ((0, os.O_WRONLY), (1, os.O_RDONLY), (2, os.O_WRONLY)):
        try:
            os.fstat(number)
        except OSError:
            os.open(os.devnull, mode)
    sys.stdout = sys.stdout or open(1, "w", encoding="utf-8", closefd=False)
    sys.stderr = sys.stderr or open(2, "w", encoding="utf-8", closefd=False)


def main(words: Sequence[str]) -> int:
    """Does what the words say, and returns the exit status."""
    fill_gaps()
    if "--json" in words:
        from planner_tools.report import report
        status = report(words, answer)
    else:
        status = answer(words)
    try:
        sys.stdout.flush()
    except OSError as fault:
        return unwritten(fault)
    return status


def unwritten(fault: OSError) -> int:
    """Says that the standard output couldn't be written, and sees that it isn't tried again."""
    from planner_tools.voice import Voice
    os.dup2(os.open(os.devnull, os.O_WRONLY), 1)
    Voice().refuse(
        f"the standard output: the output couldn't all be written: {fault.strerror}; what is there isn't whole"
    )
    return UNWRITTEN


def spelled_out(words: Sequence[str]) -> list[str]:
    """The words, where `help`, -h and -V stand for what they mean elsewhere."""
    if words[:1] == ["help"]:
        return [*(word for word in words[1:2] if not word.startswith("-")), "--help"]
    if words[:1] in (["-h"], ["-V"]):
        return ["--help" if words[0] == "-h" else "--version", *words[1:]]
    return ["--help" if word == "-h" and words[0] not in MODULES else word for word in words]


def answer(words: Sequence[str], begin: Callable[..., Any] | None = None) -> int:
    """Does what the words say. `begin` makes the run of a proved command, where that isn't a `Run`."""
    words = spelled_out(words)
    if words[:1] == ["--version"]:
        from planner_tools.version import VERSION
        print(f"planner {VERSION}\n{program.described()}")
        return 0
    if words[:1] == ["--help"] or "--help" in words[1:] and words[0] not in MODULES:
        return print_help(words)
    from planner_tools.proved import Run, Unable
    from planner_tools.voice import Voice
    try:
        if words and words[0] in MODULES and words[0] not in WITH_OUTPUT:
            return run_module(words, Options())
        options, rest = take_options(words)
        rest = take_wait(rest, options)
        import signal
        signal.signal(signal.SIGTERM, ended)
        return run_module(rest, options) if rest and rest[0] in MODULES else (begin or Run)(rest, options).run()
    except Unable as stop:
        Voice().refuse(str(stop), stop.more)
        return stop.status
    except ValueError as fault:
        Voice().refuse(str(fault), ["`planner --help` has the commands and the options"])
        return WRONG_WORDS
    except program.CannotRun as fault:
        Voice().refuse(str(fault))
        return program.NO_PROGRAM
    except KeyboardInterrupt:
        return INTERRUPTED


def is_option(word: str) -> bool:
    """Whether a word is none of a file: the name `-` is that of the standard input."""
    return word.startswith("-") and word != "-"


def missing_folder(words: Sequence[str]) -> None:
    """Says of a command of the front end that its one name is none of a file or a folder that is there."""
    from planner_tools.files import like
    from planner_tools.proved import Unable
    if not is_option(words[1]) and not os.path.exists(words[1]) and (len(words) == 2 or is_option(words[2])):
        raise Unable(
            f"{words[1]}: No such file or directory{like(words[1])}", WRONG_WORDS,
            [f"a folder stands for the files that are left out: planner {words[0]} FOLDER"],
        )


def warn_of_doubtful(words: Sequence[str], options: Options) -> None:
    """Warns of words of a command of the front end that name a file of the working folder, though the folder before
    them has one of that name."""
    from planner_tools.proved import BAD_FILE, Unable, doubtful
    from planner_tools.voice import Voice
    is_quiet, is_strict = options.is_quiet or "--quiet" in words, options.is_strict or "--strict" in words
    found = doubtful(words[1], words[2:])
    for what, more in found:
        Voice(is_quiet=is_quiet and not is_strict).warn(what, more)
    if found and is_strict:
        raise Unable("nothing is done, as there are warnings and --strict is given", BAD_FILE)


def unfolded(words: list[str], options: Options) -> list[str]:
    """The words of a command of the front end, where a folder stands for the names of files that are left out before
    its options."""
    if words[0] not in UNFOLDING or len(words) < 2:
        return words
    if words[0] == "page" and words[1] == "-" and (len(words) == 2 or is_option(words[2])):
        words = ["page", ".", *words[1:]]
    if not os.path.isdir(words[1]):
        missing_folder(words)
        return words
    from planner_tools.proved import Run
    from planner_tools.words import BY_NAME
    warn_of_doubtful(words, options)
    end = next((at for at, word in enumerate(words) if is_option(word)), len(words))
    wanted = [word for word in BY_NAME[words[0]].usage.partition(" -")[0].split() if not word.startswith("[")]
    return [
        words[0],
        *[str(getattr(one, "shown", one)) for one in Run.unfolded(words[1], wanted, len(wanted), words[2:end])],
        *words[end:],
    ]


def run_module(words: list[str], options: Options) -> int:
    """Runs a command of the front end itself; with `-o` its output goes into a file, which is there only where the
    status is 0."""
    import importlib
    words = [*words, *options.flags()] if words[0] in WITH_FLAGS else words
    command, words = importlib.import_module(MODULES[words[0]]).main, unfolded(words, options)
    if options.output is None:
        try:
            return command(words[1:])
        except OSError as fault:
            return unwritten(fault)
    from planner_tools.proved import Output, Unable
    output, before = Output(options.output), sys.stdout
    try:
        with open(output.handle, "w", encoding="utf-8", closefd=False) as sys.stdout:
            status = command(words[1:])
        output.end(status)
        return status
    except OSError as fault:
        raise Unable(f"{options.output}: the output couldn't all be written: {fault.strerror}", UNWRITTEN) from fault
    finally:
        sys.stdout = before
        output.drop()


def print_help(words: Sequence[str]) -> int:
    from planner_tools import words as all_words
    if words[0] == "--help":
        sys.stdout.write(all_words.help_text())
        return 0
    command = all_words.BY_NAME.get(words[0])
    if command is None:
        from planner_tools.files import did_you_mean
        from planner_tools.voice import Voice
        Voice().refuse(
            f"no command is named `{words[0]}`{did_you_mean(words[0], all_words.BY_NAME)}",
            ["`planner --help` has the commands"],
        )
        return WRONG_WORDS
    sys.stdout.write(all_words.command_help(command))
    return 0
