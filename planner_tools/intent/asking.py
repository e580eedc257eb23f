"""The files behind the words of a command of this package, and what the program says of them."""
from __future__ import annotations

import errno
import os
import re
import sys

from planner_tools import network as nets
from planner_tools.files import NotJson, like, read_json
from planner_tools.proved import REFUSALS, Given, Run, Unable, inside, say_why
from planner_tools.voice import Voice
from planner_tools.words import BY_NAME, Command

TYPE_CHECKING = False
if TYPE_CHECKING:
    from typing import Any, Callable, Sequence

    from planner_tools.files import Json
    from planner_tools.main import Options
    from planner_tools.network import Network

WRONG_WORDS, BAD_FILE, UNREAD = 2, 3, 6


def files_of(name: str, typed: Sequence[str], voice: Told) -> dict[str, Given]:
    """The files that the words of a command name, by their words in its usage: a folder stands for the names that are
    left out, `-` for the standard input. What there is to warn of in them is said."""
    usage = re.split(r" \[?--", BY_NAME[name].usage)[0]
    run = Run([name, *typed], REFUSALS)
    run.command = Command(name, usage, "", "")
    wanted, least = run.command.words()
    run.resolve()
    if len(run.files) < least or len(typed) > len(wanted):
        if len(typed) < least and not os.path.exists(typed[0]) and typed[0] != "-":
            raise Unable(
                f"{typed[0]}: No such file or directory{like(typed[0])}", WRONG_WORDS,
                ["a folder stands for the files that are left out", f"planner {name} {BY_NAME[name].usage}"],
            )
        raise Unable(
            f"{name}: the words are {usage}, and there are {'more' if len(typed) > len(wanted) else 'fewer'}",
            WRONG_WORDS, [f"planner {name} {BY_NAME[name].usage}"],
        )
    for file in run.files.values():
        file.kept = run.spooled          # what came from the standard input is there as long as this
    run.warn(voice.warn)
    return run.files


def warn_of(word: str, file: Given, voice: Told) -> None:
    """Says what there is to warn of in a file that an option names, which is one of a word of the usages."""
    run = Run([], REFUSALS)
    run.files = {word: file}
    run.warn(voice.warn)


def beside(folder: str, name: str) -> Given:
    """A file that an option names: where the first word is a folder and the name is no file, but one of the folder, it
    is that one."""
    found = inside(folder, name) if folder is not None and os.path.isdir(folder) else name
    return found if isinstance(found, Given) else Given(name, name)


def asked(command: str, good: Sequence[int] = (0,), **files: Given | None) -> str:
    """What the program writes for a command over files, which are given by the words of its usage. Where its status is
    no good one it is said why, and it is Unable."""
    status, text = say_why(command, *(file for file in files.values() if file is not None), good=good)
    if status not in good:
        raise Unable(None, status if status >= 0 else 128 - status)
    return text


def network_of(file: Given) -> Network:
    """The network of a topology that the program has read."""
    return nets.Network(json_of(file))


def rules_of(file: Given) -> list[dict[str, Any]]:
    """The rules of a configuration that the program has read."""
    return nets.plain(json_of(file).root)["rules"]


def json_of(file: Given) -> Json:
    try:
        return read_json(file.real, file.shown)
    except NotJson as fault:
        raise Unable(f"{file.shown}: {fault.what}", BAD_FILE) from fault


def text_of(file: Given, line: str) -> str:
    """The text of a file of lines, where a line looks so."""
    try:
        with open(file.real, "rb") as source:
            return source.read().decode("utf-8-sig")
    except OSError as fault:
        raise Unable(
            f"{file.shown}: {fault.strerror}{like(file.real) if fault.errno == errno.ENOENT else ''}", UNREAD,
            [f"right: lines as `{line}`"],
        ) from fault
    except UnicodeDecodeError as fault:
        raise Unable(f"{file.shown}: it is no text in UTF-8", BAD_FILE) from fault


class Told(Voice):
    """Says notes and warnings, and knows whether it has warned. Where warnings end it, they are said also by a quiet
    one."""

    def __init__(self, options: Options) -> None:
        super().__init__(is_quiet=options.is_quiet)
        self.is_strict, self.has_warned = options.is_strict, False

    def warn(self, what: str, more: Sequence[Any] = ()) -> None:
        self.has_warned = True
        if self.is_strict:
            Voice().warn(what, more)
        else:
            super().warn(what, more)


def done(work: Callable[..., Any], words: Sequence[str]) -> int:
    """Does the work of a command, which takes its words and a voice and returns the exit status and the text to write,
    and returns the status."""
    from planner_tools.main import take_options
    options, words = take_options(words)
    voice = Told(options)
    try:
        status, text = work(words, voice)
    except Unable as stop:
        if stop.args[0] is not None:     # otherwise what the program refused is said already
            voice.refuse(str(stop), stop.more)
        return stop.status
    except OSError as fault:
        if fault.filename is None:
            raise
        voice.refuse(f"{fault.filename}: {fault.strerror}")
        return UNREAD
    if options.is_strict and voice.has_warned:
        voice.refuse("nothing is written, as there are warnings and --strict is given")
        return BAD_FILE
    sys.stdout.write(text)
    return status
