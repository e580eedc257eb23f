#!/usr/bin/env python3
"""Writes what planner_cli says of each command, from the table of tools/command_table.py and the templates of
tools/templates.

    tools/commands.py           writes the files, and the libraries of planner_cli in crates.txt
    tools/commands.py --check   prints those that aren't what it would write, and fails where it prints one

A line `@each KIND TEXT` of a template, or a run of such lines, stands for the text once for each command of that kind:
`answers`, `serves`, `reads_none`, `reads` for the first two, nothing for all. In a text `%word%` is what `fields` gives
for the command; `%word%` elsewhere is what `lists` gives for all. Lines between `@block NAME` and `@end` stand where a
line `@put NAME` is, so that what several functions promise is named once.
"""
from __future__ import annotations

import re
import sys

import making
from command_table import MEANINGS, ROWS, WORDS, Row

TYPE_CHECKING = False
if TYPE_CHECKING:
    from typing import Iterable, Sequence

CRATE = "crates/planner_cli"
# The template of each file.
FILES = {
    f"{CRATE}/specs/Commands.antt": "Commands.antt.template",
    f"{CRATE}/src/command.rt": "command.rt.template",
    f"{CRATE}/src/run.rt": "run.rt.template",
    f"{CRATE}/proofs/run/run/Answers.antt": "run.Answers.antt.template",
    f"{CRATE}/proofs/run/reply_to/Answers.antt": "reply_to.Answers.antt.template",
}
KINDS: dict[str, tuple[str, ...]] = {
    "": ("answers", "serves", "reads_none"),
    "reads": ("answers", "serves"),
    **{it: (it,) for it in ("answers", "serves", "reads_none")},
}
# What planner_cli uses besides the crates of the commands.
OTHER_LIBRARIES = ("file_access", "certificates", "command_base", "check_base")
# What its code brings besides.
OTHER_CALLS = (
    "use command_base::{Exit, Reply, Status};", "use file_access::{Sink, Source, WriteFault, pour};",
    "use std::alloc::Global;",
)
# A place, as `one_command.Names`, and a word that stands there.
Pair = tuple[str, str]
EACH = re.compile(r"@each (?:(answers|serves|reads|reads_none) )?(.*)")


def crate_of(row: Row) -> str:
    return f"{row.name}_command"


def promise_crate(row: Row) -> str:
    return row.promise_in or crate_of(row)


def own_promise(row: Row) -> str:
    """Returns the record in the crate of the command, or in that of its promise where it has none there."""
    return f"{row.name.title()}Promise"


def promise_of(row: Row) -> str:
    return row.promise or own_promise(row)


def applied(word: str, arguments: list[str]) -> str:
    """Returns the word, with arguments behind it in brackets where there are some."""
    return f"({word} {' '.join(arguments)})" if arguments else word


def fields(row: Row, rows: Sequence[Row] = ROWS) -> dict[str, str]:
    """Returns what the words of a template mean for a command."""
    words, means, name = WORDS[row.words], MEANINGS[row.means], row.name.title()
    reads = row.kind != "reads_none"
    given = [it.name for it in row.before]
    of_names = [f"names.{it}" for it in given]
    return {
        "name": row.name,
        "Name": name,
        "else": "" if row is rows[0] else "else ",
        "Words": words.rust,
        "words_in": words.function,
        "Files": f"{words.alias}.{words.files}" if reads else words.files,
        "FileNames": words.files,
        "files_in": f"{words.alias}.{words.files_in}",
        "files": "names" if reads else words.seen.partition(".")[0],
        "files_seen": f"({words.alias}.{words.seen} names)" if reads else words.seen,
        "before": "".join(f"{it.type} → " for it in row.before),
        "Meaning": means.meaning,
        "m": means.letter,
        "vars": "".join(f"{it} " for it in given),
        "given": "".join(f"{it} " for it in of_names),
        "IsAnswer": row.answer,
        "Answer": applied(row.answer, of_names),
        "Of": applied(f"Of{name}", of_names),
        "OfIn": applied(f"Of{name}", [f"c.in-{name}.names.{it}" for it in given]),
        "dialogue": f"{means.dialogue} names{'.' + row.files_at if row.files_at else ''}",
        "Promise": promise_of(row),
        "comment": f"\n    // {row.comment}\n" if row.comment else "",
    }


def module(place: str) -> str:
    """Returns the whole name of a module of definitions: of `one_command.Names` `Rattle.one_command.specs.Names`."""
    crate, _, file = place.partition(".")
    return f"Rattle.{crate}.specs.{file}"


def gathered(pairs: Iterable[Pair]) -> dict[str, list[str]]:
    """Returns the words by their places, each once, in order."""
    found: dict[str, dict[str, bool]] = {}
    for place, word in pairs:
        found.setdefault(place, {})[word] = True
    return {place: [*words] for place, words in found.items()}


def imports(pairs: Iterable[Pair], start: str = "use ", end: str = "") -> str:
    """Returns the lines that bring words from modules, from pairs of a place and a word."""
    found = gathered(pairs)
    return "\n".join(f"{start}{module(place)}.{{{', '.join(words)}}}{end}" for place, words in found.items())


def definitions(rows: Sequence[Row]) -> str:
    """Returns the imports of the definitions of what is asked for."""
    words, means = [WORDS[it.words] for it in rows], [MEANINGS[it.means] for it in rows if it.means]
    aliases = dict.fromkeys(f"use {module(it.module)} as {it.alias}" for it in words)
    places = [((it.meaning_in, it.meaning), (it.dialogue_in, it.dialogue)) for it in means]
    pairs = [pair for both in places for pair in both]
    pairs += [(it.type_in, it.type) for row in rows for it in row.before if it.type_in]
    return "\n".join([*aliases, imports(pairs + [(it.answer_in, it.answer) for it in rows])])


def titles(rows: Sequence[Row], start: str = "") -> str:
    """Returns the names of commands as a list, each with a capital and behind a start."""
    return ", ".join(f"{start}{it.name.title()}" for it in rows)


def lists(rows: Sequence[Row] = ROWS) -> dict[str, str]:
    """Returns what the words of a template mean that speak of all commands."""
    answers = [it for it in rows if it.kind == "answers"]
    told = [it for it in rows if it.kind != "serves"]
    own = [WORDS[it.words] for it in rows]
    of_words = gathered((it.crate, name) for it in own for name in (it.rust.partition("<")[0], it.function))
    calls = [*OTHER_CALLS, *(f"use {crate_of(it)}::{it.name};" for it in rows if it.kind != "serves")]
    calls += [f"use {crate_of(it)}::{{SourceBeside, {it.name}}};" for it in rows if it.kind == "serves"]
    calls += [f"use {promise_crate(it)}::laws::{it.name}_promised;" for it in rows]
    promises = [(WORDS[it.words].module, WORDS[it.words].files) for it in rows if it.kind != "reads_none"]
    promises += [(f"{promise_crate(it)}.Promise", promise_of(it)) for it in rows]
    means = [(MEANINGS[it.means].dialogue_in, MEANINGS[it.means].dialogue) for it in answers]
    return {
        "definitions": definitions(rows),
        "words": "\n".join(f"use {crate}::{{{', '.join(sorted(it))}}};" for crate, it in sorted(of_words.items())),
        "calls": "\n".join(["use crate::command::{Command, command_of};", *sorted(calls)]),
        "promises": imports(promises, "ghost use ", ";"),
        "said": imports(means + [(it.answer_in, it.answer) for it in told]),
        "Names": titles(rows),
        "Told": titles(told),
        "OfTold": titles(told, "Of"),
        "OfAnswered": titles(answers, "Of"),
    }


def filled(text: str, values: dict[str, str]) -> str:
    """Returns the text with each `%word%` in it replaced."""
    return re.sub(r"%(\w+)%", lambda found: values[found[1]], text)


def with_blocks(template: str) -> list[str]:
    """Returns the lines of a template with its blocks put in their places."""
    lines: list[str] = []
    blocks: dict[str, list[str]] = {}
    into = lines
    for line in template.splitlines():
        word, _, rest = line.partition(" ")
        if word == "@block":
            into = blocks[rest] = []
        elif word == "@end":
            into = lines
        elif word == "@put":
            lines += blocks[rest]
        else:
            into.append(line)
    return lines


def written(template: str, rows: Sequence[Row] = ROWS) -> str:
    """Returns the text of a file, from the text of its template."""
    said: list[str] = []
    block: list[str] = []
    kind, of_all = "", lists(rows)

    def end_block() -> None:
        for row in rows if block else ():
            if row.kind in KINDS[kind]:
                said.extend(filled(it, fields(row, rows)) for it in block)
        block.clear()

    for line in with_blocks(template):
        found = EACH.match(line)
        if not found or (found[1] or "") != kind:
            end_block()
        if found:
            kind = found[1] or ""
            block.append(found[2])
        else:
            said.append(filled(line, of_all))
    end_block()
    return "\n".join(said) + "\n"


def with_libraries(text: str, rows: Sequence[Row] = ROWS) -> str:
    """Returns the text of crates.txt with the libraries of planner_cli."""
    own = [name for it in rows for name in (crate_of(it), promise_crate(it))]
    found = dict.fromkeys([*OTHER_LIBRARIES, *own])
    return re.sub(r"(?m)^planner_cli:.*$", f"planner_cli: {' '.join(found)}", text)


def texts() -> dict[str, str]:
    """Returns the texts that the files are to have, by their paths."""
    found = {path: written(making.read(f"tools/templates/{template}")) for path, template in FILES.items()}
    return {**found, "crates.txt": with_libraries(making.read("crates.txt"))}


if __name__ == "__main__":
    sys.exit(making.run("commands", sys.argv[1:], __doc__, lambda: (texts(), [])))
