"""A manual page for each command, made of the words of the planner."""
from __future__ import annotations

from planner_tools import words
from planner_tools.manual import escaped, usage_line
from planner_tools.version import VERSION


def name_of(command: words.Command) -> str:
    """The name of a command's page, without its section."""
    return f"planner-{command.name}"


def page(command: words.Command, day: str) -> str:
    """The manual page of a command. The day is that of the page, as 2026-11-29."""
    answer = escaped(command.answer).replace("\n", " ")
    lines = [
        f'.TH {name_of(command).upper()} 1 "{day}" "planner {VERSION}" "User commands"', ".SH NAME",
        f"{name_of(command).replace('-', chr(92) + '-')} \\- {answer}", ".SH SYNOPSIS",
        f"\\fBplanner {command.name.replace('-', chr(92) + '-')}\\fP {usage_line(command)}", ".SH DESCRIPTION",
        escaped(command.text), ".PP",
        escaped(
            "This command is one of the proved program."
            if command.is_proved
            else "This command is one of the front end, which is tested and not proved."
        ),
    ]
    own = words.OWN_OPTIONS.get(command.name, [])
    lines += [".SH OPTIONS"] if own else []
    for flag, text in own:
        lines += [".TP", f".B {escaped(flag)}", escaped(text)]
    named = [word for word in command.words()[0] if word in words.FILES]
    if named:
        lines.append(".SH FILES")
    for word in dict.fromkeys(named):
        lines += [".TP", f".I {word}", escaped(words.FILES[word])]
    if command.is_proved:
        lines.append(".SH EXIT STATUS")
        for number, text in words.STATUSES:
            lines += [".TP", f".B {number}", escaped(text)]
    return "\n".join([*lines, ".SH SEE ALSO", ".BR planner (1)"]) + "\n"


def all_pages(day: str) -> dict[str, str]:
    """The text of each page by the name of its file."""
    return {f"{name_of(command)}.1": page(command, day) for command in words.COMMANDS}
