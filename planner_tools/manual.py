"""The manual page and the completion, made of the words of the planner."""
from __future__ import annotations

import re
import textwrap

from planner_tools import words

EXAMPLES = """In examples/square of the repository:
.PP
.nf
\\&../../planner plan topology.json old.json new.json policy.json
\\&../../planner check topology.json old.json new.json policy.json plan.json
\\&../../planner check topology.json old.json new.json policy.json plan-at-once.json
\\&../../planner emit topology.json plan.json
\\&../../planner simulate topology.json old.json new.json policy.json plan.json 0 2
.fi
"""
SEE_ALSO = """README.md, docs/FORMATS.md, docs/MODEL.md, docs/CONTROLLER.md; planner_tools/page/README.md for a page that shows what a plan does;
docs/planner.bash, which completes these words in bash
"""


def escaped(text: str) -> str:
    """Returns a text as troff takes it, on lines of the page's width: code stands in bold."""
    lines = textwrap.wrap(text, 150, break_on_hyphens=False)
    plain = "\n".join(lines).replace("\\", "\\e").replace("-", "\\-")
    plain = re.sub(r"`([^`]*)`", r"\\fB\1\\fP", plain)
    return re.sub(r"(?m)^([.'])", r"\\&\1", plain)


def usage_line(command: words.Command) -> str:
    """Returns the words behind a command: names in italics, options in bold."""
    parts = [
        re.sub(r"([^\[\]]+)", r"\\fI\1\\fP" if not word.strip("[]").startswith("-") else r"\\fB\1\\fP", word)
        for word in command.usage.split()
    ]
    return " ".join(part.replace("-", "\\-") for part in parts)


def manual() -> str:
    """Returns the manual page of all commands."""
    lines = [
        '.TH PLANNER 1 "" "" "User commands"', ".SH NAME",
        "planner \\- plan and check updates of OpenFlow 1.0 networks", ".SH SYNOPSIS",
    ]
    for at, command in enumerate(words.COMMANDS):
        lines += [".br"] if at else []
        lines += [f"\\fBplanner {command.name}\\fP {usage_line(command)}".replace("from-", "from\\-")]
    lines += [".SH DESCRIPTION", ".B planner", escaped(words.DESCRIPTION), ".PP", escaped(words.FRONT_END), ".SH FILES"]
    for name, text in words.FILES.items():
        lines += [".TP", f".I {name}", escaped(text)]
    lines += [".SH COMMANDS", escaped("Commands of the proved program:")]
    lines += [line for command in words.PROVED for line in entry(command)]
    lines += [".PP", escaped("Commands of the front end, which are tested and not proved:")]
    lines += [line for command in words.FRONT for line in entry(command)]
    lines += [".SH OPTIONS"]
    for flag, text in words.OPTIONS:
        lines += [".TP", ".B " + flag.replace("-", "\\-"), escaped(text)]
    lines += [".PP", escaped(words.SHORT_HANDS)]
    lines += [".SH EXIT STATUS"]
    for number, text in words.STATUSES:
        lines += [".TP", f".B {number}", escaped(text)]
    return "\n".join(lines) + "\n.SH EXAMPLES\n" + EXAMPLES + ".SH SEE ALSO\n" + SEE_ALSO


def entry(command: words.Command) -> list[str]:
    return [".TP", f"\\fB{command.name}\\fP {usage_line(command)}".replace("from-", "from\\-"), escaped(command.text)]


def flags_of(name: str) -> str:
    """The options of a command that it alone has, or few others."""
    return " ".join(flag.split()[0] for flag, _ in words.OWN_OPTIONS[name])


def completion() -> str:
    """Returns the script that completes the words in bash."""
    counts: dict[int, list[str]] = {}
    for command in words.COMMANDS:
        files = [word for word in command.words()[0] if word in words.FILES]
        counts.setdefault(len(files), []).append(command.name)
    cases = "".join(
        f"        {' | '.join(names)}) files={count} ;;\n" for count, names in sorted(counts.items()) if count
    )
    options = " ".join(flag.split()[0] for flag, _ in words.OPTIONS if flag != "--version")
    names = " ".join([*(command.name for command in words.COMMANDS), "--help", "--version"])
    own = "".join(f'            {name}) options="{flags_of(name)} $options" ;;\n' for name in words.OWN_OPTIONS)
    chosen = "".join(
        f'        {command.name}) choices="{" ".join(words.CHOICES[word])}" ;;\n'
        for command in words.COMMANDS
        for word in command.words()[0]
        if word in words.CHOICES
    )
    return f"""# Completes the words of the planner in bash:  . docs/planner.bash

_planner() {{
    local files=0 choices=
    COMPREPLY=()
    if [ "$COMP_CWORD" -eq 1 ]; then
        mapfile -t COMPREPLY < <(compgen -W "{names}" -- "${{COMP_WORDS[1]}}")
        return
    fi
    if [[ ${{COMP_WORDS[COMP_CWORD]}} == -* ]]; then
        local options="{options}"
        case ${{COMP_WORDS[1]}} in
{own}        esac
        mapfile -t COMPREPLY < <(compgen -W "$options" -- "${{COMP_WORDS[COMP_CWORD]}}")
        return
    fi
    case ${{COMP_WORDS[1]}} in
{cases}    esac
    # A word of which there are few stands behind the names of files, or earlier behind a folder, where its beginning is typed.
    case ${{COMP_WORDS[1]}} in
{chosen}    esac
    if [ "$COMP_CWORD" -eq $((files + 2)) ] || [ "$COMP_CWORD" -gt 2 ] && [ -n "${{COMP_WORDS[COMP_CWORD]}}" ]; then
        mapfile -t COMPREPLY < <(compgen -W "$choices" -- "${{COMP_WORDS[COMP_CWORD]}}")
    fi
    # Names of files are completed by bash itself, which does so where there is no answer; behind the last file there is nothing to complete.
    if [ "$COMP_CWORD" -gt $((files + 1)) ]; then
        compopt +o default 2>/dev/null
    fi
}}

complete -o default -F _planner planner ./planner
"""


def table() -> str:
    """Returns the table of the README: what people want, and the commands for it."""
    rows = "".join(
        f"| {wish} | {', '.join(f'`{name}`' for name in names if name in words.BY_NAME)} |\n"
        for wish, names in words.WISHES
    )
    return f"| You want | Commands |\n|---|---|\n{rows}"


def long_table() -> str:
    """Returns the table of all commands, with their words and answers."""
    rows = "".join(
        f"| `planner {f'{command.name} {command.usage}'.strip()}` | {command.answer} |\n" for command in words.COMMANDS
    )
    return f"| Command | Answer |\n|---|---|\n{rows}"
