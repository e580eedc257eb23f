"""The completions for zsh and fish, made of the words of the planner. That for bash is in manual.py."""
from __future__ import annotations

from planner_tools import words
from planner_tools.manual import flags_of

FLAGS = ("--help", "--version")
# Options of every command of the program, and of those of the front end that write an answer.
COMMON = [(flag, text) for flag, text in words.OPTIONS if flag not in FLAGS]
COMMON_FLAGS = " ".join(["--help", *(flag.split()[0] for flag, _ in COMMON)])


def counts() -> dict[str, int]:
    """How many names of files stand behind each command."""
    return {
        command.name: sum(word in words.FILES or word == "FILE" for word in command.words()[0])
        for command in words.COMMANDS
    }


def chosen_words() -> dict[str, tuple[str, str]]:
    """What the words may be that are no names of files and of which there are few, by their command."""
    return {
        command.name: words.CHOICES[word]
        for command in words.COMMANDS
        for word in command.words()[0]
        if word in words.CHOICES
    }


def short(text: str) -> str:
    """The beginning of an answer, up to its first stop, which a list of commands has room for."""
    for stop in (";", ":", ", "):
        text = text.partition(stop)[0]
    return text


def quoted(text: str) -> str:
    return "'" + text.replace("'", "'\\''") + "'"


def zsh() -> str:
    listed = "\n".join(f"        {quoted(command.name + ':' + short(command.answer))}" for command in words.COMMANDS)
    own = "\n".join(f"            {name}) compadd -- {flags_of(name)} ;;" for name in words.OWN_OPTIONS)
    without = " | ".join(name for name, count in counts().items() if not count) or "none"
    chosen = "\n".join(
        f"        {name}) compadd -- {' '.join(choices)}; _files ;;" for name, choices in chosen_words().items()
    )
    return f"""#compdef planner
# Completes the words of the planner in zsh.

_planner() {{
    local -a commands
    commands=(
{listed}
    )
    if (( CURRENT == 2 )); then
        _describe 'command' commands
        compadd -- {' '.join(FLAGS)}
        return
    fi
    if [[ ${{words[CURRENT]}} == -* ]]; then
        compadd -- {COMMON_FLAGS}
        case ${{words[2]}} in
{own}
        esac
        return
    fi
    case ${{words[2]}} in
        {without}) _message 'a number or a word' ;;
{chosen}
        *) _files ;;
    esac
}}

_planner "$@"
"""


def fish() -> str:
    names = " ".join(command.name for command in words.COMMANDS)
    with_files = " ".join(name for name, count in counts().items() if count)
    first = f"not __fish_seen_subcommand_from {names}"
    lines = ["# Completes the words of the planner in fish.", "complete -c planner -f"]
    lines += [
        f"complete -c planner -n {quoted(first)} -a {quoted(command.name)} -d {quoted(short(command.answer))}"
        for command in words.COMMANDS
    ]
    lines += [f"complete -c planner -n {quoted(first)} -l {flag.lstrip('-')}" for flag in FLAGS]
    lines += [
        f"complete -c planner -n {quoted('__fish_seen_subcommand_from ' + name)} -l {flag.split()[0].lstrip('-')} -d"
        f" {quoted(short(text))}"
        for name, options in words.OWN_OPTIONS.items()
        for flag, text in options
    ]
    lines += [
        f"complete -c planner -n {quoted('__fish_seen_subcommand_from ' + name)} -a {quoted(' '.join(choices))}"
        for name, choices in chosen_words().items()
    ]
    lines += [
        f"complete -c planner -n {quoted('__fish_seen_subcommand_from ' + names)}"
        f" {'-l' if flag.startswith('--') else '-o'} {flag.split()[0].lstrip('-')} -d {quoted(short(text))}"
        for flag, text in [("--help", "more of the command"), *COMMON]
    ]
    lines.append(f"complete -c planner -n {quoted('__fish_seen_subcommand_from ' + with_files)} -F")
    return "\n".join(lines) + "\n"
