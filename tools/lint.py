#!/usr/bin/env python3
"""Looks over the scripts of the repository, and prints what it finds, a line each.

    tools/lint.py

Of Python: what the compiler warns of, tabs, white space at the end of a line, and lines of more than 120 signs, but for
those of texts that stand as they are (help, other languages); and what pyflakes says (Debian's package pyflakes3):
names that nothing uses or nothing gives a value, and more; and what mypy says, by mypy.ini, of what has types. Of shell
scripts: what shellcheck says. Where one of the three isn't on the machine it is left out, and a line on the error
stream says so.
Exit status: 0 nothing was found, 1 something was.
"""
from __future__ import annotations

import ast
import io
import os
import shutil
import subprocess
import sys
import tokenize
import warnings

TYPE_CHECKING = False
if TYPE_CHECKING:
    from typing import Sequence

ROOT = os.path.dirname(os.path.dirname(os.path.realpath(__file__)))
LONGEST = 120
PYFLAKES = ("pyflakes3", "pyflakes")
# The packages that mypy looks at, and the folders whose scripts it looks at; those of a folder name each other without
# it. Of TYPED_TESTS it looks at the tests too.
TYPED_PACKAGES, TYPED_FOLDERS = ("planner_tools", "planner"), ("bench", "lab", "reliability", "tools")
TYPED_TESTS = ("tools",)
# Folders of which no script is looked at.
PASSED_OVER = (".git", "__pycache__", "out", "src", "specs", "proofs", "must-fail")
SHELLS = ("#!/bin/sh", "#!/usr/bin/env bash", "#!/bin/bash")


def scripts() -> tuple[list[str], list[str]]:
    """The paths of all Python and shell scripts, from the root on."""
    python, shell = [], []
    for at, folders, names in os.walk(ROOT):
        folders[:] = sorted(name for name in folders if name not in PASSED_OVER)
        for name in sorted(names):
            path = os.path.join(at, name)
            if name.endswith(".py") or first_line(path).startswith("#!") and "python3" in first_line(path):
                python.append(path)
            elif first_line(path) in SHELLS or name == "planner.bash":
                shell.append(path)
    return python, shell


def first_line(path: str) -> str:
    try:
        with open(path, encoding="utf-8") as file:
            return file.readline().strip() if not os.path.islink(path) else ""
    except (OSError, UnicodeDecodeError):
        return ""


def of_python(path: str) -> list[tuple[int, str]]:
    """What there is to say of a Python script: numbers of lines, and words."""
    with open(path, encoding="utf-8") as file:
        text = file.read()
    with warnings.catch_warnings(record=True) as found:
        warnings.simplefilter("always")
        try:
            tree = ast.parse(text, path)
            compile(text, path, "exec", dont_inherit=True)
        except SyntaxError as fault:
            return [(fault.lineno or 0, f"it isn't Python: {fault.msg}")]
    findings = [(one.lineno, str(one.message)) for one in found]
    prose = texts_in(text, tree)
    for number, line in enumerate(text.splitlines(), 1):
        looked_for = (
            ("a tab", "\t" in line),
            ("white space at its end", line != line.rstrip()),
            (f"more than {LONGEST} signs", len(line) > LONGEST and number not in prose),
        )
        findings += [(number, words) for words, is_so in looked_for if is_so]
    return findings


def texts_in(text: str, tree: ast.Module) -> set[int]:
    """The lines of texts that stand as they are, over several lines: but of those about a module, a class or a function
    only such as are printed."""
    about = {node.body[0].lineno for node in ast.walk(tree)
             if isinstance(node, (ast.Module, ast.ClassDef, ast.FunctionDef, ast.AsyncFunctionDef))
             and ast.get_docstring(node) is not None and not (isinstance(node, ast.Module) and "__doc__" in text)}
    found: set[int] = set()
    for token in tokenize.generate_tokens(io.StringIO(text).readline):
        if token.type == tokenize.STRING and token.start[0] != token.end[0] and token.start[0] not in about:
            found |= set(range(token.start[0], token.end[0] + 1))
    return found


def of_names(paths: Sequence[str]) -> list[str]:
    """What pyflakes says of Python scripts, a line each; nothing of an import that is there on purpose, as `noqa: F401`
    says."""
    program = next((found for found in map(shutil.which, PYFLAKES) if found), None)
    if program is None:
        left_out("pyflakes", "pyflakes3")
        return []
    done = subprocess.run([program, *paths], capture_output=True, text=True, check=False)
    if done.returncode not in (0, 1):
        return [f"{program} ended with status {done.returncode}: {done.stderr.strip()}"]
    return [said(line) for line in (done.stdout + done.stderr).splitlines() if line and not is_wanted(line)]


def of_types(packages: Sequence[str] = TYPED_PACKAGES, folders: Sequence[str] = TYPED_FOLDERS) -> list[str]:
    """What mypy says, a line each. Tests have no types but for those of TYPED_TESTS."""
    if not shutil.which("mypy"):
        left_out("mypy", "mypy")
        return []
    found = types_in(ROOT, [word for name in packages for word in ("-p", name)])
    for folder in folders:
        names = sorted(name for name in os.listdir(os.path.join(ROOT, folder)) if name.endswith(".py"))
        has_types = folder in TYPED_TESTS
        found += types_in(os.path.join(ROOT, folder), [it for it in names if has_types or not it.startswith("test_")])
    return found


def types_in(folder: str, words: Sequence[str]) -> list[str]:
    """What mypy says of some packages, or of scripts of a folder, a line each."""
    settings = os.path.join(ROOT, "mypy.ini")
    given = ["mypy", "--config-file", settings, "--cache-dir", os.devnull, "--no-error-summary"]
    done = subprocess.run([*given, *words], capture_output=True, text=True, cwd=folder, check=False)
    return [os.path.relpath(os.path.join(folder, line), ROOT) if line[:1].isalnum() else line
            for line in (done.stdout + done.stderr).splitlines()]


def said(line: str) -> str:
    return os.path.relpath(line, ROOT) if os.path.isabs(line) else line


def is_wanted(line: str) -> bool:
    """Whether a line of pyflakes is about an import that is there on purpose."""
    path, _, rest = line.partition(":")
    number = rest.partition(":")[0]
    if not line.endswith("imported but unused") or not number.isdigit():
        return False
    with open(path, encoding="utf-8") as file:
        return "noqa: F401" in file.read().splitlines()[int(number) - 1]


def left_out(name: str, package: str) -> None:
    """Says that a program isn't on the machine."""
    print(f"lint: {name} isn't on this machine, so what it finds is left out (Debian's package {package})",
          file=sys.stderr)


def of_shell(paths: Sequence[str]) -> list[str]:
    if not shutil.which("shellcheck"):
        left_out("shellcheck", "shellcheck")
        return []
    done = subprocess.run(["shellcheck", "--format=gcc", *paths], capture_output=True, text=True, cwd=ROOT, check=False)
    return [said(line) for line in done.stdout.splitlines()]


def findings() -> list[str]:
    """All that is found, a line each."""
    python, shell = scripts()
    lines = [f"{os.path.relpath(path, ROOT)}:{number}: {words}" for path in python for number, words in of_python(path)]
    return lines + of_names(python) + of_types() + of_shell(shell)


if __name__ == "__main__":
    all_found = findings()
    print("\n".join(all_found), end="\n" if all_found else "")
    sys.exit(1 if all_found else 0)
