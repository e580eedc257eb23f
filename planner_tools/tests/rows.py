"""Rows of said.txt: what is done to the files of an example, the words that are given, and the whole text that is said.

    # TITLE
    in EXAMPLE                      the folder of examples/ whose files are copied; without it, square
    edit FILE OLD => NEW            the first OLD in a file becomes NEW
    write FILE TEXT                 a file of its own
    delete FILE
    input TEXT                      the standard input
    run WORDS
    status N
    | what is said, line by line

In OLD, NEW and TEXT `\\n`, `\\t`, `\\r` and `\\xNN` stand for bytes, `\\\\` for a backslash.
"""
import os
import re
import shutil
import subprocess

HERE = os.path.dirname(os.path.realpath(__file__))
ROOT = os.path.dirname(os.path.dirname(HERE))
FRONT_END = os.path.join(ROOT, "planner")
SECONDS = 60


class Row:
    def __init__(self, title):
        self.title, self.example, self.steps, self.words, self.status, self.said, self.input = (
            title, "square", [], None, None, [], b"",
        )

    def prepare(self, folder):
        """Copies the files of the example into a folder, and changes them."""
        shutil.copytree(os.path.join(ROOT, "examples", self.example), folder, dirs_exist_ok=True)
        for what, name, *more in self.steps:
            path = os.path.join(folder, name)
            if what == "delete":
                os.unlink(path)
            elif what == "write":
                with open(path, "wb") as file:
                    file.write(more[0])
            else:
                with open(path, "rb") as file:
                    data = file.read()
                if more[0] not in data:
                    raise ValueError(f"{self.title}: {name} has no {more[0]}")
                with open(path, "wb") as file:
                    file.write(data.replace(more[0], more[1], 1))

    def run(self, program, folder, **variables):
        """Runs a program in the folder with the words: its status, its text, and what it says."""
        variables = {**os.environ, "PATH": os.pathsep.join([ROOT, os.environ.get("PATH", "")]), **variables}
        done = subprocess.run(
            [program, *self.words], cwd=folder, input=self.input, capture_output=True, timeout=SECONDS, check=False,
            env=variables,
        )
        return done.returncode, done.stdout, done.stderr.decode()


def unescaped(text):
    return re.sub(rb"\\(x[0-9a-f]{2}|.)", lambda found: {b"n": b"\n", b"t": b"\t", b"r": b"\r"}.get(
        found[1], bytes([int(found[1][1:], 16)]) if len(found[1]) == 3 else found[1]), text.encode())


def read(path):
    """The rows of a file."""
    rows = []
    with open(path, encoding="utf-8") as file:
        for line in file.read().split("\n"):
            word, _, rest = line.partition(" ")
            if word == "#":
                rows.append(Row(rest))
            elif word == "in":
                rows[-1].example = rest
            elif word == "edit":
                name, _, change = rest.partition(" ")
                old, new = change.split(" => ") if " => " in change else (change.removesuffix(" =>"), "")
                rows[-1].steps.append((word, name, unescaped(old), unescaped(new)))
            elif word == "write":
                name, _, text = rest.partition(" ")
                rows[-1].steps.append((word, name, unescaped(text)))
            elif word == "delete":
                rows[-1].steps.append((word, rest))
            elif word == "input":
                rows[-1].input = unescaped(rest)
            elif word == "run":
                rows[-1].words = rest.split()
            elif word == "status":
                rows[-1].status = int(rest)
            elif word == "|":
                rows[-1].said.append(rest)
    return rows
