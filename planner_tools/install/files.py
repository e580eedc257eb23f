"""Which files an installation has, and where under its prefix."""
from __future__ import annotations

import datetime
import gzip
import os
import re
import shutil
import stat

from planner_tools import manual, program
from planner_tools.install import completions, manuals

TYPE_CHECKING = False
if TYPE_CHECKING:
    from typing import Iterator

LIBRARY = "lib/planner"
DOCUMENTS = "share/doc/planner"
# Documents that are read without the repository, and what stands in them.
FROM_ROOT = ("README.md", "CHANGELOG.md", "SECURITY.md", "toolchain.txt")
FROM_DOCS = (".md", ".svg", ".png")
SOURCES = (".py", ".js", ".css", ".html", ".md")
PROGRAM_NAME = "planner_cli"


def tree(root: str, built: str) -> dict[str, str]:
    """Where each file comes from, by its place under the prefix: a path, or a text that is made."""
    found = {
        f"{LIBRARY}/planner": os.path.join(root, "planner"), f"{LIBRARY}/{PROGRAM_NAME}": built,
        f"{LIBRARY}/toolchain.txt": os.path.join(root, "toolchain.txt"),
    }
    for path in under(root, "planner_tools"):
        if path.endswith(SOURCES) and "tests" not in path.split("/"):
            found[f"{LIBRARY}/{path}"] = os.path.join(root, path)
    for path in under(root, "library/planner"):
        found[f"{LIBRARY}/{path}"] = os.path.join(root, path)
    for path in (
        *FROM_ROOT, *under(root, "examples"), *(path for path in under(root, "docs") if path.endswith(FROM_DOCS)),
        *linked(root),
    ):
        if os.path.exists(os.path.join(root, path)):
            found[f"{DOCUMENTS}/{path}"] = os.path.join(root, path)
    return found


def linked(root: str) -> list[str]:
    """The files that README.md links to."""
    with open(os.path.join(root, "README.md"), encoding="utf-8") as file:
        return sorted(
            path for path in set(re.findall(r"\]\(([^)#]+)", file.read())) if os.path.isfile(os.path.join(root, path))
        )


def made(day: str, zsh_folder: str = "share/zsh/site-functions") -> dict[str, bytes]:
    """The texts that are made, by their place under the prefix."""
    found = {
        f"share/man/man1/{name}.gz": packed(text)
        for name, text in {"planner.1": manual.manual(), **manuals.all_pages(day)}.items()
    }
    found["share/bash-completion/completions/planner"] = manual.completion().encode()
    found[f"{zsh_folder}/_planner"] = completions.zsh().encode()
    found["share/fish/vendor_completions.d/planner.fish"] = completions.fish().encode()
    return found


def packed(text: str) -> bytes:
    return gzip.compress(text.encode(), 9, mtime=0)


def under(root: str, folder: str) -> Iterator[str]:
    """The files under a folder of the root, from the root on, with `/`."""
    for at, folders, names in os.walk(os.path.join(root, folder)):
        folders[:] = sorted(name for name in folders if not name.startswith((".", "__")))
        for name in sorted(names):
            if not name.startswith("."):
                yield os.path.relpath(os.path.join(at, name), root).replace(os.sep, "/")


def put(prefix: str, root: str, built: str, day: str, **more: str) -> list[str]:
    """Puts all files in their places, and returns these, from the prefix on."""
    files, texts = tree(root, built), made(day, **more)
    for place, source in files.items():
        target = room_for(prefix, place)
        shutil.copyfile(source, target)
        os.chmod(
            target,
            0o755
            if os.stat(source).st_mode & stat.S_IXUSR and place in (f"{LIBRARY}/planner", f"{LIBRARY}/{PROGRAM_NAME}")
            else 0o644,
        )
    for place, data in texts.items():
        target = room_for(prefix, place)
        with open(target, "wb") as file:
            file.write(data)
        os.chmod(target, 0o644)
    link = room_for(prefix, "bin/planner")
    os.symlink(f"../{LIBRARY}/planner", link)
    return [*files, *texts, "bin/planner"]


def room_for(prefix: str, place: str) -> str:
    """The path of a file, with its folders, and without what stood there: a program that runs isn't written into."""
    target = os.path.join(prefix, place)
    os.makedirs(os.path.dirname(target), exist_ok=True)
    if os.path.lexists(target):
        os.unlink(target)
    return target


def day_of(root: str) -> str:
    """The day of the texts that are made: that of the newest version in the list of changes, or of
    SOURCE_DATE_EPOCH."""
    if os.environ.get("SOURCE_DATE_EPOCH"):
        return datetime.datetime.fromtimestamp(int(os.environ["SOURCE_DATE_EPOCH"]), datetime.timezone.utc).strftime(
            "%Y-%m-%d"
        )
    with open(os.path.join(root, "CHANGELOG.md"), encoding="utf-8") as file:
        return next(line.split()[-1] for line in file if re.match(r"## \d", line))


def program_to_install() -> str:
    """The program that is installed: the one that PLANNER names, or that of the checkout: the one of dist/, or one that
    is built where it is missing or stale."""
    return program.built()
