"""The program that a checkout brings along: the folder dist/, with the built program and a text that says what it was
built from.

It is run only where the files of the checkout are those that it was built from, which sums in the text tell. So that
some ten megabytes aren't read at each command, what was found is remembered in dist/.seen, beside the sizes, times and
numbers of all files that count. It holds as long as each of these is the same, and nothing is remembered of files of
which one is younger than three seconds: such a one may change once more and look the same.
"""
from __future__ import annotations

import os
import stat
import time

TYPE_CHECKING = False
if TYPE_CHECKING:
    import pathlib
    from typing import Sequence

FOLDER = "dist"
PROGRAM = "dist/planner_cli"
TEXT = "dist/BUILT.txt"
SEEN = "dist/.seen"
# The crate with `main`.
TOP = "planner_cli"
# The parts of a crate from which it is made, and the other files that count beside crates.txt.
PARTS = ("src", "specs", "proofs")
HANDLES, TOOLCHAINS, CRATES = "HANDLES", "toolchain.txt", "crates.txt"
# How old a file must be for something to be remembered of it, in seconds.
LEAST_AGE = 3
# What is remembered of a program that fits.
FITS = "fits"
# What the text says of a program that needs no C library.
NO_LIBRARY = "none"
# What the text says, each in a line behind its name.
NAMES = ("toolchain", "machine", "glibc", "program", "sources")
# What was found in this run of the front end, by the root of the checkout.
answers: dict[str, str | None] = {}


class Unfit(Exception):
    """The program of dist/ isn't to be run here: why, as a sentence without its point."""


# ---- what the program is made from

def read(root: pathlib.Path | str, path: str) -> bytes:
    """The bytes of a file. A program that was taken apart in the meantime, or a file that can't be read, is none that
    fits."""
    try:
        with open(os.path.join(root, path), "rb") as file:
            return file.read()
    except OSError as fault:
        raise Unfit(f"{path} can't be read: {fault.strerror}") from fault


def listed(root: pathlib.Path | str) -> list[tuple[str, list[str]]]:
    """The crates of the program, each with the words behind it in crates.txt, sorted by their names."""
    parts = [line.partition(b"#")[0].partition(b":") for line in read(root, CRATES).splitlines()]
    lines = {name.strip().decode(): used.decode().split() for name, colon, used in parts if colon}
    found: dict[str, list[str]] = {}
    left = [TOP]
    while left:
        name = left.pop()
        if name in lines and name not in found:
            found[name] = lines[name]
            left += lines[name]
    return sorted(found.items())


def marks(root: pathlib.Path | str, crates: Sequence[tuple[str, list[str]]]) -> list[tuple[str, os.stat_result]]:
    """The files of the crates, from the root on, each with what the system says of it, sorted. Those that editors keep,
    `.NAME` and `NAME~`, don't count."""
    rows, folders = [], [
        folder
        for folder in (f"crates/{name}/{part}" for name, _ in crates for part in PARTS)
        if os.path.lexists(f"{root}/{folder}")
    ]
    while folders:
        folder = folders.pop()
        try:
            with os.scandir(f"{root}/{folder}") as entries:
                for entry in entries:
                    name = entry.name
                    if name[0] == "." or name[-1] == "~":
                        continue
                    if entry.is_dir(follow_symlinks=False):
                        folders.append(f"{folder}/{name}")
                    else:
                        rows.append((f"{folder}/{name}", entry.stat()))
        except OSError as fault:
            raise Unfit(f"{folder} can't be read: {fault.strerror}") from fault
    return sorted(rows, key=lambda row: row[0])


def sum_of_sources(root: pathlib.Path | str, toolchain: str) -> str:
    """The sum of all that the program is built from: the toolchain, the crates of the program and what they use, and
    each of their files."""
    import hashlib
    crates = listed(root)
    whole = hashlib.sha256(f"{toolchain}\n".encode())
    whole.update(read(root, HANDLES))
    for name, used in crates:
        whole.update(f"{name}: {' '.join(used)}\n".encode())
    for path, about in marks(root, crates):
        if not stat.S_ISREG(about.st_mode):
            raise Unfit(f"{path} is no file")
        data = read(root, path)
        whole.update(f"{len(path)} {len(data)} {path}\n".encode(errors="surrogateescape"))
        whole.update(data)
    return whole.hexdigest()


def sum_of(data: bytes) -> str:
    import hashlib
    return hashlib.sha256(data).hexdigest()


# ---- whether the program fits

def said(root: str) -> dict[str, str]:
    """What the text says, by its names."""
    lines = [line.partition("#")[0].split(None, 1) for line in read(root, TEXT).decode("ascii", "replace").splitlines()]
    return {line[0]: line[1].strip() for line in lines if len(line) == 2}


def look(root: str) -> None:
    """Raises Unfit where the program isn't the one of the text, or the text isn't that of the files here."""
    about = said(root)
    toolchains = [
        line.split(None, 1)[1].strip()
        for line in read(root, TOOLCHAINS).decode("ascii", "replace").splitlines()
        if line.startswith("rattle ")
    ]
    for name in NAMES:
        if name not in about:
            raise Unfit(f"{TEXT} has no line {name}")
    if about["toolchain"] not in toolchains:
        raise Unfit(
            f"{TOOLCHAINS} doesn't name the toolchain that built the program of {FOLDER}/, {about['toolchain']}"
        )
    if sum_of(read(root, PROGRAM)) != about["program"]:
        raise Unfit(f"{PROGRAM} isn't the program of which {TEXT} speaks")
    if sum_of_sources(root, about["toolchain"]) != about["sources"]:
        raise Unfit(f"the program of {FOLDER}/ was built from other sources than those that are here")


def machine() -> str:
    """The kind of this machine, in the words of the text."""
    about = os.uname()
    return f"{about.machine} {about.sysname}"


def library() -> tuple[int, ...] | None:
    """The version of the C library of this machine as numbers, or None where it has another one than that of GNU."""
    try:
        return numbers((os.confstr("CS_GNU_LIBC_VERSION") or "").split()[1])
    except (AttributeError, IndexError, OSError, ValueError):
        return None


def numbers(version: str) -> tuple[int, ...]:
    return tuple(map(int, version.split(".")))


def suits(root: str) -> None:
    """Raises Unfit where the program can't run on this machine."""
    about = said(root)
    if about["machine"] != machine():
        raise Unfit(f"the program of {FOLDER}/ is for {about['machine']}, and this is {machine()}")
    if about["glibc"] != NO_LIBRARY and (library() or (0,)) < numbers(about["glibc"]):
        raise Unfit(f"the program of {FOLDER}/ needs the GNU C library {about['glibc']} or a newer one")
    if not os.access(os.path.join(root, PROGRAM), os.X_OK):
        raise Unfit(f"{PROGRAM} may not be run")


# ---- what is remembered

def state(root: str) -> tuple[str, list[os.stat_result]]:
    """The sizes, times and numbers of all files that count, as text, and what the system says of each of them."""
    try:
        rows = [
            (path, os.stat(os.path.join(root, path))) for path in (PROGRAM, TEXT, CRATES, HANDLES, TOOLCHAINS)
        ] + marks(root, listed(root))
    except OSError as fault:
        raise Unfit(f"{fault.filename}: {fault.strerror}") from fault
    text = "".join(f"{path} {it.st_size} {it.st_mtime_ns} {it.st_ctime_ns} {it.st_ino}\n" for path, it in rows)
    return text, [it for _, it in rows]


def last_change(rows: Sequence[os.stat_result]) -> float:
    """The last moment at which one of the files was changed."""
    return max(max(it.st_mtime, it.st_ctime) for it in rows)


def remembered(root: str, text: str) -> str | None:
    """What was found when the files were in this state, or None."""
    try:
        with open(os.path.join(root, SEEN), encoding="utf-8", errors="surrogateescape", newline="\n") as file:
            what = file.readline().rstrip("\n")
            return what if file.read() == text else None
    except (OSError, ValueError):
        return None


def remember(root: str, text: str, what: str) -> None:
    """Keeps what was found, in one step; where nothing can be written it is found anew the next time."""
    path = os.path.join(root, f"{SEEN}.{os.getpid()}")
    try:
        with open(path, "w", encoding="utf-8", errors="surrogateescape", newline="\n") as file:
            file.write(f"{what}\n{text}")
        os.replace(path, os.path.join(root, SEEN))
    except OSError:
        try:
            os.unlink(path)
        except OSError:
            pass


def judged(root: str) -> None:
    """Raises Unfit where the text isn't that of the files here, by what is remembered or by reading them."""
    moment = time.time()
    text, rows = state(root)
    what = remembered(root, text)
    if what is None:
        try:
            look(root)
            what = FITS
        except Unfit as fault:
            what = str(fault)
        if last_change(rows) < moment - LEAST_AGE:
            remember(root, text, what)
    if what != FITS:
        raise Unfit(what)


def why_not(root: str) -> str | None:
    """None where the program of dist/ is to be run; otherwise why it isn't. It is looked at once in a run of the front
    end."""
    if root not in answers:
        try:
            if not os.path.exists(os.path.join(root, TEXT)):
                raise Unfit(f"{FOLDER}/ has no program")
            judged(root)
            suits(root)
            answers[root] = None
        except (Unfit, ValueError) as fault:
            answers[root] = str(fault)
    return answers[root]
