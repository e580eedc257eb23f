#!/usr/bin/env python3
"""Makes a Debian package of the program, the front end, manual pages, completions and examples.

    tools/debian.py [FOLDER]        writes FOLDER/planner_VERSION_ARCHITECTURE.deb, in the working folder by default,
                                    and prints its path

The program is that of dist/, where it was built from the files of the checkout: then nothing is proved or built, and
only `dpkg-deb` and `dpkg` are needed. Otherwise it is that of the checkout, which is proved and built first where that
wasn't done yet, or the one that the variable PLANNER names.
"""
from __future__ import annotations

import datetime
import gzip
import hashlib
import os
import shutil
import subprocess
import sys
import tempfile
import textwrap

ROOT = os.path.dirname(os.path.dirname(os.path.realpath(__file__)))
sys.path.insert(0, ROOT)
sys.dont_write_bytecode = True

from dist import library_version  # noqa: E402
from planner_tools import program  # noqa: E402
from planner_tools.install import files, toolchain  # noqa: E402
from planner_tools.version import VERSION  # noqa: E402

TYPE_CHECKING = False
if TYPE_CHECKING:
    from typing import Iterator

NAME = "planner"
MAINTAINER = "planner maintainers <maintainers@planner.invalid>"
ABOUT = """plan and check updates of OpenFlow networks, proved
 From a network, the rules now, the rules wanted and what packets must do, it
 plans the rounds in which the switches are to be changed, and it checks such
 plans, whoever made them. Under a plan that it accepts no packet comes to a
 switch twice, none leaves the network without having met its waypoints, and
 none that must arrive is dropped by a switch, in whatever order the changes
 of a round and the hops of packets fall.
 .
 {origin}
 The scripts around it are tested. The package does everything but build the
 program.
"""

# Python keeps what it made of the scripts beside them: it is made when the package is set up, and taken away with it.
SCRIPTS = {
    "postinst": "#!/bin/sh\nset -e\n"
                "if [ \"$1\" = configure ]; then\n    python3 -m compileall -q /usr/lib/planner\nfi\n",
    "prerm": "#!/bin/sh\nset -e\nfind /usr/lib/planner -name __pycache__ -prune -exec rm -r {} +\n",
}


def architecture() -> str:
    done = subprocess.run(["dpkg", "--print-architecture"], capture_output=True, text=True, check=True)
    return done.stdout.strip()


def dependencies(path: str) -> str:
    with open(path, "rb") as file:
        newest = library_version(file.read())
    return ", ".join([f"libc6 (>= {newest})"] * bool(newest) + [f"python3 (>= {toolchain.python()})"])


def control(built: str, size: int) -> str:
    about = ABOUT.format(origin="\n ".join(textwrap.wrap(toolchain.origin(built), 78, break_on_hyphens=False)))
    return (f"Package: {NAME}\nVersion: {VERSION}\nArchitecture: {architecture()}\nMaintainer: {MAINTAINER}\n"
            f"Installed-Size: {size}\nDepends: {dependencies(built)}\nSuggests: graphviz, openvswitch-switch\n"
            f"Section: net\nPriority: optional\nDescription: {about}")


def copyright_text() -> str:
    with open(os.path.join(ROOT, "LICENSE"), encoding="utf-8") as file:
        first = next(line.strip() for line in file if line.strip())
    if first != "Apache License":
        raise SystemExit("LICENSE isn't the one that the package names")
    return ("Format: https://www.debian.org/doc/packaging-manuals/copyright-format/1.0/\nUpstream-Name: planner\n\n"
            "Files: *\nCopyright: 2026 the planner authors\nLicense: Apache-2.0\n"
            " On Debian systems the text of the Apache License, version 2.0, is in\n"
            " /usr/share/common-licenses/Apache-2.0.\n")


def changes(day: str) -> str:
    """The list of changes in Debian's form."""
    when = datetime.datetime.strptime(day, "%Y-%m-%d").strftime("%a, %d %b %Y 12:00:00 +0000")
    return (f"{NAME} ({VERSION}) unstable; urgency=medium\n\n"
            f"  * Version {VERSION}: CHANGELOG.md has what it brings.\n\n -- {MAINTAINER}  {when}\n")


def write(path: str, data: bytes, mode: int = 0o644) -> None:
    os.makedirs(os.path.dirname(path), exist_ok=True)
    with open(path, "wb") as file:
        file.write(data)
    os.chmod(path, mode)


def strip(path: str) -> None:
    """Takes the symbols of the program away, which are for those who debug it; the code stays as it was built."""
    if shutil.which("strip"):
        sections = ["--remove-section=.comment", "--remove-section=.note"]
        subprocess.run(["strip", "--strip-all", *sections, path], check=True)


def sums(folder: str) -> Iterator[str]:
    """The lines of DEBIAN/md5sums."""
    for place in files.under(folder, "usr"):
        path = os.path.join(folder, place)
        if not os.path.islink(path):
            with open(path, "rb") as file:
                yield f"{hashlib.md5(file.read()).hexdigest()}  {place}\n"


def fill(folder: str, built: str, day: str) -> None:
    """Puts the whole package into a folder."""
    files.put(os.path.join(folder, "usr"), ROOT, built, day, zsh_folder="share/zsh/vendor-completions")
    packages = os.path.join(folder, "usr", "lib", "python3", "dist-packages")
    os.makedirs(packages)
    os.symlink("../../planner/library/planner", os.path.join(packages, NAME))
    documents = os.path.join(folder, "usr", files.DOCUMENTS)
    write(os.path.join(documents, "changelog.gz"), gzip.compress(changes(day).encode(), 9, mtime=0))
    write(os.path.join(documents, "copyright"), copyright_text().encode())
    strip(os.path.join(folder, "usr", files.LIBRARY, files.PROGRAM_NAME))
    size = sum(os.path.getsize(os.path.join(folder, place)) for place in files.under(folder, "usr")) // 1024 + 1
    write(os.path.join(folder, "DEBIAN", "control"), control(built, size).encode())
    for name, text in SCRIPTS.items():
        write(os.path.join(folder, "DEBIAN", name), text.encode(), 0o755)
    write(os.path.join(folder, "DEBIAN", "md5sums"), "".join(sums(folder)).encode())
    for at, folders, _ in os.walk(folder):
        for name in folders:
            os.chmod(os.path.join(at, name), 0o755)


def main(words: list[str]) -> int:
    if len(words) > 1 or words[:1] in (["--help"], ["-h"]):
        print((__doc__ or "").strip())
        return 0 if words[:1] in (["--help"], ["-h"]) else 2
    try:
        built = files.program_to_install()
    except program.CannotRun as fault:
        print(f"debian.py: {fault}", file=sys.stderr)
        return program.NO_PROGRAM
    day, place = files.day_of(ROOT), words[0] if words else "."
    os.makedirs(place, exist_ok=True)
    target = os.path.join(place, f"{NAME}_{VERSION}_{architecture()}.deb")
    with tempfile.TemporaryDirectory() as folder:
        os.chmod(folder, 0o755)
        fill(folder, built, day)
        environment = {**os.environ, "SOURCE_DATE_EPOCH": os.environ.get("SOURCE_DATE_EPOCH", seconds_of(day))}
        command = ["dpkg-deb", "--root-owner-group", "-Zxz", "--build", folder, target]
        subprocess.run(command, check=True, stdout=subprocess.DEVNULL, env=environment)
    print(target)
    return 0


def seconds_of(day: str) -> str:
    begin = datetime.datetime.strptime(day, "%Y-%m-%d").replace(tzinfo=datetime.timezone.utc)
    return str(int(begin.timestamp()))


if __name__ == "__main__":
    sys.exit(main(sys.argv[1:]))
