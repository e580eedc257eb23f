"""`planner install`: puts the program, the front end, manual pages, completions and examples under a prefix."""
from __future__ import annotations

import argparse
import os
import sys

from planner_tools import program
from planner_tools.install import files, toolchain

TYPE_CHECKING = False
if TYPE_CHECKING:
    from typing import Sequence

DEFAULT = "/usr/local"


def main(words: Sequence[str]) -> int:
    parser = argparse.ArgumentParser(
        prog="planner install",
        description=(
            "Puts the program, this front end, manual pages, completions and examples in their places under a prefix."
            " It is done from a checkout, with the program of dist/; where that was built from other sources, the"
            " program is proved and built first."
        ),
    )
    parser.add_argument(
        "prefix", metavar="PREFIX", nargs="?", default=DEFAULT,
        help=f"{DEFAULT}: then the command is PREFIX/bin/planner",
    )
    options = parser.parse_args(words)
    if not program.is_checkout():
        print(
            "planner install: it is done from a checkout of the repository, and this is an installation",
            file=sys.stderr,
        )
        return 1
    try:
        built = files.program_to_install()
        places = files.put(options.prefix, program.ROOT, built, files.day_of(program.ROOT))
    except program.CannotRun as fault:
        print(f"planner install: {fault}", file=sys.stderr)
        return program.NO_PROGRAM
    except OSError as fault:
        print(
            (
                f"planner install: {fault.filename}: {fault.strerror}. Next: name a prefix that you may write to, as"
                " `planner install ~/.local`"
            ),
            file=sys.stderr,
        )
        return 7
    print(
        (
            f"{len(places)} files are under {options.prefix}; the command is"
            f" {os.path.join(options.prefix, 'bin', 'planner')}. {toolchain.origin(built)}"
        ),
        file=sys.stderr,
    )
    return 0
