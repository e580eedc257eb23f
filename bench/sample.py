#!/usr/bin/env python3
"""Times `sample` for rings of 8 to 128 switches. Prints time and memory; tests nothing."""
from __future__ import annotations

import pathlib
import tempfile

import measure


def main() -> None:
    with tempfile.TemporaryDirectory() as name:
        for switches in (8, 16, 32, 64, 128):
            measure.run(f"ring of {switches}", ["sample", str(switches)], pathlib.Path(name), shown=90)


main()
