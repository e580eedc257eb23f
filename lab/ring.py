#!/usr/bin/env python3
"""The files of a ring: ring.py SWITCHES FOLDER [-without-tags]. Packets to four destinations go round by port 2 before
the update, and by port 3 after it."""
import json
import pathlib
import sys

sys.path.insert(0, str(pathlib.Path(__file__).resolve().parents[1] / "bench"))
from rings import Ring

ring, folder, more = Ring(int(sys.argv[1]), 4), pathlib.Path(sys.argv[2]), sys.argv[3:]
topology = ring.topology() | ({"tags": []} if more == ["-without-tags"] else {})
for name, value in (
    ("topology", topology), ("old", ring.config(2)), ("new", ring.config(3)), ("policy", ring.policy()),
):
    (folder / f"{name}.json").write_text(json.dumps(value))
