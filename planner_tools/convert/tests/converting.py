"""What the tests of the converters share: runs of the front end, and the program PLANNER."""
import json
import pathlib
import subprocess
import sys
import tempfile

ROOT = pathlib.Path(__file__).resolve().parents[3]
sys.path.insert(0, str(ROOT))

from planner_tools import program  # noqa: E402

DATA = pathlib.Path(__file__).parent / "data"
EXAMPLES = ROOT / "examples"
LONGEST = 60


def planner(*words, given=None):
    """The status of a run of the front end, what it wrote, and what it said."""
    done = subprocess.run(
        [sys.executable, "-B", ROOT / "planner", *map(str, words)], capture_output=True, text=True, input=given,
        timeout=LONGEST, check=False,
    )
    return done.returncode, done.stdout, done.stderr


def is_read(topology_text):
    """Whether the program reads a topology: the empty configuration of it holds."""
    with tempfile.TemporaryDirectory() as folder:
        topology, config = pathlib.Path(folder) / "topology.json", pathlib.Path(folder) / "empty.json"
        topology.write_text(topology_text, encoding="utf-8")
        config.write_text(json.dumps({"rules": []}), encoding="ascii")
        done = subprocess.run(
            [program.path(), "config", topology, config], capture_output=True, text=True, timeout=LONGEST, check=False
        )
    return done.stdout.startswith("holds: ")
