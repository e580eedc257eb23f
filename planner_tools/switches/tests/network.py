"""What the tests share: the fake switches of an example, a folder for one update of it, and the program PLANNER."""
import os
import pathlib
import re
import shutil
import signal
import socket
import subprocess
import sys
import tempfile
import time
import unittest

import fake_switch
from planner_tools import program
from planner_tools.switches.marks import Mark

ROOT = pathlib.Path(__file__).resolve().parents[3]
EXAMPLES = ROOT / "examples"
FRONT_END = ROOT / "planner"
PLANNER = program.path()
DATAPATHS = {
    "square": {"s1": 0xA1, "s2": 0xA2, "s3": 0xA3, "s4": 0xA4},
    "detour": {"s": 0xB1, "x": 0xB2, "w": 0xB3, "y": 0xB4, "d": 0xB5},
}
# No run of a test takes longer, in seconds.
LONGEST = 120
# The lines that are printed to be typed name the planner by its name where it is on the path.
os.environ["PATH"] = os.pathsep.join([str(FRONT_END.parent), os.environ["PATH"]])


def planner(*words):
    return subprocess.run(
        [PLANNER, *map(str, words)], capture_output=True, text=True, timeout=LONGEST, check=False
    ).stdout


def heed_interrupts():
    """Has what is begun heed an interrupt and a closed terminal also where these tests were begun in the background,
    with these ignored."""
    for number in (signal.SIGINT, signal.SIGHUP, signal.SIGTERM):
        signal.signal(number, signal.SIG_DFL)


def end(run):
    """Ends a run, where it isn't at its end."""
    run.kill()
    run.wait()
    run.stdin.close()
    run.stderr.close()


class Network:
    """Fake switches with the tables of an example, and an update of them."""

    def __init__(self, test, name, listen=False, config="old.json", **more):
        self.test, self.folder = test, pathlib.Path(tempfile.mkdtemp(prefix="controller-test-"))
        test.addCleanup(shutil.rmtree, self.folder)
        self.files = [EXAMPLES / name / f"{word}.json" for word in ("topology", "old", "new", "policy", "plan")]
        self.record, self.listed = self.folder / "input", self.folder / "switches"
        with socket.create_server(("127.0.0.1", 0)) as free:
            self.address = free.getsockname()
        self.switches = fake_switch.switches_of(
            DATAPATHS[name], EXAMPLES / name / config, ("127.0.0.1", 0) if listen else self.address, listen=listen,
            **more,
        )
        self.where = [] if listen else ["--listen", "%s:%d" % self.address]
        lines = [
            f"{one} {datapath:016x}" + (" %s:%d" % self.switches[one].address if listen else "")
            for one, datapath in DATAPATHS[name].items()
        ]
        self.listed.write_text("".join(f"{line}\n" for line in lines))
        for one in self.switches.values():
            one.start()
        test.addCleanup(lambda: [one.stop() for one in self.switches.values()])

    def begin(self, *more, before=(), program=PLANNER):
        """A run of `planner apply`, begun behind these words, with this program."""
        words = [
            *before, sys.executable, FRONT_END, "apply", *self.files, self.record, "--switches", self.listed,
            *self.where, *more,
        ]
        run = subprocess.Popen(
            [*map(str, words), *([] if {"--wait", "--ask"} & set(more) else ["--wait", "0.05"])], stdin=subprocess.PIPE,
            stderr=subprocess.PIPE, text=True, env={**os.environ, "PLANNER": program}, preexec_fn=heed_interrupts,
        )
        self.test.addCleanup(end, run)
        return run

    def apply(self, *more, **how):
        """A run of `planner apply`: its status and what it said."""
        run = self.begin(*more, **how)
        try:
            said = run.communicate(timeout=LONGEST)[1]
        except subprocess.TimeoutExpired:
            run.kill()
            said = run.communicate()[1] + "\nthe test ended it"
        return run.returncode, said

    def apply_until(self, text, *more):
        """A run of `planner apply` that is killed when its record has the text."""
        run, until = self.begin(*more), time.monotonic() + LONGEST
        while time.monotonic() < until and not (self.record.exists() and text in self.record.read_text()):
            time.sleep(0.01)
        run.send_signal(signal.SIGKILL)
        return run.communicate()[1]

    def do_next(self, said):
        """Does what the last line says to do with the record, so that the next run goes on with what that makes."""
        words = re.search(r"`(head -n [^`]*)`", said)[1]
        subprocess.run(["sh", "-c", words], check=True)
        self.record = pathlib.Path(words.split()[-1])

    def mark(self):
        """The mark of the update, by its record."""
        words = self.record.read_text().splitlines()[1].split()
        return Mark(bytes.fromhex(words[2]), int(words[4]))

    def add(self, name, rule):
        """Changes the table of a switch by hand."""
        match = fake_switch.match_of(rule)
        self.switches[name].table[fake_switch.key_of(match, rule["priority"])] = [
            match, rule["priority"], fake_switch.actions_of(rule), 0,
        ]

    def collect(self, *more):
        words = [sys.executable, FRONT_END, "collect", self.files[0], "--switches", self.listed, *self.where, *more]
        return subprocess.run(list(map(str, words)), capture_output=True, text=True, timeout=LONGEST, check=False)

    def told(self):
        """What `planner serve` says of the record."""
        with open(self.record, "rb") as record:
            return subprocess.run(
                [PLANNER, "serve", *map(str, self.files)], stdin=record, capture_output=True, text=True,
                timeout=LONGEST, check=False,
            ).stdout

    def has(self, config):
        """Whether the switches have exactly the rules of a configuration."""
        wanted = fake_switch.switches_of(DATAPATHS[self.files[0].parent.name], config, None)
        return all(
            {key: it[2] for key, it in one.table.items()} == {key: it[2] for key, it in wanted[name].table.items()}
            for name, one in self.switches.items()
        )


class UpdateTest(unittest.TestCase):
    """Tests of whole updates."""

    def wait_for(self, run, words):
        """Reads what a run says up to a line with the words."""
        said = ""
        for line in run.stderr:
            said += line
            if words in line:
                return said
        self.fail(f"it never said {words}, but: {said}")

    def press(self, run):
        """Presses Enter."""
        run.stdin.write("\n")
        run.stdin.flush()

    def settles(self, net, run):
        """What `serve` says of the record of an update that came to its end."""
        status, said = run
        self.assertEqual(status, 0, said)
        text = net.told()
        self.assertRegex(text, r"\nok settled (\d+) of \1\n$")
        self.assertTrue(net.has(net.files[2]))
        return text

    def is_back(self, net, run):
        """What `serve` says of the record of an update that was turned back to its beginning."""
        status, said = run
        self.assertEqual(status, 0, said)
        text = net.told()
        self.assertRegex(text, r"\nok settled 0 of \d+\n$")
        self.assertTrue(net.has(net.files[1]))
        self.assertFalse([key for one in net.switches.values() for key in one.table if key[3] == fake_switch.MARK_TYPE])
        return text

    def stops(self, run, what, then):
        """Checks that the last line, and it alone, says what happened, how far it came, and what to do next."""
        status, said = run
        self.assertEqual(status, 1, said)
        self.assertIn(what, said)
        last = said.splitlines()[-1]
        self.assertRegex(last, r"^stopped: .*(rounds are settled|nothing was sent).* Next: .")
        self.assertIn(what, last)
        self.assertIn(then, last)
