"""The controllers of examples/controllers, each at most 80 lines, with switches in Python. PLANNER names the
program."""
import json
import os
import pathlib
import shutil
import subprocess
import sys
import tempfile
import time
import unittest

ROOT = pathlib.Path(__file__).resolve().parents[2]
sys.path[:0] = [str(ROOT / "planner_tools" / "switches" / "tests"), str(ROOT)]

import fake_switch  # noqa: E402
from network import DATAPATHS  # noqa: E402

CONTROLLERS, EXAMPLES = ROOT / "examples" / "controllers", ROOT / "examples"
LONGEST = 240
SITUATION = {
    **os.environ,
    "PYTHONPATH": os.pathsep.join([str(ROOT / "library"), *os.environ.get("PYTHONPATH", "").split(os.pathsep)]),
    "PYTHONDONTWRITEBYTECODE": "1",
}


def has_os_ken():
    """Whether os_ken is there, and can be imported."""
    return (
        subprocess.run(
            [sys.executable, "-c", "import os_ken.base.app_manager"], capture_output=True, check=False
        ).returncode
        == 0
    )


def has(switches, name, config):
    """Whether the switches have exactly the rules of a configuration."""
    wanted = fake_switch.switches_of(DATAPATHS[name], config, None)
    return all(
        {key: it[2] for key, it in one.table.items()} == {key: it[2] for key, it in wanted[label].table.items()}
        for label, one in switches.items()
    )


class Controllers(unittest.TestCase):
    def switches(self, name, address=("127.0.0.1", 0), **more):
        found = fake_switch.switches_of(DATAPATHS[name], EXAMPLES / name / "old.json", address, **more)
        for one in found.values():
            one.start()
        self.addCleanup(lambda: [one.stop() for one in found.values()])
        return found

    def sockets(self, name, switches, *targets):
        folder = EXAMPLES / name
        places = [f"{label}={one.address[0]}:{one.address[1]}" for label, one in switches.items()]
        words = [
            CONTROLLERS / "sockets.py", folder / "topology.json", folder / "policy.json", "0.05", *places, "--",
            *targets,
        ]
        done = subprocess.run(
            [sys.executable, *map(str, words)], capture_output=True, text=True, timeout=LONGEST, check=False,
            env=SITUATION,
        )
        return done.returncode, done.stdout, done.stderr

    def test_each_has_at_most_80_lines(self):
        for path in CONTROLLERS.glob("*.py"):
            self.assertLessEqual(len(path.read_text(encoding="utf-8").splitlines()), 80, path)

    def test_sockets_goes_from_target_to_target(self):
        """There and back, in one process; the second plan is made from what the switches have then. Answers come in
        small pieces, with echoes between."""
        for name in ("square", "detour"):
            with self.subTest(name):
                folder = EXAMPLES / name
                switches = self.switches(name, listen=True, piece=5, echo=0.2)
                status, text, said = self.sockets(
                    name, switches, folder / "new.json", folder / "old.json", folder / "new.json"
                )
                self.assertEqual((0, ""), (status, said))
                self.assertEqual(3, text.count("the switches have the tables of "))
                self.assertTrue(has(switches, name, folder / "new.json"))

    def test_sockets_ends_at_a_refusal(self):
        switches = self.switches("square", listen=True, only={"s1": {"error_at": 1}})
        status, text, said = self.sockets("square", switches, EXAMPLES / "square" / "new.json")
        self.assertEqual(1, status)
        self.assertIn("failed 1 s1  Error 3 0\n", text)
        self.assertIn("round 1 isn't settled", said)
        self.assertTrue(has(switches, "square", EXAMPLES / "square" / "old.json"))

    def test_sockets_ends_at_a_lost_connection(self):
        switches = self.switches("square", listen=True, only={"s3": {"close_at": 1}})
        status, _, said = self.sockets("square", switches, EXAMPLES / "square" / "new.json")
        self.assertEqual(1, status)
        self.assertIn("s3 closed its connection", said)

    def os_ken(self, wait, words, count):
        """The switches of an application that leads them from target to target, when it has said the words so often;
        and the file of what it says."""
        if not has_os_ken():
            self.skipTest("os_ken isn't installed (Debian: python3-os-ken)")
        folder = pathlib.Path(tempfile.mkdtemp(prefix="controller-test-"))
        self.addCleanup(shutil.rmtree, folder)
        square = EXAMPLES / "square"
        with fake_switch.socket.create_server(("127.0.0.1", 0)) as free:
            address = free.getsockname()
        (folder / "policy.json").write_text('{"demands": []}')    # so pack warns of packets
        job = {
            "topology": str(square / "topology.json"), "policy": str(folder / "policy.json"),
            "old": str(square / "old.json"), "wait": wait,
            "targets": [str(square / "new.json"), str(square / "old.json"), str(square / "new.json")],
            "datapaths": {f"{datapath:016x}": name for name, datapath in DATAPATHS["square"].items()},
        }
        (folder / "job.json").write_text(json.dumps(job))
        switches = self.switches("square", address)
        command = [
            sys.executable, "-m", "os_ken.cmd.manager", "--ofp-listen-host", address[0], "--ofp-tcp-listen-port",
            str(address[1]), str(CONTROLLERS / "os_ken_app.py"),
        ]
        with open(folder / "said", "wb") as said:
            run = subprocess.Popen(
                command, stdout=said, stderr=said, env={**SITUATION, "PLANNER_JOB": str(folder / "job.json")}
            )
        self.addCleanup(lambda: (run.kill(), run.wait()))
        until = time.monotonic() + LONGEST
        while (
            time.monotonic() < until
            and run.poll() is None
            and (folder / "said").read_text().count(words) < count
        ):
            time.sleep(0.05)
        return switches, folder / "said", address

    def test_os_ken_app_goes_from_target_to_target(self):
        switches, said, _ = self.os_ken(0.05, "the switches have the tables of ", 3)
        text = said.read_text()
        self.assertEqual(3, text.count("the switches have the tables of "), text)
        self.assertTrue(has(switches, "square", EXAMPLES / "square" / "new.json"), text)
        self.assertEqual(3, text.count("leave the network though no demand covers them"), text)

    def test_os_ken_app_sends_nothing_to_a_switch_that_came_back(self):
        """Between two rounds a switch is started anew, with an empty table."""
        switches, said, address = self.os_ken(2.5, "settled round 1", 1)
        switches["s3"].stop()
        anew = fake_switch.FakeSwitch(DATAPATHS["square"]["s3"], address)
        anew.start()
        self.addCleanup(anew.stop)
        time.sleep(5)
        self.assertEqual((0, {}), (anew.flow_messages, anew.table), said.read_text())
        self.assertNotIn("the switches have the tables of ", said.read_text())


if __name__ == "__main__":
    unittest.main()
