"""`planner apply --json`: a line for each event."""
import json
import shutil
import subprocess
import sys
import unittest

import network
from network import Network, UpdateTest


class Events(UpdateTest):
    def events_of(self, net, *more):
        words = [
            sys.executable, network.FRONT_END, "apply", *net.files, net.record, "--switches", net.listed, *net.where,
            "--json", "--wait", "0.05", *more,
        ]
        done = subprocess.run(
            [*map(str, words)], capture_output=True, text=True, timeout=120, check=False,
            env={**network.os.environ, "PLANNER": network.PLANNER},
        )
        return done, [json.loads(line) for line in done.stdout.splitlines()]

    def test_an_update_and_its_turning(self):
        net = Network(self, "square")
        done, events = self.events_of(net)
        self.assertEqual((0, ""), (done.returncode, done.stderr))
        told = [one for one in events if one["event"] not in ("says", "note")]
        rule = {"dst": "10.0.0.0/24", "out": 4, "priority": 100, "switch": "s1"}
        self.assertEqual(
            [
                {"event": "started", "round": 1},
                {"event": "changed", "round": 1, "change": 0, "do": "replace", "rule": rule},
                {"event": "settled", "round": 1},
            ],
            told[:3],
        )
        self.assertEqual(["started", "changed", "settled"] * 2 + ["end"], [one["event"] for one in told])
        self.assertEqual({"event": "end", "command": "apply", "status": 0, "verdict": "done"}, events[-1])
        self.assertTrue(any(one["event"] == "says" and one["words"].startswith("done: ") for one in events))
        done, events = self.events_of(net, "--back")
        told = [one for one in events if one["event"] not in ("says", "note")]
        self.assertEqual(["turned", "undone", "taken back"] * 2 + ["end"], [one["event"] for one in told])
        self.assertEqual([2, 2, 2, 1, 1, 1], [one["round"] for one in told[:-1]])

    def test_nobody_reads_the_events(self):
        net = Network(self, "square")
        words = [
            sys.executable, network.FRONT_END, "apply", *net.files, net.record, "--switches", net.listed, *net.where,
            "--json", "--wait", "0.05",
        ]
        run = subprocess.Popen(
            [*map(str, words)], stdout=subprocess.PIPE, stderr=subprocess.PIPE, text=True,
            env={**network.os.environ, "PLANNER": network.PLANNER},
        )
        run.stdout.readline()
        run.stdout.close()
        said = run.stderr.read()
        run.stderr.close()
        self.assertEqual(0, run.wait(120), said)
        self.assertIn("done: all 2 rounds are settled", said)
        self.assertTrue(net.has(net.files[2]))

    def test_an_update_by_one_command(self):
        net = Network(self, "square")
        for name in ("topology", "new", "policy"):
            shutil.copy(network.EXAMPLES / "square" / f"{name}.json", net.folder)
        words = [
            sys.executable, network.FRONT_END, "update", net.folder, "--switches", net.listed, *net.where, "--json",
            "--wait", "0.05",
        ]
        for more, status, kinds in (
            (["--dry-run"], 0, ["plan", "end"]), ([], 1, ["plan", "stopped", "end"]),
            (["--yes"], 0, ["plan", *["started", "changed", "settled"] * 2, "end"]),
        ):
            done = subprocess.run(
                [*map(str, words), *more], capture_output=True, text=True, timeout=120, check=False,
                stdin=subprocess.DEVNULL, env={**network.os.environ, "PLANNER": network.PLANNER},
            )
            events = [json.loads(line) for line in done.stdout.splitlines()]
            self.assertEqual(status, done.returncode, done.stdout)
            self.assertEqual(kinds, [one["event"] for one in events if one["event"] not in ("says", "note", "warning")])
            self.assertEqual(2, len(events[[one["event"] for one in events].index("plan")]["plan"]["rounds"]))
        self.assertTrue(net.has(network.EXAMPLES / "square" / "new.json"))

    def test_warnings_that_end_it(self):
        net = Network(self, "square")
        policy = json.loads(net.files[3].read_text())
        policy["demands"][0]["thru"] = ["s1"]
        net.files[3] = net.folder / "policy.json"
        net.files[3].write_text(json.dumps(policy))
        done, events = self.events_of(net, "--strict")
        self.assertEqual(3, done.returncode, done.stdout)
        self.assertEqual(["warning", "end"], [one["event"] for one in events if one["event"] not in ("says", "note")])
        self.assertEqual("warnings", events[-1]["verdict"])
        policy["demands"][0] = {}
        net.files[3].write_text(json.dumps(policy))
        done, events = self.events_of(net, "--strict")
        self.assertEqual(("stopped", 1), (events[-1]["verdict"], done.returncode), done.stdout)

    def test_a_session_that_fails(self):
        net = Network(self, "square", only={"s1": {"error_at": 1}})
        done, events = self.events_of(net)
        told = [one for one in events if one["event"] not in ("says", "note")]
        self.assertEqual(["started", "failed", "stopped", "end"], [one["event"] for one in told])
        self.assertEqual(("s1", "Error 3 0"), (told[1]["switch"], told[1]["cause"]))
        self.assertIn("--resume", told[2]["next"])
        self.assertEqual((1, "stopped", 1), (told[3]["status"], told[3]["verdict"], done.returncode))


if __name__ == "__main__":
    unittest.main()
