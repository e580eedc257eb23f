"""Tests of `planner adopt`: networks as one finds them, with switches in Python. PLANNER names the program."""
import json
import os
import shutil
import struct
import subprocess
import sys
import unittest

import fake_switch
from network import EXAMPLES, FRONT_END, LONGEST, PLANNER, Network
from planner_tools.switches import openflow
from planner_tools.switches.marks import Mark

# What a bridge in standalone mode has: any packet, priority 0, NORMAL. The match is as Open vSwitch reports it.
DEFAULT_MATCH = struct.pack("!I36x", 0x003820FF)
NORMAL = bytes.fromhex("00000008fffa0000")
SECONDS = 4 * LONGEST


class Adopting(unittest.TestCase):
    def network(self, is_empty=True, has_default=("s1", "s2", "s3", "s4"), **more):
        """The switches of the square, empty or with the old tables, some with the default entry; and the folder of
        their network."""
        net = Network(self, "square", listen=True, **more)
        for name, switch in net.switches.items():
            if is_empty:
                switch.table.clear()
            if name in has_default:
                switch.table[fake_switch.key_of(DEFAULT_MATCH, 0)] = [DEFAULT_MATCH, 0, NORMAL, 0]
        net.wanted = net.folder / "wanted"
        net.wanted.mkdir()
        for word in ("topology", "new", "policy"):
            shutil.copy(EXAMPLES / "square" / f"{word}.json", net.wanted)
        return net

    def adopt(self, net, *more):
        done = subprocess.run(
            [
                sys.executable, str(FRONT_END), "adopt", str(net.wanted), "--switches", str(net.listed), "--patience",
                "60", *map(str, more),
            ],
            capture_output=True, text=True, stdin=subprocess.DEVNULL, timeout=SECONDS, check=False,
            env={**os.environ, "PLANNER": PLANNER},
        )
        self.assertEqual("", done.stdout)
        return done.returncode, done.stderr

    @staticmethod
    def commands(switch):
        """The commands of the flow messages that a switch was sent, with their priorities."""
        pieces, _ = openflow.cut(switch.received)
        return [
            (int.from_bytes(one[56:58], "big"), int.from_bytes(one[62:64], "big"))
            for one in pieces
            if openflow.type_of(one) == openflow.FLOW_MOD
        ]

    def is_untouched(self, net):
        for switch in net.switches.values():
            self.assertEqual([], self.commands(switch))

    @staticmethod
    def old(net):
        return json.loads((net.wanted / "old.json").read_text())["rules"]

    def test_bridges_in_standalone_mode_get_their_entries_before_the_default_goes(self):
        net = self.network()
        status, said = self.adopt(net, "--yes")
        self.assertEqual(0, status, said)
        self.assertIn("s1: 0 entries taken, and the default entry of standalone mode, NORMAL\n", said)
        self.assertIn("4 entries will be put in, at s1, s2, s3, s4\n", said)
        self.assertIn("done: the switches have the tables of ", said)
        self.assertTrue(net.has(EXAMPLES / "square" / "new.json"))
        for switch in net.switches.values():
            self.assertEqual([(0, 100), (4, 0)], self.commands(switch))
        self.assertEqual(json.loads((EXAMPLES / "square" / "new.json").read_text())["rules"], self.old(net))

    def test_what_is_taken_is_the_old_configuration(self):
        net = self.network(is_empty=False, has_default=("s2",))
        status, said = self.adopt(net, "--yes")
        self.assertEqual(0, status, said)
        self.assertIn("s1: 1 entry taken\n", said)
        self.assertTrue(net.has(EXAMPLES / "square" / "old.json"))
        self.assertEqual(
            [[], [(4, 0)], [], []], [self.commands(net.switches[name]) for name in ("s1", "s2", "s3", "s4")]
        )
        status, said = self.adopt(net)
        self.assertEqual(0, status, said)
        self.assertIn("nothing is to be done at the switches", said)

    def test_what_the_policy_says_amiss_is_warned_of(self):
        net = self.network(is_empty=False, has_default=())
        policy = net.wanted / "policy.json"
        policy.write_text(policy.read_text().replace('"deliver"', '"thru": ["s1"], "deliver"', 1))
        status, said = self.adopt(net, "--dry-run")
        self.assertEqual(0, status, said)
        self.assertIn("demands[0].thru counts for nothing: no member has this name; did you mean `through`?", said)
        (net.wanted / "old.json").unlink()
        status, said = self.adopt(net, "--strict")
        self.assertEqual(3, status, said)
        self.assertIn("stopped: there are warnings, and --strict is given; nothing was written or sent.", said)
        self.assertFalse((net.wanted / "old.json").exists())
        self.assertEqual((0, ""), self.adopt(net, "--quiet"))
        self.is_untouched(net)

    def test_a_dry_run_and_a_run_that_nobody_answers_send_nothing(self):
        net = self.network()
        status, said = self.adopt(net, "--dry-run")
        self.assertEqual(0, status, said)
        self.assertIn(
            (
                "packets that no rule takes, and those of other types (ARP, IPv6) without an entry of their own, are"
                " dropped from then on"
            ),
            said,
        )
        self.assertIn("a dry run ends here: nothing was sent", said)
        self.assertEqual(4, len(self.old(net)))
        status, said = self.adopt(net)
        self.assertEqual(1, status, said)
        self.assertIn("stopped: there is no terminal to ask; nothing was sent. Next: answer it with --yes", said)
        self.is_untouched(net)

    def test_what_can_t_be_said_is_told_and_nothing_is_done(self):
        net = self.network(is_empty=False)
        tcp = struct.pack("!I", 0x003020CF) + net.switches["s1"].table[next(iter(net.switches["s1"].table))][0][4:]
        net.switches["s1"].table[fake_switch.key_of(tcp, 200)] = [tcp, 200, b"", 0]
        status, said = self.adopt(net, "--yes")
        self.assertEqual(1, status, said)
        self.assertIn(
            "s1: 1 entry taken, 1 entry can't be said, and the default entry of standalone mode, NORMAL\n", said
        )
        self.assertIn("it tests nw_proto", said)
        self.assertIn(
            "stopped: 1 entry can't be said in a configuration: they stand above. Next: change them at the switches",
            said,
        )
        self.is_untouched(net)
        self.assertFalse((net.wanted / "old.json").exists())

    def test_an_old_configuration_that_says_something_else_stays(self):
        net = self.network()
        (net.wanted / "old.json").write_text('{"rules": []}')
        status, said = self.adopt(net, "--yes")
        self.assertEqual(1, status, said)
        self.assertIn(
            "is there, and says something else than the switches would have. Next: move it away, and begin again", said
        )
        self.assertEqual([], self.old(net))
        self.is_untouched(net)

    def test_rules_from_which_no_plan_can_start_are_refused(self):
        net = self.network()
        (net.wanted / "new.json").unlink()
        status, said = self.adopt(net, "--yes")
        self.assertEqual(1, status, said)
        self.assertIn("is dropped by s1, though the policy says that it must arrive.", said)
        self.assertIn(
            "stopped: no plan can start from these rules; nothing was written or sent. Next: --own CONFIG", said
        )
        self.is_untouched(net)
        self.assertFalse((net.wanted / "old.json").exists())
        status, said = self.adopt(net, "--yes", "--own", EXAMPLES / "square" / "old.json")
        self.assertEqual(0, status, said)
        self.assertTrue(net.has(EXAMPLES / "square" / "old.json"))

    def test_an_update_at_work_and_a_switch_that_refuses(self):
        net = self.network(only={"s3": {"refuses": True}})
        status, said = self.adopt(net, "--yes")
        self.assertEqual(1, status, said)
        self.assertIn(
            "stopped: s3 refuses a change: flow message failed: all tables full. Next: see to that, and begin again",
            said,
        )
        self.assertTrue(all(fake_switch.key_of(DEFAULT_MATCH, 0) in switch.table for switch in net.switches.values()))
        mark = Mark(b"sixsix", 1).put()
        match = mark[8:48]
        net.switches["s1"].table[fake_switch.key_of(match, 1)] = [
            match, 1, b"", Mark(b"sixsix", 1).begun | 0x706C616E << 32,
        ]
        status, said = self.adopt(net, "--yes")
        self.assertEqual(1, status, said)
        self.assertIn(
            "stopped: an update is at work: s1 has the mark 736978736978, begun 1970-01-01 00:00:01 UTC", said
        )

    def test_a_broken_network_gets_its_tables_by_a_plan_without_rounds_and_a_repair(self):
        """The way that docs/CONTROLLER.md names where entries are wrong, and not only missing."""
        net = self.network(is_empty=False, has_default=())
        net.add("s2", {"switch": "s2", "priority": 200, "dst": "10.0.0.0/24", "out": 1})
        wanted = net.wanted / "new.json"
        net.files = [net.files[0], wanted, wanted, net.wanted / "policy.json", net.wanted / "plan.json"]
        text = subprocess.run(
            [PLANNER, "pack", *map(str, net.files[:4])], capture_output=True, text=True, timeout=SECONDS, check=False
        ).stdout
        self.assertEqual([], json.loads(text)["rounds"])
        net.files[4].write_text(text)
        status, said = net.apply("--repair", "--patience", "60")
        self.assertEqual(0, status, said)
        self.assertTrue(net.has(EXAMPLES / "square" / "new.json"))


if __name__ == "__main__":
    unittest.main()
