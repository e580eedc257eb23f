"""Tests of the comparison of what a switch has with what it must have, entry by entry, and of the repair."""
import itertools
import json
import struct
import unittest

import fake_switch
from planner_tools.switches.expected import Answers, Expected, repair_plan
from planner_tools.switches.marks import Mark

LOW = {"switch": "s1", "priority": 10, "dst": "10.0.0.0/8", "out": 1}
HIGH = {"switch": "s1", "priority": 20, "dst": "10.0.0.0/24", "out": 2, "vlan": "untagged", "in_port": 3}
TAGGED = {"switch": "s1", "priority": 32868, "dst": "10.0.0.0/24", "out": 2, "vlan": "untagged", "set": 3000}
STRIP = {"switch": "s1", "priority": 16484, "dst": "10.0.1.0/32", "out": 3, "vlan": 3000, "strip": True}
DEFAULT = {"switch": "s1", "priority": 16384, "dst": "0.0.0.0/0", "out": "drop", "vlan": 3000}
ALL = [LOW, HIGH, TAGGED, STRIP, DEFAULT]


def actions_of(rule):
    rewrite = (
        struct.pack("!HHHH", 1, 8, rule["set"], 0)
        if "set" in rule
        else struct.pack("!HHHH", 3, 8, 0, 0)
        if rule.get("strip")
        else b""
    )
    return rewrite + fake_switch.actions_of(rule)


def answers_of(rules, has_extended, idle=0, others=()):
    found = Answers()
    entries = [(fake_switch.match_of(rule), rule["priority"], actions_of(rule), 7, idle) for rule in rules] + list(
        others
    )
    found.flow = [bytes(12) + b"".join(fake_switch.entry_of(*one) for one in entries)]
    found.extended = [bytes(24) + b"".join(fake_switch.extended_of(*one) for one in entries)] if has_extended else None
    return found


def expected(rules, pending=()):
    return Expected(json.dumps({"rules": rules, "pending": list(pending)}))


class Comparing(unittest.TestCase):
    def differ(self, must, pending, rules, *words, **more):
        for has_extended in (False, True):
            found = expected(must, pending).differences("s1", answers_of(rules, has_extended, **more))
            self.assertEqual([str(one) for one in found], list(words))
        return found

    def test_the_same_entries_in_any_order_don_t_differ(self):
        self.differ(ALL, [], ALL[::-1])

    def test_each_entry_that_differs_is_named_in_words(self):
        self.differ(ALL, [], ALL[1:], "s1: missing: priority 10 10.0.0.0/8 -> output 1")
        self.differ(
            [LOW], [], [LOW, HIGH],
            "s1: too much: priority 20 type 0800 in_port 3 VLAN untagged 10.0.0.0/24 -> output 2",
        )
        self.differ(
            [TAGGED], [], [{**TAGGED, "set": 3001}],
            (
                "s1: not as it must be: priority 32868 10.0.0.0/24 untagged -> set VLAN 3001, output 2: must be set"
                " VLAN 3000, output 2"
            ),
        )
        self.differ(
            [STRIP], [], [{**STRIP, "strip": False}],
            "s1: not as it must be: priority 16484 10.0.1.0/32 VLAN 3000 -> output 3: must be strip VLAN, output 3",
        )
        self.differ(
            [LOW], [], [{**LOW, "out": "drop"}],
            "s1: not as it must be: priority 10 10.0.0.0/8 -> drop: must be output 1",
        )
        self.differ(
            [LOW], [], [LOW],
            (
                "s1: not as it must be: priority 10 10.0.0.0/8 -> output 1: it goes away by itself (idle timeout 9 s,"
                " hard timeout 0 s)"
            ),
            idle=9,
        )
        found = self.differ(
            [], [], [LOW],
            (
                "s1: too much: priority 10 type 0800 10.0.0.0/8 -> output 1: it goes away by itself (idle timeout 9 s,"
                " hard timeout 0 s)"
            ),
            idle=9,
        )
        self.assertTrue(found[0].can_be_repaired())

    def test_another_priority_port_vlan_or_prefix_is_another_entry(self):
        for part in (
            {"priority": 21}, {"in_port": 4}, {"in_port": "any"}, {"vlan": 10}, {"vlan": "any"}, {"dst": "10.0.0.0/25"},
            {"dst": "10.0.1.0/24"},
        ):
            found = self.differ(
                [HIGH], [], [{**HIGH, **part}],
                *[str(one) for one in expected([HIGH]).differences("s1", answers_of([{**HIGH, **part}], False))],
            )
            self.assertEqual(len(found), 2)

    def test_of_a_pending_change_either_state_may_be_there(self):
        after = {**LOW, "out": 2}
        pending = [{"do": "replace", **after}, {"do": "delete", **HIGH}, {"do": "insert", **STRIP}]
        for rules in itertools.product(([LOW], [after]), ([HIGH], []), ([STRIP], [])):
            self.differ([LOW, HIGH], pending, [*rules[0], *rules[1], *rules[2]])
        self.differ([LOW, HIGH], pending, [HIGH], "s1: missing: priority 10 10.0.0.0/8 -> output 1")
        self.differ(
            [LOW, HIGH], pending, [LOW, HIGH, {**STRIP, "out": 9}],
            "s1: too much: priority 16484 type 0800 VLAN 3000 10.0.1.0/32 -> strip VLAN, output 9",
        )
        self.differ(
            [LOW, HIGH], pending, [{**LOW, "out": 3}],
            "s1: not as it must be: priority 10 10.0.0.0/8 -> output 3: must be output 1",
        )

    def test_marks_and_what_no_ip_packet_meets_aren_t_compared(self):
        mark = Mark(b"\2abcde", 1_700_000_000)
        message = mark.put()
        entry = (message[8:48], 1, b"", int.from_bytes(message[48:56], "big"), 0)
        arp = (message[8:26] + bytes(4) + struct.pack("!H", 0x0806) + message[32:48], 5, b"", 0, 0)
        self.differ([LOW], [], [LOW], others=[entry, arp])
        found = answers_of([LOW], True, others=[entry, arp]).marks()
        self.assertEqual([str(one) for one in found], ["026162636465, begun 2023-11-14 22:13:20 UTC"])
        self.assertEqual(found, [mark])

    def test_what_no_rule_can_say_is_told_and_isn_t_repaired(self):
        answers = answers_of([LOW], True)
        fields = bytes.fromhex("00000602" "0800" "00001108" "0a000000" "ff00ff00")
        answers.extended[0] += (
            struct.pack("!HBxIIHHHH4xQ16x", 48 + 24 + 8, 0, 1, 0, 50, 0, 0, len(fields), 0)
            + fields
            + bytes(-len(fields) % 8)
            + fake_switch.actions_of(LOW)
        )
        found = expected([LOW]).differences("s1", answers)
        self.assertEqual(
            [str(one) for one in found],
            [
                "s1: too much: priority 50 type 0800 -> output 1: it tests nw_dst with a mask 0a000000ff00ff00, which"
                " OpenFlow 1.0 can't say"
            ],
        )
        self.assertFalse(found[0].can_be_repaired())


class Repairing(unittest.TestCase):
    def test_entries_are_put_in_from_above_and_taken_out_from_below(self):
        extra = [
            {**LOW, "dst": f"20.0.0.0/{length}", "priority": priority}
            for length, priority in ((8, 40), (9, 5), (10, 30))
        ]
        found = expected(ALL).differences("s1", answers_of([{**HIGH, "out": 9}, *extra], True))
        plan = repair_plan(found)
        self.assertEqual(
            [[do for do, _ in one] for one in plan["rounds"]],
            [["insert"]] * 3 + [["replace"], ["insert"]] + [["delete"]] * 3,
        )
        self.assertEqual(
            [plan["rules"][one[0][1]]["priority"] for one in plan["rounds"]], [32868, 16484, 16384, 20, 10, 5, 30, 40]
        )
        self.assertTrue(all(one in ALL for one in plan["rules"][:5]))

    def test_at_a_dead_switch_entries_are_taken_out_first(self):
        found = expected([LOW, HIGH]).differences("s1", answers_of([STRIP, {**HIGH, "out": 9}, TAGGED], True))
        for dead, order in (
            (["s1"], [("delete", 16484), ("delete", 32868), ("replace", 20), ("insert", 10)]),
            (["s2"], [("replace", 20), ("insert", 10), ("delete", 16484), ("delete", 32868)]),
        ):
            plan = repair_plan(found, dead)
            told = [(do, plan["rules"][at]["priority"]) for one in plan["rounds"] for do, at in one]
            self.assertEqual(told, order)

    def test_at_each_moment_a_packet_meets_what_it_met_or_what_it_must_meet(self):
        nested = [
            {"switch": "s1", "priority": 10 * length, "dst": f"10.0.0.0/{length}", "out": length}
            for length in range(8, 14)
        ]

        def met(table, length):
            fitting = [rule for rule in table.values() if int(rule["dst"].split("/")[1]) <= length]
            return max(fitting, key=lambda rule: rule["priority"], default={"out": "drop"})["out"]

        for bits in range(0, 4 ** 5, 3):
            states = [bits >> 2 * at & 3 for at in range(5)]         # of each rule: nowhere, there, wanted, both
            there = {rule["priority"]: rule for rule, state in zip(nested, states) if state & 1}
            wanted = [rule for rule, state in zip(nested, states) if state & 2]
            plan = repair_plan(expected(wanted).differences("s1", answers_of(list(there.values()), False)))
            before, after = (
                [met(table, length) for length in range(8, 14)]
                for table in (there, {rule["priority"]: rule for rule in wanted})
            )
            for one in plan["rounds"]:
                do, rule = one[0][0], plan["rules"][one[0][1]]
                there.pop(rule["priority"], None) if do == "delete" else there.__setitem__(rule["priority"], rule)
                self.assertTrue(
                    all(met(there, length) in (before[at], after[at]) for at, length in enumerate(range(8, 14)))
                )
            self.assertEqual(
                {one: rule["out"] for one, rule in there.items()}, {rule["priority"]: rule["out"] for rule in wanted}
            )


if __name__ == "__main__":
    unittest.main()
