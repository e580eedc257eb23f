"""Tests of the workloads: that they are whole and within the limits of files, and that the shapes are what their titles
say."""
import ipaddress
import itertools
import json
import os
import pathlib
import subprocess
import sys
import tempfile
import unittest

sys.path.insert(0, str(pathlib.Path(__file__).resolve().parent.parent / "reliability"))

import model  # noqa: E402
import workloads  # noqa: E402
from workloads import CHECK, GREATEST_FILE, WORKLOADS  # noqa: E402

# Large to make, and of the same kind as others.
LEFT_OUT = {"check-spread", "check-big-rounds", "check-kinds-big", "check-parallel-apart", "simulate-spread"}
# How many rules the plans have, how many rounds and how many changes, where the titles speak of them.
COUNTS = {
    "check-long-table": (8000, 4200, 24_396),
    "check-kinds": (8000, 1002, 18_000),
    "check-few-replaced": (16_000, 4200, 87_366),
    "check-few-above": (8004, 4200, 32_792),
    "check-far": (127, 4200, 533_400),
    "replay-long-table": (8190, 30, 245_700),
    "check-clash": (128_000, 1, 128_000),
    "check-repeat": (127_999, 1, 128_000),
    "check-touched": (2048, 64, 65_536),
    "check-touched-few": (2, 64, 128),
    "check-parallel-wide": (8000, 2, 16_000),
    "explain-cycles": (2, 4, 4),
    "simulate-round": (8190, 2, 16_380),
}
# How many classes there are.
CLASSES = {
    "check-chains": 8184,
    "explain-chains": 8184,
    "plan-chains": 1056,
    "pack-chains": 1056,
    **dict.fromkeys(("check-other-chains", "plan-other-chains", "certify-other-chains", "pack-other-chains"), 8184),
    "check-far": 8192,
    "check-touched": 8192,
    "check-touched-few": 8192,
    "check-parallel-wide": 7998,
    "explain-cycles": 1024,
    "config-lists": 8192,
}
# Two kinds of 20 rules each.
KINDS = workloads.two_kinds(40)


def values(workload):
    """The files of a workload as values, by their names without `.json`. A schedule isn't JSON."""
    return {
        name: json.loads(value) if isinstance(value, str) else value
        for name, value in workload.files.items()
        if name != "schedule"
    }


def carried_out(workload):
    """The update of a workload in motion, after all its rounds. It fails where a change doesn't apply."""
    return model.Update(**values(workload))


def prefixes(files):
    """All prefixes that tell classes apart."""
    plan = files.get("plan", {})
    lists = [files[name]["rules"] for name in ("config", "old", "new") if name in files] + [
        files.get("policy", {"demands": []})["demands"]
    ]
    lists += [plan.get("rules", []), *(plan["rounds"] if plan.get("format") == 1 else [])]
    return {item["dst"] for items in lists for item in items}


def class_count(files):
    blocks = [ipaddress.ip_network(prefix) for prefix in prefixes(files)]
    firsts = {0, *(int(block[0]) for block in blocks), *(int(block[-1]) + 1 for block in blocks)} - {1 << 32}
    topology = files["topology"]
    return len(topology["hosts"]) * len(topology["vlans"]) * len(firsts)


def plan_counts(files):
    """How many rules the plan has, how many rounds and how many changes."""
    plan = files.get("plan", {"rounds": []})
    return len(plan.get("rules", [])), len(plan["rounds"]), sum(map(len, plan["rounds"]))


def share_a_packet(one, other):
    """Whether two rules of a switch have one priority and cover a common packet."""
    if one["priority"] != other["priority"]:
        return False
    tests = ((one.get(part, "any"), other.get(part, "any")) for part in ("in_port", "vlan"))
    return all(a == b or "any" in (a, b) for a, b in tests) and ipaddress.ip_network(one["dst"]).overlaps(
        ipaddress.ip_network(other["dst"])
    )


def plain_run(sizes, packets, start):
    """The events of a run, each chosen from a list of all that is offered: rounds of these sizes, and so many packets
    that the first switch drops."""
    events, settled, running, pending, born, under_way = [], 0, False, [], [], []
    while running or pending or under_way or settled < len(sizes) or len(born) < packets:
        may_start = not running and settled < len(sizes) and all(born[i] >= settled for i in under_way)
        offered = ["start"] * may_start + ["settle"] * (running and not pending) + [f"change {i}" for i in pending]
        offered += ["enter"] * (len(born) < packets) + [f"hop {i}" for i in under_way]
        events.append(offered[(start + 7 * len(events)) % 2**64 % len(offered)])
        word, *number = events[-1].split()
        if word == "start":
            running, pending = True, list(range(sizes[settled]))
        elif word == "settle":
            running, settled = False, settled + 1
        elif word == "change":
            pending.remove(int(number[0]))
        elif word == "enter":
            under_way.append(len(born))
            born.append(settled)
        else:
            under_way.remove(int(number[0]))
    return events


def clashes(rules):
    return [
        (i, j) for (i, one), (j, other) in itertools.combinations(enumerate(rules), 2) if share_a_packet(one, other)
    ]


class LimitTests(unittest.TestCase):
    def look_at_words(self, workload):
        """The files are those that the words name, and a plan that the planner makes."""
        plan = {"plan.json"} if workload.needs_plan() else set()
        named = {word for word in workload.words[1:] if word.endswith(".json")}
        self.assertEqual({f"{name}.json" for name in workload.files} | plan, named)

    def look_at_limits(self, files, classes):
        """The counts are within the limits of files."""
        rounds = files.get("plan", {"rounds": []})["rounds"]
        self.assertLessEqual(max(len(files[name]["rules"]) for name in ("config", "old", "new") if name in files), 2048)
        self.assertLessEqual(len(files.get("policy", {"demands": []})["demands"]), 512)
        self.assertLessEqual(len(rounds), 4200)
        self.assertLessEqual(sum(map(len, rounds)), 2_200_000)
        self.assertLessEqual(classes, 8192)

    def look_at_evidence(self, plan, classes):
        """An ordered plan has evidence for each class from its first round on."""
        if plan.get("kind") == "ordered":
            self.assertLessEqual(set(range(classes)), {pick[1] for pick in plan["picks"] if pick[0] == 1})

    def test_each_is_whole_and_within_the_limits(self):
        for name, (_, make) in WORKLOADS.items():
            if name in LEFT_OUT:
                continue
            with self.subTest(name):
                workload = make()
                files = values(workload)
                classes = class_count(files)
                self.look_at_words(workload)
                self.look_at_limits(files, classes)
                if workload.words[0] in ("check", "simulate"):
                    self.look_at_evidence(files.get("plan", {}), classes)
                self.assertEqual(CLASSES.get(name, classes), classes)
                self.assertEqual(COUNTS.get(name, plan_counts(files)), plan_counts(files))

    def test_the_files_are_short_enough(self):
        for name in ("config-long", "check-ring", "plan-detours"):
            with self.subTest(name), tempfile.TemporaryDirectory() as folder:
                WORKLOADS[name][1]().write(pathlib.Path(folder))
                for file in pathlib.Path(folder).iterdir():
                    self.assertLessEqual(file.stat().st_size, GREATEST_FILE)
                    json.loads(file.read_text())


class TableTests(unittest.TestCase):
    """Tables that rounds make, and rounds that are refused."""

    def test_two_kinds_of_one_priority_cover_no_common_packet(self):
        self.assertEqual({rule["priority"] for rule in KINDS}, {100})
        self.assertEqual(
            sorted(("vlan" in rule, "in_port" in rule) for rule in KINDS), [(False, True)] * 20 + [(True, False)] * 20
        )
        self.assertEqual(clashes(KINDS), [])

    def test_eight_thousand_rules_of_two_kinds_are_in_range(self):
        rules = workloads.two_kinds(8000)
        self.assertEqual(max(rule.get("vlan", 0) for rule in rules), 4000)
        self.assertEqual(len({(rule.get("vlan"), rule.get("in_port")) for rule in rules}), 8000)

    def test_a_table_grows_changes_and_goes(self):
        for rules in (KINDS, workloads.ranked_rules(40, 1)):
            motion = carried_out(workloads.grown_table(4, rules))
            self.assertEqual([len(tables["r0"]) for tables in motion.tables], [1, 41, 39, 41, 39, 41, 1])
            self.assertEqual([len(it) for it in motion.rounds], [40, 2, 2, 2, 2, 40])

    def test_a_few_rules_are_replaced_by_turns(self):
        motion = carried_out(workloads.replaced_in_turns(5, 3, 8))
        self.assertEqual([len(tables["r0"]) for tables in motion.tables], [1, 9, 9, 9, 9, 9, 9, 1])
        self.assertEqual(
            [[rule["priority"] for rule in values(workloads.replaced_in_turns(5, 3, 8))["plan"]["rules"][i : i + 3]]
             for i in (0, 3, 8, 11)],
            [[1, 2, 3], [4, 5, 6], [1, 2, 3], [4, 5, 6]],
        )
        rounds = values(workloads.replaced_in_turns(5, 3, 8))["plan"]["rounds"][1:-1]
        self.assertEqual(
            [[i for _, i in it] for it in rounds], [[8, 9, 10], [11, 12, 13], [0, 1, 2], [3, 4, 5], [8, 9, 10]]
        )

    def test_a_few_rules_come_and_go_above_the_others(self):
        motion = carried_out(workloads.inserted_above(4, 3, 8))
        self.assertEqual([len(tables["r0"]) for tables in motion.tables], [1, 9, 12, 9, 12, 9, 1])
        rules = values(workloads.inserted_above(4, 3, 8))["plan"]["rules"]
        self.assertEqual([rule["priority"] for rule in rules], list(range(1, 12)))

    def test_a_schedule_has_each_change_once(self):
        events = workloads.recorded_changes(2, 3).files["schedule"].split("\n")
        self.assertEqual(events, ["start", "change 0", "change 1", "change 2", "settle"] * 2 + [""])

    def test_rules_come_and_go(self):
        motion = carried_out(workloads.toggled_rules(4, KINDS))
        self.assertEqual([len(tables["r0"]) for tables in motion.tables], [1, 41, 1, 41, 1])

    def test_the_last_two_inserts_clash_and_no_others(self):
        workload = workloads.clashing_round(40)
        self.assertEqual(clashes(values(workload)["plan"]["rules"]), [(38, 39)])
        self.assertEqual(len(carried_out(workload).tables[-1]["r0"]), 41)

    def test_the_last_insert_stands_there_twice_and_no_others(self):
        plan = values(workloads.repeating_round(40))["plan"]
        self.assertEqual(clashes(plan["rules"]), [])
        self.assertEqual(plan["rounds"], [[["insert", i] for i in [*range(39), 38]]])

    def test_all_of_128000_inserts_have_entries_of_their_own(self):
        rules = workloads.rules_apart(128_000)
        self.assertEqual(len({(rule["in_port"], rule["vlan"]) for rule in rules}), 128_000)
        self.assertEqual((max(rule["in_port"] for rule in rules), max(rule["vlan"] for rule in rules)), (32, 4000))


class PacketTests(unittest.TestCase):
    """Rounds that classes of packets meet."""

    def test_each_class_is_touched_by_each_round(self):
        plan = values(workloads.replaced_together(2))["plan"]
        self.assertEqual({(rule["priority"], rule["dst"]) for rule in plan["rules"]}, {(100, "0.0.0.0/0")})
        for round_ in plan["rounds"]:
            rules = [plan["rules"][i] for _, i in round_]
            self.assertEqual(
                {(rule["in_port"], rule["vlan"]) for rule in rules}, set(itertools.product(range(1, 65), range(1, 17)))
            )
            self.assertTrue(all(rule["out"] not in (rule["in_port"], "drop") for rule in rules))

    def test_two_rules_that_cover_all_packets_come_and_go(self):
        motion = carried_out(workloads.two_below_all(2))
        self.assertEqual([len(tables["s0"]) for tables in motion.tables], [1024, 1026, 1024])
        self.assertEqual(
            {(change.in_port, change.vlan, change.dst) for round_ in motion.rounds for _, (_, change) in round_},
            {(None, None, "0.0.0.0/0")},
        )

    def test_many_rules_send_over_the_parallel_links(self):
        plan = values(workloads.parallel_links(2, 62))["plan"]
        for switch in ("r0", "r1"):
            ports = [rule["out"] for rule in plan["rules"] if rule["switch"] == switch]
            self.assertEqual(sorted(ports), sorted([*range(1, 32)] * 2))

    def test_ports_lie_apart(self):
        files = values(workloads.parallel_links(2, 62, 512))
        ends = [end for link in files["topology"]["links"] for end in link] + files["topology"]["hosts"]
        self.assertEqual({int(end.split(":")[1]) % 512 for end in ends}, {0})
        self.assertEqual(len(set(ends)), len(ends))

    def test_prefixes_side_by_side_have_other_chains(self):
        demands = values(workloads.line_of_chains(CHECK, 20))["policy"]["demands"]
        chains = [demand["through"] for demand in demands]
        self.assertTrue(all(one != other for one, other in itertools.pairwise(chains)))
        self.assertEqual((len(chains), len({tuple(it) for it in chains}), {len(it) for it in chains}), (20, 8, {16}))

    def test_each_switch_of_a_mesh_sends_to_each_other_one(self):
        files = values(workloads.mesh([], 5))
        self.assertEqual(files["topology"]["format"], 2)
        for j, demand in enumerate(files["policy"]["demands"]):
            self.assertEqual(demand["from"], [f"r{i}:1" for i in range(5) if i != j])
            rules = [rule for rule in files["old"]["rules"] if rule["dst"] == demand["dst"]]
            self.assertEqual([rule["out"] for rule in rules], [1 if i == j else 2 for i in range(5)])
        self.assertEqual(len(files["policy"]["demands"]), 5)

    def test_long_lists_have_each_port_once(self):
        demands = values(workloads.long_lists(3, 1024))["policy"]["demands"]
        self.assertEqual([len(set(demand["from"])) for demand in demands], [1024] * 3)
        self.assertEqual([len(demand["from"]) for demand in demands], [1024] * 3)

    def test_packets_leave_a_line_at_its_other_end(self):
        plan = {"kind": "ordered", "rules": [], "rounds": []}
        motion = model.Update(**values(workloads.turned_line([], 4)), plan=plan)
        entry, address = ("r1", 1, model.UNTAGGED), int(ipaddress.ip_address("10.0.0.0"))
        ways = [
            [stop[0] for stop in model.path(motion.network, tables, entry, address)[0]]
            for tables in (motion.old, motion.new)
        ]
        self.assertEqual(ways, [["r1", "r2", "r3"], ["r1", "r0"]])

    def test_no_packet_comes_to_the_switches_of_far_rounds(self):
        files = values(workloads.far_rounds(2))
        self.assertEqual(files["topology"]["links"], [])
        self.assertEqual({host.split(":")[0] for host in files["topology"]["hosts"]}, {"s0"})
        self.assertNotIn("s0", {rule["switch"] for rule in files["plan"]["rules"]})

    def test_packets_go_round_a_ring_either_way(self):
        motion = carried_out(workloads.either_way(5, 4))
        entry, address = ("r0", 10, model.UNTAGGED), int(ipaddress.ip_address("10.0.0.0"))
        ways = [[stop[0] for stop in model.path(motion.network, tables, entry, address)[0]] for tables in motion.tables]
        up, down = ["r0", "r1", "r2", "r3", "r4"], ["r0", "r4", "r3", "r2", "r1"]
        self.assertEqual(ways, [up, down, up, down, up])

    def test_rules_lead_round_the_whole_ring_and_no_packet_enters_there(self):
        motion = carried_out(workloads.either_way(5, 4))
        address = int(ipaddress.ip_address("192.168.0.0"))
        self.assertIsNone(model.path(motion.network, motion.old, ("r0", 3, model.UNTAGGED), address))
        for host in motion.network.hosts:
            stops, end = model.path(motion.network, motion.old, (*host, model.UNTAGGED), address)
            self.assertEqual((len(stops), end), (1, ("drop",)))

    def test_no_packet_comes_to_a_switch_twice_in_any_order(self):
        motion = carried_out(workloads.either_way(5, 4))
        for one in motion.classes():
            if one[0][0] != "r0" or one[0][1] == 10:
                self.assertEqual(motion.explore((one,))[1], [])

    def test_explain_has_the_plan_of_the_check(self):
        check, explain = (WORKLOADS[name][1]() for name in ("check-chains", "explain-chains"))
        self.assertEqual((check.files, check.words[1:]), (explain.files, explain.words[1:]))
        self.assertTrue(explain.needs_plan())


@unittest.skipUnless("PLANNER" in os.environ, "PLANNER names no program")
class AnswerTests(unittest.TestCase):
    """What the program says of small forms of the shapes."""

    def test_answers(self):
        rows = [
            (workloads.toggled_rules(4, KINDS), "accepted: ordered, 4 rounds, 4 classes\n"),
            (workloads.grown_table(4, KINDS), "accepted: ordered, 6 rounds, 4 classes\n"),
            (workloads.grown_table(4, workloads.ranked_rules(40, 1)), "accepted: ordered, 6 rounds, 6 classes\n"),
            (workloads.replaced_in_turns(5, 3, 40), "accepted: ordered, 7 rounds, 6 classes\n"),
            (workloads.inserted_above(4, 4, 40), "accepted: ordered, 6 rounds, 6 classes\n"),
            (workloads.far_rounds(2), "accepted: ordered, 2 rounds, 8192 classes\n"),
            (workloads.parallel_links(2, 62, 512), "accepted: ordered, 2 rounds, 7998 classes\n"),
            (workloads.recorded_changes(2, 40), "settled 2 of 2\n"),
            (workloads.single_addresses(40), "holds: 160 classes\n"),
            (workloads.clashing_round(40), "refused: 3 Ambiguous round 1 switch r0\n"),
            (workloads.repeating_round(40), "refused: 2 BadChange round 1 switch r0 change 39\n"),
            (workloads.replaced_together(2), "accepted: ordered, 2 rounds, 8192 classes\n"),
            (workloads.two_below_all(2), "accepted: ordered, 2 rounds, 8192 classes\n"),
            (workloads.parallel_links(2, 62), "accepted: ordered, 2 rounds, 7998 classes\n"),
            (workloads.either_way(3, 2), "no run: every mixed walk is good\n"),
            (workloads.mesh(["config", "topology.json", "old.json", "policy.json"], 5), "holds: 35 classes\n"),
            (workloads.long_lists(3, 1024), "holds: 8192 classes\n"),
        ]
        for workload, said in rows:
            with self.subTest(said), tempfile.TemporaryDirectory() as folder:
                workload.write(pathlib.Path(folder))
                done = subprocess.run(
                    [os.path.abspath(os.environ["PLANNER"]), *workload.words], cwd=folder, capture_output=True,
                    text=True, check=False, timeout=60,
                )
                self.assertEqual(done.stdout, said)

    def test_a_simulation_makes_the_named_events(self):
        """The numbers of changes go up and down over powers of 2."""
        rounds = ([1, 1], [2, 2, 2, 2], [7, 7], [8, 8], [9, 9, 9, 9], [100, 100])
        for sizes, packets, start in itertools.product(rounds, (0, 30), (0, 3, 2**64 - 5)):
            words = [*workloads.SIMULATE[:-2], str(start), str(packets)]
            workload = workloads.toggled_rules(len(sizes), workloads.ranked_rules(sizes[0], 1), words=words)
            with self.subTest(words=words[-2:], sizes=sizes), tempfile.TemporaryDirectory() as folder:
                workload.write(pathlib.Path(folder))
                done = subprocess.run(
                    [os.path.abspath(os.environ["PLANNER"]), *words], cwd=folder, capture_output=True, text=True,
                    check=True, timeout=60,
                )
                lines = [line for line in done.stdout.splitlines() if not line.startswith("#")]
                events = ["enter" if line.startswith("enter ") else line for line in lines]
                self.assertEqual(events, plain_run(sizes, packets, start))


if __name__ == "__main__":
    unittest.main()
