"""Tests of updates among faults: whole updates of fake switches over the loopback. PLANNER names the program."""
import shutil
import time
import unittest

from network import LONGEST, Network, UpdateTest, planner
import fake_switch
from planner_tools.switches import collect

DROP_ALL = {"dst": "10.0.0.0/24", "priority": 200, "out": "drop"}
# A switch that speaks OpenFlow 1.3 alone says so in its HELLO.
HELLO_13 = bytes.fromhex("0400001000000001" "0001000800000010")


def until(is_so):
    end = time.monotonic() + LONGEST
    while time.monotonic() < end and not is_so():
        time.sleep(0.01)


class Faults(UpdateTest):
    def end_of(self, run):
        said = run.communicate(timeout=LONGEST)[1]
        return run.returncode, said

    def changes(self, net):
        """How many messages of the update and of the script's own that change tables the switches were sent."""
        return sum(one.flow_messages for one in net.switches.values()), sum(
            one.own_messages for one in net.switches.values()
        )

    # ---- what a switch has is compared with what it must have

    def test_an_emptied_switch_is_told_before_anything_is_sent_and_repaired(self):
        for name, at, empty_at, missing, has_extended in (
            ("square", "s3", 1, "s3: missing: priority 100 10.0.0.0/24 -> output 2", False),
            ("detour", "x", 1, "x: missing: the mark of this update", False),
            ("detour", "s", 3, "s: missing: priority 328", True),
        ):
            with self.subTest(name, at=at):
                net = Network(self, name, only={at: {"empty_at": empty_at}}, has_extended=has_extended)
                run = net.apply()
                self.stops(
                    run, f"of {at} are not as they must be, and said above",
                    "go on with --resume --repair, which sends what is missing",
                )
                self.assertIn(f"{at}: missing: the mark of this update", run[1])
                self.assertIn(missing, run[1])
                self.assertRegex(
                    run[1],
                    r"since \d{4}-\d\d-\d\dT\d\d:\d\d:\d\dZ, when all was as it must be, packets that fit these entries"
                    r" may have been dropped.* at " + at,
                )
                before = net.switches[at].flow_messages
                if name == "square":
                    self.stops(net.apply("--resume"), "not as they must be", "--resume --repair")
                    self.assertEqual(net.switches[at].flow_messages, before)
                self.settles(net, net.apply("--resume", "--repair"))

    def test_an_emptied_switch_is_repaired_at_once_where_that_is_wanted(self):
        net = Network(self, "detour", only={"s": {"empty_at": 2}, "w": {"empty_at": 1}}, has_extended=True)
        run = net.apply("--repair")
        self.settles(net, run)
        self.assertRegex(run[1], r"what differs at [sw].* is put right: \d+ entr.* by the messages of `planner emit`")

    def test_a_change_by_hand_during_the_wait_stops_the_update_before_its_first_round(self):
        net = Network(self, "square")
        run = net.begin("--ask")
        self.wait_for(run, "round 1 of 2 is next")
        net.add("s2", DROP_ALL)
        self.press(run)
        end = self.end_of(run)
        self.stops(end, "1 entry of s2 is not as they must be, and said above", "--resume --repair")
        self.assertIn("s2: too much: priority 200 type 0800 10.0.0.0/24 -> drop\n", end[1])
        self.assertEqual(self.changes(net)[0], 0)
        self.settles(net, net.apply("--resume", "--repair"))

    def test_a_change_by_hand_between_rounds_stops_the_update_before_the_next_round(self):
        net = Network(self, "detour")
        run = net.begin("--ask")
        for number in (1, 2, 3):
            self.wait_for(run, f"round {number} of 8 is next")
            self.press(run)
        self.wait_for(run, "round 4 of 8 is next")
        net.switches["d"].table.popitem()
        before = self.changes(net)[0]
        self.press(run)
        self.stops(self.end_of(run), "1 entry of d is not as", "--resume --repair")
        self.assertEqual(self.changes(net)[0], before)
        self.settles(net, net.apply("--resume", "--repair"))

    def test_a_change_by_hand_that_was_put_right_by_hand_lets_the_update_go_on(self):
        net = Network(self, "square")
        net.add("s2", DROP_ALL)
        self.stops(
            net.apply(), "1 entry of s2 is not as",
            "go on with --resume --repair, which gives the switches the tables of",
        )
        net.switches["s2"].table = {key: one for key, one in net.switches["s2"].table.items() if one[1] != 200}
        self.settles(net, net.apply("--resume"))

    def test_the_end_is_compared_with_the_new_tables(self):
        net = Network(self, "square")
        run = net.begin("--ask")
        for number in (1, 2):
            self.wait_for(run, f"round {number} of 2 is next")
            if number == 2:
                net.switches["s1"].delay = 0.0
                net.switches["s4"].entries = []
            self.press(run)
        end = self.end_of(run)
        self.stops(end, "1 of 2 rounds are settled", "--resume --repair")
        self.assertIn("s4: missing: priority", end[1])
        net.switches["s4"].entries = None
        self.settles(net, net.apply("--resume"))

    def test_a_switch_that_can_t_be_repaired_by_messages_is_named(self):
        net = Network(self, "square", has_extended=True)
        net.switches["s1"].extended = [fake_switch.extended_of(*one) for one in net.switches["s1"].table.values()]
        fields = bytes.fromhex("00000602" "0800" "00001108" "0a000000" "ff00ff00")
        net.switches["s1"].extended.append(
            bytes.fromhex("0048000000000001000000000032000000000012") + bytes(28) + fields + bytes(6)
        )
        run = net.apply("--repair")
        self.stops(
            run,
            (
                "1 entry of them no message of a plan can reach, as s1: too much: priority 50 type 0800 -> drop: it"
                " tests nw_dst with a mask"
            ),
            "take these away at the switch by hand",
        )
        self.assertEqual(self.changes(net), (0, 0))

    # ---- one controller

    def another(self, net):
        """Another controller's view of the same switches: its own record, and a file of switches of its own."""
        copied = net.folder / "other-switches"
        shutil.copy(net.listed, copied)
        net.listed, net.record = copied, net.folder / "other"
        return net

    def test_a_second_controller_is_told_by_the_switches(self):
        net = Network(self, "square", listen=True)
        run = net.begin("--ask")
        self.wait_for(run, "round 1 of 2 is next")
        first, before = net.record, self.changes(net)
        self.stops(self.another(net).apply(), "another update is at work: s", "--take-over")
        self.assertEqual(self.changes(net), before)
        net.record = first
        self.press(run)
        self.wait_for(run, "round 2 of 2 is next")
        self.press(run)
        self.settles(net, self.end_of(run))
        self.settles(net, (0, ""))
        self.assertFalse([key for one in net.switches.values() for key in one.table if key[3] == fake_switch.MARK_TYPE])

    def test_two_controllers_at_once_don_t_both_go_on(self):
        net = Network(self, "square", listen=True)
        first = net.begin("--wait", "0.5")
        record = net.record
        second = self.another(net).begin("--wait", "0.7")
        ends = [self.end_of(first), self.end_of(second)]
        self.assertIn(sorted(status for status, _ in ends), ([0, 1], [1, 1]), ends)
        for path, (status, said) in zip((record, net.record), ends):
            if status == 1:         # where the other one was too fast it meets its changes
                self.assertRegex(said, "another update is at work|not as they must be")
            else:
                net.record = path
                self.settles(net, (status, said))

    def test_the_mark_of_a_killed_controller_stays_until_it_is_taken_over(self):
        net = Network(self, "square", listen=True)
        net.apply_until("round 1 starts", "--wait", "0.05")
        record, listed = net.record, net.listed
        run = self.another(net).apply()
        self.stops(run, "another update is at work: s", "--resume --take-over takes its mark away")
        net.record, net.listed = record, listed
        self.settles(net, net.apply("--resume"))

    def test_a_controller_whose_mark_was_taken_over_stops(self):
        net = Network(self, "square", listen=True)
        run = net.begin("--ask")
        self.wait_for(run, "round 1 of 2 is next")
        said = self.another(net).begin("--take-over", "--ask")
        self.wait_for(said, "round 1 of 2 is next")
        self.press(run)
        self.stops(self.end_of(run), "another update is at work: s", "wait for its end")
        self.press(said)
        self.wait_for(said, "round 2 of 2 is next")
        self.press(said)
        self.settles(net, self.end_of(said))

    def test_a_two_phase_update_that_can_t_go_on_is_left_by_a_record_that_gives_back_the_old_tables(self):
        net = Network(self, "detour", listen=True)
        net.apply_until("round 5 starts")
        self.another(net)
        self.stops(net.apply(), "another update is at work", "--resume --take-over takes its mark away")
        self.stops(
            net.apply("--resume", "--take-over"), "So the switches don't have the tables of",
            "No plan can start from what they have: a configuration can't say it",
        )
        self.settles(net, net.apply("--resume", "--take-over", "--repair"))

    def test_a_switch_that_refuses_the_mark_is_named(self):
        net = Network(self, "square", only={"s4": {"refuses": True}})
        self.stops(net.apply(), "s4 refuses the mark of the update: flow message failed: all tables full", "--no-mark")
        self.settles(net, net.apply("--resume", "--no-mark"))

    # ---- the record

    def test_a_start_that_was_added_by_hand_is_named_and_not_taken(self):
        net = Network(self, "square")
        net.apply_until("round 1 starts", "--wait", "0.1")
        with open(net.record, "a", encoding="ascii") as file:
            file.write("start\n")
        run = net.apply("--resume")
        self.stops(run, "isn't as it was written: it was added", "--resume")
        net.do_next(run[1])
        self.settles(net, net.apply("--resume"))

    def test_a_record_without_its_last_lines_is_behind_the_switches_and_that_is_told(self):
        net = Network(self, "square")
        self.settles(net, net.apply())
        lines = net.record.read_text().splitlines(keepends=True)
        net.record.write_text("".join(lines[:lines.index("start\n") - 1]))
        self.stops(net.apply("--resume"), "not as they must be", "--resume --repair")

    def test_a_full_disk_is_named_with_its_file(self):
        net = Network(self, "detour")
        shell = ["sh", "-c", 'ulimit -f 6; exec "$@"', "sh"]       # in blocks of 512 bytes
        run = net.apply(before=shell)
        self.stops(
            run, f"the record {net.record} can't be written: File too large",
            f"make room on the disk of {net.record}; then go on with --resume",
        )
        self.settles(net, net.apply("--resume"))

    # ---- words

    def test_a_refusal_of_import_names_the_switch_and_the_entry(self):
        net = Network(self, "square")
        net.switches["s3"].entries = [
            fake_switch.entry_of(fake_switch.match_of(DROP_ALL), 100, fake_switch.actions_of({"out": 9}))
        ]
        text = net.collect().stdout
        (net.folder / "replies").write_text(text)
        said = planner("import", net.files[0], net.folder / "replies")
        self.assertEqual(said, "bad replies: 7 BadPort at 2\n")
        self.assertEqual(
            collect.entry_at(net.folder / "replies", said),
            "an entry of the switch s3: priority 100 type 0800 10.0.0.0/24 -> output 9",
        )
        self.assertEqual(
            collect.entry_at(net.folder / "replies", "bad replies: 2 BadMessage at 4\n"), "line 4, of the switch s2"
        )
        self.assertIsNone(collect.entry_at(net.folder / "replies", "bad replies: 9 OverCapacity at 0\n"))

    def test_a_resume_that_fails_says_what_the_record_has(self):
        net = Network(self, "square")
        net.apply_until("round 2 starts")
        self.stops(
            net.apply("--resume", program="/bin/false"),
            "rounds were started by the record, and nothing was sent in this run", "--resume",
        )

    def test_a_switch_of_another_version_is_named(self):
        net = Network(self, "square", listen=True, only={"s2": {"hello": HELLO_13}})
        self.stops(net.apply(), "offers OpenFlow 1.3, and not OpenFlow 1.0", "protocols=OpenFlow10")
        net = Network(self, "square", only={"s2": {"hello": HELLO_13}})
        self.wait_for(net.begin("--ask"), "offers OpenFlow 1.3, and not OpenFlow 1.0; it is closed")

    def test_the_patience_rules_every_wait_for_a_switch(self):
        net = Network(self, "square", listen=True, only={"s2": {"late": 1.0}})
        self.settles(net, net.apply("--patience", "20"))
        self.assertEqual(net.switches["s2"].connections, 1)

    def test_echo_requests_don_t_reach_the_record_while_nothing_happens(self):
        net = Network(self, "square", echo=0.02)
        run = net.begin("--ask")
        self.wait_for(run, "round 1 of 2 is next")
        before = net.record.read_text()
        until(lambda: min(one.echoes for one in net.switches.values()) >= 5)
        self.assertGreaterEqual(min(one.echoes for one in net.switches.values()), 5)
        self.assertEqual(net.record.read_text(), before)
        run.kill()
        run.communicate()


if __name__ == "__main__":
    unittest.main()
