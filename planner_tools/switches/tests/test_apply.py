"""Tests of `planner apply`: whole updates of fake switches over the loopback. PLANNER names the program."""
import re
import socket
import time
import unittest

from network import EXAMPLES, Network, UpdateTest, planner
from planner_tools.switches import collect, openflow
from planner_tools.switches.connections import OWN


def sent(text):
    """All bytes that `serve` says are sent to each switch."""
    found = {}
    for line in text.splitlines():
        if line.startswith("send "):
            found[line.split()[1]] = found.get(line.split()[1], b"") + bytes.fromhex(line.split()[2])
    return found


class Applying(UpdateTest):
    def test_carries_out_both_examples(self):
        for name, wait in (("square", "0.05"), ("detour", "0")):
            with self.subTest(name):
                net = Network(self, name)
                run = net.apply("--wait", wait)
                rounds = int(re.search(r"ok settled \d+ of (\d+)", self.settles(net, run))[1])
                told = re.findall(
                    r"round (\d+) of \d+ is settled, [0-9.]+ s after its start; (\d+) left, some \d+ s", run[1]
                )
                self.assertEqual(told, [(str(it), str(rounds - it)) for it in range(1, rounds)])

    def test_what_a_switch_receives_is_what_serve_says_and_questions_that_change_nothing(self):
        net = Network(self, "square")
        text = self.settles(net, net.apply())
        def without_xid(data):
            return {piece[:4] + piece[8:] for piece in openflow.cut(data)[0]}

        own = {
            openflow.HELLO_BYTES[:4],
            *without_xid(
                openflow.message(openflow.FEATURES_REQUEST, 0)
                + collect.questions(0)
                + net.mark().put()
                + net.mark().take_away()
            ),
        }
        for name, data in sent(text).items():
            pieces = openflow.cut(net.switches[name].received)[0]
            self.assertEqual(b"".join(it for it in pieces if openflow.xid_of(it) < OWN), data)
            self.assertLessEqual(without_xid(b"".join(it for it in pieces if openflow.xid_of(it) >= OWN)), own)
            # at first, behind the mark, before each round, at last
            self.assertEqual(
                [it[8:10] for it in pieces if openflow.type_of(it) == openflow.STATS_REQUEST].count(b"\0\1"), 5
            )

    def test_each_line_of_the_record_is_followed_by_what_serve_says_of_it(self):
        net = Network(self, "square")
        self.settles(net, net.apply())
        lines = net.record.read_text().splitlines()
        starts = [at for at, line in enumerate(lines) if line == "start"]
        replies = [at for at, line in enumerate(lines) if re.fullmatch(r"feed s\d 0113.*", line)]
        self.assertEqual((len(starts), len(replies)), (2, 2))
        self.assertTrue(starts[0] < replies[0] < starts[1] < replies[1])

    def test_bytes_one_by_one_and_other_messages_change_nothing(self):
        texts = []
        for more in (
            {}, {"piece": 1, "noise": openflow.message(10, 0, bytes(30)) + openflow.message(12, 0, bytes(56))},
        ):
            net = Network(self, "square", **more)
            texts.append(self.settles(net, net.apply()))
        self.assertEqual(*texts)

    def test_switches_that_listen_and_offer_newer_versions(self):
        net = Network(self, "square", listen=True, hello=bytes.fromhex("06000010000000040001000800000012"))
        self.settles(net, net.apply())

    def test_a_switch_that_answers_late_is_named_and_waited_for(self):
        net = Network(self, "square", only={"s3": {"delay": 1.0}})
        run = net.apply("--patience", "10")
        self.settles(net, run)
        self.assertIn("1 of 2 rounds are settled, round 2 is running, no answer yet from s3", run[1])

    def test_a_switch_that_never_answers_ends_the_patience(self):
        net = Network(self, "square", only={"s3": {"is_silent": True}})
        run = net.apply("--patience", "4")
        self.stops(
            run, "1 of 2 rounds are settled, round 2 is running, no answer yet from s3",
            "see that s3 is connected and answers; then go on with",
        )
        self.assertIn("the patience of 4 s is at its end: s3 hasn't answered the messages of the round", run[1])
        net.switches["s3"].is_silent = False
        self.settles(net, net.apply("--resume"))

    def test_a_switch_that_isn_t_there_ends_the_patience(self):
        net = Network(self, "square")
        net.switches["s2"].stop()
        self.stops(net.apply("--patience", "4"), "no answer yet from s2", "--resume")
        self.assertEqual(sum(one.flow_messages for one in net.switches.values()), 0)

    def test_an_error_stops_the_update_with_its_cause(self):
        net = Network(self, "detour", only={"w": {"error_at": 2}})
        run = net.apply()
        self.stops(
            run,
            (
                "the session with w failed: Error 3 0 (flow message failed: all tables full); it is about: insert"
                " priority 16384 0.0.0.0/0 VLAN 3000; 0 of 8 rounds are settled, round 1 is running"
            ),
            "make room in its table",
        )
        self.assertIn("\nfailed w Error 3 0\n", net.told())
        self.assertIn("; --back in its place turns the update back", run[1].splitlines()[-1])

    def test_after_a_failed_session_the_record_is_gone_on_with_by_a_new_session(self):
        for name, more in (("square", {"s3": {"error_at": 1}}), ("detour", {"d": {"error_at": 3}})):
            with self.subTest(name):
                net = Network(self, name, only=more)
                self.stops(net.apply(), "failed: Error 3 0", "then go on with --resume: what")
                text = self.settles(net, net.apply("--resume"))
                self.assertEqual(text.count("\nfailed "), 1)

    def test_a_switch_that_goes_and_comes_back_gets_the_messages_of_the_round_again(self):
        net = Network(self, "square", only={"s3": {"close_at": 1}})
        run = net.apply()
        text = self.settles(net, run)
        self.assertIn("s3 closed its connection; 1 of 2 rounds are settled, round 2 is running", run[1])
        self.assertIn(
            (
                "s3 has what it must have; its session is opened anew, and what it hasn't answered of round 2 is sent"
                " again"
            ),
            run[1],
        )
        self.assertEqual((net.switches["s3"].connections, text.count("\nfailed ")), (2, 0))
        self.assertRegex(net.record.read_text(), "\nreopen s3\n#.*\nfeed s3 01000008")

    def test_a_killed_update_is_resumed(self):
        for text in ("round 1 starts", "\nstart\n", "round 2 starts"):
            with self.subTest(text):
                net = Network(self, "square", delay=0.05)
                net.apply_until(text, "--wait", "0.1")
                with open(net.record, "ab") as file:
                    file.write(b"feed s1 0113")       # a line that was being written
                self.stops(net.apply(), "is there already", "--resume")
                self.settles(net, net.apply("--resume"))

    def test_an_update_that_came_to_its_end_is_resumed_to_compare_again(self):
        net = Network(self, "square")
        self.settles(net, net.apply())
        lines = net.record.read_text().count("\nstart\n")
        self.settles(net, net.apply("--resume"))
        self.assertEqual(net.record.read_text().count("\nstart\n"), lines)

    def test_an_update_isn_t_resumed_with_other_files(self):
        net = Network(self, "square")
        net.apply_until("round 1 starts")
        net.files[4] = EXAMPLES / "square" / "plan-at-once.json"
        self.stops(
            net.apply("--resume"), "was begun with other files, or they were changed since",
            "the files with which the update was begun",
        )

    def test_a_file_that_is_no_record_stays_as_it_is(self):
        net = Network(self, "square")
        net.record.write_text("what the operator wrote, without a line end")
        self.stops(net.apply("--resume"), "isn't the record", "that `planner apply` wrote")
        self.stops(net.apply(), "is there already", "another name")
        self.assertEqual(net.record.read_text(), "what the operator wrote, without a line end")

    def test_an_operator_who_ends_it_is_told_how_to_go_on(self):
        net = Network(self, "square")
        run = net.begin("--wait", "20")
        while (
            "the switches have the tables of" not in (net.record.read_text() if net.record.exists() else "")
            and run.poll() is None
        ):
            time.sleep(0.01)
        run.terminate()
        said = run.communicate(timeout=10)[1]
        self.stops((run.returncode, said), "the operator ended it; 0 of 2 rounds are settled", "--resume")

    def test_two_runs_don_t_share_switches_or_a_record(self):
        net = Network(self, "square")
        run = net.begin("--wait", "20")
        while not net.record.exists() and run.poll() is None:
            time.sleep(0.01)
        time.sleep(0.2)
        self.stops(net.apply("--resume"), f"another run is at work with the switches of {net.listed}", "wait")
        net.listed = net.folder / "other"
        net.listed.write_text((net.folder / "switches").read_text())
        self.stops(net.apply("--resume"), f"another run is at work with {net.record}", "wait")
        run.kill()
        run.communicate(timeout=10)

    def test_other_tables_than_the_old_ones_stop_the_update_before_it_begins(self):
        net = Network(self, "square", config="new.json")
        run = net.apply()
        self.stops(
            run, "not as they must be, and said above. So the switches don't have the tables of",
            f"make a plan from {net.record}.before.json, which has those",
        )
        self.assertIn("s1: not as it must be: priority 100 10.0.0.0/24 -> output 4: must be output 2\n", run[1])
        self.assertEqual(sum(one.flow_messages + one.own_messages for one in net.switches.values()), 0)
        old = net.files[1]
        net.files[1], net.files[4], net.record = (
            f"{net.record}.before.json", net.folder / "plan.json", net.folder / "second",
        )
        net.files[4].write_text(planner("plan", *net.files[:4]))
        self.settles(net, net.apply())
        net.files[1] = old

    def test_old_tables_that_no_plan_can_start_from_are_repaired(self):
        for rule, word in (
            ({"dst": "10.0.0.0/24", "priority": 32768, "out": 2}, "a configuration can't say it"), (None, "breaks: at"),
        ):
            with self.subTest(word):
                net = Network(self, "square")
                net.add("s2", rule) if rule else net.switches["s2"].table.clear()
                run = net.apply()
                self.stops(
                    run, "So the switches don't have the tables of",
                    "go on with --resume --repair, which gives the switches the tables of",
                )
                self.assertIn(word, run[1])
                self.assertIn(
                    "s2: too much: priority 32768 type 0800 10.0.0.0/24 -> output 2\n"
                    if rule
                    else "s2: missing: priority 100 10.0.0.0/24",
                    run[1],
                )
                self.assertEqual(sum(one.flow_messages + one.own_messages for one in net.switches.values()), 0)
                self.settles(net, net.apply("--resume", "--repair"))

    def test_a_refused_plan_connects_nowhere_and_leaves_no_record(self):
        net = Network(self, "square")
        net.files[4] = EXAMPLES / "square" / "plan-at-once.json"
        self.stops(net.apply(), "refused: 7 NotLower", "make a plan that `planner check` accepts")
        self.assertEqual(sum(one.connections for one in net.switches.values()), 0)
        self.assertFalse(net.record.exists())

    def test_what_check_warns_of_is_warned_of_before_the_switches_are_reached(self):
        net = Network(self, "square")
        net.files[3] = net.folder / "policy.json"
        net.files[3].write_text('{"demands": [{"from": "s1:1", "dst": "10.0.0.0/24", "thru": ["s4"]}]}')
        net.files[4] = net.folder / "plan.json"
        net.files[4].write_text(planner("plan", *net.files[:4]))
        status, said = net.apply("--strict")
        self.assertEqual(status, 3, said)
        self.assertIn(f"planner: warning: {net.files[3]}, line 1, column ", said)
        self.assertRegex(
            said.splitlines()[-1],
            "^stopped: there are warnings, and --strict is given; nothing was sent. Next: correct what they name",
        )
        self.assertEqual((sum(one.connections for one in net.switches.values()), net.record.exists()), (0, False))
        status, said = net.apply()
        self.assertEqual((status, said.count("thru counts for nothing")), (0, 1), said)
        self.assertEqual(net.apply("--back", "--quiet"), (0, ""))
        self.stops(net.apply("--quiet"), "is there already", "--resume")

    def test_hostile_bytes_of_a_switch_end_its_session(self):
        noises = [
            ("Version", bytes.fromhex("0403000800000000")), ("Length", bytes.fromhex("0103000400000000")),
            ("Xid 77", bytes.fromhex("011300080000004d")), ("Version", b"GET / HTTP/1.1\r\n\r\n"),
        ]
        for cause, noise in noises:
            with self.subTest(cause):
                net = Network(self, "square", only={"s1": {"noise": noise}})
                self.stops(
                    net.apply("--wait", "0.3"), f"the session with s1 failed: {cause}; 1 of 2 rounds are settled",
                    "see what is at the other end of the connection with s1",
                )

    def test_hostile_connections_change_nothing(self):
        net = Network(self, "square")
        run = net.begin("--wait", "1")
        unknown_datapath = openflow.HELLO_BYTES + openflow.message(
            openflow.FEATURES_REPLY, 0xFEA70000, bytes(7) + b"\xff" + bytes(16)
        )
        strangers = [b"GET / HTTP/1.1\r\n\r\n", openflow.HELLO_BYTES + bytes(100), unknown_datapath, b"\1"]
        for data in strangers:
            for _ in range(100):
                try:
                    sock = socket.create_connection(net.address, timeout=5)
                    break
                except OSError:
                    time.sleep(0.02)
            self.addCleanup(sock.close)
            sock.sendall(data)
        self.settles(net, (0, run.communicate(timeout=20)[1]))
        self.assertEqual(run.returncode, 0)

    def test_echo_requests_are_answered_while_a_round_waits(self):
        net = Network(self, "square", echo=0.3)
        self.settles(net, net.apply("--wait", "1"))
        self.assertTrue(all(one.connections == 1 and one.echoes >= 2 for one in net.switches.values()))
        self.assertNotRegex(net.record.read_text(), r"\nfeed s\d 0102")

    def test_a_round_begins_no_sooner_than_the_wait(self):
        net = Network(self, "square")
        self.settles(net, net.apply("--wait", "0.4"))
        waits = [float(it) for it in re.findall(r"starts, after a wait of ([0-9.]+) s", net.record.read_text())]
        self.assertEqual(len(waits), 2)
        self.assertTrue(all(0.4 <= it < 10 for it in waits), waits)

    def test_the_operator_s_key_starts_each_round(self):
        net = Network(self, "square")
        run = net.begin("--ask")
        for number in (1, 2):
            self.assertIn("press Enter", self.wait_for(run, f"round {number} of 2 is next"))
            self.press(run)
        self.settles(net, (0, run.communicate(timeout=20)[1]))
        net = Network(self, "square")
        self.stops(
            net.apply("--ask"), "the input with the operator's answers ended; 0 of 2 rounds are settled", "--resume"
        )

    def test_a_wrong_datapath_id_is_told(self):
        net = Network(self, "square", listen=True)
        net.listed.write_text(net.listed.read_text().replace("a1 ", "b1 "))
        self.stops(net.apply(), "should be s1 but has the datapath id 00000000000000a1", "correct the file of switches")


if __name__ == "__main__":
    unittest.main()
