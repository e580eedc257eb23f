"""Tests of `planner from-ofctl` and `planner to-ofctl`. The texts in data/ are what Open vSwitch 3.1 printed. PLANNER
names the program."""
import json
import os
import pathlib
import re
import shlex
import socket
import stat
import tempfile
import unittest

from converting import DATA, EXAMPLES, planner

SQUARE = EXAMPLES / "square" / "topology.json"
# An entry with counts, as a bridge prints it.
EMPTY = ["s2=/dev/null", "s3=/dev/null", "s4=/dev/null"]
COUNTS = " cookie=0x0, duration=1.3s, table=0, n_packets=0, n_bytes=0, idle_age=1, "


class FromOfctl(unittest.TestCase):
    def converted(self, text, *more, bridge="s1"):
        others = [f"{name}=/dev/null" for name in ("s1", "s2", "s3", "s4") if name != bridge]
        return planner("from-ofctl", SQUARE, f"{bridge}=-", *others, *more, given=text)

    def rules(self, text, *more):
        status, made, said = self.converted(text, *more)
        self.assertEqual(status, 0, said)
        return json.loads(made)["rules"]

    def faults(self, text, *more):
        """What is said of each line, by its number."""
        status, made, said = self.converted(text, *more)
        self.assertEqual((status, made), (1, ""), said)
        return {int(number): words for number, words in re.findall(r"^-:(\d+): s1: (.*)$", said, re.M)}

    def test_each_entry_of_a_mixed_table_that_can_t_be_said_is_named_with_its_line(self):
        faults = self.faults((DATA / "mixed.flows").read_text())
        lines = (DATA / "mixed.flows").read_text().splitlines()
        wanted = {
            "arp actions=NORMAL": "it is for no IPv4 packet: --drop-unsayable leaves it out",
            "priority=110,ipv6 ": "it is for no IPv4 packet: --drop-unsayable leaves it out",
            "dl_type=0x88cc": "it is for no IPv4 packet: --drop-unsayable leaves it out",
            "dl_type=0x05ff": "it is for no IPv4 packet: --drop-unsayable leaves it out",
            "mpls": "it is for no IPv4 packet: --drop-unsayable leaves it out",
            " ip,nw_dst=10.7.0.0/16": (
                "its priority isn't 1 to 16383: 32768 is what `ovs-ofctl add-flow` takes where no priority is given;"
                " add it again with one, and then take this one away"
            ),
            "priority=113,": "its actions are neither none nor one output to a port",
            "mod_vlan_vid": "its actions are neither none nor one output to a port",
            "strip_vlan": "its actions are neither none nor one output to a port",
            "idle_timeout=600": "it goes away by itself (idle timeout 600 s, hard timeout 700 s)",
            "priority=121,": "its actions are neither none nor one output to a port",
            "FLOOD": "its actions are neither none nor one output to a port",
            "resubmit": "its actions are neither none nor one output to a port",
            "actions=LOCAL": "its actions are neither none nor one output to a port",
            "enqueue": "its actions are neither none nor one output to a port",
            "learn": "its actions are neither none nor one output to a port",
            "actions=ALL": "its actions are neither none nor one output to a port",
            "priority=150,": "its actions are neither none nor one output to a port",
            "priority=105,": "its actions are neither none nor one output to a port",
            "pkt_mark": "it tests pkt_mark=0x1, which OpenFlow 1.0 can't say",
            "nw_ecn": "it tests nw_ecn=1, which OpenFlow 1.0 can't say",
            "nw_ttl": "it tests nw_ttl=5, which OpenFlow 1.0 can't say",
            "tun_id": "it tests tun_id=0x5, which OpenFlow 1.0 can't say",
            "metadata": "it tests metadata=0x5, which OpenFlow 1.0 can't say", "nw_proto": "it tests nw_proto",
            "udp,tp_src": "it tests nw_proto, tp_src", "icmp": "it tests nw_proto",
            "tcp,nw_dst": "it tests nw_proto, tp_dst",
            "dl_type=0x8100": "whether a tagged IPv4 packet meets it is the switch's choice",
            "in_port=LOCAL": "its ingress port is LOCAL",
            "ct_state": "it tests ct_state=+trk, which OpenFlow 1.0 can't say",
            "nw_frag": "it tests nw_frag=first, which OpenFlow 1.0 can't say",
            "priority=128,dl_vlan": "it is for packets of any type, and no command of a plan would reach it",
            "priority=127,in_port": "it is for packets of any type, and no command of a plan would reach it",
            "reg0": "it tests reg0=0x5, which OpenFlow 1.0 can't say",
            "vlan_tci=0x1000/0x1000": "it tests vlan_tci=0x1000/0x1000, which OpenFlow 1.0 can't say",
            "dl_vlan_pcp": "it tests the priority of the tag", "nw_tos": "it tests nw_tos", "dl_src": "it tests dl_src",
            "nw_src": "it tests nw_src",
            "10.0.7.0/255.0.255.0": "it tests nw_dst=10.0.7.0/255.0.255.0, which OpenFlow 1.0 can't say",
            "priority=0 actions=NORMAL": (
                "it is the default entry of a switch in standalone mode, NORMAL: put entries of your own in first, and"
                " then take it away alone, by a strict command; `planner adopt` does so. (Setting the fail mode empties"
                " the table.)"
            ),
            "table=1": "it stands in table 1",
        }
        left = dict(faults)
        for part, words in wanted.items():
            numbers = [number for number, line in enumerate(lines, 1) if part in line]
            self.assertEqual(len(numbers), 1, part)
            self.assertTrue(left.pop(numbers[0], "").endswith(f": {words}"), (part, faults.get(numbers[0])))
        self.assertEqual(left, {})

    def test_every_version_is_read_alike_but_for_untagged_entries(self):
        """OpenFlow 1.3 shows `vlan_tci=0x0000` as it shows `vlan_tci=0x0000/0x1fff`, which is another entry for strict
        commands."""
        newer, older = (
            {words.split(": ", 1)[1] for words in self.faults((DATA / name).read_text()).values()}
            for name in ("mixed-13.flows", "mixed.flows")
        )
        self.assertEqual(
            newer - older,
            {
                "it tests vlan_tci=0x0000/0x1fff, which OpenFlow 1.0 can't say; untagged entries look so in an answer"
                " by a newer version: ask again without -O"
            },
        )
        self.assertEqual(older - newer, set())

    def test_openflow_1_0_is_taken_at_its_word(self):
        _, _, said = self.converted((DATA / "mixed-10.flows").read_text())
        self.assertIn("this is an answer by OpenFlow 1.0, which shows some matches wider than they are", said)

    def test_names_of_ports_are_no_numbers(self):
        faults = self.faults((DATA / "mixed-names.flows").read_text(), "--drop-unsayable")
        self.assertIn(
            "its port has a name, p2, in place of a number: ask again with `ovs-ofctl --no-names dump-flows`",
            " ".join(faults.values()),
        )
        [words] = self.faults(COUNTS + 'priority=5,ip,in_port="s1-eth1" actions=output:"s1-eth2"').values()
        self.assertIn('its port has a name, "s1-eth1", "s1-eth2", in place of a number', words)

    def test_what_can_be_said(self):
        text = ("NXST_FLOW reply (xid=0x4):\n"
                + COUNTS + "priority=100,ip,nw_dst=10.0.0.0/24 actions=output:2\n"
                + COUNTS + "priority=101,ip,in_port=1,dl_vlan=10,nw_dst=10.0.1.7 actions=output:3\n"
                + COUNTS + "priority=102,ip,vlan_tci=0x0000,nw_dst=10.0.0.0/24 actions=drop\n"
                + COUNTS + "priority=103,ip actions=output:1\n"
                + "priority=104,ip,nw_dst=10.2.0.0/255.255.0.0,actions=4\n")
        self.assertEqual(self.rules(text), [
            {"switch": "s1", "priority": 100, "dst": "10.0.0.0/24", "out": 2},
            {"switch": "s1", "priority": 101, "in_port": 1, "vlan": 10, "dst": "10.0.1.7/32", "out": 3},
            {"switch": "s1", "priority": 102, "vlan": "untagged", "dst": "10.0.0.0/24", "out": "drop"},
            {"switch": "s1", "priority": 103, "dst": "0.0.0.0/0", "out": 1},
            {"switch": "s1", "priority": 104, "dst": "10.2.0.0/16", "out": 4}])

    def test_a_text_of_several_bridges_as_mininet_prints_it(self):
        def part(name, port):
            return (
                f"*** {name} {'-' * 72}\nNXST_FLOW reply (xid=0x4):\n{COUNTS}priority=100,ip,nw_dst=10.0.0.0/24"
                f" actions=output:{port}\n"
            )

        text = part("s1", 2) + part("s2", 1)
        self.assertEqual(self.rules(text), [{"switch": "s1", "priority": 100, "dst": "10.0.0.0/24", "out": 2}])
        _, made, _ = self.converted(text, bridge="s2")
        self.assertEqual(json.loads(made)["rules"], [{"switch": "s2", "priority": 100, "dst": "10.0.0.0/24", "out": 1}])
        self.assertIn("of which none is s3", self.converted(text, bridge="s3")[2])

    def test_drop_unsayable_leaves_out_what_no_ipv4_packet_misses(self):
        good = COUNTS + "priority=100,ip,nw_dst=10.0.0.0/24 actions=output:2\n"
        droppable = (
            COUNTS
            + "arp actions=FLOOD\n"
            + COUNTS
            + "priority=7,ipv6 actions=NORMAL\n"
            + COUNTS
            + "priority=0 actions=drop\n"
            + COUNTS
            + "priority=0 actions=CONTROLLER:65535\n"
        )
        self.assertEqual(set(self.faults(droppable + good)), {1, 2, 3, 4})
        status, made, said = self.converted(droppable + good, "--drop-unsayable")
        self.assertEqual((status, len(json.loads(made)["rules"])), (0, 1))
        self.assertIn("s1: left out 2 entries of other types", said)
        self.assertIn("s1: left out 2 entries for a miss", said)

    def test_drop_unsayable_never_guesses(self):
        for entry in (
            "priority=0 actions=NORMAL", "priority=0 actions=output:2",
            "priority=0,ip actions=CONTROLLER:65535,output:2", "priority=1 actions=drop",
            "priority=5,dl_type=0x8100 actions=drop", "priority=5,dl_type=0x88a8 actions=drop",
            "priority=5,ip,reg0=0x1 actions=drop", "table=1, priority=0 actions=drop", "table=1, arp actions=drop",
            "priority=5,dl_vlan=10 actions=drop", "priority=5,vlan_tci=0x0000/0x1fff,ip actions=drop",
            "priority=5,ip,dl_vlan=0 actions=drop", "priority=5,ip,dl_vlan=8/0xff8 actions=drop",
        ):
            with self.subTest(entry):
                self.assertEqual(set(self.faults(f" cookie=0x0, {entry}\n", "--drop-unsayable")), {1})

    def test_lines_that_are_no_entries(self):
        for line, words in (
            ("ovs-ofctl: s1 is not a bridge or a socket", "it has no `actions=`"),
            ("priority=x,ip actions=drop", "priority has no number"),
            ("priority=5,priority=6,ip actions=drop", "priority stands twice"),
            ("priority=5,ip,arp actions=drop", "the type of its packets stands twice"),
            ("priority=5,ip,dl_vlan=x actions=drop", "dl_vlan has no number"),
            ("priority=5,ip,nw_dst=10.0.0.256 actions=drop", "10.0.0.256 is no address"),
            ("priority=5,ip,nw_dst=10.0.0.0/33 actions=drop", "10.0.0.0/33 is no address"),
            ("priority=5,ip,%% actions=drop", "can't be read"),
        ):
            with self.subTest(line):
                self.assertIn(words, self.faults(line)[1])
        self.assertIn(
            "the text was cut off",
            self.faults("NXST_FLOW reply (xid=0x4): flags=[more]\n" + COUNTS + "priority=100,ip actions=drop\n")[2],
        )

    def test_what_import_refuses_is_said_with_its_line(self):
        good = COUNTS + "priority=100,ip,nw_dst=10.0.0.0/24 actions=output:2\n"
        for entry, words in (
            (
                "priority=90,ip,nw_dst=10.0.0.0/24 actions=output:77",
                "neither a host port nor a link's end of s1 in the topology",
            ),
            ("priority=90,ip,dl_vlan=3005 actions=drop", "its VLAN is one of the tags of the topology"),
            (
                "priority=100,ip,nw_dst=10.0.0.0/24 actions=drop",
                (
                    "an earlier entry of s1 has the same priority and match (line 1: priority=100,ip,nw_dst=10.0.0.0/24"
                    " actions=output:2)"
                ),
            ),
            (
                "priority=100,ip,nw_dst=10.0.0.0/8 actions=drop",
                "some packet matches both (line 1: priority=100,ip,nw_dst=10.0.0.0/24 actions=output:2)",
            ),
        ):
            with self.subTest(entry):
                status, made, said = self.converted(good + COUNTS + entry + "\n")
                self.assertEqual((status, made), (3, ""))
                self.assertIn("-:2: s1: ", said)
                self.assertIn(words, said)
        many = "".join(
            COUNTS + f"priority=100,ip,nw_dst=10.{n // 256}.{n % 256}.0/24 actions=output:2\n" for n in range(9)
        )
        self.assertIn("s1 has more entries than its capacity", self.converted(many)[2])
        self.assertIn(
            "there are 2049 entries",
            self.converted(
                "".join(
                    COUNTS + f"priority=100,ip,nw_dst=10.{n // 256}.{n % 256}.0/24 actions=output:2\n"
                    for n in range(2049)
                )
            )[2],
        )

    def test_bridges_and_files(self):
        for words, status, part in (
            (("s11=-",), 2, "has no switch s11 (did you mean s1?)"), (("s1",), 2, "'s1' isn't BRIDGE=FILE"),
            (("s1=-", "s1=-"), 2, "s1 is given twice"), (("s1=-",), 2, "no file is given for s2, s3, s4, and "),
            (("s1=-", "s2=-", "s4=-"), 2, "give `s3=FILE`, or `s3=/dev/null` where its table is empty"),
            (("s1=/none", *EMPTY), 6, "/none: it can't be read: No such file or directory"),
        ):
            with self.subTest(words):
                found, made, said = planner("from-ofctl", SQUARE, *words, given="")
                self.assertEqual((found, made), (status, ""))
                self.assertIn(part, said)
        self.assertEqual(planner("from-ofctl", SQUARE.parent, "s1=-", *EMPTY, given="")[:2], (0, '{"rules":[]}\n'))
        _, _, said = self.converted("NXST_FLOW reply (xid=0x4):\n")
        self.assertIn("there is no entry in it", said)


def words_of_message(data):
    """The command of a flow message of `emit`, in the words of ovs-ofctl."""
    wildcards, in_port, vlan, dst = (
        int.from_bytes(data[at:end], "big") for at, end in ((8, 12), (12, 14), (26, 28), (40, 44))
    )
    words = [f"priority={int.from_bytes(data[62:64], 'big')}", "ip"]
    words += [] if wildcards & 1 else [f"in_port={in_port}"]
    words += [] if wildcards & 2 else ["vlan_tci=0x0000" if vlan == 0xFFFF else f"dl_vlan={vlan}"]
    words.append(f"nw_dst={socket.inet_ntoa(dst.to_bytes(4, 'big'))}/{32 - min(32, wildcards >> 14 & 63)}")
    command = {0: "add-flow", 2: "--strict mod-flows", 4: "--strict del-flows"}[int.from_bytes(data[56:58], "big")]
    if command.endswith("del-flows"):
        return command, ",".join(words)
    actions = []
    for at in range(72, len(data), 8):
        kind, value = int.from_bytes(data[at:at + 2], "big"), int.from_bytes(data[at + 4:at + 6], "big")
        actions.append({0: f"output:{value}", 1: f"mod_vlan_vid:{value}", 3: "strip_vlan"}[kind])
    return command, ",".join([*words, f"actions={','.join(actions) or 'drop'}"])


class ToOfctl(unittest.TestCase):
    def scripts(self, *words):
        folder = pathlib.Path(tempfile.mkdtemp()) / "rounds"
        status, listed, said = planner("to-ofctl", words[0], folder, *words[1:])
        self.assertEqual((status, said), (0, ""))
        return [pathlib.Path(line) for line in listed.splitlines()]

    def test_the_commands_say_what_emit_says(self):
        for name in ("square", "detour", "leaf-spine"):
            files = [EXAMPLES / name / f"{word}.json" for word in ("topology", "plan")]
            wanted = {}
            for line in planner("emit", *files)[1].splitlines():
                number, switch, data = line.split()
                if bytes.fromhex(data)[1] == 14:
                    wanted.setdefault(int(number), []).append((switch, *words_of_message(bytes.fromhex(data))))
            scripts = self.scripts(files[1])
            self.assertEqual(len(scripts), max(wanted))
            for number, path in enumerate(scripts, 1):
                lines = [shlex.split(line) for line in path.read_text().splitlines() if line.startswith("ovs-ofctl ")]
                self.assertEqual([(one[-2], " ".join(one[3:-2]), one[-1]) for one in lines], wanted.get(number, []))
                self.assertTrue(all(one[:3] == ["ovs-ofctl", "-O", "OpenFlow10"] for one in lines))
                self.assertTrue(os.stat(path).st_mode & stat.S_IXUSR)

    def test_a_file_of_switches_says_where_they_listen(self):
        with tempfile.NamedTemporaryFile("w") as file:
            file.write("s1 00000000000000a1 127.0.0.1:6653\ns3 00000000000000a3\n")
            file.flush()
            [first, second] = self.scripts(EXAMPLES / "square" / "plan.json", "--switches", file.name)
            file.write("s1 00000000000000a1 tcp:[::1]:6653\n")
            file.seek(0)
            [third, _] = self.scripts(EXAMPLES / "square" / "plan.json", "--switches", file.name)
        self.assertIn(" tcp:127.0.0.1:6653 ", first.read_text())
        self.assertIn(" s3 ", second.read_text())
        self.assertIn(" 'tcp:[::1]:6653' ", third.read_text())

    def test_a_plan_that_check_refuses_is_said_to_be_such(self):
        """Where the files of the update stand beside the plan. The scripts are written all the same."""
        with tempfile.TemporaryDirectory() as folder:
            rounds = pathlib.Path(folder, "rounds")
            status, made, said = planner("to-ofctl", EXAMPLES / "square" / "plan-at-once.json", rounds)
            self.assertEqual((status, len(made.splitlines())), (0, 1))
            self.assertIn(
                (
                    "plan-at-once.json: warning: `planner check` refuses it: refused: 7 NotLower round 1 at s1:1"
                    " untagged 10.0.0.0 switch s3"
                ),
                said,
            )
            self.assertIn("check refuses it", next(rounds.iterdir()).read_text())
            again = pathlib.Path(folder, "again")
            status, made, said = planner("to-ofctl", EXAMPLES / "square" / "plan-at-once.json", again, "--strict")
            self.assertEqual((status, made, again.exists()), (3, "", False), said)
            self.assertIn("nothing was written. Next: leave out --strict to have the scripts", said)
            status, made, said = planner("to-ofctl", EXAMPLES / "square" / "plan-at-once.json", again, "--quiet")
            self.assertEqual((status, len(made.splitlines()), said), (0, 1, ""))
            alone = pathlib.Path(folder, "plan.json")
            alone.write_text((EXAMPLES / "square" / "plan.json").read_text())
            status, made, said = planner("to-ofctl", alone, pathlib.Path(folder, "more"))
            self.assertEqual((status, len(made.splitlines())), (0, 2))
            self.assertIn(
                f"note: whether it is certified wasn't looked at: `planner check TOPO OLD NEW POLICY {alone}` says it",
                said,
            )

    def test_a_folder_with_files_isn_t_touched(self):
        with tempfile.TemporaryDirectory() as folder:
            pathlib.Path(folder, "mine").write_text("mine")
            status, made, said = planner("to-ofctl", EXAMPLES / "square" / "plan.json", folder)
            self.assertEqual((status, made, os.listdir(folder)), (7, "", ["mine"]))
            self.assertIn("it has files already", said)

    def test_what_is_no_plan(self):
        for text in (
            "", "{}", '{"format":2,"rounds":[[["insert",0]]],"rules":[]}',
            '{"format":2,"rounds":[[["lose",0]]],"rules":[{}]}',
        ):
            with self.subTest(text), tempfile.NamedTemporaryFile("w") as file:
                file.write(text)
                file.flush()
                status, made, _ = planner("to-ofctl", file.name)
                self.assertEqual((status, made), (3, ""))


if __name__ == "__main__":
    unittest.main()
