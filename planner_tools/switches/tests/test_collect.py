"""Tests of `planner collect`: what fake switches answer over the loopback, and what `planner import` makes of it.
PLANNER names the program."""
import socket
import struct
import unittest

from network import Network, planner


def entry(
    table=0, wildcards=0x003220EF, in_port=0, vlan=0, pcp=0, kind=0x0800, dst="10.0.0.0", priority=100, idle=0, hard=0,
    actions="0000000800020000",
):
    match = struct.pack("!IH12xHBxH8x", wildcards, in_port, vlan, pcp, kind) + socket.inet_aton(dst) + bytes(4)
    body = (
        struct.pack("!Bx", table)
        + match
        + struct.pack("!IIHHH6x24x", 1, 0, priority, idle, hard)
        + bytes.fromhex(actions)
    )
    return struct.pack("!H", 2 + len(body)) + body


def extended(fields, table=0, priority=100, actions="0000000800020000"):
    """An entry of extended statistics with the fields of its match in hexadecimal."""
    match = bytes.fromhex(fields)
    body = (
        struct.pack("!BxIIHHHH4x24x", table, 1, 0, priority, 0, 0, len(match))
        + match
        + bytes(-len(match) % 8)
        + bytes.fromhex(actions)
    )
    return struct.pack("!H", 2 + len(body)) + body


TYPE, PREFIX = "00000602" "0800", "00001108" "0a000000" "ffffff00"


class Collecting(unittest.TestCase):
    def reading(self, entries, shown=None):
        """What `planner collect` does where s1 of the square has these entries, and the configuration that `import`
        reads."""
        net = Network(self, "square")
        net.switches["s1"].entries, net.switches["s1"].extended = entries, shown
        run = net.collect()
        (net.folder / "replies").write_text(run.stdout)
        return run, planner("import", net.files[0], net.folder / "replies") if run.returncode == 0 else ""

    def is_refused(self, words, entries, shown=None):
        run, _ = self.reading(entries, shown)
        self.assertEqual((run.returncode, run.stdout), (1, ""))
        self.assertIn(words, run.stderr)
        self.assertTrue(run.stderr.splitlines()[-1].startswith("stopped: "), run.stderr)

    def test_reads_the_tables_of_both_examples(self):
        for name in ("square", "detour"):
            net = Network(self, name)
            run = net.collect()
            (net.folder / "replies").write_text(run.stdout)
            (net.folder / "now.json").write_text(planner("import", net.files[0], net.folder / "replies"))
            empty = net.folder / "empty.json"
            empty.write_text(
                '{"format":2,"kind":"ordered","rules":[],"rounds":[],"numberings":[],"befores":[],"uses":[],"picks":[]}'
            )
            self.assertIn(
                "accepted", planner("check", net.files[0], net.folder / "now.json", net.files[1], net.files[3], empty)
            )

    def test_a_reply_in_several_messages(self):
        net = Network(self, "square", largest=110)
        net.switches["s1"].entries = [entry(), entry(priority=90)]
        run = net.collect()
        self.assertEqual(len([line for line in run.stdout.splitlines() if line.startswith("s1 ")]), 2)
        (net.folder / "replies").write_text(run.stdout)
        self.assertEqual(planner("import", net.files[0], net.folder / "replies").count('"s1"'), 2)

    def test_what_came_is_written_as_it_came(self):
        net = Network(self, "square")
        net.switches["s1"].entries = [entry(), entry(priority=90)]
        self.assertIn(
            "s1 "
            + struct.pack("!BBHIHH", 1, 17, 12 + 2 * 96, 0xFEA70001, 1, 0).hex()
            + (entry() + entry(priority=90)).hex()
            + "\n",
            net.collect().stdout,
        )

    def test_a_test_of_the_priority_of_no_tag_is_taken_away(self):
        run, config = self.reading([entry(wildcards=0x002220ED, vlan=0xFFFF)])
        self.assertIn(
            "# s1: a test of the priority of the tag was taken from 1 entries for untagged packets\n", run.stdout
        )
        self.assertIn('{"dst":"10.0.0.0/24","out":2,"priority":100,"switch":"s1","vlan":"untagged"}', config)

    def test_entries_without_effect_are_left_out(self):
        run, config = self.reading(
            [
                entry(kind=0x0806, wildcards=0x003820EF, actions="00000008fffb0000"),
                entry(kind=0x86DD, wildcards=0x003820EF, actions=""),
                entry(wildcards=0x003820FF, kind=0, priority=0, actions="00000008fffd0000"), entry(),
            ]
        )
        self.assertIn("# s1: left out 2 entries of other types", run.stdout)
        self.assertIn("# s1: left out 1 entries for a miss", run.stdout)
        self.assertEqual(config.count('"s1"'), 1)

    def test_what_a_configuration_can_t_say_is_refused_in_words(self):
        bad = [
            (
                "the default entry of a switch in standalone mode",
                entry(wildcards=0x003820FF, kind=0, priority=0, actions="00000008fffa0000"),
            ),
            (
                "its priority isn't 1 to 16383: 32768 is what `ovs-ofctl add-flow` takes where no priority is given",
                entry(priority=32768),
            ),
            ("it goes away by itself (idle timeout 30 s, hard timeout 60 s)", entry(idle=30, hard=60)),
            ("it stands in table 1", entry(table=1)), ("it stands in table 2", entry(table=2, kind=0x0806)),
            ("it is for packets of any type", entry(wildcards=0x003820FE, in_port=1, kind=0)),
            ("it tests the priority of the tag", entry(wildcards=0x002220ED, vlan=10, pcp=3)),
            ("it tests nw_src", entry(wildcards=0x003200EF)), ("it tests nw_proto", entry(wildcards=0x003220CF)),
            (
                "-> drop: it tests the priority of the tag",
                entry(wildcards=0, in_port=1, vlan=10, priority=0, actions=""),
            ),
            ("its ingress port is LOCAL", entry(wildcards=0x003220EE, in_port=0xFFFE)),
            ("its VLAN is 0", entry(wildcards=0x003220ED)),
            ("output NORMAL: its actions are neither", entry(actions="00000008fffa0000")),
            ("set VLAN 20, output 3: its actions are neither", entry(actions="00010008001400000000000800030000")),
            ("the switch's choice", entry(kind=0x8100)),
        ]
        run, _ = self.reading([one for _, one in bad])
        self.assertEqual((run.returncode, run.stdout), (1, ""))
        for words, line in zip((words for words, _ in bad), run.stderr.splitlines()):
            self.assertTrue(line.startswith("s1: priority "), line)
            self.assertIn(words, line)
        self.assertIn(f"stopped: {len(bad)} of the entries", run.stderr.splitlines()[-1])

    def test_what_the_extended_statistics_show_as_widened_is_refused(self):
        whole = extended(TYPE + PREFIX)
        self.assertEqual(self.reading([entry()], [whole])[0].returncode, 0)
        for words, fields in [
            ("nw_dst with a mask 0a000000ff00ff00", TYPE + "00001108" "0a000000" "ff00ff00"),
            ("vlan_tci with a mask 10001000", TYPE + PREFIX + "00000904" "1000" "1000"),
            ("reg3 00000007", TYPE + PREFIX + "00010604" "00000007"),
            ("ip_frag with a mask 0003", TYPE + PREFIX + "00013502" "00" "03"),
            ("ct_state with a mask", TYPE + PREFIX + "0001d308" "00000001" "00000001"),
        ]:
            with self.subTest(words):
                self.is_refused(f"s1: an entry of priority 100 tests {words}", [entry()], [extended(fields)])

    def test_a_source_is_no_test_that_openflow_1_0_can_t_say(self):
        for field in ("00000e04" "0a000001", "00000f08" "0a000000" "ff000000"):
            run, _ = self.reading([entry(wildcards=0x003200EF)], [extended(TYPE + field + PREFIX)])
            self.assertEqual(run.returncode, 1)
            self.assertIn("it tests nw_src", run.stderr)
            self.assertNotIn("can't say:", run.stderr)
        self.is_refused(
            "s1: an entry of priority 100 tests nw_src with a mask", [entry()],
            [extended(TYPE + "00000f080a000000ff00ff00" + PREFIX)],
        )

    def test_two_statistics_that_differ_are_refused(self):
        self.is_refused("its two statistics differ", [entry()], [extended(TYPE + PREFIX, priority=99)])
        self.is_refused("its two statistics differ", [entry()], [])
        self.is_refused("its two statistics differ", [entry(), entry(priority=90)], [extended(TYPE + PREFIX)])

    def test_extended_entries_that_say_the_same_are_taken(self):
        plain = [
            entry(wildcards=0x002220EC, in_port=1, vlan=0xFFFF),
            entry(wildcards=0x003020ED, vlan=20, dst="10.0.0.9", actions=""), entry(kind=0x0806, wildcards=0x003820EF),
        ]
        shown = [
            extended("000000020001" + TYPE + "000008020000" + PREFIX),
            extended(TYPE + "0000090410141fff000010040a000009", actions=""), extended("000006020806"),
        ]
        run, config = self.reading(plain, shown)
        self.assertEqual(run.returncode, 0, run.stderr)
        self.assertEqual(config.count('"s1"'), 2)

    def test_a_switch_without_extended_statistics_is_taken_at_its_word(self):
        self.assertIn(
            "# s1: it has no extended statistics, and is taken at its word\n", self.reading([entry()])[0].stdout
        )

    def test_statistics_that_entries_don_t_fill_are_refused(self):
        too_long_a_match = b"\0\x30" + bytes(16) + b"\xff\xff" + bytes(28)
        for entries, shown in [
            ([entry()[:50]], None), ([entry() + b"\0"], None), ([entry()], [extended(TYPE + PREFIX)[:60]]),
            ([entry()], [too_long_a_match]),
        ]:
            self.is_refused("s1: entries don't fill its statistics", entries, shown)

    def test_a_switch_that_isn_t_there_is_named(self):
        net = Network(self, "square")
        net.switches["s2"].stop()
        run = net.collect("--patience", "1")
        self.assertEqual((run.returncode, run.stdout), (1, ""))
        self.assertIn("stopped: no answer from s2 within 1 s", run.stderr)

    def test_bad_files_of_switches_are_refused(self):
        net = Network(self, "square")
        good = net.listed.read_text()
        for words, text in [
            ("line 1: not", "s9" + good[2:]), ("line 1: not", good.replace("00a1", "a1")),
            ("line 5: not", good + good[:20]), ("line 2: not", good.replace("a2", "a1")),
            ("has no line for s4", good.replace("s4", "# s4")),
            ("line 1: here isn't HOST:PORT", good.replace("a1\n", "a1 here\n")),
        ]:
            with self.subTest(words):
                net.listed.write_text(text)
                run = net.collect()
                self.assertEqual(run.returncode, 1)
                self.assertIn(words, run.stderr)


if __name__ == "__main__":
    unittest.main()
