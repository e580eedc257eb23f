"""Tests of the connections: what a switch says of its version, late switches, and echoes."""
import argparse
import contextlib
import io
import socket
import threading
import time
import unittest

import fake_switch
from planner_tools.switches import openflow
from planner_tools.switches.connections import (
    Stop, Switches, address_words, fault_words, host_and_port, listed_address, listening_address,
)

HELLO_13 = bytes.fromhex("0400001000000001" "0001000800000010")
ERROR_13 = bytes.fromhex("0401000c00000001" "00000000")


class Versions(unittest.TestCase):
    def test_a_switch_without_openflow_1_0_is_named_as_such(self):
        cases = [
            (HELLO_13, "offers OpenFlow 1.3, and not OpenFlow 1.0"),
            (
                bytes.fromhex("06000010000000010001000800000070"),
                "offers OpenFlow 1.3, OpenFlow 1.4, OpenFlow 1.5, and not OpenFlow 1.0",
            ),
            (ERROR_13, "refuses OpenFlow 1.0: its highest version is OpenFlow 1.3"),
            (bytes.fromhex("0406000800000001"), "answers in OpenFlow 1.3, and not in OpenFlow 1.0"),
            (bytes.fromhex("06000010000000010001000800000012"), None), (bytes.fromhex("0400000800000001"), None),
            (openflow.HELLO_BYTES, None), (b"GET / HTTP/1.1\r\n\r\n", None),
        ]
        for piece, words in cases:
            with self.subTest(piece.hex()):
                self.assertEqual(openflow.other_version(piece), words)


class Addresses(unittest.TestCase):
    """Where switches are said to listen, and where the controller listens."""

    def test_the_forms_of_an_address(self):
        for text, wanted in (
            ("h:6653", ("h", 6653)), ("10.0.0.1:6653", ("10.0.0.1", 6653)), ("[::1]:6653", ("::1", 6653)),
            ("tcp:10.0.0.1:6653", ("10.0.0.1", 6653)), ("tcp:[fe80::1]:6653", ("fe80::1", 6653)), ("6653", ("", 6653)),
        ):
            self.assertEqual(wanted, host_and_port(text), text)
        for text in ("h", "h:", "h:x", "h:0", "h:65536", "::1:6653", "fe80::1"):
            self.assertRaises(ValueError, host_and_port, text)
        self.assertEqual(["h:1", "[::1]:1"], [address_words(one) for one in (("h", 1), ("::1", 1))])

    def test_what_is_no_address_of_a_switch_is_said(self):
        for text, what, then in (
            (
                "ssl:10.0.0.1:6653", "the connection is made over TCP alone, and not by ssl",
                "let the switch listen by `ptcp:PORT`",
            ),
            ("ptcp:6653", "ptcp:6653 is what the switch does", "write HOST:6653"),
            ("6653", "6653 is a port without a host", "write HOST:6653"),
            ("::1:6653", "::1:6653 isn't HOST:PORT", "as [::1]:6653"),
            ("h:port", "h:port isn't HOST:PORT", "a port from 1 to 65535"),
            ("unix:/run/s1.sock", "and not by unix", "let the switch listen"),
        ):
            with self.subTest(text), self.assertRaises(Stop) as stop:
                listed_address(text, "switches, line 1")
            self.assertIn(f"switches, line 1: {text}", stop.exception.what)
            self.assertIn(what, stop.exception.what)
            self.assertIn(then, stop.exception.then)

    def test_a_switch_without_an_address_and_nowhere_to_connect_to(self):
        with self.assertRaises(Stop) as stop:
            Switches({"s1": (0xA1, ("127.0.0.1", 1)), "s2": (0xA2, None), "s3": (0xA3, None)}, None, 3600.0)
        self.assertEqual(
            (
                "s2, s3 have no address in the file of switches, and no --listen is given, where switches without one"
                " connect to"
            ),
            stop.exception.what,
        )

    def test_it_is_said_that_it_listens_everywhere(self):
        for address, is_said in ((("", 0), True), (("0.0.0.0", 0), True), (("127.0.0.1", 0), False)):
            said = io.StringIO()
            with self.subTest(address), contextlib.redirect_stderr(said):
                Switches({"s1": (0xA1, None)}, address).close()
                self.assertEqual(is_said, "listening at every address of this machine" in said.getvalue())

    def test_a_switch_that_is_reached_by_ipv6(self):
        try:
            with socket.create_server(("::1", 0), family=socket.AF_INET6) as server, contextlib.redirect_stderr(
                io.StringIO()
            ):
                switches = Switches({"s1": (0xA1, listed_address(f"[::1]:{server.getsockname()[1]}", "switches"))})
                self.addCleanup(switches.close)
                switches.poll(0.01)
                server.settimeout(60)
                server.accept()[0].close()
        except OSError as fault:
            self.skipTest(f"this machine has no IPv6: {fault}")


class Connecting(unittest.TestCase):
    def setUp(self):
        quiet = contextlib.redirect_stderr(io.StringIO())
        quiet.__enter__()
        self.addCleanup(quiet.__exit__, None, None, None)

    def connect(self, patience, *switches):
        """Listening switches, and the connections with them."""
        for one in switches:
            one.start()
            self.addCleanup(one.stop)
        found = Switches(
            {f"s{number}": (one.datapath, one.address) for number, one in enumerate(switches)}, patience=patience
        )
        self.addCleanup(found.close)
        return found

    def until(self, switches, is_enough, longest=10.0):
        found, end = [], time.monotonic() + longest
        while time.monotonic() < end and not is_enough(found):
            found += switches.poll(0.02)
        return found

    def test_the_patience_rules_how_long_a_switch_may_take_to_say_who_it_is(self):
        late = fake_switch.FakeSwitch(0xA1, ("127.0.0.1", 0), listen=True, late=0.8)
        switches = self.connect(20.0, late)
        self.assertTrue(self.until(switches, lambda found: any(it[0] == "up" for it in found)))
        self.assertEqual(late.connections, 1)
        late = fake_switch.FakeSwitch(0xA1, ("127.0.0.1", 0), listen=True, late=60.0)
        switches = self.connect(0.3, late)
        self.assertEqual(self.until(switches, lambda _: switches.tried, 5.0), [])
        self.assertEqual(switches.why_away("s0"), " (didn't say which switch it is within 0.3 s)")

    def test_a_late_switch_doesn_t_keep_the_others_waiting(self):
        others = [fake_switch.FakeSwitch(0xB0 + number, ("127.0.0.1", 0), listen=True) for number in range(3)]
        switches = self.connect(60.0, fake_switch.FakeSwitch(0xA1, ("127.0.0.1", 0), listen=True, late=60.0), *others)
        self.until(switches, lambda _: len(switches.named) == 3)
        self.assertEqual(sorted(switches.named), ["s1", "s2", "s3"])

    def test_why_a_switch_isn_t_reached_is_kept(self):
        with socket.create_server(("127.0.0.1", 0)) as free:
            address = free.getsockname()
        switches = Switches({"s1": (0xA1, address)}, patience=5.0)
        self.addCleanup(switches.close)
        self.until(switches, lambda _: switches.tried)
        self.assertEqual(switches.why_away("s1"), " (Connection refused)")

    def test_what_happened_is_said_in_words(self):
        for fault, words in (
            (FileNotFoundError(2, "No such file or directory", "switches"), "switches: No such file or directory"),
            (socket.gaierror(-2, "Name or service not known"), "Name or service not known"),
            (Stop("s1 isn't there", "see to it"), "s1 isn't there"),
            (OSError("timed out"), "timed out"),
        ):
            self.assertEqual(words, fault_words(fault))

    def test_what_is_no_address_behind_listen_is_said(self):
        self.assertEqual(("", 6653), listening_address("6653"))
        for text in ("here", "here:", "here:0", "::1:6653"):
            with self.assertRaises(argparse.ArgumentTypeError) as fault:
                listening_address(text)
            self.assertEqual(
                f"{text!r} isn't HOST:PORT, or a port from 1 to 65535 alone for every address of this machine",
                str(fault.exception),
            )

    def test_a_switch_of_another_version_is_named(self):
        switches = self.connect(5.0, fake_switch.FakeSwitch(0xA1, ("127.0.0.1", 0), listen=True, hello=HELLO_13))
        with self.assertRaises(Stop) as stop:
            self.until(switches, lambda _: False)
        self.assertRegex(stop.exception.what, r"s0 \(127.0.0.1:\d+\) offers OpenFlow 1.3, and not OpenFlow 1.0")
        with socket.create_server(("127.0.0.1", 0)) as free:
            address = free.getsockname()
        switches = Switches({"s1": (0xA1, None)}, address, patience=5.0)
        self.addCleanup(switches.close)
        other = fake_switch.FakeSwitch(0xA1, address, hello=HELLO_13)
        other.start()
        self.addCleanup(other.stop)
        self.until(switches, lambda _: switches.strangers)
        self.assertEqual(
            switches.why_away("s1"), " (a connection from 127.0.0.1 offers OpenFlow 1.3, and not OpenFlow 1.0)"
        )

    def test_echo_requests_are_answered_with_their_bytes_and_not_handed_on(self):
        one = fake_switch.FakeSwitch(0xA1, ("127.0.0.1", 0), listen=True, echo=0.05)
        switches = self.connect(5.0, one)
        found = self.until(switches, lambda _: one.echoes >= 3)
        self.assertEqual(
            {openflow.type_of(message) for what, _, message in found if what == "message"}, {openflow.HELLO}
        )
        self.assertIn(openflow.message(openflow.ECHO_REPLY, 0), one.received)

    def test_a_switch_that_takes_no_bytes_stops_nobody(self):
        server = socket.create_server(("127.0.0.1", 0))
        self.addCleanup(server.close)
        taken = []
        threading.Thread(target=lambda: taken.append(server.accept()[0]), daemon=True).start()
        other = fake_switch.FakeSwitch(0xB1, ("127.0.0.1", 0), listen=True)
        other.start()
        self.addCleanup(other.stop)
        switches = Switches({"s1": (0xA1, server.getsockname()), "s2": (0xB1, other.address)}, patience=60.0)
        self.addCleanup(switches.close)
        self.until(switches, lambda _: "s2" in switches.named and taken)
        for one in switches.connections():
            if one.expected == "s1":
                one.send(bytes(1 << 24))
        begun = time.monotonic()
        for _ in range(5):
            switches.poll(0.01)
        self.assertLess(time.monotonic() - begun, 8.0)
        taken[0].close()


if __name__ == "__main__":
    unittest.main()
