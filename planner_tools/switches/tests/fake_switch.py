"""A switch for tests: OpenFlow 1.0 over TCP, one flow table, no packets. It can misbehave, as its arguments say."""
import json
import pathlib
import socket
import struct
import sys
import threading
import time

sys.path.insert(0, str(pathlib.Path(__file__).resolve().parents[3]))
from planner_tools.switches import openflow

DELETE_STRICT = 4
TAG_PRIORITY = 1 << 20      # the bit of `wildcards`
MARK_TYPE = 0x88B5          # the type of the packets of a mark
# the xid of the echo request behind its features: where that is answered, the controller knows which switch it is
NAMED = 0x4E414D45


def match_of(rule):
    """The 40 bytes of a rule's match, as a real switch reports them: under an untagged match the priority of the tag is
    exact."""
    base, length = rule["dst"].split("/")
    port, vlan = rule.get("in_port", "any"), rule.get("vlan", "any")
    wildcards = 0x003020EC | (32 - int(length)) << 14 | (port == "any") | (vlan == "any") << 1
    wildcards &= ~TAG_PRIORITY if vlan == "untagged" else -1
    tag = {"any": 0, "untagged": 0xFFFF}.get(vlan, vlan)
    return (
        struct.pack("!IH12xH2xH8x", wildcards, 0 if port == "any" else port, tag, 0x0800)
        + socket.inet_aton(base)
        + bytes(4)
    )


def actions_of(rule):
    return b"" if rule["out"] == "drop" else struct.pack("!HHHH", 0, 8, rule["out"], 0)


def entry_of(match, priority, actions, cookie=0, idle=0):
    """An entry of flow statistics."""
    return (
        struct.pack("!HBx", 88 + len(actions), 0)
        + match
        + struct.pack("!IIHHH6xQ16x", 1, 0, priority, idle, 0, cookie)
        + actions
    )


def extended_of(match, priority, actions, cookie=0, idle=0):
    """The same entry of extended statistics."""
    wildcards, in_port, source, vlan, kind = struct.unpack("!IH6s6xH2xH", match[:24])
    length = 32 - min(32, wildcards >> 14 & 63)
    fields = struct.pack("!IH", 0x002, in_port) if not wildcards & 1 else b""
    fields += struct.pack("!I6s", 0x406, source) if not wildcards & 4 else b""
    fields += struct.pack("!IH", 0x602, kind)
    fields += (
        b""
        if wildcards & 2
        else struct.pack("!IH", 0x802, 0)
        if vlan == 0xFFFF
        else struct.pack("!IHH", 0x904, 0x1000 | vlan, 0x1FFF)
    )
    mask = struct.pack("!I", 0xFFFFFFFF << 32 - length & 0xFFFFFFFF)
    fields += (
        b""
        if length == 0
        else struct.pack("!I4s", 0x1004, match[32:36])
        if length == 32
        else struct.pack("!I4s4s", 0x1108, match[32:36], mask)
    )
    body = (
        struct.pack("!BxIIHHHH4xQ16x", 0, 1, 0, priority, idle, 0, len(fields), cookie)
        + fields
        + bytes(-len(fields) % 8)
        + actions
    )
    return struct.pack("!H", 2 + len(body)) + body


def key_of(match, priority):
    """What two entries of one place in the table have in common: strict commands go by it."""
    wildcards, port, tag, kind = struct.unpack("!IH12xH2xH", match[:24])
    wildcards &= ~TAG_PRIORITY if not wildcards & 2 and tag == 0xFFFF else -1
    return wildcards, port, tag, kind, match[32:36], priority, match[6:12] if kind == MARK_TYPE else b""


class FakeSwitch(threading.Thread):
    """A switch that connects to `address`, again and again until `stop`; or, with `listen`, waits there, for any number
    of controllers.

    rules       what its table has at the beginning
    error_at    the number, from 1, of the flow message that is answered by the error `error`
    close_at    the number, from 1, of the barrier request of a round at which it closes the connection and answers
                nothing
    empty_at    the same, and its table is empty after that
    piece       how many bytes it sends at a time
    delay       seconds before each barrier reply of a round
    late        seconds before it begins to speak on a connection
    is_silent   whether it leaves the barrier requests of rounds unanswered
    noise       what it sends behind each such reply
    echo        seconds between its echo requests; it closes the connection where three in a row aren't answered
    hello       its HELLO
    greeting    what it sends behind its HELLO on each connection but the first
    largest     the greatest length of a statistics reply
    has_extended  whether it has extended statistics of its table
    refuses     whether it refuses each flow message that the controller makes of its own
    """

    def __init__(
        self, datapath, address, rules=(), listen=False, error_at=None, error=(3, 0), close_at=None, piece=None,
        delay=0.0, is_silent=False, noise=b"", echo=None, hello=bytes.fromhex("0100000800000001"), largest=65535,
        empty_at=None, late=0.0, has_extended=False, refuses=False, greeting=b"",
    ):
        super().__init__(daemon=True)
        self.datapath, self.address, self.listen = datapath, address, listen
        self.table = {
            key_of(match_of(rule), rule["priority"]): [match_of(rule), rule["priority"], actions_of(rule)]
            for rule in rules
        }
        self.error_at, self.error, self.close_at, self.piece, self.delay, self.is_silent = (
            error_at, error, close_at, piece, delay, is_silent,
        )
        self.noise, self.echo, self.hello, self.largest = noise, echo, hello, largest
        self.empty_at, self.late, self.has_extended, self.refuses, self.greeting = (
            empty_at, late, has_extended, refuses, greeting,
        )
        self.entries = None         # entries to report in place of its table
        self.extended = None        # entries of its extended statistics, where it has such
        self.own_messages = self.flow_messages = self.barriers = self.connections = self.echoes = 0
        self.received = b""
        # whether it counts how often a controller has learned which switch it is
        self.counts_names, self.names = False, 0
        self.ended, self.lost = threading.Event(), threading.Event()
        self.server = socket.create_server(address) if listen else None
        if listen:
            self.address = self.server.getsockname()
            self.server.settimeout(0.05)

    def run(self):
        while not self.ended.is_set():
            try:
                sock = self.server.accept()[0] if self.listen else socket.create_connection(self.address, timeout=1.0)
            except OSError:
                self.ended.wait(0.02)
                continue
            self.connections += 1
            if self.listen:
                threading.Thread(target=self.attend, args=(sock,), daemon=True).start()
            else:
                self.attend(sock)

    def attend(self, sock):
        with sock:
            try:
                self.serve(sock)
            except OSError:
                pass

    def lose(self):
        """Loses its table, closes its connection, and comes back."""
        self.lost.set()

    def stop(self):
        self.ended.set()
        self.join(5)
        if self.server:
            self.server.close()

    def send(self, sock, data):
        for at in range(0, len(data), self.piece or len(data)):
            sock.sendall(data[at:at + (self.piece or len(data))])
            if self.piece:
                time.sleep(0.0002)

    def serve(self, sock):
        sock.setsockopt(socket.IPPROTO_TCP, socket.TCP_NODELAY, 1)
        sock.settimeout(0.02)
        self.ended.wait(self.late)
        self.send(sock, self.hello + (self.greeting if self.connections > 1 else b""))
        rest, due, owed = b"", time.monotonic() + (self.echo or 1e9), 0
        while not self.ended.is_set():
            if self.lost.is_set():
                self.table.clear()
                self.lost.clear()
                return
            if time.monotonic() > due:
                if owed == 3:
                    return
                owed, due = owed + 1, time.monotonic() + self.echo
                self.send(sock, openflow.message(openflow.ECHO_REQUEST, 0))
            try:
                data = sock.recv(1 << 16)
            except TimeoutError:
                continue
            if not data:
                return
            self.received += data
            pieces, rest = openflow.cut(rest + data)
            for piece in pieces:
                if openflow.type_of(piece) == openflow.ECHO_REPLY and openflow.xid_of(piece) == NAMED:
                    self.names += 1
                elif openflow.type_of(piece) == openflow.ECHO_REPLY:
                    owed, self.echoes = 0, self.echoes + 1
                elif not self.answer(sock, piece):
                    return

    def answer(self, sock, piece):
        """Whether the connection goes on behind a message."""
        kind, xid = openflow.type_of(piece), openflow.xid_of(piece)
        if kind == openflow.FEATURES_REQUEST:
            self.send(
                sock,
                openflow.message(openflow.FEATURES_REPLY, xid, struct.pack("!QIB3xII", self.datapath, 0, 1, 0, 0xFFF)),
            )
            if self.counts_names:
                self.send(sock, openflow.message(openflow.ECHO_REQUEST, NAMED))
        elif kind == openflow.FLOW_MOD and xid >= 0xFEA70000:
            self.own_messages += 1
            if self.refuses:
                self.send(sock, openflow.message(openflow.ERROR, xid, struct.pack("!HH", 3, 0) + piece[:64]))
            else:
                self.change(piece)
        elif kind == openflow.FLOW_MOD:
            self.flow_messages += 1
            if self.flow_messages == self.error_at:
                self.send(sock, openflow.message(openflow.ERROR, xid, struct.pack("!HH", *self.error) + piece[:64]))
            else:
                self.change(piece)
        elif kind == openflow.BARRIER_REQUEST and xid < 0xFEA70000:
            self.barriers += 1
            if self.barriers == self.empty_at:
                self.table.clear()
            if self.barriers in (self.close_at, self.empty_at):
                return False
            if not self.is_silent:
                self.ended.wait(self.delay)
                self.send(sock, openflow.message(openflow.BARRIER_REPLY, xid) + self.noise)
        elif kind == openflow.BARRIER_REQUEST:
            self.send(sock, openflow.message(openflow.BARRIER_REPLY, xid))
        elif kind == openflow.STATS_REQUEST and piece[8:10] == b"\0\1":
            self.tell_table(sock, xid)
        elif kind == openflow.STATS_REQUEST and (self.extended is not None or self.has_extended):
            shown = [extended_of(*one) for one in list(self.table.values())] if self.extended is None else self.extended
            self.send(sock, openflow.message(openflow.STATS_REPLY, xid, piece[8:16] + bytes(8) + b"".join(shown)))
        elif kind == openflow.STATS_REQUEST:
            self.send(sock, openflow.message(openflow.ERROR, xid, struct.pack("!HH", 1, 2) + piece[:64]))
        return True

    def change(self, piece):
        match, command, priority = piece[8:48], int.from_bytes(piece[56:58], "big"), int.from_bytes(piece[62:64], "big")
        key = key_of(match, priority)
        if command == DELETE_STRICT:
            self.table.pop(key, None)
        else:
            self.table[key] = [
                self.table.get(key, [match])[0], priority, piece[72:], int.from_bytes(piece[48:56], "big"),
            ]

    def tell_table(self, sock, xid):
        entries = [entry_of(*one) for one in list(self.table.values())] if self.entries is None else list(self.entries)
        while True:
            body = b""
            while entries and 12 + len(body) + len(entries[0]) <= self.largest:
                body += entries.pop(0)
            self.send(sock, openflow.message(openflow.STATS_REPLY, xid, struct.pack("!HH", 1, bool(entries)) + body))
            if not entries:
                return


def switches_of(datapaths, config, address, only=None, **more):
    """A switch for each of {name: datapath}, with the tables of a configuration; `only` has arguments by name."""
    rules = json.loads(pathlib.Path(config).read_text(encoding="utf-8"))["rules"]
    return {
        name: FakeSwitch(
            datapath, address, [rule for rule in rules if rule["switch"] == name],
            **{**more, **(only or {}).get(name, {})},
        )
        for name, datapath in datapaths.items()
    }
