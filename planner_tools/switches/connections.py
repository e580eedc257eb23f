"""The connections to the switches of a network: which connection is which switch, and the messages that come.

The file of switches has a line for each switch, `NAME DATAPATH` or `NAME DATAPATH HOST:PORT`: its name in the topology,
its datapath id in 16 hexadecimal digits, and where it listens. A switch without an address connects to us. `#` begins a
comment.

Nothing here waits for one switch while another one has something to say: connections are made, bytes sent and taken as
far as that goes at once.
"""
from __future__ import annotations

import argparse
import errno
import fcntl
import os
import selectors
import socket
import time
from typing import Optional

from planner_tools.files import NotJson, read_json
from planner_tools.network import Network
from planner_tools.switches import openflow
from planner_tools.voice import TELLING

TYPE_CHECKING = False
if TYPE_CHECKING:
    from typing import Any, BinaryIO, Sequence

# The upper half of all xids of these scripts' own messages. Those of `planner serve` count from 1 and are far below.
OWN = 0xFEA70000
FEATURES_XID = OWN
# How often a switch that can't be reached is tried, in seconds.
AGAIN = 1.0


# By its name the datapath id and the address, or None, of each switch of a file of switches.
Address = tuple[str, int]
Listed = dict[str, tuple[int, Optional[Address]]]


class Stop(Exception):
    """The work can't go on: what happened, and what to do next."""

    def __init__(self, what: str, then: str) -> None:
        super().__init__(what)
        self.what, self.then = what, then


say, progress = TELLING.say, TELLING.progress


def fault_words(fault: BaseException) -> str:
    """What happened, in words: of a file that can't be opened or written its name and the reason."""
    if not isinstance(fault, OSError) or not fault.strerror:
        return str(fault)
    return f"{fault.filename}: {fault.strerror}" if fault.filename else fault.strerror


def read_switches(path: str, topology: str) -> dict[str, tuple[int, tuple[str, int] | None]]:
    """The datapath id and the address, or None, of each switch of a file of switches, in the topology's order."""
    declared = declared_switches(topology)
    listed: dict[str, tuple[int, tuple[str, int] | None]] = {}
    with open(path, encoding="ascii", errors="replace") as file:
        for number, line in enumerate(file, 1):
            words = line.split("#")[0].split()
            if not words:
                continue
            try:
                name, datapath = words[0], int(words[1], 16)
                address = listed_address(words[2], f"{path}, line {number}") if len(words) == 3 else None
                good = len(words) <= 3 and len(words[1]) == 16 and name in declared and name not in listed
            except (IndexError, ValueError):
                good = False
            if not good or datapath in [it for it, _ in listed.values()]:
                raise Stop(
                    (
                        f"{path}, line {number}: not `NAME DATAPATH [HOST:PORT]` of a switch of the topology, or it"
                        " stands twice"
                    ),
                    "correct the line",
                )
            listed[name] = (datapath, address)
    missing = [name for name in declared if name not in listed]
    if missing:
        raise Stop(
            f"{path} has no line for {', '.join(missing)}",
            "add the lines: every switch of the topology is asked for its table",
        )
    return {name: listed[name] for name in declared}


def lock(path: str) -> BinaryIO:
    """Locks the file of switches for this run: of the runs on one machine one at a time is at work with it. The file,
    which has to stay open."""
    file = open(path, "rb")
    try:
        fcntl.flock(file, fcntl.LOCK_EX | fcntl.LOCK_NB)
    except BlockingIOError:
        raise Stop(
            f"another run is at work with the switches of {path}",
            "wait for its end: two controllers at once break what each of them keeps",
        ) from None
    return file


def declared_switches(topology: str) -> list[str]:
    """The names of the switches of a topology. The program says more of a file that is none."""
    more = "correct the file; `planner config TOPOLOGY CONFIG` says more of it"
    try:
        names = Network(read_json(topology)).names
    except NotJson as fault:
        raise Stop(f"{topology}: {fault}", more) from fault
    if not names or None in names:
        raise Stop(f"{topology} is no topology with names of switches", more)
    return names


def host_and_port(text: str) -> tuple[str, int]:
    """The host and the port of `HOST:PORT`, `[ADDRESS]:PORT` for an address of IPv6, and these behind `tcp:`, as Open
    vSwitch writes them; ValueError where it is none. A port alone is one of all addresses of this machine."""
    text = text.removeprefix("tcp:") if text.count(":") > 1 else text
    host, _, port = text.rpartition(":")
    if ":" in host and not (host.startswith("[") and host.endswith("]")) or not 0 < int(port) < 1 << 16:
        raise ValueError(text)
    return host.removeprefix("[").removesuffix("]"), int(port)


def listening_address(text: str) -> tuple[str, int]:
    """The address behind --listen."""
    try:
        return host_and_port(text)
    except ValueError:
        raise argparse.ArgumentTypeError(
            f"{text!r} isn't HOST:PORT, or a port from 1 to 65535 alone for every address of this machine"
        ) from None


def listed_address(text: str, where: str) -> tuple[str, int]:
    """The address of a switch in a file of switches."""
    kind = text.partition(":")[0]
    if kind in ("ssl", "pssl", "unix", "punix"):
        raise Stop(
            f"{where}: {text}: the connection is made over TCP alone, and not by {kind}",
            "let the switch listen by `ptcp:PORT`, and write HOST:PORT",
        )
    if kind == "ptcp":
        raise Stop(
            f"{where}: {text} is what the switch does; here stands where it is reached",
            f"write HOST:{text.split(':')[1]}",
        )
    if text.isdigit():
        raise Stop(f"{where}: {text} is a port without a host", f"write HOST:{text}")
    try:
        return host_and_port(text)
    except ValueError:
        bracketed = text.rpartition(":")
        hint = f", as [{bracketed[0]}]:{bracketed[2]}" if text.count(":") > 1 else ""
        raise Stop(
            f"{where}: {text} isn't HOST:PORT",
            f"write the host and a port from 1 to 65535{hint}; an address of IPv6 stands in brackets",
        ) from None


def address_words(address: tuple[str, int]) -> str:
    """A host and a port as they are written."""
    host, port = address
    return f"[{host}]:{port}" if ":" in host else f"{host}:{port}"


class Connection:
    """A connection: first it says which switch it is, then it hands on whole messages. Requests for an echo are
    answered here."""

    def __init__(self, sock: socket.socket, peer: str, expected: str | None = None, is_made: bool = True) -> None:
        self.sock, self.peer, self.expected, self.is_made = sock, peer, expected, is_made
        self.name = ""           # that of its switch, when it is known
        self.datapath: int | None = None
        self.since = time.monotonic()
        self.rest, self.unsent, self.awaited = b"", b"", 0
        self.early: list[bytes] = []          # messages that came before the name was known
        self.why: str | None = None          # why it is of no use, where it said so
        self.is_open = False     # whether its HELLO came
        self.is_good = False     # whether its switch was found to have what it must have, and the update goes on on it
        self.heard_at: float | None = None     # when its switch first answered for its table
        self.is_asked_again = False      # whether it was asked once more, when the connection had stood for a while
        self.kept: list[bytes] = []           # what came for the session before the connection was good
        sock.setblocking(False)
        sock.setsockopt(socket.IPPROTO_TCP, socket.TCP_NODELAY, 1)
        self.send(openflow.HELLO_BYTES)

    def send(self, data: bytes) -> None:
        """Sends bytes, or keeps them until they can be sent. Where that fails the connection is over, and `receive`
        says so next."""
        self.unsent += data
        if self.is_made:
            self.flush()

    def flush(self) -> None:
        try:
            while self.unsent:
                self.unsent = self.unsent[self.sock.send(self.unsent):]
        except BlockingIOError:
            pass
        except OSError:
            self.unsent = b""
            self.cut_off()

    def events(self) -> int:
        """What it waits for."""
        return selectors.EVENT_READ | (selectors.EVENT_WRITE if self.unsent or not self.is_made else 0)

    def cut_off(self) -> None:
        try:
            self.sock.shutdown(socket.SHUT_RDWR)
        except OSError:
            pass

    def receive(self) -> list[bytes] | None:
        """The whole messages that came, or None at the end of the connection."""
        try:
            data = self.sock.recv(1 << 16)
        except BlockingIOError:
            return []
        except OSError:
            data = b""
        if not data:
            return None
        pieces, self.rest = openflow.cut(self.rest + data)
        pieces = [piece for piece in pieces if not self.is_echo(piece)]
        return pieces if self.datapath is not None else self.introduce(pieces)

    def is_echo(self, piece: bytes) -> bool:
        """Whether it is a request for an echo behind the HELLO: it is answered at once, by its own bytes."""
        self.is_open = self.is_open or piece[0] != 0 and openflow.type_of(piece) == openflow.HELLO
        if (
            not self.is_open
            or piece[0] != 1
            or openflow.type_of(piece) != openflow.ECHO_REQUEST
            or not openflow.is_message(piece)
        ):
            return False
        self.send(piece[:1] + bytes([openflow.ECHO_REPLY]) + piece[2:])
        return True

    def introduce(self, pieces: Sequence[bytes]) -> list[Any] | None:
        """Asks for the features behind the first message, and keeps the messages that came beside the reply."""
        for number, piece in enumerate(pieces):
            self.why = openflow.other_version(piece)
            if self.why or not openflow.is_message(piece):
                return None
            if not self.early:
                self.send(openflow.message(openflow.FEATURES_REQUEST, FEATURES_XID))
            if (
                openflow.type_of(piece) == openflow.FEATURES_REPLY
                and len(piece) >= 32
                and openflow.xid_of(piece) == FEATURES_XID
            ):
                self.datapath = int.from_bytes(piece[8:16], "big")
                self.early += pieces[number + 1:]
                return []
            self.early.append(piece)
        return []


# What came: "up" where a connection says which switch it is, "message" with its bytes, "down" where it is over.
Heard = tuple[str, Connection, bytes]


class Switches:
    """All connections. New ones are made or taken, and each gets its name. A connection may take `patience` seconds to
    say which switch it is."""

    def __init__(
        self, listed: dict[str, tuple[int, tuple[str, int] | None]], listen: tuple[str, int] | None = None,
        patience: float = 10.0, gone: dict[int, str] | None = None,
    ) -> None:
        self.listed, self.patience = listed, patience
        self.gone = gone or {}           # by their datapath ids the switches that aren't spoken with
        self.named: dict[str, Connection] = {}          # the connection of each switch that has one
        self.selector = selectors.DefaultSelector()
        self.due = {name: 0.0 for name, (_, address) in listed.items() if address is not None}
        self.tried: dict[str, str] = {}          # how the last try to reach a switch failed
        # by host: why a connection from there was closed that didn't say which switch it is
        self.strangers: dict[str, str] = {}
        self.listener: socket.socket | None = None
        away = [name for name, (_, address) in listed.items() if address is None]
        if listen is None and away:
            raise Stop(
                (
                    f"{', '.join(away)} {'has' if len(away) == 1 else 'have'} no address in the file of switches, and"
                    " no --listen is given, where switches without one connect to"
                ),
                "write where it listens, HOST:PORT, behind its datapath id; or give --listen HOST:PORT",
            )
        if listen is not None:
            try:
                listener = socket.create_server(listen, family=socket.AF_INET6 if ":" in listen[0] else socket.AF_INET)
            except OSError as fault:
                raise Stop(
                    f"can't listen at {address_words(listen)}: {fault.strerror or fault}",
                    "see whether another run is at work there, or give --listen another port, and the switches too",
                ) from None
            if listen[0] in ("", "0.0.0.0", "::"):
                progress(
                    f"listening at every address of this machine, port {listen[1]}: whoever reaches it can connect;"
                    " --listen HOST:PORT names one address"
                )
            listener.setblocking(False)
            self.listener = listener
            self.selector.register(listener, selectors.EVENT_READ, None)

    def connections(self) -> list[Connection]:
        return [key.data for key in self.selector.get_map().values() if key.data is not None]

    def connect_missing(self) -> None:
        """Tries to reach each switch that listens and has no connection, as often as AGAIN says."""
        reached = {one.expected for one in self.connections()}
        for name, due in self.due.items():
            address = self.listed[name][1]
            if address is not None and name not in reached and time.monotonic() >= due:
                self.due[name] = time.monotonic() + AGAIN
                self.reach(name, address)

    def reach(self, name: str, address: tuple[str, int]) -> None:
        try:
            family, _, _, _, where = socket.getaddrinfo(*address, type=socket.SOCK_STREAM)[0]
            sock = socket.socket(family, socket.SOCK_STREAM)
        except OSError as fault:
            self.tried[name] = fault_words(fault)
            return
        sock.setblocking(False)
        state = sock.connect_ex(where)
        if state not in (0, errno.EINPROGRESS):
            self.tried[name] = os.strerror(state)
            sock.close()
            return
        self.add(Connection(sock, address_words(address), name, is_made=state == 0))

    def add(self, connection: Connection) -> None:
        connection.awaited = connection.events()
        self.selector.register(connection.sock, connection.awaited, connection)

    def wait_for(self, connection: Connection) -> None:
        if connection.events() != connection.awaited:
            connection.awaited = connection.events()
            self.selector.modify(connection.sock, connection.awaited, connection)

    def poll(self, seconds: float, quiet: float = 0.005, longest: float = 0.5) -> list[tuple[str, Connection, bytes]]:
        """Takes what comes until the connections are quiet, after at most `seconds` for the first sign: what was heard,
        in its order."""
        self.connect_missing()
        for one in self.connections():
            if not one.name and time.monotonic() - one.since > self.patience:
                self.turn_away(one, f"didn't say which switch it is within {self.patience:g} s")
            else:
                self.wait_for(one)
        found, until = [], time.monotonic() + longest
        signs = self.selector.select(seconds)
        while signs:
            for key, events in signs:
                if key.data is None:
                    self.accept()
                elif key.data in self.connections():     # it isn't where its switch has connected anew meanwhile
                    found += self.look(key.data, events)
            signs = self.selector.select(quiet) if time.monotonic() < until else []
        return found

    def accept(self) -> None:
        assert self.listener is not None
        try:
            sock, peer = self.listener.accept()
        except OSError:
            return           # it went away before it was taken
        self.add(Connection(sock, address_words(peer[:2])))

    def look(self, one: Connection, events: int) -> list[tuple[str, Connection, bytes]]:
        if events & selectors.EVENT_WRITE:
            state = 0 if one.is_made else one.sock.getsockopt(socket.SOL_SOCKET, socket.SO_ERROR)
            if state:
                self.tried[one.expected or ""] = os.strerror(state)
                self.drop(one)
                return []
            one.is_made = True
            one.flush()
            self.wait_for(one)
        return self.take(one) if events & selectors.EVENT_READ else []

    def take(self, one: Connection) -> list[tuple[str, Connection, bytes]]:
        pieces = one.receive()
        if pieces is None and not one.name:
            self.turn_away(one, one.why or "ended, or sent what is no OpenFlow 1.0, before it said which switch it is")
        elif pieces is None:
            self.drop(one)
            return [("down", one, b"")]
        elif not one.name and one.datapath is not None:
            if self.give_name(one):
                return [("up", one, b"")] + [("message", one, piece) for piece in one.early]
        else:
            return [("message", one, piece) for piece in pieces]
        return []

    def give_name(self, one: Connection) -> bool:
        name = next((name for name, (datapath, _) in self.listed.items() if datapath == one.datapath), None)
        if one.expected is not None and name != one.expected:
            raise Stop(
                f"{one.peer} should be {one.expected} but has the datapath id {one.datapath:016x}",
                "correct the file of switches",
            )
        if name is None:
            gone = self.gone.get(one.datapath or 0)
            self.turn_away(
                one,
                (
                    f"is {gone}, which is dead by the record: no packet may pass it before `--repair {gone}` has given"
                    " it its table"
                )
                if gone
                else f"has the datapath id {one.datapath:016x}, which is none of the file",
            )
            return False
        if name in self.named:
            progress(f"{name} connects anew from {one.peer}; its older connection is closed")
            self.drop(self.named[name])
        one.name = name
        self.named[name] = one
        self.tried.pop(name, None)
        return True

    def turn_away(self, one: Connection, why: str) -> None:
        """Closes a connection that is of no use. Of a host that comes again and again for the same reason it is said
        once."""
        self.drop(one)
        if one.expected and one.why:
            raise Stop(
                f"{one.expected} ({one.peer}) {why}",
                (
                    "let it speak OpenFlow 1.0 too (Open vSwitch: `ovs-vsctl set bridge"
                    f" {one.expected} protocols=OpenFlow10,OpenFlow13`)"
                ),
            )
        known, who = (self.tried, one.expected) if one.expected else (self.strangers, one.peer.rpartition(":")[0])
        if known.get(who) != why:
            progress(
                f"the connection with {one.peer}{f' ({one.expected})' if one.expected else ''} {why}; it is closed"
            )
        known[who] = why

    def drop(self, one: Connection) -> None:
        self.selector.unregister(one.sock)
        one.sock.close()
        if self.named.get(one.name) is one:
            del self.named[one.name]

    def why_away(self, name: str) -> str:
        """How the last try to reach a switch failed, in words behind its name. Of one that connects to us: which
        connections were closed."""
        if name in self.tried:
            return f" ({self.tried[name]})"
        words = "; ".join(f"a connection from {host} {why}" for host, why in self.strangers.items())
        return f" ({words})" if words and name not in self.due else ""

    def flush(self, seconds: float) -> None:
        """Sends what is still to be sent, for so long at most."""
        until = time.monotonic() + seconds
        while any(one.unsent for one in self.named.values()) and time.monotonic() < until:
            self.poll(0.05)

    def close(self) -> None:
        if self.listener is not None:
            self.listener.close()        # first, so that no switch connects anew
        for one in self.connections():
            one.sock.close()
        self.selector.close()
