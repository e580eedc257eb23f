"""Connections that fail: between a controller and the switches. For each switch it listens, and hands on what comes
from either side, as long as it is told nothing else. It is a part of faults.py."""
from __future__ import annotations

import collections
import selectors
import socket
import threading
import time

TYPE_CHECKING = False
if TYPE_CHECKING:
    from typing import Any


class Between(threading.Thread):
    """What it does is said by its fields, at any time: `delay` has the seconds by which what a switch sends comes late,
    by name, and `silent` the switches of which nothing comes any more. `cut` ends the connections of a switch, in the
    middle of a message where one is under way."""

    def __init__(self, addresses: dict[str, tuple[str, int]]) -> None:
        super().__init__(daemon=True)
        self.delay: dict[str, float] = {}
        self.silent: set[str] = set()
        self.to_cut: list[str] = []
        self.selector = selectors.DefaultSelector()
        self.waiting: collections.deque[tuple[float, socket.socket, bytes]] = collections.deque()
        self.servers: list[socket.socket] = []
        # where it listens for each switch; of each socket its other side, its switch, whether it is the switch's
        self.addresses: dict[str, tuple[str, int]] = {}
        self.pairs: dict[Any, tuple[socket.socket, str, bool]] = {}
        self.is_going = True
        for name, address in addresses.items():
            server = socket.create_server(("127.0.0.1", 0))
            self.addresses[name] = server.getsockname()
            self.servers.append(server)
            self.selector.register(server, selectors.EVENT_READ, (server, name, address))

    def cut(self, name: str) -> None:
        self.to_cut.append(name)

    def stop(self) -> None:
        self.is_going = False
        self.join(5)
        for sock in [*self.servers, *self.pairs]:
            sock.close()

    def run(self) -> None:
        while self.is_going:
            while self.to_cut:
                name = self.to_cut.pop()
                for sock in [it for it, pair in self.pairs.items() if pair[1] == name]:
                    self.close(sock)
            for key, _ in self.selector.select(0.005):
                if key.data is not None:
                    self.accept(*key.data)
                elif isinstance(key.fileobj, socket.socket) and key.fileobj in self.pairs:
                    self.hand_on(key.fileobj)
            while self.waiting and self.waiting[0][0] <= time.monotonic():
                _, sock, data = self.waiting.popleft()
                self.send(sock, data)

    def accept(self, server: socket.socket, name: str, address: tuple[str, int]) -> None:
        left = server.accept()[0]
        try:
            right = socket.create_connection(address, timeout=5)
        except OSError:
            left.close()
            return
        self.pairs[left], self.pairs[right] = (right, name, False), (left, name, True)
        for sock in (left, right):
            sock.setsockopt(socket.IPPROTO_TCP, socket.TCP_NODELAY, 1)
            self.selector.register(sock, selectors.EVENT_READ, None)

    def hand_on(self, sock: socket.socket) -> None:
        other, name, is_switch = self.pairs[sock]
        try:
            data = sock.recv(1 << 16)
        except OSError:
            data = b""
        if not data:
            self.close(sock)
        elif is_switch and name in self.silent:
            pass
        elif is_switch and self.delay.get(name):
            self.waiting.append((time.monotonic() + self.delay[name], other, data))
        else:
            self.send(other, data)

    def send(self, sock: socket.socket, data: bytes) -> None:
        try:
            sock.sendall(data)
        except OSError:
            self.close(sock)

    def close(self, sock: socket.socket) -> None:
        if sock in self.pairs:
            other = self.pairs.pop(sock)[0]
            self.pairs.pop(other, None)
            for one in (sock, other):
                try:
                    self.selector.unregister(one)
                except (KeyError, ValueError):
                    pass
                one.close()
