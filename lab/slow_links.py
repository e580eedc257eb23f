#!/usr/bin/env python3
"""Links that take time: slow_links.py DIR TOPOLOGY MILLISECONDS. For each link it waits at the socket DIR/NAME.slow,
connects to DIR/NAME.link, and hands on what comes from either side after the delay. Until it is ended."""
from __future__ import annotations

import collections
import json
import select
import socket
import sys
import time


def main(folder: str, topology: str, delay: float) -> None:
    with open(topology, "rb") as file:
        names = [link[0].replace(":", "_") for link in json.load(file)["links"]]
    queue: collections.deque[tuple[float, socket.socket, bytes]] = collections.deque()
    servers = {}
    others: dict[socket.socket, socket.socket] = {}
    for name in names:
        server = socket.socket(socket.AF_UNIX)
        server.bind(f"{folder}/{name}.slow")
        server.listen(4)
        servers[server] = name
    print("ready", flush=True)
    while True:
        due = max(0.0, queue[0][0] - time.monotonic()) if queue else 1.0
        for sock in select.select([*servers, *others], [], [], due)[0]:
            if sock in servers:
                right, left = sock.accept()[0], socket.socket(socket.AF_UNIX)
                left.connect(f"{folder}/{servers[sock]}.link")
                others[right], others[left] = left, right
            elif sock in others:
                data = sock.recv(1 << 16)
                if data:
                    queue.append((time.monotonic() + delay, others[sock], data))
                else:
                    other = others.pop(sock)
                    others.pop(other, None)
                    sock.close()
                    other.close()
        while queue and queue[0][0] <= time.monotonic():
            _, sock, data = queue.popleft()
            try:
                sock.sendall(data)
            except OSError:
                pass


if __name__ == "__main__":
    main(sys.argv[1], sys.argv[2], int(sys.argv[3]) / 1000)
