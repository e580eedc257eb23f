#!/usr/bin/env python3
"""Packets through the bridges of bridges.sh, and what became of each.

  traffic.py bridges DIR TOPOLOGY [slow]                       the words for ovs-vsctl that make the bridges, a line
                                                               each; the file DIR/switches
  traffic.py load    DIR TOPOLOGY CONFIG                       gives each bridge a configuration's table
  traffic.py pour    DIR TOPOLOGY OLD NEW POLICY SENT          packets at every host port to every prefix of the policy,
                                                               one each PAUSE seconds (0.002), until SIGTERM; they are
                                                               noted in the file SENT
  traffic.py judge   DIR TOPOLOGY OLD NEW POLICY SENT SUMS     says what became of each packet, by the records of the
                                                               ports, and adds the numbers of packets that were sent and
                                                               that were broken to the file SUMS
  traffic.py at_once DIR TOPOLOGY OLD NEW POLICY SEED SECONDS  all changes, each at a random moment within so many
                                                               seconds, as a controller does that doesn't plan

A packet is broken where it came to a switch twice, left without having met its waypoints, was lost though it must
arrive, or left with another VLAN.
"""
from __future__ import annotations

import collections
import json
import os
import pathlib
import random
import signal
import socket
import struct
import subprocess
import sys
import time

sys.path[:0] = [
    str(pathlib.Path(__file__).resolve().parents[1]),
    str(pathlib.Path(__file__).resolve().parents[1] / "planner_tools" / "switches" / "tests"),
]
import fake_switch
from planner_tools.switches import openflow

TYPE_CHECKING = False
if TYPE_CHECKING:
    from typing import Any, Callable, Iterator, Sequence

FIRST_PORT = int(os.environ.get("FIRST_PORT", "17100"))
PAUSE = float(os.environ.get("PAUSE", "0.002"))


def number_of(address: str) -> int:
    return int.from_bytes(socket.inet_aton(address), "big")


def is_in(address: int, prefix: str) -> bool:
    base, length = prefix.split("/")
    return (number_of(base) ^ address) >> 32 - int(length) == 0


def fits(rule: dict[str, Any], port: int | None, vlan: str, address: int) -> bool:
    """Whether a rule or a demand is for a packet."""
    return (
        rule.get("in_port", "any") in ("any", port)
        and str(rule.get("vlan", "any")) in ("any", vlan)
        and is_in(address, rule["dst"])
    )


# ---- the bridges

def bridges(folder: pathlib.Path, topology: dict[str, Any], slow: str = "") -> None:
    def add_port(end: str, more: str = "") -> None:
        switch, port = end.split(":")
        print(f"-- add-port {switch} {switch}_{port} -- set interface {switch}_{port} type=dummy ofport_request={port} "
              f"options:tx_pcap={folder}/{switch}_{port}.tx options:rxq_pcap={folder}/{switch}_{port}.rx {more}")

    for number in range(len(topology["switches"])):
        # fails where something listens there already
        socket.create_server(("127.0.0.1", FIRST_PORT + number)).close()
    with open(f"{folder}/switches", "w", encoding="ascii") as listed:
        for number, switch in enumerate(topology["switches"]):
            name = switch["name"]
            print(
                f"-- add-br {name} -- set bridge {name} datapath_type=dummy protocols=OpenFlow10 fail_mode=secure"
                f" other_config:datapath-id={number + 1:016x} other_config:disable-in-band=true -- set-controller"
                f" {name} ptcp:{FIRST_PORT + number}:127.0.0.1 -- set controller {name} inactivity_probe=0"
            )
            print(f"{name} {number + 1:016x} 127.0.0.1:{FIRST_PORT + number}", file=listed)
    for host in topology["hosts"]:
        add_port(host)
    for left, right in topology["links"]:
        name = left.replace(":", "_")
        add_port(left, f"options:pstream=punix:{folder}/{name}.link")
        add_port(right, f"options:stream=unix:{folder}/{name}.{slow or 'link'}")


def flow(rule: dict[str, Any]) -> str:
    """A rule in the words of ovs-ofctl."""
    vlan = rule.get("vlan", "any")
    words = f"priority={rule['priority']},ip,nw_dst={rule['dst']}"
    words += f",in_port={rule['in_port']}" if rule.get("in_port", "any") != "any" else ""
    words += "" if vlan == "any" else ",dl_vlan=0xffff" if vlan == "untagged" else f",dl_vlan={vlan}"
    return words + f",actions={'drop' if rule['out'] == 'drop' else 'output:%d' % rule['out']}\n"


def load(folder: pathlib.Path, topology: dict[str, Any], config: dict[str, Any]) -> None:
    for switch in topology["switches"]:
        rules = "".join(flow(rule) for rule in config["rules"] if rule["switch"] == switch["name"])
        words = ["ovs-ofctl", "-O", "OpenFlow10", "replace-flows", f"unix:{folder}/{switch['name']}.mgmt", "-"]
        subprocess.run(words, input=rules, text=True, check=True, timeout=60)


def flow_message(rule: dict[str, Any], is_kept: bool) -> bytes:
    """The message (OpenFlow 1.0.0, section 5.3.3) that adds or replaces a rule, or deletes it."""
    command = 0 if is_kept else 4
    body = fake_switch.match_of(rule) + struct.pack(
        "!8xHHHHIHH", command, 0, 0, rule["priority"], 0xFFFFFFFF, 0xFFFF, 0
    )
    return openflow.message(openflow.FLOW_MOD, 1, body + (fake_switch.actions_of(rule) if is_kept else b""))


def at_once(
    folder: pathlib.Path, topology: dict[str, Any], old: dict[str, Any], new: dict[str, Any], policy: dict[str, Any],
    seed: str, seconds: float,
) -> None:
    def keyed(config: dict[str, Any]) -> dict[tuple[Any, ...], dict[str, Any]]:
        return {
            (
                rule["switch"], rule["priority"], rule.get("in_port", "any"), str(rule.get("vlan", "any")), rule["dst"],
            ): rule
            for rule in config["rules"]
        }

    before, after, chance = keyed(old), keyed(new), random.Random(seed)
    differing = [key for key in sorted({*before, *after}, key=str) if before.get(key) != after.get(key)]
    moments = sorted((chance.random() * float(seconds), key) for key in differing)
    socks = {
        one["name"]: socket.create_connection(("127.0.0.1", FIRST_PORT + number), timeout=60)
        for number, one in enumerate(topology["switches"])
    }
    for sock in socks.values():
        sock.sendall(openflow.HELLO_BYTES)
        sock.recv(8)
    begun = time.monotonic()
    for moment, key in moments:
        time.sleep(max(0.0, begun + moment - time.monotonic()))
        socks[key[0]].sendall(flow_message(after[key] if key in after else before[key], key in after))
    print(f"{len(moments)} changes in {time.monotonic() - begun:.2f} s")
    time.sleep(0.2)


# ---- the packets

class Control:
    """Calls of the daemon that has the bridges."""

    def __init__(self, folder: pathlib.Path) -> None:
        self.sock = socket.socket(socket.AF_UNIX)
        self.sock.settimeout(60)
        self.sock.connect(f"{folder}/ovs-vswitchd.ctl")

    def call(self, method: str, *words: str) -> Any:
        self.sock.sendall(json.dumps({"method": method, "params": list(words), "id": 0}).encode())
        data = b""
        while True:
            data += self.sock.recv(1 << 16)
            try:
                return json.loads(data)
            except ValueError:
                pass


def frame(number: int, vlan: str, address: int) -> bytes:
    """A UDP packet to the address, with its number as content."""
    tag = b"" if vlan == "untagged" else struct.pack("!HH", 0x8100, int(vlan))
    ip = (
        struct.pack("!BBHHHBBH", 0x45, 0, 32, number & 0xFFFF, 0, 64, 17, 0)
        + bytes([192, 0, 2, 1])
        + struct.pack("!I", address)
    )
    return (
        bytes.fromhex("020000000002020000000001") + tag + b"\x08\x00" + ip + struct.pack("!HHHHI", 9, 9, 12, 0, number)
    ).ljust(60, b"\0")


def pour(
    folder: pathlib.Path, topology: dict[str, Any], old: dict[str, Any], new: dict[str, Any], policy: dict[str, Any],
    sent: str,
) -> None:
    control, chance, going = Control(folder), random.Random(1), [True]
    signal.signal(signal.SIGTERM, lambda *_: going.clear())
    addresses = [number_of(demand["dst"].split("/")[0]) + 5 for demand in policy["demands"]]
    number = int(time.time()) % 100000 * 20000       # no two runs share a number
    with open(sent, "w", encoding="ascii") as out:
        while going:
            number += 1
            entry, vlan, address = (
                chance.choice(topology["hosts"]), str(chance.choice(topology["vlans"])), chance.choice(addresses),
            )
            print(json.dumps([number, entry, vlan, address]), file=out)
            control.call("netdev-dummy/receive", entry.replace(":", "_"), frame(number, vlan, address).hex())
            time.sleep(PAUSE)


def recorded(path: pathlib.Path) -> Iterator[tuple[int, int, str]]:
    """What a port recorded: (microseconds, packet number, VLAN)."""
    data, at = path.read_bytes(), 24
    while at + 16 <= len(data):
        seconds, micros, length = struct.unpack("<III", data[at:at + 12])
        packet, at = data[at + 16:at + 16 + length], at + 16 + length
        is_tagged = packet[12:14] == b"\x81\x00"
        ip = packet[18:] if is_tagged else packet[14:]
        if len(ip) >= 32 and ip[9] == 17:
            yield seconds * 1000000 + micros, int.from_bytes(ip[28:32], "big"), str(
                int.from_bytes(packet[14:16], "big") & 4095
            ) if is_tagged else "untagged"


def ways(
    folder: pathlib.Path | str, topology: dict[str, Any]
) -> tuple[dict[int, list[str]], dict[int, tuple[str, str]]]:
    """The ports where each packet came in, in order of time; and where it left, with its VLAN."""
    found: dict[int, list[tuple[int, str]]] = collections.defaultdict(list)
    ends: dict[int, tuple[str, str]] = {}
    for end in [*topology["hosts"], *(end for link in topology["links"] for end in link)]:
        path = pathlib.Path(folder, end.replace(":", "_"))
        for moment, number, _ in recorded(path.with_suffix(".rx")):
            found[number].append((moment, end))
        for _, number, vlan in recorded(path.with_suffix(".tx")) if end in topology["hosts"] else []:
            ends[number] = (end, vlan)
    return {number: [end for _, end in sorted(stops)] for number, stops in found.items()}, ends


def path_under(
    topology: dict[str, Any], config: dict[str, Any], entry: str, vlan: str, address: int
) -> tuple[list[str], str | None]:
    """Where a packet comes in under one configuration, and the host port where it leaves, or None."""
    links = {a: b for pair in topology["links"] for a, b in (pair, pair[::-1])}
    stops = [entry]
    while len(stops) <= len(topology["switches"]):
        switch, port = stops[-1].split(":")
        fitting = [one for one in config["rules"] if one["switch"] == switch and fits(one, int(port), vlan, address)]
        rule = max(fitting, key=lambda one: one["priority"], default={"out": "drop"})
        out = f"{switch}:{rule['out']}"
        if rule["out"] == "drop" or out == stops[-1] or (out not in links and out not in topology["hosts"]):
            return stops, None
        if out in topology["hosts"]:
            return stops, out
        stops.append(links[out])
    return stops, None


def is_met(chain: Sequence[str], switches: Sequence[str]) -> bool:
    rest = iter(switches)
    return all(waypoint in rest for waypoint in chain)


def is_entry(source: str | list[str], entry: str) -> bool:
    """Whether a demand's member `from` is any port, this one, or a list with it."""
    return entry in source if isinstance(source, list) else source in ("any", entry)


def faults(
    policy: dict[str, Any], entry: str, vlan: str, address: int, stops: Sequence[str], end: tuple[str, str] | None
) -> Iterator[str]:
    """What is broken of a packet with these stops that left at `end`, a port and a VLAN, or None."""
    switches = [stop.split(":")[0] for stop in stops]
    demands = [
        one
        for one in policy["demands"]
        if is_entry(one.get("from", "any"), entry) and fits({**one, "in_port": "any"}, None, vlan, address)
    ]
    has_looped = len(set(switches)) < len(switches)
    if has_looped:
        yield "looped"
    if end and not all(is_met(one.get("through", []), switches) for one in demands):
        yield "missed a waypoint"
    if not end and not has_looped and any(one.get("deliver") for one in demands):
        yield "lost"
    if end and end[1] != vlan:
        yield "left with another VLAN"


def judge(
    folder: pathlib.Path, topology: dict[str, Any], old: dict[str, Any], new: dict[str, Any], policy: dict[str, Any],
    sent: str, sums: str,
) -> None:
    stops, ends = ways(folder, topology)
    counts: collections.Counter[str] = collections.Counter()
    broken = 0
    examples: dict[str, str] = {}
    paths: dict[tuple[str, str, int], list[tuple[list[str], str | None]]] = {}
    packets = [json.loads(line) for line in pathlib.Path(sent).read_text(encoding="ascii").splitlines()]
    for number, entry, vlan, address in packets:
        way, end = stops.get(number, []), ends.get(number)
        what = list(faults(policy, entry, vlan, address, way, end))
        broken += bool(what)
        if not what:
            if (entry, vlan, address) not in paths:
                paths[entry, vlan, address] = [
                    path_under(topology, config, entry, vlan, address) for config in (old, new)
                ]
            taken = [
                name for name, path in zip(("old", "new"), paths[entry, vlan, address]) if path == (way, end and end[0])
            ]
            what = [f"took the {' and the '.join(taken)} path" if taken else "took parts of both paths"]
        counts[", ".join(what)] += 1
        examples.setdefault(
            ", ".join(what),
            f"{' '.join(way[:12])}{' ..' if len(way) > 12 else ''} {'left ' + end[0] if end else 'did not leave'}",
        )
    print(f"{len(packets)} packets sent, {broken} broken")
    for words, count in counts.most_common():
        print(f"  {count} {words}" + ("" if words.startswith("took the") else f", as: {examples[words]}"))
    with open(sums, "a", encoding="ascii") as out:
        print(len(packets), broken, file=out)


def main(words: Sequence[str]) -> None:
    commands: dict[str, Callable[..., None]] = {
        "bridges": bridges, "load": load, "pour": pour, "judge": judge, "at_once": at_once,
    }
    count = {"bridges": 1, "load": 2}.get(words[0], 4)       # how many of the words behind DIR are files to read
    commands[words[0]](
        words[1], *[json.loads(pathlib.Path(word).read_text(encoding="utf-8")) for word in words[2 : 2 + count]],
        *words[2 + count :],
    )


if __name__ == "__main__":
    main(sys.argv[1:])
