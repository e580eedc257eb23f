#!/usr/bin/env python3
"""A program for tests: it answers `paths` and `trace` as docs/FORMATS.md has them, worked out here, and hands all other
words to the program that the variable REAL_PROGRAM names. So what the front end makes of these answers is tested with
any build."""
import json
import os
import subprocess
import sys


def read(path):
    with open(path, encoding="utf-8") as file:
        return json.load(file)


def span(prefix):
    """The first address of a prefix, and the one behind its last."""
    base, _, length = prefix.partition("/")
    first = int.from_bytes(bytes(map(int, base.split("."))), "big")
    return first, first + (1 << 32 - int(length))


def address(number):
    return ".".join(map(str, number.to_bytes(4, "big")))


def number(text):
    return int.from_bytes(bytes(map(int, text.split("."))), "big")


def lookup(rules, stop, vlan, to):
    switch, _, port = stop.rpartition(":")
    fitting = [
        one
        for one in rules
        if one["switch"] == switch
        and one.get("in_port", "any") in ("any", int(port))
        and str(one.get("vlan", "any")) in ("any", vlan)
        and span(one["dst"])[0] <= to < span(one["dst"])[1]
    ]
    return max(fitting, key=lambda one: one["priority"], default=None)


def walk(topology, rules, entry, vlan, to):
    """The stops of a packet, the rule at each, and its end."""
    peers = {end: other for pair in topology["links"] for end, other in (pair, pair[::-1])}
    stops, met = [entry], []
    while True:
        switch = stops[-1].rpartition(":")[0]
        rule = lookup(rules, stops[-1], vlan, to)
        met.append(rule)
        if switch in [one.rpartition(":")[0] for one in stops[:-1]]:
            return stops, met, f"again {switch}"
        out = f"{switch}:{rule['out']}" if rule else ""
        if rule is None or rule["out"] == "drop" or out == stops[-1]:
            return stops, met, f"dropped {switch}"
        if out not in peers:
            return stops, met, f"left {out} {vlan}"
        stops.append(peers[out])


def speaks_of(demand, host):
    """Whether a demand is one for a host port."""
    source = demand.get("from", "any")
    return host in source if isinstance(source, list) else source in ("any", host)


def mark(demands, stops, end):
    """How a path breaks the demands that cover its class, or whether it is good or free."""
    switches = [one.rpartition(":")[0] for one in stops]
    if end.startswith("again "):
        return "Loop " + end.split()[1]
    for demand in demands if end.startswith("left ") else []:
        rest = iter(switches)
        for waypoint in dict.fromkeys(demand.get("through", [])):
            if waypoint not in rest:
                return f"Missed {waypoint}"
    if end.startswith("dropped ") and any(one.get("deliver") for one in demands):
        return "Dropped " + end.split()[1]
    return "good" if demands else "free"


def paths(topology, config, policy=None):
    rules, demands = config["rules"], policy["demands"] if policy else []
    cuts = sorted({0} | {one for it in rules + demands for one in span(it["dst"]) if one < 1 << 32})
    lines, counts = [], {"good": 0, "free": 0, "break": 0}
    for host in topology["hosts"]:
        for vlan in map(str, topology["vlans"]):
            for first in cuts:
                covering = [
                    one
                    for one in demands
                    if speaks_of(one, host)
                    and str(one.get("vlan", "any")) in ("any", vlan)
                    and span(one["dst"])[0] <= first < span(one["dst"])[1]
                ]
                stops, _, end = walk(topology, rules, host, vlan, first)
                word = mark(covering, stops, end)
                counts[word if word in counts else "break"] += 1
                lines.append(f"{host} {vlan} {address(first)}: {' '.join(stops)} {end} {word}")
    lines.append(f"{len(lines)} classes: {counts['good']} good, {counts['free']} free, {counts['break']} break")
    return lines, counts["break"] > 0


def trace(topology, config, entry, vlan, to):
    if entry not in topology["hosts"] or vlan not in map(str, topology["vlans"]):
        return [f"no entry: {entry} {vlan}"], True
    stops, met, end = walk(topology, config["rules"], entry, vlan, number(to))
    lines = []
    for stop, rule in zip(stops, met):
        what = (
            "no rule"
            if rule is None
            else (
                f"{rule['priority']} {rule.get('in_port', 'any')} {rule.get('vlan', 'any')} {rule['dst']} -> "
                + ("drop" if rule["out"] == "drop" else f"port {rule['out']}")
            )
        )
        lines.append(f"{stop} {vlan}: {what}")
    return [*lines, end], False


def main(words):
    real = os.environ["REAL_PROGRAM"]
    if words[:1] not in (["paths"], ["trace"]):
        os.execv(real, ["planner", *words])
    files = words[1:] if words[0] == "paths" else words[1:3]
    judged = subprocess.run([real, "config", *files], stdout=subprocess.PIPE, check=False)
    if judged.returncode > 1:        # the files are refused in the same words
        sys.stdout.buffer.write(judged.stdout)
        return judged.returncode
    lines, is_refused = (paths if words[0] == "paths" else trace)(*map(read, files), *words[1 + len(files):])
    print("\n".join(lines))
    return int(is_refused)


if __name__ == "__main__":
    sys.exit(main(sys.argv[1:]))
