"""Networks that are made by chance, a walk of all their classes that uses nothing of what is tested, and runs of the
front end. PLANNER names the program."""
import contextlib
import functools
import io
import json
import os
import pathlib
import random
import signal
import subprocess
import sys
import tempfile

ROOT = pathlib.Path(__file__).resolve().parents[3]
sys.path.insert(0, str(ROOT))

from planner_tools import main, program  # noqa: E402

EXAMPLES = ROOT / "examples"
LONGEST = 120
END = 1 << 32
PREFIXES = [
    "0.0.0.0/0", "10.0.0.0/8", "10.0.0.0/16", "10.0.0.0/24", "10.0.1.0/24", "10.0.2.0/24", "10.0.3.0/24", "10.0.2.0/23",
    "10.0.4.0/22", "10.0.0.7/32", "10.1.0.0/16", "192.168.0.0/16", "192.168.7.0/24", "255.255.255.0/24",
]


def planner(*words, given=None):
    """The status of a run of the front end, what it wrote, and what it said."""
    done = subprocess.run(
        [sys.executable, "-B", ROOT / "planner", *map(str, words)], capture_output=True, text=True, input=given,
        timeout=LONGEST, check=False, env={**os.environ, "PLANNER": program.path(), "PLANNER_TOOLS_TEST": "1"},
    )
    return done.returncode, done.stdout, done.stderr


def front(*words):
    """The same without a process of its own, as many runs go faster so."""
    wrote, said, before = io.StringIO(), io.StringIO(), signal.getsignal(signal.SIGTERM)
    try:
        with contextlib.redirect_stdout(wrote), contextlib.redirect_stderr(said):
            status = main.main(list(map(str, words)))
    finally:
        signal.signal(signal.SIGTERM, before)        # the front end has a way of its own to be ended
    return status, wrote.getvalue(), said.getvalue()


def asked(*words):
    """The status and the text of the program itself."""
    done = subprocess.run(
        [program.path(), *map(str, words)], capture_output=True, text=True, timeout=LONGEST, check=False
    )
    return done.returncode, done.stdout


class Folder:
    """Files of JSON or of text in a folder of their own."""

    def __init__(self, test, **files):
        self.folder = tempfile.TemporaryDirectory()
        test.addCleanup(self.folder.cleanup)
        self.path = pathlib.Path(self.folder.name)
        for name, value in files.items():
            self.write(name, value)

    def write(self, name, value):
        name = name if isinstance(value, str) else f"{name}.json"
        (self.path / name).write_text(value if isinstance(value, str) else json.dumps(value), encoding="utf-8")
        return self.path / name

    def __truediv__(self, name):
        return self.path / name


# ---- by chance

def topology(chance, switches=6, more=3, vlans=("untagged", 10)):
    """A network of one piece with some links beside a tree, two of them perhaps between the same switches, and a host
    at most switches, at some two."""
    names = [f"s{number}" if number % 3 else f"t-{number}" for number in range(1, switches + 1)]
    ports, links = dict.fromkeys(names, 0), []

    def port(name):
        ports[name] += 1
        return f"{name}:{ports[name]}"

    pairs = [(names[number], names[chance.randrange(number)]) for number in range(1, switches)] + [
        tuple(chance.sample(names, 2)) for _ in range(more)
    ]
    for one, other in pairs:
        links.append([port(one), port(other)])
    hosts = [port(name) for name in names if chance.random() < 0.7] + [port(chance.choice(names)) for _ in range(2)]
    return {
        "switches": [{"name": name, "capacity": 200} for name in names], "links": links, "hosts": hosts,
        "vlans": list(vlans), "tags": [],
    }


def ports_of(net):
    """The ports in use of each switch."""
    found = {one["name"]: [] for one in net["switches"]}
    for end in [*(end for link in net["links"] for end in link), *net["hosts"]]:
        name, _, port = end.rpartition(":")
        found[name].append(int(port))
    return found


def wild(chance, net, count=10):
    """A configuration with rules of every kind: many packets are dropped, and some come to a switch twice."""
    rules = []
    for name, ports in ports_of(net).items():
        for priority in chance.sample(range(1, 400), chance.randrange(count)) if ports else []:
            rule = {
                "switch": name, "priority": priority, "dst": chance.choice(PREFIXES),
                "out": chance.choice([*ports, "drop"]),
            }
            if chance.random() < 0.2:
                rule["in_port"] = chance.choice(ports)
            if chance.random() < 0.2:
                rule["vlan"] = chance.choice(["any", *net["vlans"], 77])
            rules.append(rule)
    return {"rules": rules}


def changed(chance, net, config, share=0.3):
    """The configuration with some rules left out, some sent elsewhere, and some new ones."""
    ports, rules = ports_of(net), []
    for rule in config["rules"]:
        if chance.random() > share:
            rules.append(rule)
        elif chance.random() < 0.6:
            rules.append({**rule, "out": chance.choice([*ports[rule["switch"]], "drop"])})
    taken = {(rule["switch"], rule["priority"]) for rule in rules}
    return {
        "rules": rules
        + [rule for rule in wild(chance, net, 3)["rules"] if (rule["switch"], rule["priority"]) not in taken]
    }


def ends_of(net):
    return {one: other for link in net["links"] for one, other in (link, link[::-1])}


def steps_to(net, exit_switch, weights, without=()):
    """How far each switch is from one, over links that aren't left out: by looking at all links again and again."""
    far = {exit_switch: 0}
    for _ in net["switches"]:
        for link in net["links"]:
            for one, other in (link, link[::-1]) if not {*link} & set(without) else ():
                one, other = one.rpartition(":")[0], other.rpartition(":")[0]
                if (
                    one in far
                    and not {one, other} & set(without)
                    and far[one] + weights[tuple(link)] < far.get(other, float("inf"))
                ):
                    far[other] = far[one] + weights[tuple(link)]
    return far


def routed(chance, net, homes, share=0.95):
    """A configuration of shortest paths with weights by chance, one set for each prefix, with some rules left out:
    `homes` has the host port of each prefix."""
    rules = []
    for number, (dst, host) in enumerate(homes.items()):
        weights = {tuple(link): chance.randrange(1, 5) for link in net["links"]}
        home, _, port = host.rpartition(":")
        far = steps_to(net, home, weights)
        for one in net["switches"]:
            name = one["name"]
            hops = (
                [
                    int(end.rpartition(":")[2])
                    for link in net["links"]
                    for end, other in (link, link[::-1])
                    if end.rpartition(":")[0] == name
                    and far.get(other.rpartition(":")[0], far[name] + 1) + weights[tuple(link)] == far[name]
                ]
                if name in far
                else []
            )
            if chance.random() < share and (hops or name == home):
                rules.append(
                    {
                        "switch": name, "priority": 100 + int(dst.rpartition("/")[2]), "dst": dst,
                        "out": int(port) if name == home else chance.choice(hops),
                    }
                )
    return {"rules": rules}


def homes_of(chance, net, some):
    return {dst: chance.choice(net["hosts"]) for dst in some}


# ---- the walk

@functools.lru_cache(None)
def span(dst):
    """The first address of a prefix, and the one behind its last."""
    base, _, length = dst.partition("/")
    first = sum(int(part) << shift for part, shift in zip(base.split("."), (24, 16, 8, 0)))
    return first, first + (END >> int(length))


def firsts(*configs):
    """The first address of each atom of some configurations and policies together."""
    found = {0}
    for config in configs:
        for rule in config.get("rules", []) + config.get("demands", []):
            found |= set(span(rule["dst"]))
    return sorted(found - {END})


def covering(rules, switch, port, vlan, number):
    """The rule that counts: all are looked at."""
    found = [
        rule
        for rule in rules
        if rule["switch"] == switch
        and rule.get("in_port", "any") in ("any", port)
        and rule.get("vlan", "any") in ("any", vlan)
        and span(rule["dst"])[0] <= number < span(rule["dst"])[1]
    ]
    return max(found, key=lambda rule: rule["priority"], default=None)


def walk(net, rules_of, host, vlan, number):
    """The path of one packet under the rules of each switch: its stops, how it ends and where, and the rules that it
    met."""
    ends, place, stops, rules = ends_of(net), host, [], []
    while True:
        switch, _, port = place.rpartition(":")
        stops.append(place)
        if switch in [stop.rpartition(":")[0] for stop in stops[:-1]]:
            return stops, "again", switch, rules
        rule = covering(rules_of.get(switch, []), switch, int(port), vlan, number)
        rules.append(rule)
        out = None if rule is None else f"{switch}:{rule['out']}"
        if out in net["hosts"] and out != place:
            return stops, "left", out, rules
        if out not in ends or out == place:
            return stops, "dropped", switch, rules
        place = ends[out]


def all_walks(net, config, starts):
    """The walks of all classes, by host port, VLAN and first address."""
    rules_of = {}
    for rule in config["rules"]:
        rules_of.setdefault(rule["switch"], []).append(rule)
    return {
        (host, vlan, number): walk(net, rules_of, host, vlan, number)
        for host in net["hosts"]
        for vlan in net["vlans"]
        for number in starts
    }


def some(number, **more):
    """A generator of chances, and a network of it."""
    chance = random.Random(number)
    return chance, topology(chance, **more)
