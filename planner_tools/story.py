"""Runs of a plan in words: what `explain` found, and why an event of a schedule can't happen. Where packets go is what
`replay` of the program says."""
from __future__ import annotations

import re
import tempfile

from planner_tools import network as nets
from planner_tools.files import Text, counted, read_bytes

TYPE_CHECKING = False
if TYPE_CHECKING:
    from typing import Any, Sequence

    from planner_tools.explanations import Explainer
    from planner_tools.network import Network

TRACE = re.compile(r"packet (\d+) (\S+) (\S+) (\S+) born (\d+):((?: \S+:\d+)*) (left|dropped|lost|under way)(.*)")


class Changes:
    """The changes of each round of a plan, as (do, rule)."""

    def __init__(self, plan: dict[str, Any]) -> None:
        if plan["format"] == 1:
            self.rounds = [[(one["do"], one) for one in round_] for round_ in plan["rounds"]]
        else:
            self.rounds = [[(do, plan["rules"][number]) for do, number in round_] for round_ in plan["rounds"]]


def key_of(rule: dict[str, Any]) -> tuple[str, int, int | str, int | str, str]:
    return rule["switch"], rule["priority"], rule.get("in_port", "any"), rule.get("vlan", "any"), rule["dst"]


class Tables:
    """The entries of all switches by their keys, as changes are made."""

    def __init__(self, rules: Sequence[dict[str, Any]]) -> None:
        self.rules = {key_of(rule): rule for rule in rules}

    def make(self, do: str, rule: dict[str, Any]) -> dict[str, Any] | None:
        """Makes a change, and returns the entry that was there before, or None."""
        before = self.rules.pop(key_of(rule), None)
        if do != "delete":
            self.rules[key_of(rule)] = rule
        return before


class Story:
    """The tables of an update round by round, for the sentences about a reason of the checker."""

    def __init__(self, explainer: Explainer) -> None:
        self.network = explainer.network()
        old, new, plan = (explainer.json(word) for word in ("OLD", "NEW", "PLAN"))
        assert old is not None and new is not None and plan is not None      # the program has read them
        self.old, self.new = nets.plain(old.root)["rules"], nets.plain(new.root)["rules"]
        self.rounds = Changes(nets.plain(plan.root)).rounds

    def before(self, round_: int) -> Tables:
        """The tables before a round, from 1; behind the last round those at the end."""
        tables = Tables(self.old)
        for changes in self.rounds[:round_ - 1]:
            for do, rule in changes:
                tables.make(do, rule)
        return tables

    def entry(self, rule: dict[str, Any]) -> str:
        """A rule in words."""
        return f"{nets.match_words(rule)}, priority {rule['priority']}, {nets.action_words(rule, self.network)}"

    def why_change_is_bad(self, round_: int, number: int) -> str:
        """Why a change doesn't fit the table before its round."""
        changes = self.rounds[round_ - 1]
        do, rule = changes[number]
        twin = next((at for at, (_, other) in enumerate(changes[:number]) if key_of(other) == key_of(rule)), None)
        there = self.before(round_).rules.get(key_of(rule))
        if twin is not None:
            return f"change {twin} of the round is for the same entry"
        if there is None:
            return f"{rule['switch']} has no entry of this priority and match then"
        return f"the entry that is there{' already' if do == 'insert' else ' does otherwise'}: {self.entry(there)}"

    def twins(self, round_: int, switch: str) -> list[str]:
        """Two entries of equal priority that a packet may match both while a round is carried out."""
        from planner_tools.faults import overlap
        held = [rule for rule in self.before(round_).rules.values() if rule["switch"] == switch]
        held += [rule for do, rule in self.rounds[round_ - 1] if do == "insert" and rule["switch"] == switch]
        tests = [(rule.get("in_port", "any"), rule.get("vlan", "any"), nets.span(rule["dst"])) for rule in held]
        for at, one in enumerate(held):
            for other in range(at):
                if (
                    one["priority"] == held[other]["priority"]
                    and tests[at] != tests[other]
                    and overlap(tests[at], tests[other])
                ):
                    return [self.entry(held[other]), self.entry(one)]
        return []

    def differences(self, switch: str) -> list[str]:
        """How the last table of a switch differs from the new one."""
        last = {key: rule for key, rule in self.before(len(self.rounds) + 1).rules.items() if rule["switch"] == switch}
        new = {key_of(rule): rule for rule in self.new if rule["switch"] == switch}
        words = [f"it has no entry for {self.entry(new[key])}" for key in new if key not in last]
        words += [f"it still has {self.entry(last[key])}" for key in last if key not in new]
        return words + [
            f"it has {self.entry(last[key])}, and wanted is {nets.action_words(new[key], self.network)}"
            for key in new
            if key in last and action_of(new[key]) != action_of(last[key])
        ]


def action_of(rule: dict[str, Any]) -> tuple[int, None, bool]:
    return rule["out"], rule.get("set"), rule.get("strip", False)


def replayed(explainer: Explainer, schedule: str) -> tuple[int, str]:
    """What `replay` of the program says of a text of events: its status and text."""
    with tempfile.NamedTemporaryFile("w", suffix=".schedule") as file:
        file.write(schedule)
        file.flush()
        return explainer.run.ask(
            "replay", explainer.run.files["TOPO"].real, explainer.run.files["OLD"].real,
            explainer.run.files["PLAN"].real, file.name,
        )


def traces(text: str) -> list[tuple[list[str], str, str, int]]:
    """The packets of an answer of `replay`: for each the stops, the word for its end, and what stands behind it."""
    return [
        (found[6].split(), found[7], found[8].strip(), int(found[5]))
        for found in map(TRACE.fullmatch, text.splitlines())
        if found
    ]


def tell(explainer: Explainer) -> list[str]:
    """The run that `explain` wrote, in sentences."""
    net, old, plan = explainer.network(), explainer.json("OLD"), explainer.json("PLAN")
    status, text = replayed(explainer, explainer.run.text)
    if status != 0 or net is None or old is None or plan is None:
        return []
    packets = traces(text)
    lines = events_in_words(
        explainer.run.text, net, nets.plain(old.root)["rules"], Changes(nets.plain(plan.root)), packets
    )
    entry = re.findall(r"^enter (\S+) (\S+) (\S+)$", explainer.run.text, re.M)
    if packets and entry:
        if packets[0][1] in ("left", "dropped"):
            lines[-1] += ", and has broken the policy"
        lines += explainer.wanted_lines(*entry[0])
    return lines


def events_in_words(
    schedule: str, net: Network, rules: Sequence[dict[str, Any]], changes: Changes,
    packets: Sequence[tuple[list[str], str, str, int]],
) -> list[str]:
    """The events of a schedule, a line each. `packets` are the traces of the packets."""
    tables, lines, round_, at, entered, headers = Tables(rules), [], 0, {}, 0, []
    for line in schedule.splitlines():
        words = line.split()
        if not words or line.startswith("#"):
            continue
        if words[0] == "start":
            round_ += 1
            count = len(changes.rounds[round_ - 1])
            lines.append(
                f"round {round_} starts: its {f'{count} changes' if count != 1 else 'change'} may be made at any"
                f" time{', in any order' if count > 1 else ''}"
            )
        elif words[0] == "change":
            do, rule = changes.rounds[round_ - 1][int(words[1])]
            lines.append(
                f"change {words[1]}, at {rule['switch']}: {nets.change_words(do, rule, tables.make(do, rule), net)}"
            )
        elif words[0] == "settle":
            lines.append(f"round {round_} is settled")
        elif words[0] == "enter":
            lines.append(f"packet {entered} enters at {words[1]}, {nets.vlan_words(words[2])}, for {words[3]}")
            at[entered], entered = 0, entered + 1
            headers.append(words[2:4])
        elif words[0] == "lose":
            lines.append(f"packet {words[1]} is lost")
        else:
            lines.append(hop_words(int(words[1]), packets, at, tables, headers))
    return lines


def is_sent_back(tables: Tables, stop: str, vlan: str, address: str) -> bool:
    """Whether a packet meets a rule whose output is the port that it came in by. Where tags are set it isn't known
    which VLAN the packet has there."""
    switch, _, number = stop.rpartition(":")
    port = int(number)
    fitting = [
        rule
        for rule in tables.rules.values()
        if rule["switch"] == switch
        and rule.get("in_port", "any") in ("any", port)
        and str(rule.get("vlan", "any")) in ("any", vlan)
        and nets.covers(rule["dst"], address)
    ]
    is_tagged = any("set" in rule or rule.get("strip") for rule in tables.rules.values())
    return bool(fitting) and not is_tagged and max(fitting, key=lambda rule: rule["priority"])["out"] == port


def hop_words(
    number: int, packets: Sequence[tuple[list[str], str, str, int]], at: dict[int, int], tables: Tables,
    headers: Sequence[Sequence[str]],
) -> str:
    """A hop of a packet, whose stops are known."""
    stops, end, where, _ = packets[number]
    here = stops[at[number]]
    at[number] += 1
    if at[number] == len(stops):
        back = f": {nets.BACK}" if end == "dropped" and is_sent_back(tables, here, *headers[number]) else ""
        return f"packet {number} " + (
            f"leaves the network at {where}"
            if end == "left"
            else f"is dropped by {where or here.rpartition(':')[0]}{back}"
        )
    switch = stops[at[number]].rpartition(":")[0]
    been = [one.rpartition(":")[0] for one in stops[:at[number]]]
    again = ", where it has been before: it has come to a switch twice" if switch in been else ""
    return f"packet {number} goes from {here.rpartition(':')[0]} to {switch}{again}"


# ---- an event that can't happen

def why_no_run(explainer: Explainer) -> None:
    """Says why the event of a line can't happen: what stood before it, as the program says, and what would be right."""
    number = int(explainer.first.rpartition(" ")[2])
    name = "INPUT" if explainer.run.command.name == "drive" else "SCHEDULE"
    found = explainer.run.files[name]
    lines = Text(found.shown, read_bytes(found.real)).text.split("\n")
    line, before = lines[number - 1], "".join(f"{one}\n" for one in lines[:number - 1])
    why = (start_refused if name == "INPUT" else event_refused)(explainer, line, before)
    explainer.voice.refuse(
        f"{found.shown}, line {number}: `{line}` can't happen here{': ' + why if why else ''}",
        [
            f"the lines before it are a run: `{'tables' if is_turned(lines) else 'replay'}` says how far it came"
            if name == "SCHEDULE"
            else (
                "a line `start` may stand only where no round runs, one is left, and each switch with changes in it has"
                " said HELLO"
            )
        ],
    )


def is_turned(lines: Sequence[str]) -> bool:
    """Whether a schedule has lines that turn rounds, of which `replay` knows nothing."""
    return any(re.match("(back|undo)( |$)", line) for line in lines)


class Turning:
    """How far a run is in which rounds are turned: how many are settled, the way of the running one, `start` or
    `back`, or None, and which of its changes are in force. Of packets it knows nothing."""

    def __init__(self, rounds: Sequence[Sequence[Any]], lines: Sequence[str]) -> None:
        self.rounds, self.settled, self.way = rounds, 0, ""
        self.made: set[int] = set()
        for line in lines:
            self.follow(line.split())

    def follow(self, words: Sequence[str]) -> None:
        """Takes an event that can happen."""
        if words[:1] == ["start"]:
            self.way, self.made = "start", set()
        elif words[:1] == ["back"] and not self.way:
            self.settled, self.made = self.settled - 1, set(range(len(self.rounds[self.settled - 1])))
            self.way = "back"
        elif words[:1] == ["back"]:
            self.way = "back"
        elif words[:1] == ["change"]:
            self.made.add(int(words[1]))
        elif words[:1] == ["undo"]:
            self.made.discard(int(words[1]))
        elif words[:1] == ["settle"]:
            self.settled, self.way = self.settled + (self.way == "start"), ""

    def why_not(self, words: Sequence[str]) -> str:
        """Why an event can't happen, or none."""
        number, count = self.settled + 1, len(self.rounds)
        if words[0] == "back" and self.way:
            return f"round {number} is being undone already"
        if words[0] == "back":
            return "" if self.settled else "no round is settled"
        if words[0] == "start" and self.way:
            doing = "running" if self.way == "start" else "being undone"
            return f"round {number} is {doing}, and has to be settled first"
        if words[0] == "start":
            return f"all {count} rounds are settled" if self.settled == count else ""
        if not self.way:
            return "no round is running"
        return self.why_not_settled(number) if words[0] == "settle" else self.why_not_made(number, *words)

    def why_not_settled(self, number: int) -> str:
        is_onward = self.way == "start"
        left = sorted(set(range(len(self.rounds[self.settled]))) - self.made if is_onward else self.made)
        told = f"change{'s' if len(left) > 1 else ''} {', '.join(map(str, left[:8]))} of round {number}"
        return f"{told} {'are' if len(left) > 1 else 'is'} {'pending' if is_onward else 'in force'}"

    def why_not_made(self, number: int, word: str, change: str) -> str:
        changes = self.rounds[self.settled]
        if int(change) >= len(changes):
            return f"round {number} has {counted(len(changes), 'change')}, numbered from 0"
        if word == "undo" and self.way == "start":
            return f"round {number} isn't being undone: `back` has to stand before"
        return "this change isn't in force" if word == "undo" else "this change is made already"


def event_refused(explainer: Explainer, line: str, before: str) -> str:
    """Why an event of a schedule can't happen, or none."""
    net, plan = explainer.network(), explainer.json("PLAN")
    if plan is not None and is_turned([*before.split("\n"), line]):
        is_of_rounds = line.split()[0] in ("start", "back", "change", "undo", "settle")
        rounds = Changes(nets.plain(plan.root)).rounds
        return Turning(rounds, before.split("\n")).why_not(line.split()) if is_of_rounds else ""
    status, text = replayed(explainer, before)
    if status != 0 or net is None or plan is None:
        return ""
    packets, state = traces(text), re.fullmatch(r"(settled|running) (\d+) of (\d+)", text.splitlines()[-1])
    assert state is not None
    is_running, number, count = state[1] == "running", int(state[2]), int(state[3])
    changes = Changes(nets.plain(plan.root)).rounds[number - 1] if is_running else []
    made = [int(one.split()[1]) for one in before.rpartition("start\n")[2].splitlines() if one.startswith("change ")]
    words = line.split()
    if words[0] == "start":
        if is_running:
            return f"round {number} is running, and has to be settled first"
        if number == count:
            return f"all {count} rounds are settled"
        late = [str(one) for one, it in enumerate(packets) if it[1] == "under way" and it[3] < number]
        return (
            f"packet{'s' if len(late) > 1 else ''} {', '.join(late[:8])} entered before round {number} was settled, and"
            f" {'are' if len(late) > 1 else 'is'} still under way"
        )
    if words[0] == "change" and is_running:
        one = int(words[1])
        if one >= len(changes):
            return f"round {number} has {counted(len(changes), 'change')}, numbered from 0"
        return (
            "this change is made already"
            if one in made
            else f"it doesn't fit the table that {changes[one][1]['switch']} has then"
        )
    if words[0] == "settle" and is_running:
        left = [str(one) for one in range(len(changes)) if one not in made]
        return (
            f"change{'s' if len(left) > 1 else ''} {', '.join(left[:8])} of round"
            f" {number} {'are' if len(left) > 1 else 'is'} pending"
        )
    if words[0] in ("change", "settle"):
        return "no round is running"
    if words[0] == "enter":
        vlans = [str(one) for one in net.vlans]
        return (
            f"{words[1]} is no host port"
            if words[1] not in net.hosts
            else f"the VLAN {words[2]} isn't declared"
            if words[2] not in vlans
            else ""
        )
    one = int(words[1])
    if one >= len(packets):
        return f"so far {counted(len(packets), 'packet')} entered, numbered from 0"
    how = {"lost": "is lost", "left": "has left"}.get(packets[one][1], "was dropped")
    return f"packet {one} {how} already"


def start_refused(explainer: Explainer, _: str, before: str) -> str:
    """Why a start is refused by the driver, or none."""
    files = [explainer.run.files[word].real for word in ("TOPO", "OLD", "NEW", "POLICY", "PLAN")]
    with tempfile.NamedTemporaryFile("w", suffix=".input", encoding="utf-8", errors="surrogateescape") as file:
        file.write(before)
        file.flush()
        status, text = explainer.run.ask("drive", *files, file.name)
    state = re.search(r"# (settled|running) (\d+) of (\d+)\n$", text)
    plan = explainer.json("PLAN")
    if status != 0 or not state or plan is None:
        return ""
    if state[1] == "running":
        return f"round {state[2]} is running: not all of its switches have answered"
    if state[2] == state[3]:
        return f"all {state[3]} rounds are settled"
    failed = re.findall(r"^# failed (\S+) (.*)$", text, re.M)
    switches = sorted({rule["switch"] for _, rule in Changes(nets.plain(plan.root)).rounds[int(state[2])]})
    hello = [name for name in switches if not re.search(rf"^feed {re.escape(name)} ", before, re.M)]
    gone = [f"{name} ({cause})" for name, cause in failed if name in switches]
    if gone:
        return f"the session with {', '.join(gone)} has failed, and it has changes in round {int(state[2]) + 1}"
    return (
        f"{', '.join(hello or switches)} {'has' if len(hello or switches) == 1 else 'have'} changes in round"
        f" {int(state[2]) + 1} and no open session: no HELLO came"
    )

