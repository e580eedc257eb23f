"""Where a refused plan goes wrong, by the checks of docs/FORMATS.md in their order; those of the other formats are in
faults.py."""
from __future__ import annotations

from planner_tools.faults import KIND_WORDS, PREFIX_WORDS, VLAN_TEST_WORDS, Fault, Rules, prefix_words
from planner_tools.files import did_you_mean
from planner_tools.members import MEMBERS
from planner_tools.network import LAST_PORT, LAST_VLAN, prefix

TYPE_CHECKING = False
if TYPE_CHECKING:
    from typing import Any, Callable, Generator, Iterator, Sequence

    from planner_tools.files import Value

# The greatest place that the program tells.
PLACES_END = 4294967295


class Plan(Rules):
    def faults(self) -> Iterator[Fault]:
        root = self.json.root
        known = MEMBERS["plan"]
        bad = self.of_kind(root, (), 0, "format", ["whole"], "1 or 2", known)
        if bad:
            yield bad
            return
        self.format = root.member("format").whole()
        if self.format not in (1, 2):
            yield Fault("BadFormat", "", 0, ("format",), "the formats of plans are 1 and 2", "2")
            return
        bad = self.of_kind(root, (), 0, "kind", ["ordered", "two-phase"], "`ordered` or `two-phase`", known)
        if bad:
            yield bad
            return
        self.kind, self.change = root.member("kind").held, 0
        if self.format == 2:
            yield from self.plan_rules(known)
        yield from self.rounds("rounds", known)
        yield from self.ordered(known) if self.kind == "ordered" else self.two_phase(known)

    def plan_rules(self, known: Sequence[str]) -> Iterator[Fault]:
        items, fault = self.list_at("rules", known)
        if fault:
            yield fault
            return
        for number, item in enumerate(items):
            way = ("rules", number)
            if item.kind != "object":
                yield Fault("Shape", "rules", number, way, f"it is {KIND_WORDS[item.kind]}", "an object: a rule")
                continue
            yield from self.plan_rule(item, way, number, MEMBERS["plan rule"])

    def plan_rule(self, item: Value, way: Sequence[int | str], place: int, known: Sequence[str]) -> Iterator[Fault]:
        place = min(place, PLACES_END)
        yield from self.rule(item, way, place, known)
        for name, kinds, right, default in (
            ("priority", ["whole"], "a whole number from 1 to 65535", False),
            ("in_port", ["whole", "any"], "the number of a port, or `any`", True),
            ("vlan", ["whole", "untagged", "any"], VLAN_TEST_WORDS, True), ("dst", ["text"], PREFIX_WORDS, False),
            ("out", ["whole", "drop"], "the number of a port, or `drop`", False),
            ("set", ["whole"], f"a VLAN id from 1 to {LAST_VLAN}", True),
        ):
            bad = self.of_kind(item, way, place, name, kinds, right, known, default)
            if bad:
                yield bad
        strip = item.member("strip")
        if strip is not None and strip.held is not True:
            yield Fault("Shape", "strip", place, (*way, "strip"), "it isn't true", "true, or no member `strip`")
        yield from self.ranges(item, way, place)

    def ranges(self, item: Value, way: Sequence[int | str], place: int) -> Iterator[Fault]:
        """Where a part of a rule is out of its range."""
        for name, last, what in (
            ("priority", 65535, "a priority"), ("in_port", LAST_PORT, "a port number"),
            ("vlan", LAST_VLAN, "a VLAN id"), ("out", LAST_PORT, "a port number"), ("set", LAST_VLAN, "a VLAN id"),
        ):
            value = item.member(name)
            number = value.whole() if value is not None else None
            if number is not None and not 1 <= number <= last:
                yield Fault(
                    "BadRule", "", place, (*way, name), f"{what} is 1 to {last}", f"a whole number from 1 to {last}"
                )
        dst, out = item.member("dst"), item.member("out")
        if dst is not None and dst.kind == "text" and prefix(dst.held) is None:
            yield Fault("BadRule", "", place, (*way, "dst"), *prefix_words(dst.held))
        rewrites = [name for name in ("set", "strip") if item.member(name) is not None]
        if len(rewrites) == 2:
            yield Fault("BadRule", "", place, way, "both `set` and `strip` are there", "one of them")
        elif rewrites and out is not None and out.held == "drop":
            yield Fault(
                "BadRule", "", place, (*way, rewrites[0]), f"`{rewrites[0]}` stands beside `drop`",
                "a rule that drops rewrites nothing",
            )

    def rounds(self, name: str, known: Sequence[str]) -> Iterator[Fault]:
        items, fault = self.list_at(name, known)
        most = 4200 if name == "rounds" else 4096
        if fault:
            yield fault
            return
        if len(items) > most:
            yield Fault("TooMany", name, 0, (name,), f"it has {len(items)} rounds", f"at most {most} rounds")
        rules = self.json.root.member("rules")
        count = len(rules.items()) if rules is not None else 0
        for number, round_ in enumerate(items):
            if round_.kind != "list":
                yield Fault(
                    "Shape", name, number, (name, number),
                    f"a round is a list of changes, and this is {KIND_WORDS[round_.kind]}", "[ .. ]",
                )
                continue
            for at, change in enumerate(round_.held):
                yield from self.one_change(change, (name, number, at), name, count)
                self.change += 1

    def one_change(self, change: Value, way: tuple[str, int, int], name: str, count: int) -> Iterator[Fault]:
        place = min(self.change, PLACES_END)
        if self.format == 1:
            if change.kind != "object":
                yield Fault(
                    "Shape", name, place, way, f"a change is an object, and this is {KIND_WORDS[change.kind]}",
                    "an object with `do` and the members of a rule",
                )
                return
            bad = self.of_kind(
                change, way, place, "do", ["insert", "delete", "replace"], "`insert`, `delete` or `replace`",
                MEMBERS["change"],
            )
            if bad:
                yield bad
            yield from self.plan_rule(change, way, place, MEMBERS["change"])
            return
        parts = change.items()
        if (
            len(parts) != 2
            or parts[0].kind != "text"
            or parts[0].held not in ("insert", "delete", "replace")
            or parts[1].whole() is None
        ):
            guess = (
                did_you_mean(parts[0].held, ["insert", "delete", "replace"])
                if parts and parts[0].kind == "text" and parts[0].held not in ("insert", "delete", "replace")
                else ""
            )
            yield Fault(
                "Shape", name, place, way, f"it is no pair of a word and the number of a rule{guess}",
                '["insert", 0], with `insert`, `delete` or `replace`',
            )
        elif parts[1].whole() >= count:
            yield Fault(
                "BadIndex", "", place, (*way, 1), f"no rule has the number {parts[1].whole()}",
                f"`rules` has {count} rules, numbered from 0",
            )

    def ordered(self, known: Sequence[str]) -> Iterator[Fault]:
        switches = len(self.network.names)
        numberings = yield from self.table(
            "numberings", known,
            lambda one: one.kind == "list"
            and len(one.held) == switches
            and all((it.whole() or 0) <= 65535 and it.whole() is not None for it in one.held),
            f"a list of {switches} whole numbers from 0 to 65535, one a switch",
        )
        befores = yield from self.table(
            "befores", known, lambda one: one.kind == "list" and all(it.whole() is not None for it in one.held),
            "a list of numbers of switches",
        )
        for number, one in enumerate(befores):
            numbers = [it.whole() for it in one.items()]
            if None not in numbers and (
                any(it >= switches for it in numbers) or any(a >= b for a, b in zip(numbers, numbers[1:]))
            ):
                yield Fault(
                    "BadIndex", "", number, ("befores", number), "a number is that of no switch, or they don't ascend",
                    f"ascending numbers of switches, 0 to {switches - 1}",
                )
        sizes = {"numberings": len(numberings), "befores": len(befores)}
        if self.format == 2:
            uses = yield from self.table(
                "uses", known, lambda one: is_pair_with_list(one),
                "the number of a numbering, and a list of numbers of before sets",
            )
            for number, one in enumerate(uses):
                if is_pair_with_list(one) and (
                    one.held[0].whole() >= sizes["numberings"]
                    or any(it.whole() >= sizes["befores"] for it in one.held[1].held)
                ):
                    yield Fault(
                        "BadIndex", "", number, ("uses", number),
                        "a number is that of no numbering or of no before set",
                        (
                            f"`numberings` has {sizes['numberings']} items and `befores` {sizes['befores']}, numbered"
                            " from 0"
                        ),
                    )
            sizes["uses"] = len(uses)
        yield from self.picks(known, sizes)

    def picks(self, known: Sequence[str], sizes: dict[str, int]) -> Iterator[Fault]:
        length = {"ordered": 4 if self.format == 1 else 3, "two-phase": 2}[self.kind]
        right = {
            4: "a round, a class, the number of a numbering, and a list of numbers of before sets",
            3: "a round, a class, and the number of a use", 2: "a round, and the number of a label table",
        }[length]
        picks = yield from self.table(
            "picks", known,
            lambda one: one.kind == "list"
            and len(one.held) == length
            and all(it.whole() is not None for it in one.held[:3])
            and (length < 4 or one.held[3].kind == "list" and all(it.whole() is not None for it in one.held[3].held)),
            right,
        )
        listed = self.json.root.member("rounds")
        rounds = len(listed.items()) if listed is not None else 0
        last = None
        for number, one in enumerate(picks):
            numbers = [it.whole() for it in one.items()]
            if len(numbers) != length or None in numbers[:3]:
                continue
            what = index_fault(numbers, one, length, rounds, sizes)
            key = tuple(numbers[:1] if length == 2 else numbers[:2])
            if what is None and last is not None and key <= last:
                what = "the picks don't ascend by round" + ("" if length == 2 else " and then class")
            if what:
                yield Fault("BadIndex", "", number, ("picks", number), what, right)
            last = key

    def table(
        self, name: str, known: Sequence[str], is_good: Callable[..., Any], right: str
    ) -> Generator[Fault, None, list[Value]]:
        """The items of a list of evidence; the faults of those that aren't of the right form come first."""
        items, fault = self.list_at(name, known)
        if fault:
            yield fault
            return []
        for number, one in enumerate(items):
            if not is_good(one):
                yield Fault("Shape", name, number, (name, number), "it isn't of the right form", right)
        return items

    def two_phase(self, known: Sequence[str]) -> Iterator[Any]:
        right = "lists of [VLAN, `old` or `new`, the user's VLAN], the VLANs ascending, untagged first"
        labels = yield from self.table(
            "labels", known, lambda one: one.kind == "list" and all(is_label(it) for it in one.held), right
        )
        for number, one in enumerate(labels):
            vlans = [-1 if it.held[0].held == "untagged" else it.held[0].whole() for it in one.items() if is_label(it)]
            if any(a >= b for a, b in zip(vlans, vlans[1:])):
                yield Fault("BadIndex", "", number, ("labels", number), "the VLANs don't ascend", right)
        yield from self.picks(known, {"labels": len(labels)})
        yield from self.rounds("tried", known)


def is_pair_with_list(one: Value) -> bool:
    return (one.kind == "list" and len(one.held) == 2 and one.held[0].whole() is not None and one.held[1].kind == "list"
            and all(it.whole() is not None for it in one.held[1].held))


def is_label(one: Value) -> bool:
    def is_vlan(it: Any) -> bool:
        return it.whole() is not None or it.held == "untagged"
    return (
        one.kind == "list"
        and len(one.held) == 3
        and is_vlan(one.held[0])
        and one.held[1].held in ("old", "new")
        and is_vlan(one.held[2])
    )


def index_fault(numbers: Sequence[int], one: Value, length: int, rounds: int, sizes: dict[str, int]) -> str | None:
    """What is wrong with the numbers of a pick, or None."""
    if not 1 <= numbers[0] <= rounds:
        return f"no round has the number {numbers[0]}: they are 1 to {rounds}"
    if length > 2 and numbers[1] > 8191:
        return f"the class {numbers[1]} is above 8191"
    name, number = {4: ("numberings", 2), 3: ("uses", 2), 2: ("labels", 1)}[length]
    if numbers[number] >= sizes.get(name, 0):
        return f"`{name}` has no item {numbers[number]}: they are numbered from 0, and there are {sizes.get(name, 0)}"
    if length == 4 and any(it.whole() >= sizes["befores"] for it in one.held[3].held):
        return f"`befores` has no such item: they are numbered from 0, and there are {sizes['befores']}"
    return None
