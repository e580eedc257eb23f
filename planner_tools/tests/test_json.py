"""`--json`: the object that each command writes is one of the schema in docs/FRONT_END.md, and has what is written and
said without it. PLANNER names the program."""
import io
import json
import os
import re
import sys
import tempfile
import unittest

import rows
import test_front

sys.path.insert(0, rows.ROOT)
from planner_tools import answers, report  # noqa: E402
from planner_tools.files import Json  # noqa: E402
from planner_tools.voice import Voice  # noqa: E402
from planner_tools.words import PROVED  # noqa: E402

TYPES = {"object": dict, "array": list, "string": str, "integer": int, "null": type(None)}


def schema():
    """The schema in the document."""
    with open(os.path.join(rows.ROOT, "docs", "FRONT_END.md"), encoding="utf-8") as file:
        return json.loads(re.search(r"<!-- schema of answers -->\n```json\n(.*?)```", file.read(), re.S)[1])


def faults(value, one, whole, way="it"):
    """What of a value isn't as a schema wants it, in the words that this document uses."""
    if "$ref" in one:
        return faults(value, whole["$defs"][one["$ref"].removeprefix("#/$defs/")], whole, way)
    if "anyOf" in one:
        return (
            []
            if any(not faults(value, other, whole) for other in one["anyOf"])
            else [f"{way} is none of several: {value!r}"]
        )
    if "const" in one and value != one["const"]:
        return [f"{way} isn't {one['const']}"]
    if "type" in one and (not isinstance(value, TYPES[one["type"]]) or isinstance(value, bool)):
        return [f"{way} is no {one['type']}: {value!r}"]
    found = [f"{way} has no {name}" for name in one.get("required", []) if name not in value]
    if isinstance(value, dict):
        named = one.get("properties", {})
        found += [
            fault
            for name, it in value.items()
            for fault in faults(it, named.get(name, one.get("additionalProperties", {})), whole, f"{way}.{name}")
        ]
    if isinstance(value, list):
        found += [
            fault
            for number, it in enumerate(value)
            for fault in faults(it, one.get("items", {}), whole, f"{way}[{number}]")
        ]
    return found


def told(said):
    """The text that a voice makes of what an object has."""
    stream = io.StringIO()
    voice = Voice(stream)
    for kind, say in (("warnings", voice.warn), ("refusals", voice.refuse), ("notes", voice.note)):
        for one in said[kind]:
            say(one["what"], one["more"])
    return stream.getvalue() + "".join(f"{line}\n" for line in said["said"])


class Answers(unittest.TestCase):
    def object_of(self, *words, **more):
        """The exit status, and the object, which is one of the schema."""
        done = test_front.planner(*words, "--json", **more)
        self.assertEqual(b"", done.stderr)
        value = json.loads(done.stdout)
        self.assertEqual([], faults(value, schema(), schema()))
        self.assertEqual(done.returncode, value["status"])
        return done.returncode, value

    def test_text_and_status_are_the_programs(self):
        for line in test_front.COMMANDS + test_front.SQUARE_COMMANDS:
            with self.subTest(words=line):
                status, value = self.object_of(*line.split())
                direct = test_front.directly(*line.split())
                self.assertEqual(direct.returncode, status)
                self.assertEqual(answers.value_of(line.split()[0], status, direct.stdout.decode()), value["answer"])

    def test_what_is_said_is_in_the_object(self):
        """Of every fourth row of said.txt: with `--json` and without."""
        found = [row for row in rows.read(os.path.join(rows.HERE, "said.txt")) if "--json" not in row.words][::4]
        with tempfile.TemporaryDirectory(prefix="planner-tests-") as room:
            for row in found:
                with self.subTest(row.title), tempfile.TemporaryDirectory(dir=room) as folder:
                    row.prepare(folder)
                    plain, words = row.run(rows.FRONT_END, folder), row.words
                    row.words = [*words, "--json"]
                    status, text, said = row.run(rows.FRONT_END, folder)
                    value = json.loads(text)
                    self.assertEqual(("", []), (said, faults(value, schema(), schema())))
                    self.assertEqual(sorted(plain[2].splitlines()), sorted(told(value).splitlines()))
                    self.assertEqual((plain[0], plain[0]), (status, value["status"]))

    def test_a_reason_has_its_parts(self):
        for words, verdict, reason, named in [
            (
                "check . plan-at-once.json", "refused", {"name": "NotLower", "number": 7, "round": 1, "switch": "s3"},
                {"from": "s1:1", "vlan": "untagged", "address": "10.0.0.0"},
            ),
            (
                "config topology.json policy.json", "bad file",
                {"file": "config", "number": 2, "name": "Shape", "field": "rules", "place": 0}, None,
            ),
            (
                "trace topology.json old.json s1:9 untagged 10.0.0.1", "no entry",
                {"name": "NoEntry", "entry": "s1:9", "vlan": "untagged"}, None,
            ),
            ("check .", "accepted", None, None), ("explain . plan-at-once.json", "run", None, None),
            ("explain .", "no run", None, None),
        ]:
            with self.subTest(words):
                _, value = self.object_of(*words.split())
                self.assertEqual(verdict, value["verdict"])
                got = value["reason"] and {name: it for name, it in value["reason"].items() if name != "sentence"}
                self.assertEqual((reason, named), (got, value["class"]))

    def test_places_name_the_member(self):
        with tempfile.TemporaryDirectory() as folder:
            with open(os.path.join(folder, "bad.json"), "w", encoding="ascii") as file:
                file.write('{"rules": [{"switch": "s1", "priority": 0, "dst": "10.0.0.0/24", "out": 2}]}')
            _, value = self.object_of("config", "topology.json", os.path.join(folder, "bad.json"))
        self.assertEqual(
            ("bad file", "rules[0].priority", 1),
            tuple([value["verdict"], value["places"][0]["member"], value["places"][0]["line"]]),
        )
        text = Json("x", b'{"a": [1, {"b": 2}]}')
        self.assertEqual(["a", "a[1].b", "a[1].b", None], [report.member_at(text, at) for at in (1, 11, 16, 3)])

    def test_paths_have_their_stops(self):
        _, value = self.object_of("trace", "topology.json", "old.json", "s1:1", "untagged", "10.0.0.1")
        self.assertEqual(["s1", "s2", "s3", "s4"], [one["switch"] for one in value["paths"][0]["stops"]])
        self.assertEqual({"how": "left", "switch": "s4", "port": 3, "vlan": "untagged"}, value["paths"][0]["end"])
        _, value = self.object_of("check", ".", "plan-at-once.json")
        self.assertEqual(["old.json", "new.json"], [one["file"] for one in value["paths"]])

    def test_output_goes_into_a_file_where_it_is_yes(self):
        with tempfile.TemporaryDirectory() as folder:
            path = os.path.join(folder, "plan.json")
            status, value = self.object_of("pack", ".", "-o", path)
            self.assertEqual((0, path, None), (status, value["output"], value["answer"]))
            with open(path, "rb") as file:
                self.assertEqual(test_front.directly("pack", *test_front.UPDATE).stdout, file.read())
            status, value = self.object_of("check", ".", "plan-at-once.json", "-o", os.path.join(folder, "no"))
            self.assertEqual((1, None, ["plan.json"]), (status, value["output"], os.listdir(folder)))

    def test_warnings_end_it_with_strict(self):
        folder = os.path.join(test_front.EXAMPLES, "detour")
        status, value = self.object_of("pack", ".", "--strict", folder=folder)
        self.assertEqual((0, []), (status, value["warnings"]))
        status, value = self.object_of(
            "check", "topology.json", "old.json", "new.json", "policy-thru.json", "plan.json", "--strict", folder=folder
        )
        self.assertEqual((3, "warnings"), (status, value["verdict"]))
        self.assertEqual("demands[0].thru", value["warnings"][0]["places"][0]["member"])
        status, value = self.object_of(
            "diff", "topology.json", "old.json", "new.json", "policy-thru.json", "--strict", folder=folder
        )
        self.assertEqual((3, "warnings"), (status, value["verdict"]))

    def test_each_command_that_shows_or_drafts_has_a_usual_run(self):
        with tempfile.TemporaryDirectory() as room:
            place = os.path.join(room, "prefixes")
            with open(place, "w", encoding="ascii") as file:
                file.write("10.0.0.0/24 s4:3\n")
            for words, verdict, members in (
                ("diff .", "done", ("counts", "changes")), ("links .", "done", ("links", "switches")),
                ("show .", "done", ("rounds",)), ("links . --empty s4:3-s4", "wrong words", ()),
                ("links . --empty s3-s4", "used", ()), ("policy .", "done", ()), (f"route . {place}", "done", ()),
                ("page . plan.json", "done", ()), (f"to-ofctl plan.json {room}/scripts", "done", ()),
                (f"from-ofctl topology.json {' '.join(f's{one}=/dev/null' for one in range(1, 5))}", "done", ()),
            ):
                with self.subTest(words):
                    status, value = self.object_of(*words.split())
                    self.assertEqual((verdict, []), (value["verdict"], [one for one in members if one not in value]))
                    if words.split()[0] in ("policy", "route", "from-ofctl"):
                        self.assertEqual([{"policy": "demands"}.get(words.split()[0], "rules")], list(value["answer"]))

    def test_a_command_of_the_front_end_has_the_reason_of_the_program(self):
        with tempfile.TemporaryDirectory() as room:
            bad, loop = os.path.join(room, "bad.json"), os.path.join(room, "loop.json")
            with open(bad, "w", encoding="ascii") as file:
                file.write('{"rules": [{"switch": "s1", "priority": 0, "dst": "10.0.0.0/24", "out": 2}]}')
            with open(loop, "w", encoding="ascii") as file:
                rules = [
                    {"switch": switch, "priority": 1, "dst": "10.0.0.0/24", "out": out}
                    for switch, out in (("s1", 2), ("s2", 2), ("s3", 3))
                ]
                json.dump({"rules": rules}, file)
            for words in (
                f"diff topology.json old.json {bad}", f"links topology.json {bad}", f"show topology.json {bad}",
                f"page topology.json {bad}", f"policy topology.json old.json {bad}",
            ):
                with self.subTest(words):
                    _, value = self.object_of(*words.split())
                    self.assertEqual(
                        ("bad file", "BadPriority", ["rules[0].priority"]),
                        (value["verdict"], value["reason"]["name"], [one["member"] for one in value["places"]]),
                    )
            _, value = self.object_of("policy", "topology.json", "old.json", loop)
            self.assertEqual(
                ("breaks", "Loop", {"from": "s1:1", "vlan": "untagged", "address": "10.0.0.0"}, [loop]),
                (value["verdict"], value["reason"]["name"], value["class"], [one["file"] for one in value["paths"]]),
            )

    def test_no_ordered_plan_is_a_reason(self):
        folder = os.path.join(test_front.EXAMPLES, "detour")
        _, value = self.object_of("pack", ".", "ordered", folder=folder)
        self.assertEqual(("refused", {"name": "NoOrderedPlan"}), (value["verdict"], value["reason"]))

    def test_commands_of_the_front_end(self):
        status, value = self.object_of("show", ".")
        self.assertEqual((0, "done", 2, None), (status, value["verdict"], len(value["rounds"]), value["answer"]))
        status, value = self.object_of("show", "topology.json", "none")
        self.assertEqual((6, "unread"), (status, value["verdict"]))
        status, value = self.object_of("from-mininet", "none")
        self.assertEqual((6, "unread"), (status, value["verdict"]))
        status, value = self.object_of("collect", "topology.json")
        self.assertEqual((2, "wrong words"), (status, value["verdict"]))
        status, value = self.object_of("--version")
        self.assertEqual((0, f"planner {test_front.VERSION}"), (status, value["answer"].splitlines()[0]))
        status, value = self.object_of("check", "--help")
        self.assertEqual(
            (0, next(one.name for one in PROVED if one.name == "check") in value["answer"]), (status, True)
        )


if __name__ == "__main__":
    unittest.main()
