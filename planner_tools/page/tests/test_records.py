"""The record of an update in place of a schedule: its events are those that `planner drive` says."""
import json
import os
import re

import networks
from common import Pages

SQUARE = [os.path.join(networks.ROOT, "examples", "square", f"{name}.json") for name in networks.FILES] + [
    os.path.join(networks.ROOT, "examples", "square", "plan.json")
]


class Records(Pages):
    def test_a_record_is_played_as_the_events_that_drive_says(self):
        lines = [f"feed {name} 0100000800000000" for name in ("s1", "s2", "s3", "s4")]
        begun = None
        for line in self.ask("emit", SQUARE[0], SQUARE[4])[1].splitlines():
            number, name, data = line.split()
            lines += ["start"] if number != begun else []
            begun = number
            lines += [f"feed {name} 01130008{data[8:16]}"] if data.startswith("0112") else []
        record = networks.write(self.folder, "update", "".join(f"{line}\n" for line in lines))
        path, said = self.page(*SQUARE, "--schedule", record)
        with open(path, encoding="utf-8") as file:
            values = json.loads(re.search(r'"schedule":(\{.*?\})[,}]', file.read())[1])
        events = [line for line in self.ask("drive", *SQUARE, record)[1].splitlines() if not line.startswith("# sent ")]
        self.assertEqual((values["name"], values["lines"], values["run"], said), (record, events, True, ""))
        self.assertEqual(events, ["start", "change 0", "settle"] * 2 + ["# settled 2 of 2"])

    def test_a_record_with_a_session_that_was_opened_anew_is_played_and_one_that_was_turned_back_is_refused(self):
        hello = "0100000800000000"
        lines = [
            *(f"feed {name} {hello}" for name in ("s1", "s2", "s3", "s4")), "start", "reopen s1", f"feed s1 {hello}",
            "feed s1 0113000800000002",
        ]
        record = networks.write(self.folder, "update", "".join(f"{line}\n" for line in lines))
        path, said = self.page(*SQUARE, "--schedule", record)
        with open(path, encoding="utf-8") as file:
            values = json.loads(re.search(r'"schedule":(\{.*?\})[,}]', file.read())[1])
        self.assertEqual(
            (values["lines"], values["run"], said), (["start", "change 0", "settle", "# settled 1 of 2"], True, "")
        )
        record = networks.write(self.folder, "update", "".join(f"{line}\n" for line in [*lines, "back"]))
        _, said = self.page(*SQUARE, "--schedule", record, status=1)
        self.assertIn("is of an update that was turned back: its events are no schedule", said)

    def test_a_record_of_another_update_is_refused_by_the_line_of_drive(self):
        record = networks.write(self.folder, "update", "feed s9 0100000800000000\n")
        _, said = self.page(*SQUARE, "--schedule", record, status=3)
        self.assertIn("bad input: 1 BadLine at 1", said)
