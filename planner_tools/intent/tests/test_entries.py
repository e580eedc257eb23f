"""Tests of `planner show` of two configurations: which entries differ. PLANNER names the program."""
import json
import unittest

from networks import EXAMPLES, Folder, changed, front, planner, some, wild


def key(rule):
    return rule["switch"], rule["priority"], rule.get("in_port", "any"), rule.get("vlan", "any"), rule["dst"]


class Entries(unittest.TestCase):
    def test_they_lead_from_the_one_to_the_other(self):
        for seed in range(12):
            with self.subTest(seed):
                chance, net = some(seed)
                old = wild(chance, net)
                new = changed(chance, net, old)
                folder = Folder(self, topology=net, old=old, new=new)
                status, text, said = front("show", folder.path, "old.json", "new.json", "--json")
                self.assertEqual((status, said), (0, ""))
                found, table = json.loads(text), {key(rule): rule["out"] for rule in old["rules"]}
                for one in found["changes"]:
                    self.assertEqual(one["do"] != "insert", key(one["rule"]) in table)
                    self.assertEqual(
                        table.get(key(one["rule"])), one["before"]["out"] if one["before"] is not None else None
                    )
                    if one["do"] == "delete":
                        del table[key(one["rule"])]
                    else:
                        self.assertNotEqual(table.get(key(one["rule"])), one["rule"]["out"])
                        table[key(one["rule"])] = one["rule"]["out"]
                self.assertEqual(table, {key(rule): rule["out"] for rule in new["rules"]})
                self.assertEqual(sum(found["counts"].values()), len(found["changes"]))
                self.assertEqual(
                    found["same"] + found["counts"]["insert"] + found["counts"]["replace"], len(new["rules"])
                )

    def test_the_square_in_words(self):
        square = EXAMPLES / "square"
        status, text, said = planner("show", square, "old.json", "new.json")
        self.assertEqual((status, said), (0, ""))
        self.assertEqual(
            text.splitlines(),
            [
                (
                    f"{square}/old.json to {square}/new.json: 2 entries differ at 2 switches: 0 new, 2 changed, 0"
                    " deleted; 2 as before"
                ),
                "", "s1: 1 entry", "  10.0.0.0/24 to s4 (port 4), was s2 (port 2)", "", "s3: 1 entry",
                "  10.0.0.0/24 to s1 (port 3), was s4 (port 2)",
            ],
        )

    def test_three_configurations_are_refused(self):
        square = EXAMPLES / "square"
        self.assertEqual(planner("show", square, "old.json", "new.json", "old.json")[:2], (3, ""))


if __name__ == "__main__":
    unittest.main()
