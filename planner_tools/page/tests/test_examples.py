"""The pages of the examples and of a ring: what they show in each round."""
import os
import unittest

import networks
from common import PagesInBrowser

EXAMPLES = os.path.join(networks.ROOT, "examples")


def paths(name, plan="plan.json"):
    return [os.path.join(EXAMPLES, name, f"{it}.json") for it in networks.FILES] + [os.path.join(EXAMPLES, name, plan)]


def neighbour(topology, switch, port):
    """Says what is at a port."""
    links = [tuple(link) for link in topology["links"]]
    ends = dict(links) | {other: one for one, other in links}
    place = f"{switch}:{port}"
    return "hosts" if place in topology["hosts"] else ends[place].rpartition(":")[0]


def change_words(what, rule, topology):
    """Says a change as the page does, from the rule in the plan's file."""
    packets = ", ".join(
        [rule["dst"]]
        + ([f"from port {rule['in_port']}"] if "in_port" in rule else [])
        + ([rule["vlan"] if rule["vlan"] == "untagged" else f"VLAN {rule['vlan']}"] if "vlan" in rule else [])
    )
    action = (
        "drop" if rule["out"] == "drop" else f"port {rule['out']} to {neighbour(topology, rule['switch'], rule['out'])}"
    )
    if "set" in rule:
        action = f"set VLAN {rule['set']}, {action}"
    return (
        f"{rule['switch']} {what} {packets} -> {'strip the tag, ' if 'strip' in rule else ''}{action} (priority"
        f" {rule['priority']})"
    )


class Examples(PagesInBrowser):
    def check_changes(self, changes, topology):
        """Up to eight changes stand one by one, and more of them by switches."""
        if len(changes) > 8:
            self.tab.value("view.list.unfold()")
            names = [one["name"] for one in topology["switches"]]
            changes = sorted(changes, key=lambda change: names.index(change[1]["switch"]))
            self.assertEqual(len({rule["switch"] for _, rule in changes}), len(self.text("#changes details")))
            shown = self.tab.value(
                "[...document.querySelectorAll('#changes li')].map((it) => `${it.closest('details').dataset.switch}"
                " ${it.textContent}`)"
            )
        else:
            shown = self.text("#changes li")
        self.assertEqual([change_words(what, rule, topology) for what, rule in changes], shown)

    def check_rounds(self, files):
        """In each round the page shows its changes, finds no walk that the policy forbids for any class, and shows
        numbers that fall along each step."""
        self.open(*files)
        topology, plan = networks.read(files[0]), networks.read(files[4])
        self.assertIn(self.ask("check", *files)[1].strip(), self.seen("#verdict"))
        for number, changes in enumerate(plan["rounds"], 1):
            self.go(number)
            self.assertEqual(f"round {number} of {len(plan['rounds'])}", self.seen("#position"))
            self.check_changes([(what, plan["rules"][rule]) for what, rule in changes], topology)
            changing = {plan["rules"][rule]["switch"] for _, rule in changes}
            marked = self.tab.value(
                "[...document.querySelectorAll('#nodes .switch')].filter((it) =>"
                " it.textContent.includes('changes')).map((it) => it.dataset.switch)"
            )
            self.assertEqual(changing, set(marked))
            wrong = self.tab.value("""view.order.filter((number) => { view.choose({ class: number });
                return view.shown.bad || document.querySelector('#steps .wrong') || !document.querySelector('#steps [data-what]'); })""")
            self.assertEqual([], wrong)
        self.go(len(plan["rounds"]) + 1)
        self.assertEqual("after the update", self.seen("#position"))

    def test_each_round_of_the_square_network(self):
        self.check_rounds(paths("square"))

    def test_each_round_of_the_detour_network(self):
        self.check_rounds(paths("detour"))

    def test_each_round_of_the_leaf_and_spine_network(self):
        self.check_rounds(paths("leaf-spine"))

    def test_each_round_of_a_ring_of_32(self):
        files = self.files(networks.ring(32))
        plan = self.plan(files)
        path = self.open(*files, plan)
        self.assertLess(os.path.getsize(path), 5 << 20)
        rounds = networks.read(plan)["rounds"]
        self.assertEqual(124, len(rounds))
        worst = self.tab.value("""(() => { let worst = 0; for (let round = 0; round <= 125; round++) { const from = performance.now(); view.go(round);
            document.body.offsetHeight; worst = Math.max(worst, performance.now() - from); } return worst; })()""")
        self.assertLess(worst, 1000)
        topology, rules = networks.read(files[0]), networks.read(plan)["rules"]
        for number in range(1, 125, 11):
            self.go(number)
            self.check_changes([(what, rules[rule]) for what, rule in rounds[number - 1]], topology)
            self.tab.value("document.getElementById('touched').click()")
            self.assertEqual(1, len(self.text("#steps .old")))
            self.assertEqual(1, len(self.text("#steps .new")))
            self.assertEqual([], self.text("#steps .wrong"))

    def test_the_network_and_its_numbers_are_drawn(self):
        self.open(*paths("square"), hash="#round=2&class=4")
        self.assertEqual(
            ["s1", "s2", "s3", "s4"],
            self.tab.value("[...document.querySelectorAll('#nodes .switch')].map((it) => it.dataset.switch)"),
        )
        self.assertEqual(["1", "3", "2", "0"], self.text("#nodes .number"))
        self.assertEqual(
            {
                "s1:1", "s1:2", "s1:3", "s1:4", "s2:1", "s2:2", "s2:3", "s3:1", "s3:2", "s3:3", "s3:4", "s4:1", "s4:2",
                "s4:3",
            },
            set(self.tab.value("[...document.querySelectorAll('#ports .port')].map((it) => it.dataset.port)")),
        )
        self.assertEqual(
            ["s1:1", "s2:3", "s3:4", "s4:3"],
            self.tab.value("[...document.querySelectorAll('.host')].map((it) => it.dataset.host)"),
        )
        self.assertEqual(
            [
                "s2 (3) → s3 (2)", "s3 (2) → s4 (0) before its change", "s3 (2) → s1 (1) after its change",
                "s4 (0) leaves at port 3", "s1 (1) → s4 (0)",
            ],
            self.text("#steps li"),
        )
        self.assertEqual(["s2 s3 s4, leaves at s4:3"], self.text("#oldpath"))
        self.assertEqual(["s2 s3 s1 s4, leaves at s4:3"], self.text("#newpath"))
        self.assertEqual(
            [
                "priority", "packets", "before round 2", "after round 2", "100", "10.0.0.0/24", "port 2 to s4",
                "port 3 to s1",
            ],
            self.text("#table th, #table td"),
        )

    def test_keys_move_the_slider_and_a_click_chooses_a_switch(self):
        self.open(*paths("square"))
        self.assertEqual("round 1 of 2", self.seen("#position"))
        press = "document.dispatchEvent(new KeyboardEvent('keydown', { key: %r, bubbles: true }))"
        for key, shown in (
            ("ArrowRight", "round 2 of 2"), ("ArrowRight", "after the update"), ("ArrowRight", "after the update"),
            ("ArrowLeft", "round 2 of 2"),
        ):
            self.tab.value(press.replace("document.", "document.body.") % key)
            self.assertEqual(shown, self.seen("#position"))
        self.tab.value(
            "document.querySelector('[data-switch=s2] rect').dispatchEvent(new MouseEvent('click', { bubbles: true }))"
        )
        self.assertIn("Rules of s2", self.seen("#table h2"))

    def test_classes_with_a_demand_stand_first(self):
        self.open(*paths("square"))
        labels = self.tab.value("[...document.querySelectorAll('#class optgroup')].map((it) => it.label)")
        self.assertEqual(["with a demand", "without a demand"], labels)
        self.assertEqual(
            ["s1:1 untagged to 10.0.0.0/24", "s2:3 untagged to 10.0.0.0/24", "s3:4 untagged to 10.0.0.0/24"],
            self.text("#class optgroup:first-child option"),
        )

    def test_tags_and_waypoints_of_the_detour_network(self):
        self.open(*paths("detour"))
        self.go(2, packets="s:1 untagged to 10.0.0.0/24")
        steps = self.text("#steps li")
        self.assertIn("s → y [tag 3000, new rules] after its change", steps)
        self.assertIn("s → x [untagged, old rules] before its change", steps)
        self.assertIn("d leaves at port 3, untagged", steps)
        self.assertIn("tag 3000", self.text("#picture .tag"))
        self.assertIn("waypoint", self.tab.value("document.querySelector('[data-switch=w]').textContent"))
        self.assertNotIn("waypoint", self.tab.value("document.querySelector('[data-switch=x]').textContent"))

    def test_the_page_says_that_the_picture_does_not_count(self):
        self.open(*paths("square"))
        self.assertIn("What counts is the planner's line", self.seen("footer"))

    def test_nothing_is_cut_off_at_1280_by_800(self):
        for name in ("square", "detour", "leaf-spine"):
            self.open(*paths(name))
            self.assertLessEqual(self.tab.value("document.documentElement.scrollWidth"), 1280)
            self.assertLessEqual(
                self.tab.value("document.querySelector('#picture').getBoundingClientRect().bottom"), 800
            )

    def test_a_file_name_is_only_a_text(self):
        files = paths("square")
        name = networks.write(self.folder, "<b id=evil>.json", networks.read(files[4]))
        self.open(*files[:4], name)
        self.assertEqual([], self.text("#evil"))
        self.assertIn("<b id=evil>.json", self.seen("#verdict"))


if __name__ == "__main__":
    unittest.main()
