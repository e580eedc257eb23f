"""Rounds of many changes: what is changed where, which packets that concerns, and the steps before and after it."""
import unittest

import networks
from common import PagesInBrowser
from test_examples import change_words, paths


class Rounds(PagesInBrowser):
    def of_update(self, update, hash=""):
        """Opens the page of an update whose changes are all made in one round."""
        files = self.files(update)
        careless = networks.write(self.folder, "at_once.json", networks.at_once(update))
        status, text = self.ask("certify", *files, careless)
        self.assertEqual(0, status, text)
        self.plan_file = networks.write(self.folder, "plan.json", text)
        self.open(*files, self.plan_file, "--layout", "own", hash=hash)
        return networks.read(self.plan_file)

    def groups(self):
        """The groups of changes: what is said of each, and whether it is unfolded."""
        return self.tab.value(
            "[...document.querySelectorAll('#groups details')].map((it) => [it.querySelector('summary').textContent,"
            " it.open])"
        )

    def counted(self):
        """Counts the classes that the round changes to the end."""
        self.tab.value(
            "(() => { view.touched.count(view.position); while (view.touched.at < view.order.length)"
            " view.touched.look(); view.drawWhich(); })()"
        )
        return self.seen("#which")

    def test_a_dozen_of_changes_stands_by_switches(self):
        update = networks.example("leaf-spine")
        plan = self.of_update(update, hash="#round=1")
        self.assertEqual(
            "12 changes at 4 switches: replace. 1 of them changes steps of the chosen packets.", self.seen("#howmany")
        )
        self.assertEqual(
            [
                [f"{name} 3 changes: replace{', 1 for these packets' if name == 'l1' else ''}", True]
                for name in ("l1", "l2", "l3", "l4")
            ],
            self.groups(),
        )
        for name in ("l1", "l2", "l3", "l4"):
            wanted = [
                change_words(what, plan["rules"][at], update.topology).removeprefix(f"{name} ")
                for what, at in plan["rounds"][0]
                if plan["rules"][at]["switch"] == name
            ]
            self.assertEqual(wanted, self.text(f"#groups [data-switch={name}] li"))
        self.assertEqual(1, len(self.text("#groups .mine")))
        self.assertEqual(["1 12 changes at l1 l2 l3 l4: replace"], self.text("#rounds li"))
        self.assertEqual("The only round", self.seen("#rounds h2"))

    def test_switches_that_change_for_others_have_another_colour(self):
        self.of_update(networks.example("leaf-spine"), hash="#round=1")
        fills = self.tab.value(
            "Object.fromEntries([...document.querySelectorAll('#nodes .switch')].map((it) => [it.dataset.switch,"
            " [...it.querySelectorAll('rect')].map((one) => one.getAttribute('fill')).find((one) =>"
            " /mark|node/.test(one))]))"
        )
        self.assertEqual(
            {
                "p1": "var(--node)", "p2": "var(--node)", "l1": "var(--mark)", "l2": "var(--pale-mark)",
                "l3": "var(--pale-mark)", "l4": "var(--pale-mark)",
            },
            fills,
        )
        self.assertIn("3 changes", self.tab.value("document.querySelector('#nodes [data-switch=l3]').textContent"))

    def test_a_long_list_is_folded_but_for_the_chosen_switch(self):
        self.of_update(networks.leaves(12), hash="#round=1")
        self.assertEqual(
            "132 changes at 12 switches: replace. 1 of them changes steps of the chosen packets.", self.seen("#howmany")
        )
        self.assertEqual({"l0"}, {said.split()[0] for said, is_open in self.groups() if is_open})
        self.assertEqual(11, len(self.text("#groups li")))
        self.assertEqual(["1 132 changes at 12 switches: replace"], self.text("#rounds li"))
        self.tab.value(
            "(() => { const one = document.querySelector('#groups [data-switch=l7]'); one.open = true;"
            " one.dispatchEvent(new Event('toggle')); })()"
        )
        self.assertEqual(11, len(self.text("#groups [data-switch=l7] li")))
        self.tab.value("document.querySelector('#groups [data-switch=l11] button').click()")
        self.assertIn("Rules of l11", self.seen("#table h2"))
        self.assertEqual({"l7", "l11"}, {said.split()[0] for said, is_open in self.groups() if is_open} - {"l0"})
        self.tab.value("dispatchEvent(new Event('beforeprint'))")
        self.assertEqual(12, sum(is_open for _, is_open in self.groups()))

    def test_the_classes_that_a_round_changes_are_counted_and_gone_through(self):
        self.of_update(networks.leaves(12), hash="#round=1")
        self.assertEqual("1 of 132", self.counted())
        seen = set()
        for _ in range(132):
            seen.add(self.tab.value("view.class"))
            self.tab.value("document.getElementById('touched').click()")
            self.assertEqual(1, len(self.text("#steps .old")))
        self.assertEqual(132, len(seen))
        self.assertEqual("1 of 132", self.seen("#which"))
        self.tab.value("view.go(2)")
        self.assertEqual("", self.seen("#which"))

    def test_a_click_on_a_change_goes_to_its_packets(self):
        self.of_update(networks.leaves(12), hash="#round=1&switch=l3")
        self.tab.value(
            "[...document.querySelectorAll('#groups [data-switch=l3] .go')].find((it) =>"
            " it.textContent.includes('10.1.5.0')).click()"
        )
        self.assertEqual("Packets l3:1 untagged to 10.1.5.0/24", self.seen("#packetclass h2"))
        self.assertEqual(["replace 10.1.5.0/24 -> port 3 to p2 (priority 100)"], self.text("#groups .mine"))

    def test_steps_before_and_after_at_each_switch(self):
        self.of_update(networks.ladder(6), hash="#round=1")
        self.assertEqual(
            "11 changes at 11 switches: replace. 11 of them change steps of the chosen packets.", self.seen("#howmany")
        )
        rows = self.tab.value(
            "[...document.querySelectorAll('#steps tr')].map((row) => [...row.children].map((it) => it.textContent))"
        )
        number = dict(zip(self.text("#nodes .switch > title"), map(int, self.text("#nodes .number"))))
        self.assertEqual(["at", "before its change", "after it"], rows[0])

        def row(at, before, after):
            return [f"{at} ({number[at]})", f"→ {before} ({number[before]})", f"→ {after} ({number[after]})"]

        wanted = [row("in", "a1", "b1")] + [
            row(f"{one}{i}", f"{one}{i + 1}", f"{other}{i + 1}") for i in range(1, 6) for one, other in ("ab", "ba")
        ]
        self.assertEqual(sorted(wanted), sorted(rows[1:]))
        # both last switches to the way out, and out of the network
        self.assertEqual(3, len(self.text("#steps li")))
        self.assertEqual([], self.text("#steps .wrong"))
        self.assertEqual([11, 11], [len(self.text(f"#steps .{it}")) for it in ("old", "new")])

    def test_a_played_run_says_how_many_changes_are_made(self):
        files = paths("leaf-spine")[:4]
        self.of_update(networks.example("leaf-spine"))
        schedule = networks.write(self.folder, "schedule", "start\nchange 0\nchange 4\nchange 5\nchange 3\n")
        self.open(*files, self.plan_file, "--schedule", schedule, hash="#event=5")
        drawn = dict(
            self.tab.value(
                "[...document.querySelectorAll('#nodes .switch')].map((it) => [it.dataset.switch, it.textContent])"
            )
        )
        self.assertEqual(
            ["1 of 3", "changed", "pending", "pending"],
            [
                next(it for it in ("1 of 3", "changed", "pending") if it in drawn[name])
                for name in ("l1", "l2", "l3", "l4")
            ],
        )
        self.assertIn("; 1 done", self.groups()[0][0])
        self.assertEqual(
            ["done: ", "pending: ", "pending: "], self.text("#groups [data-switch=l1] li > .grey:first-child")
        )


if __name__ == "__main__":
    unittest.main()
