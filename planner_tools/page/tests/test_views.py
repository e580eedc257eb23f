"""What stands in place of the picture: entries by prefixes, links and all changes, and the filter of packets. What
becomes of each class under a configuration is compared with what `planner paths` says."""
import re

import networks
from common import PagesInBrowser
from test_examples import paths

LINE = re.compile(
    r"(\S+) (\S+) ([\d.]+): ((?:\S+:\d+ )+)(left|dropped|again) (\S+).* (good|free|Loop|Missed|Dropped)(?: \S+)?"
)
# What the page found of all classes, as `paths` would say it: stops, end and whether it is against the policy.
FATES = """(() => { view.survey.finish(view.position); const { update, survey } = view;
    return Array.from({ length: update.classCount }, (_, number) => { const it = update.classOf(number);
        return { host: hostText(update, it.host), vlan: it.vlan === 0 ? 'untagged' : String(it.vlan), address: it.address,
            fates: survey.of(number).map(({ ends, outs, switches, isWrong }) => ({ ends, outs, switches: switches.map((at) => update.names[at]), isWrong })) }; }); })()"""


def number(address):
    return int.from_bytes(bytes(map(int, address.split("."))), "big")


class Views(PagesInBrowser):
    def paths_of(self, *files):
        """What `paths` says: of each entry the first address of each range, with the switches, the end and whether it
        is against the policy."""
        found = {}
        for line in self.ask("paths", *files)[1].splitlines()[:-1]:
            host, vlan, address, stops, end, _, mark = LINE.fullmatch(line).groups()
            found.setdefault((host, vlan), []).append(
                (number(address), [one.rpartition(":")[0] for one in stops.split()], end, mark not in ("good", "free"))
            )
        return found

    def show(self, name):
        self.tab.value(f"document.querySelector('#tabs [data-view={name}]').click()")
        self.tab.value("view.survey.finish(view.position)")

    def filter(self, text):
        self.tab.value(
            "(() => { const it = document.getElementById('filter'); it.value = %r; it.dispatchEvent(new"
            " Event('input')); if (view.filter.asksForWays()) view.survey.finish(view.position); })()" % text
        )
        return self.text("#class option")

    def rows(self, selector):
        return self.tab.value(
            "[...document.querySelectorAll(%r)].map((row) => [...row.children].map((it) => it.innerText.trim()))"
            % f"{selector} tr"
        )

    def test_what_becomes_of_each_class_is_what_paths_says(self):
        words = {"left": "leave", "dropped": "drop", "again": "loop"}
        for maker, seed in [(networks.some_update, seed) for seed in range(6)] + [
            (networks.some_crossing, 1), (networks.ring, 5), (networks.leaves, 4), (networks.wide_ring, 5),
        ]:
            with self.subTest(maker=maker.__name__, seed=seed):
                files = self.files(maker(seed))
                files.append(networks.write(self.folder, "careless.json", networks.careless(maker(seed), seed)))
                said = [self.paths_of(files[0], files[at], files[3]) for at in (1, 2)]
                self.open(*files)
                last = self.tab.value("view.update.last")
                for position in range(last + 1):
                    self.go(position)
                    for it in self.tab.value(FATES):
                        for which, found in zip((0, 2), said):
                            wanted = [one for one in found[it["host"], it["vlan"]] if one[0] <= it["address"]][-1]
                            fate = it["fates"][which]
                            self.assertEqual(
                                (wanted[1], words[wanted[2]], wanted[3]),
                                (fate["switches"], fate["ends"], fate["isWrong"]),
                            )
                        before, now, behind = it["fates"]
                        self.assertEqual(now, before if position == 0 else behind if position == last else now)

    def test_entries_by_prefixes_of_the_square_network(self):
        self.open(*paths("square"), hash="#round=2&class=4&view=matrix")
        self.show("matrix")
        self.assertTrue(self.seen("#signs").startswith("old | round 2 | new: "))
        rows = self.rows("#matrix")
        self.assertEqual(["0.0.0.0 to 9.255.255.255", "10.0.0.0/24", "10.0.1.0 to 255.255.255.255"], rows[0][1:])
        self.assertEqual(
            [
                ["s1:1 untagged", "✕ ✕ ✕", "✓ ≠ ≠", "✕ ✕ ✕"], ["s2:3 untagged", "✕ ✕ ✕", "✓ ⇄ ≠", "✕ ✕ ✕"],
                ["s3:4 untagged", "✕ ✕ ✕", "✓ ⇄ ≠", "✕ ✕ ✕"], ["s4:3 untagged", "✕ ✕ ✕", "✕ ✕ ✕", "✕ ✕ ✕"],
            ],
            rows[1:],
        )
        self.assertEqual(
            (
                "s2:3 untagged to 10.0.0.0/24\nold: arrives\nround 2: arrives by one way or another\nnew: arrives by"
                " another way"
            ),
            self.tab.value("document.querySelector('#matrix .chosen').title"),
        )
        self.tab.value(
            "[...document.querySelectorAll('#matrix td')].find((it) => it.title.startsWith('s3:4 untagged to"
            " 10.0.0.0/24')).click()"
        )
        self.assertEqual("Packets s3:4 untagged to 10.0.0.0/24", self.seen("#packetclass h2"))
        self.tab.value("view.go(1)")
        self.show("matrix")
        self.assertEqual(["✓ ⇄ ≠", "✓ ✓ ≠", "✓ ✓ ≠", "✕ ✕ ✕"], [row[2] for row in self.rows("#matrix")[1:]])

    def test_waypoints_that_are_met_and_missed_and_drops_against_the_policy(self):
        self.open(*paths("detour"), hash="#round=4&view=matrix")
        self.show("matrix")
        self.assertIn("✓ʷ", [row for row in self.rows("#matrix") if row[0] == "s:1 untagged"][0][2])
        files = paths("detour")
        self.open(files[0], files[2], files[3].replace("policy", "policy-two-waypoints"), hash="#view=matrix")
        self.show("matrix")
        self.assertEqual(["✓!"], self.text("#matrix .wrong"))
        update = networks.example("square")
        update.old["rules"].pop()
        files = self.files(update)
        self.open(files[0], files[1], files[3], hash="#view=matrix")
        self.show("matrix")
        self.assertEqual({"✕"}, set(self.text("#matrix .wrong")))

    def test_links_with_what_they_carry(self):
        self.open(*paths("square"), hash="#round=2&view=links")
        self.show("links")
        self.assertEqual(
            [
                ["link", "old", "round 2", "new", "addresses"], ["s1:1 – hosts", "empty", "empty", "empty", ""],
                ["s1:2 – s2:1", "1 →, 0 ←", "empty", "empty", "10.0.0.0/24"],
                ["s1:3 – s3:3", "empty", "0 →, 2 ←", "0 →, 2 ←", "10.0.0.0/24"],
                ["s1:4 – s4:2", "empty", "3 →, 0 ←", "3 →, 0 ←", "10.0.0.0/24"],
                ["s2:2 – s3:1", "2 →, 0 ←", "1 →, 0 ←", "1 →, 0 ←", "10.0.0.0/24"],
                ["s2:3 – hosts", "empty", "empty", "empty", ""],
                ["s3:2 – s4:1", "3 →, 0 ←", "2 →, 0 ←", "empty", "10.0.0.0/24"],
                ["s3:4 – hosts", "empty", "empty", "empty", ""], ["s4:3 – hosts", "3 →", "3 →", "3 →", "10.0.0.0/24"],
            ],
            self.rows("#linktable"),
        )
        self.tab.value("document.querySelector('[data-link=\"s1:2\"] button').click()")
        self.assertEqual(["s1:1 untagged to 10.0.0.0/24"], self.text("#class option"))
        self.assertEqual("1 of 12", self.seen("#found"))

    def test_the_filter_takes_addresses_switches_ports_and_words(self):
        self.open(*paths("square"), hash="#round=2")
        self.assertEqual(4, len(self.filter("10.0.0.7")))
        self.assertEqual(8, len(self.filter("10.0.0.0/8")))
        self.assertEqual(12, len(self.filter("0.0.0.0/0")))
        to_s2 = self.filter("s2")
        self.assertEqual(
            {
                "s1:1 untagged to 10.0.0.0/24", "s2:3 untagged to 10.0.0.0/24",
                "s2:3 untagged to 0.0.0.0 to 9.255.255.255", "s2:3 untagged to 10.0.1.0 to 255.255.255.255",
            },
            set(to_s2),
        )
        self.assertEqual(["s2:3 untagged to 10.0.0.0/24", "s3:4 untagged to 10.0.0.0/24"], self.filter("s1:3"))
        self.assertEqual(["s2:3 untagged to 10.0.0.0/24", "s3:4 untagged to 10.0.0.0/24"], self.filter("s3:3"))
        self.assertEqual("2 of 12", self.seen("#found"))
        self.assertIn(self.seen("#packetclass h2").removeprefix("Packets "), self.text("#class option"))
        self.assertEqual(["s3:4 untagged to 10.0.0.0/24"], self.filter("s3:4 10.0.0.0/24"))
        self.assertEqual([], self.filter("nothing has this"))
        self.show("matrix")
        self.assertEqual("No packets are among those that the filter names.", self.seen("#views"))
        self.assertEqual(12, len(self.filter("")))
        self.assertEqual("", self.seen("#found"))

    def test_the_filter_narrows_the_matrix(self):
        self.open(*paths("leaf-spine"), hash="#round=2&view=matrix&filter=10.1.1.0/24")
        self.show("matrix")
        self.assertEqual(["10.1.1.0/24"], self.rows("#matrix")[0][1:])
        self.assertEqual(17, len(self.rows("#matrix")))

    def test_all_changes_at_all_switches(self):
        self.open(*paths("detour"), hash="#round=2&view=entries")
        rows = self.rows("#entrytable")
        self.assertEqual(
            "18 entries at 5 switches. Yellow are those of the round that is shown.", self.seen("#views p")
        )
        self.assertEqual(
            ["s", "100", "10.0.0.0/24", "port 2 to x", "port 3 to y", "4: replace"],
            next(row for row in rows if row[:2] == ["s", "100"]),
        )
        self.assertEqual(
            [
                "s", "32868", "10.0.0.0/24, from port 1, untagged", "none",
                "none\nmeanwhile set VLAN 3000, port 3 to y", "2: insert 7: delete",
            ],
            rows[1],
        )
        self.assertEqual(2, len(self.text("#entrytable tr.changed")))
        self.tab.value(
            "[...document.querySelectorAll('#entrytable button')].find((it) => it.textContent === '4: replace').click()"
        )
        self.assertEqual("round 4 of 8", self.seen("#position"))
        self.assertEqual(4, len(self.text("#entrytable tr.changed")))
        self.filter("d")
        self.assertEqual({"d"}, {row[0] for row in self.rows("#entrytable")[1:]})

    def test_a_configuration_alone_has_one_column_and_no_changes(self):
        files = paths("leaf-spine")
        self.open(files[0], files[2], files[3], hash="#view=matrix")
        self.show("matrix")
        self.assertEqual({"✓", "✕"}, set(self.text("#matrix td")))
        self.assertEqual(
            "none", self.tab.value("getComputedStyle(document.querySelector('[data-view=entries]')).display")
        )
        self.show("links")
        self.assertEqual(
            ["l1:3 – p1:1", "empty", ""], next(row for row in self.rows("#linktable") if row[0] == "l1:3 – p1:1")
        )

    def test_names_stand_whole_within_the_picture(self):
        update = networks.ring(24)
        long = [
            networks.read(
                networks.write(
                    self.folder, "one.json",
                    re.sub(r'"r(\d+)([":])', r'"core-router-frankfurt-\1\2', __import__("json").dumps(value)),
                )
            )
            for value in update
        ]
        files = self.files(networks.Update(*long))
        files.append(networks.write(self.folder, "at_once.json", networks.at_once(networks.Update(*long))))
        self.open(*files, "--layout", "own", hash="#switch=core-router-frankfurt-7")
        box = self.tab.value(
            "(() => { const box = document.getElementById('picture').getBoundingClientRect(); return [box.left,"
            " box.top, box.right, box.bottom]; })()"
        )
        labels = self.tab.value(
            "[...document.querySelectorAll('#labels .label')].map((it) => { const box = it.getBoundingClientRect();"
            " return [it.dataset.label, box.left, box.top, box.right, box.bottom]; })"
        )
        self.assertGreater(len(labels), 12)
        self.assertIn("core-router-frankfurt-7", [label[0] for label in labels])
        for name, left, top, right, low in labels:
            self.assertTrue(
                box[0] - 1 <= left and right <= box[2] + 1 and box[1] - 1 <= top and low <= box[3] + 1, name
            )
        self.assertLessEqual(self.tab.value("document.documentElement.scrollWidth"), 1280)
