"""Large networks, configurations without a plan, and the page on paper and in the dark."""
import os
import unittest

import networks
from common import PagesInBrowser

EXAMPLES = os.path.join(networks.ROOT, "examples")


def paths(name, *words):
    return [os.path.join(EXAMPLES, name, f"{it}.json") for it in (words or (*networks.FILES, "plan"))]


def fat_tree(pods):
    """Returns an update of a fat tree of `pods` pods: all traffic to 10.0.0.0/24, behind the first edge switch, goes by
    another core switch."""
    half = pods // 2
    links, port = [], {}

    def next_port(name):
        port[name] = port.get(name, 0) + 1
        return f"{name}:{port[name]}"

    ways = {}
    for pod in range(pods):
        for up in range(half):
            for down in range(half):
                edge, middle = f"e{pod}-{down}", f"a{pod}-{up}"
                link = [next_port(edge), next_port(middle)]
                links.append(link)
                ways[edge, middle], ways[middle, edge] = link[0], link[1]
            for top in range(half):
                middle, core = f"a{pod}-{up}", f"c{up * half + top}"
                link = [next_port(middle), next_port(core)]
                links.append(link)
                ways[middle, core], ways[core, middle] = link[0], link[1]
    edges = [f"e{pod}-{down}" for pod in range(pods) for down in range(half)]
    hosts = {edge: next_port(edge) for edge in edges}
    home = edges[0]

    def rules(up):
        toward = {
            home: hosts[home], f"a0-{up}": ways[f"a0-{up}", home], f"c{up * half}": ways[f"c{up * half}", f"a0-{up}"],
        }
        for pod in range(pods):
            for down in range(half):
                toward.setdefault(f"e{pod}-{down}", ways.get((f"e{pod}-{down}", f"a{pod}-{up}")))
            toward.setdefault(f"a{pod}-{up}", ways[f"a{pod}-{up}", f"c{up * half}"])
        return {
            "rules": [
                {"switch": name, "priority": 100, "dst": "10.0.0.0/24", "out": int(end.rpartition(":")[2])}
                for name, end in toward.items()
            ]
        }

    topology = {
        "switches": [{"name": name, "capacity": 64} for name in port], "links": links, "hosts": list(hosts.values()),
        "vlans": ["untagged"], "tags": [3000, 3009],
    }
    demands = [{"from": hosts[edge], "dst": "10.0.0.0/24", "deliver": True} for edge in edges[1:]]
    return networks.Update(topology, rules(0), rules(1), {"demands": demands})


class Large(PagesInBrowser):
    def of_update(self, update, *more, hash=""):
        files = self.files(update)
        self.open(*files, self.plan(files), "--layout", "own", *more, hash=hash)

    def places(self):
        """Where the switches are drawn on the screen."""
        return self.tab.value("""Object.fromEntries([...document.querySelectorAll('#nodes .switch')].map((it) => {
            const box = it.querySelector('rect').getBoundingClientRect(); return [it.dataset.switch, [box.x + box.width / 2, box.y + box.height / 2]]; }))""")

    def labels(self):
        return self.tab.value("""[...document.querySelectorAll('#labels .label')].map((it) => {
            const box = it.getBoundingClientRect(); return [it.dataset.label, box.left, box.top, box.right, box.bottom]; })""")

    def test_networks_open_whole_with_names_that_can_be_read(self):
        """In a small network names stand in the boxes; in a large one beside them, where none covers another one, and
        that of the chosen switch always."""
        for count in (12, 20, 128):
            with self.subTest(count):
                self.of_update(networks.ring(count), hash="#switch=r7")
                self.is_whole(count)
                self.has_readable_names(count)

    def is_whole(self, count):
        box = self.tab.value(
            "(() => { const box = document.getElementById('picture').getBoundingClientRect(); return [box.left,"
            " box.top, box.right, box.bottom]; })()"
        )
        places = self.places()
        self.assertEqual(count, len(places))
        for x, y in places.values():
            self.assertTrue(box[0] <= x <= box[2] and box[1] <= y <= box[3], (x, y))
        self.assertLessEqual(self.tab.value("document.documentElement.scrollWidth"), 1280)

    def has_readable_names(self, count):
        labels = self.labels()
        high = self.tab.value(
            "Math.min(...[...document.querySelectorAll('#nodes text.inside[font-weight=bold]')].map((it) =>"
            " it.getBoundingClientRect().height).filter((it) => it > 0), 99)"
        )
        if not labels:
            self.assertGreaterEqual(high, 8.5)
            return
        self.assertGreaterEqual(len(labels), 0.6 * count)
        self.assertIn("r7", [name for name, *_ in labels])
        for at, (name, left, top, right, low) in enumerate(labels):
            self.assertGreaterEqual(low - top, 10)
            for other, left2, top2, right2, low2 in labels[:at]:
                self.assertFalse(
                    left + 1 < right2 and left2 + 1 < right and top + 3 < low2 and top2 + 3 < low, (name, other)
                )

    def test_a_switch_is_picked_from_the_list_and_names_come_back_where_the_picture_is_enlarged(self):
        self.of_update(networks.ring(128))
        self.assertEqual([f"r{at}" for at in range(128)], self.text("#switch option"))
        for name in ("r56", "r57", "r58"):
            self.tab.value(
                "(() => { const list = document.getElementById('switch'); list.value = %d; list.dispatchEvent(new"
                " Event('change')); })()"
                % int(name[1:])
            )
            self.assertIn(f"Rules of {name} ", self.seen("#table h2"))
            self.assertIn(name, [label[0] for label in self.labels()])
        self.tab.value(
            "document.querySelector('#labels .dot[data-switch=r9]').dispatchEvent(new MouseEvent('click', { bubbles:"
            " true }))"
        )
        self.assertIn("Rules of r9 ", self.seen("#table h2"))
        self.tab.value("document.getElementById('near').click()")
        self.assertEqual([], self.labels())
        self.tab.value("document.getElementById('whole').click()")
        self.assertTrue(self.labels())

    def test_a_fat_tree_of_20_switches_stands_in_layers(self):
        self.of_update(fat_tree(4))
        places = self.places()
        self.assertEqual(20, len(places))
        heights = {kind: {round(y) for name, (_, y) in places.items() if name[0] == kind} for kind in "eac"}
        self.assertEqual([1, 1, 1], [len(heights[kind]) for kind in "eac"])
        self.assertLess(max(heights["c"]), min(heights["a"]))
        self.assertLess(max(heights["a"]), min(heights["e"]))

    def test_leaves_and_spines_stand_in_layers(self):
        self.open(*paths("leaf-spine"))
        places = self.places()
        self.assertLess(max(places[name][1] for name in ("p1", "p2")), min(places[f"l{at}"][1] for at in range(1, 5)))

    def test_ports_have_the_neighbour_s_name(self):
        self.open(*paths("square"), hash="#switch=s1")
        self.assertEqual("Ports 1 to hosts, 2 to s2, 3 to s3, 4 to s4", self.seen("#portlist"))
        self.assertIn("s1:3 to s3", self.text("#ports title"))
        self.tab.value(
            "[...document.querySelectorAll('#portlist button')].find((it) => it.textContent === 's3').click()"
        )
        self.assertIn("Rules of s3", self.seen("#table h2"))

    def test_all_rounds_are_listed(self):
        self.of_update(networks.ring(32))
        rounds = self.text("#rounds li")
        self.assertEqual(124, len(rounds))
        self.assertEqual("1 replace at ", rounds[0][:13])
        self.tab.value("document.querySelectorAll('#rounds li')[99].click()")
        self.assertEqual("round 100 of 124", self.seen("#position"))
        self.assertEqual([rounds[99]], self.text("#rounds li.now"))


class Configurations(PagesInBrowser):
    def test_a_configuration_without_a_plan(self):
        self.open(*paths("square", "topology", "old", "policy"))
        self.assertIn(
            self.ask("config", *paths("square", "topology", "old", "policy"))[1].strip(), self.seen("#verdict")
        )
        self.assertEqual("accepted", self.tab.value("document.querySelector('header').className"))
        self.assertEqual("this configuration", self.seen("#position"))
        self.assertEqual(["s1 s2 s3 s4, leaves at s4:3"], self.text("#oldpath"))
        self.assertEqual([], self.text("#newpath"))
        self.assertEqual(
            ["priority", "packets", "action", "100", "10.0.0.0/24", "port 2 to s2"], self.text("#table th, #table td")
        )
        self.assertEqual("", self.seen("#rounds"))
        self.assertEqual("none", self.tab.value("getComputedStyle(document.getElementById('slider')).display"))

    def test_without_a_policy(self):
        self.open(*paths("square", "topology", "old"))
        self.assertIn("holds: 12 classes", self.seen("#verdict"))

    def test_one_that_breaks_is_looked_at_in_all_classes(self):
        files = paths("detour", "topology", "new", "policy-two-waypoints")
        self.open(*files)
        self.assertEqual("breaks: at s:1 untagged 10.0.0.0 Missed y", self.ask("config", *files)[1].strip())
        self.assertTrue(self.seen("#verdict").startswith("breaks: at s:1 untagged 10.0.0.0 Missed y"))
        self.assertIn(
            (
                "In this configuration a packet that enters at s:1 untagged for 10.0.0.0 leaves the network without"
                " having met waypoint y"
            ),
            self.seen("#sentence"),
        )
        self.assertIn("leaves the network without having met y in its place", self.seen("#bad p"))
        self.tab.value("view.choose({ class: 0 }); view.search.finish()")
        self.assertIn("s:1 untagged to 10.0.0.0/24", self.text("#elsewhere button"))

    def test_a_loop_in_a_class_without_a_demand(self):
        update = networks.example("square")
        update.old["rules"][3]["out"] = 2       # s4 sends back to s1
        files = self.files(update)
        self.open(files[0], files[1])
        self.assertIn("comes back to", self.seen("#bad p"))

    def test_words_that_are_wrong(self):
        for words in (paths("square", "topology"), paths("square", "topology", "old", "new", "policy")):
            self.page(*words, status=2)
        self.assertIn("bad config", self.page(*paths("square", "topology", "topology"), status=3)[1])


class Media(PagesInBrowser):
    def emulate(self, media, scheme):
        self.tab.ask(
            "Emulation.setEmulatedMedia", media=media, features=[{"name": "prefers-color-scheme", "value": scheme}]
        )
        self.addCleanup(self.tab.ask, "Emulation.setEmulatedMedia", media="", features=[])

    def lightness(self, what):
        """How light the ink and the paper are, from 0 to 255."""
        return self.tab.value(
            """(() => { const [r, g, b] = getComputedStyle(document.body)[%r].match(/[0-9.]+/g).map(Number);
            return (r * 3 + g * 6 + b) / 10; })()"""
            % what
        )

    def test_dark_where_the_reader_wants_it(self):
        self.open(*paths("square"))
        for scheme, is_dark in (("light", False), ("dark", True)):
            self.emulate("screen", scheme)
            ink, paper = self.lightness("color"), self.lightness("backgroundColor")
            self.assertEqual(is_dark, ink > paper)
            self.assertGreater(abs(ink - paper), 150)
            self.assertNotEqual(
                "rgb(0, 0, 0)", self.tab.value("getComputedStyle(document.querySelector('#nodes rect')).fill")
            )

    def test_paper_is_light_and_has_the_whole_lists(self):
        self.open(*paths("leaf-spine"))
        self.emulate("print", "dark")
        self.assertGreater(self.lightness("backgroundColor"), self.lightness("color"))
        self.assertEqual("none", self.tab.value("getComputedStyle(document.getElementById('zoom')).display"))
        self.assertEqual("visible", self.tab.value("getComputedStyle(document.querySelector('#rounds ol')).overflowY"))


if __name__ == "__main__":
    unittest.main()
