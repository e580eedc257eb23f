"""Tests of `planner from-mininet` and `planner from-graphml`."""
import json
import pathlib
import tempfile
import unittest

from converting import DATA, is_read, planner

ASKED = ("--hosts", "all", "--vlans", "untagged,10", "--tags", "3000-3009", "--capacity", "1000")


class Mininet(unittest.TestCase):
    """The texts in data/ are what Mininet 2.3 printed for `linear,4`, `tree,2,3` and `torus,3,3`."""

    def converted(self, *words, given=None):
        status, text, said = planner("from-mininet", *words, given=given)
        self.assertEqual((status, said), (0, ""))
        self.assertTrue(is_read(text))
        return json.loads(text)

    def test_a_line_of_switches(self):
        made = self.converted(DATA / "linear.net")
        self.assertEqual([one["name"] for one in made["switches"]], ["s1", "s2", "s3", "s4"])
        self.assertEqual(made["links"], [["s1:2", "s2:2"], ["s2:3", "s3:2"], ["s3:3", "s4:2"]])
        self.assertEqual(made["hosts"], ["s1:1", "s2:1", "s3:1", "s4:1"])
        self.assertEqual((made["vlans"], made["tags"]), (["untagged"], []))

    def test_a_tree(self):
        made = self.converted(DATA / "tree.links", "--vlans", "untagged,10", "--tags", "3000-3009", "--capacity", "500")
        self.assertEqual(made["switches"], [{"name": name, "capacity": 500} for name in ("s1", "s2", "s3", "s4")])
        self.assertEqual(made["links"], [["s1:1", "s2:4"], ["s1:2", "s3:4"], ["s1:3", "s4:4"]])
        self.assertEqual(made["hosts"], [f"s{switch}:{port}" for switch in (2, 3, 4) for port in (1, 2, 3)])
        self.assertEqual((made["vlans"], made["tags"]), (["untagged", 10], [3000, 3009]))

    def test_a_torus(self):
        made = self.converted(DATA / "torus.net")
        self.assertEqual((len(made["switches"]), len(made["links"]), len(made["hosts"])), (9, 18, 9))
        self.assertIn(["s1x1:4", "s1x3:3"], made["links"])

    def test_net_links_and_ports_say_the_same(self):
        for name in ("linear", "tree", "torus"):
            texts = [(DATA / f"{name}.{word}").read_text() for word in ("net", "links", "ports")]
            found = [
                self.converted("-", given=text)
                for text in (
                    texts[0], texts[1], texts[0] + texts[1], texts[1] + texts[2],
                    "mininet> net\n" + texts[0] + "mininet> links\n" + texts[1],
                )
            ]
            self.assertTrue(all(one == found[0] for one in found), name)

    def test_what_is_refused(self):
        net = (DATA / "linear.net").read_text()
        for text, words in (
            ("", "there is no link in it"),
            ("s1-eth2<->s2-eth2 (OK MISSING)\n", "-:1: the link s1-eth2<->s2-eth2 is down (OK MISSING)"),
            ("s1 lo:  up:s2-eth1\ns2 lo:  s2-eth1:up\n", "up isn't NODE-INTERFACE"),
            (
                "s1 lo:  s1-up:s2-eth1\ns2 lo:  s2-eth1:s1-up\n",
                "which port of s1 s1-up is isn't said: add what Mininet's `ports` prints",
            ),
            (net + "s1-eth2<->s3-eth2 (OK OK)\n", "only one of `net` and `links` has the link"),
            ("*** Starting CLI:\nxy zt\n", "-:2: no line as Mininet's `net`, `links` and `ports` print them: xy zt"),
        ):
            with self.subTest(words):
                status, made, said = planner("from-mininet", "-", given=text)
                self.assertEqual((status, made), (3, ""))
                self.assertIn(words, said)

    def test_ports_that_ports_tells(self):
        made = self.converted(
            "-",
            given="s1-up<->s2-eth1 (OK OK)\ns1-eth1<->h1-eth0 (OK OK)\ns1 lo:0 s1-up:7 s1-eth1:1\ns2 lo:0 s2-eth1:5\n",
        )
        self.assertEqual((made["links"], made["hosts"]), ([["s1:7", "s2:5"]], ["s1:1"]))


class GraphML(unittest.TestCase):
    """The graphs in data/ have the form of those of the Internet Topology Zoo."""

    def converted(self, name, *words):
        status, text, said = planner("from-graphml", DATA / f"{name}.graphml", *words)
        self.assertEqual(status, 0, said)
        self.assertTrue(is_read(text))
        return json.loads(text), said

    def test_a_backbone(self):
        made, said = self.converted("backbone", *ASKED)
        self.assertEqual(
            [one["name"] for one in made["switches"]][:4], ["New_York", "Chicago", "Washington_DC", "Seattle"]
        )
        self.assertEqual(len(made["links"]), 14)
        self.assertEqual(
            made["links"][:3],
            [["New_York:1", "Chicago:1"], ["New_York:2", "Washington_DC:1"], ["Chicago:2", "Indianapolis:1"]],
        )
        self.assertEqual(made["hosts"][:2], ["New_York:3", "Chicago:3"])
        self.assertEqual((made["vlans"], made["tags"]), (["untagged", 10], [3000, 3009]))
        self.assertIn("node 0, 'New York', is the switch New_York", said)

    def weights(self, name, option, *more):
        """The weights that are written, and what is said."""
        with tempfile.TemporaryDirectory() as folder:
            path = pathlib.Path(folder) / "weights"
            made, said = self.converted(name, *ASKED, option, path, *more)
            lines = [line.split() for line in path.read_text().splitlines()[1:]]
            self.assertTrue(all([one, other] in made["links"] for one, other, _ in lines))
            topology, prefixes = pathlib.Path(folder) / "topology.json", pathlib.Path(folder) / "prefixes"
            topology.write_text(json.dumps(made))
            prefixes.write_text(f"10.0.0.0/8 {made['hosts'][0]}\n")
            self.assertEqual(planner("route", topology, prefixes, "--weights", path)[0], 0)
            return {
                (one.partition(":")[0], other.partition(":")[0]): float(weight) for one, other, weight in lines
            }, said

    def test_distances_by_the_coordinates(self):
        found, _ = self.weights("backbone", "--distances")
        self.assertEqual(len(found), 14)
        self.assertAlmostEqual(found["New_York", "Chicago"], 1144, delta=5)       # as atlases have it, in km
        self.assertAlmostEqual(found["New_York", "Washington_DC"], 328, delta=5)

    def test_lengths_and_speeds_that_edges_tell(self):
        text = (
            '<graphml><key id="a" for="node" attr.name="label"/><key id="b" for="edge" attr.name="LinkSpeedRaw"/><key'
            ' id="c" for="edge" attr.name="LinkSpeed"/><key id="d" for="edge" attr.name="LinkSpeedUnits"/><key id="e"'
            ' for="edge" attr.name="distance"/><graph><node id="x"/><node id="y"/><node id="z"/><edge source="x"'
            ' target="y"><data key="b">10000000000.0</data><data key="e">7.5</data></edge><edge source="y"'
            ' target="z"><data key="c">155</data><data key="d">M</data></edge><edge source="x"'
            ' target="z"/></graph></graphml>'
        )
        with tempfile.TemporaryDirectory() as folder:
            path = pathlib.Path(folder)
            (path / "graph").write_text(text)
            status, _, said = planner(
                "from-graphml", path / "graph", *ASKED, "--speeds", path / "speeds", "--distances", path / "distances"
            )
            self.assertEqual(status, 0, said)
            self.assertEqual([(path / name).read_text().splitlines()[1:] for name in ("speeds", "distances")],
                             [["x:1 y:1 10.000", "y:2 z:1 645.161"], ["x:1 y:1 7.500"]])
            self.assertIn("1 of 3 links have no weight in", said)
            self.assertIn("distances, as the graph doesn't tell it: y:2 - z:1, x:2 - z:2", said)

    def test_names_that_are_none_or_not_alone(self):
        made, _ = self.converted("regional", *ASKED)
        self.assertEqual(
            [one["name"] for one in made["switches"]],
            ["Koper", "Skofja_Loka", "Ljubljana_2", "Ljubljana_3", "n4", "Geant", "SIX_peers"],
        )
        self.assertEqual(
            made["links"].count(["Ljubljana_2:3", "Ljubljana_3:2"])
            + made["links"].count(["Ljubljana_2:4", "Ljubljana_3:3"]),
            2,
        )
        made, _ = self.converted("regional", *ASKED, "--names", "ids")
        self.assertEqual([one["name"] for one in made["switches"]], list("0123456"))

    def test_networks_outside_are_hosts(self):
        made, _ = self.converted("regional", "--external", "hosts", *ASKED[2:])
        self.assertEqual(
            [one["name"] for one in made["switches"]], ["Koper", "Skofja_Loka", "Ljubljana_2", "Ljubljana_3", "n4"]
        )
        self.assertEqual(made["hosts"], ["Ljubljana_2:5", "Ljubljana_3:5"])

    def test_some_hosts(self):
        made, _ = self.converted("backbone", "--hosts", "Denver,0", *ASKED[2:])
        self.assertEqual(made["hosts"], ["Denver:4", "New_York:3"])

    def test_links_of_several_nodes_and_to_oneself_are_told(self):
        made, said = self.converted("exchange", *ASKED)
        self.assertIn("node 3 stands for a link of several nodes", said)
        self.assertIn("an edge joins the switch PoP_C to itself", said)
        self.assertIn(["PoP_C:2", "PoP_C:3"], made["links"])

    def test_what_a_graph_lacks_is_asked_for(self):
        status, text, said = planner("from-graphml", DATA / "backbone.graphml", "--tags", "none")
        self.assertEqual((status, text), (2, ""))
        self.assertIn("--hosts, --vlans, --capacity is wanting", said)

    def test_what_is_refused(self):
        graph = '<graphml xmlns="http://graphml.graphdrawing.org/xmlns"><graph edgedefault="{}">{}</graph></graphml>'
        for text, words in (
            ("", "it is no XML"), ("<graphml><graph></graphml>", "it is no XML: mismatched tag"),
            ("<html/>", "it isn't GraphML with one graph"), (graph.format("directed", ""), "its edges are directed"),
            (graph.format("undirected", ""), "there is no switch"),
            (
                graph.format("undirected", '<node id="0"/><edge source="0" target="1"/>'),
                "an edge names node '1', which isn't there",
            ),
            (graph.format("undirected", '<node id="0"/><node id="0"/>'), "stands twice"),
            (
                graph.format("undirected", "".join(f'<node id="{n}"/>' for n in range(129))),
                "there are 129 switches, and a topology has at most 128",
            ),
            (
                graph.format("undirected", '<node id="0"/><node id="1"/>' + '<edge source="0" target="1"/>' * 64),
                "uses 65 ports, and at most 64 can be used",
            ),
        ):
            with self.subTest(words), tempfile.NamedTemporaryFile("w", suffix=".graphml") as file:
                file.write(text)
                file.flush()
                status, made, said = planner("from-graphml", file.name, *ASKED)
                self.assertEqual((status, made), (3, ""))
                self.assertIn(words, said)

    def test_another_encoding(self):
        text = (
            '<?xml version="1.0" encoding="ISO-8859-1"?><graphml><key id="a" for="node" attr.name="label"/><graph><node'
            ' id="0"><data key="a">Z\u00fcrich</data></node></graph></graphml>'
        )
        with tempfile.NamedTemporaryFile("wb", suffix=".graphml") as file:
            file.write(text.encode("iso-8859-1"))
            file.flush()
            status, made, _ = planner("from-graphml", file.name, *ASKED)
        self.assertEqual((status, json.loads(made)["switches"][0]["name"]), (0, "Zurich"))

    def test_a_name_that_isn_t_there(self):
        status, _, said = planner("from-graphml", DATA / "backbone.graphml", "--hosts", "Denvr", *ASKED[2:])
        self.assertEqual(status, 2)
        self.assertIn("has no switch Denvr (did you mean Denver?)", said)


if __name__ == "__main__":
    unittest.main()
