"""Runs: what the page plays, and the steps that it shows, beside what the planner's replay says."""
import os
import re
import unittest

import networks
from common import PagesInBrowser
from test_examples import paths

# Random updates, each by a maker and a seed.
UPDATES = [(networks.some_update, seed) for seed in range(8)] + [(networks.some_crossing, seed) for seed in range(3)]
# Updates that are carried out carelessly: those of the first kind let no packet go wrong even so, the others do.
CARELESS = (
    [(networks.some_update, seed) for seed in range(6)]
    + [(networks.some_crossing, seed) for seed in range(6)]
    + [(networks.ring, 5), (networks.ring, 8)]
)
# How many packets enter for each round: so many that some do in each.
PACKETS = 12

# The hops of the run that are not among the steps which the page shows for the class of the packet, in the round in
# which the run is.
WATCH = """(() => {
    const missing = [], known = new Map(), player = view.player;
    const shown = (position, number) => {
        if (!known.has(`${position} ${number}`)) {
            view.choose({ position, class: number });
            known.set(`${position} ${number}`, [...document.querySelectorAll('#steps [data-what]')].map((it) => [it.dataset.what, it.dataset.from, it.dataset.to || ''].join(' ')));
        }
        return known.get(`${position} ${number}`);
    };
    for (let event = 0; event < player.events.length; event++) {
        const [what, number] = player.events[event].words;
        if (what !== 'hop') continue;
        player.to(event);
        const packet = player.state.packets[number], trace = TRACES[number], from = packet.stops[packet.stops.length - 1].split(':')[0];
        const next = packet.stops.length < trace.stops.length ? `go ${from} ${trace.stops[packet.stops.length]}` :
            trace.end[0] === 'left' ? `leave ${from} ${trace.end[1]}` : `drop ${from} `;
        if (!shown(player.position(), packet.of).includes(next)) missing.push([event, number, next, player.position()]);
    }
    return missing;
})()"""

# The first round, and in it the first class, for which the page finds a walk that breaks; null where there is none.
FIRST_BAD = """(() => { const update = view.update, numbers = [...view.order].sort((one, other) => one - other);
    for (let position = 0; position <= update.last; position++) for (const number of numbers) {
        const it = update.classOf(number);
        if (badWalk(update, position, it, walksOf(update, position, it), null)) return [position, number];
    }
    return null; })()"""


def trace_of(line):
    """Returns the stops of a line of replay, and its end in words."""
    words = line.partition("born ")[2].split(" ")[1:]
    at = next(it for it, word in enumerate(words) if word in ("left", "dropped", "lost", "under"))
    return {"stops": words[:at], "end": words[at:]}


class Runs(PagesInBrowser):
    def replayed(self, files, schedule):
        status, text = self.ask("replay", files[0], files[1], files[4], schedule)
        self.assertEqual(0, status, text)
        return text.splitlines()

    def ends(self):
        """Returns the ends of packets that the player shows."""
        return self.text("#packets .end")

    def check_run(self, files, schedule):
        """Each hop is among the steps that are shown, and each packet ends as replay says."""
        lines = self.replayed(files, schedule)
        traces = [trace_of(line) for line in lines[:-1]]
        self.open(*files, "--schedule", schedule)
        self.assertEqual([], self.tab.value(WATCH.replace("TRACES", str(traces))))
        self.tab.value("view.play(Infinity)")
        self.assertEqual([" ".join(it["end"]) for it in traces], self.ends())
        self.assertEqual(lines[:-1], self.tab.value("view.player.state.packets.map((it) => view.player.trace(it))"))
        self.assertEqual([], self.text("#player .wrong"))

    def test_the_run_of_the_square_network_step_by_step(self):
        files, schedule = paths("square"), os.path.join(networks.ROOT, "examples/square/schedule")
        self.check_run(files, schedule)
        self.tab.value("view.play(0)")
        self.assertEqual([], self.text("#packets div"))
        places = []
        for _ in range(8):
            self.tab.value("document.getElementById('next').click()")
            places.append(
                self.tab.value("[...document.querySelectorAll('#riders .rider')].map((it) => it.dataset.at).join()")
            )
        self.assertEqual(["", "s1", "s2", "s2", "s3", "s4", "", ""], places)
        self.assertEqual(["left s4:3 untagged"], self.ends())
        self.assertIn("event 8 of 8; 1 of 2 rounds settled", self.seen("#event"))
        self.tab.value("for (let turn = 0; turn < 5; turn++) document.getElementById('previous').click()")
        self.assertEqual(
            ["pending"], self.tab.value("[...document.querySelectorAll('#nodes .words')].map((it) => it.textContent)")
        )
        self.tab.value("document.getElementById('next').click()")
        self.assertEqual(
            ["changed"], self.tab.value("[...document.querySelectorAll('#nodes .words')].map((it) => it.textContent)")
        )
        self.assertEqual("s1 is changed: replace 10.0.0.0/24 -> port 4 to s4", self.seen("#events .now"))
        self.assertEqual("change 0", self.tab.value("document.querySelector('#events .now').title"))

    def test_events_stand_in_words(self):
        self.open(*paths("square"), "--schedule", os.path.join(networks.ROOT, "examples/square/schedule"))
        self.assertEqual(
            [
                "round 1 begins: replace at s1", "packet 0 enters at s1:1 untagged for 10.0.0.1",
                "packet 0 goes from s1 to s2", "s1 is changed: replace 10.0.0.0/24 -> port 4 to s4",
                "packet 0 goes from s2 to s3", "packet 0 goes from s3 to s4", "packet 0 leaves at s4:3",
                "round 1 is settled",
            ],
            self.text("#events li:not(.comment)"),
        )

    def test_a_change_is_done_only_where_the_run_has_made_it(self):
        schedule = os.path.join(networks.ROOT, "examples/square/schedule")
        for hash, said in (
            ("", ""), ("#round=1", "s1 replace 10.0.0.0/24 -> port 4 to s4 (priority 100)"),
            ("#event=1", "pending: s1 replace 10.0.0.0/24 -> port 4 to s4 (priority 100)"),
            ("#event=4", "done: s1 replace 10.0.0.0/24 -> port 4 to s4 (priority 100)"),
            ("#event=0&round=1", "pending: s1 replace 10.0.0.0/24 -> port 4 to s4 (priority 100)"),
            ("#event=8&round=1", "done: s1 replace 10.0.0.0/24 -> port 4 to s4 (priority 100)"),
            ("#event=8&round=2", "pending: s3 replace 10.0.0.0/24 -> port 3 to s1 (priority 100)"),
        ):
            with self.subTest(hash):
                self.open(*paths("square"), "--schedule", schedule, hash=hash)
                self.assertEqual([said] if said else [], self.text("#changes li"))

    def test_a_group_of_one_change_says_how_far_it_is(self):
        files = self.files(networks.leaves(5))
        files.append(networks.write(self.folder, "at_once.json", networks.at_once(networks.leaves(5))))
        schedule = networks.write(self.folder, "run", "start\nchange 0\n")
        self.open(*files, "--schedule", schedule, hash="#event=2")
        self.assertEqual(
            ["l0 4 changes: replace; 1 done", "l1 4 changes: replace; pending"],
            [words.replace(", 1 for these packets", "") for words in self.text("#groups summary")[:2]],
        )
        self.tab.value(
            "view.list.group = ((make) => (at, changes, ...more) => make.call(view.list, at, changes.slice(0, 1),"
            " ...more))(view.list.group); view.draw()"
        )
        self.assertEqual(
            ["l0 1 change: replace; done", "l1 1 change: replace; pending"],
            [words.replace(", 1 for these packets", "") for words in self.text("#groups summary")[:2]],
        )

    def test_a_run_of_a_refused_plan_opens_at_the_step_that_goes_wrong(self):
        files = paths("square", "plan-at-once.json")
        status, run = self.ask("explain", *files)
        self.assertEqual(0, status)
        events = [line for line in run.splitlines() if not line.startswith("#")]
        self.open(
            *files, "--schedule",
            networks.write(self.folder, "run", run + "settle\n" if run.count("change") == 2 else run),
        )
        self.assertIn(f"event {len(events)} of {self.tab.value('view.player.events.length')};", self.seen("#event"))
        self.assertEqual("packet 0 goes from s3 to s1, where it has been before", self.seen("#events .now"))
        self.assertEqual("round 1 of 1", self.seen("#position"))
        self.open(*files, "--schedule", networks.write(self.folder, "none", "start\nsettle\n"))
        self.assertIn("event 1 of 1;", self.seen("#event"))

    def test_a_tagged_packet_of_the_detour_network(self):
        files = paths("detour")
        status, text = self.ask("simulate", *files, "5", "30")
        self.assertEqual(0, status)
        self.check_run(files, networks.write(self.folder, "record", text))

    def test_a_schedule_that_is_no_run_stops_where_the_planner_says(self):
        schedule = networks.write(
            self.folder, "schedule", "# a record\nstart\nenter s1:1 untagged 10.0.0.1\nsettle\nhop 0\n"
        )
        self.open(*paths("square"), "--schedule", schedule)
        self.assertIn("not a run: line 4", self.seen("#events .cannot"))
        self.tab.value("view.play(Infinity)")
        self.assertIn("event 2 of 2", self.seen("#event"))

    def test_a_packet_that_is_lost(self):
        schedule = networks.write(self.folder, "schedule", "enter s1:1 untagged 10.0.0.1\nhop 0\nlose 0\n\n")
        files = paths("square")
        self.open(*files, "--schedule", schedule)
        self.tab.value("view.play(Infinity)")
        self.assertEqual(["lost"], self.ends())

    def test_the_record_of_an_update_is_played_as_drive_tells_it(self):
        hello, answer = "0100000800000001", "0113000800000002"
        record = networks.write(
            self.folder, "update",
            "".join(f"feed s{at} {hello}\n" for at in range(1, 5)) + f"start\nfeed s1 {answer}\nstart\n",
        )
        self.open(*paths("square"), "--schedule", record)
        self.assertEqual(
            ["start", "change 0", "settle", "start"],
            self.tab.value("[...document.querySelectorAll('#events li:not(.comment)')].map((it) => it.title)"),
        )
        self.tab.value("view.play(4)")
        self.assertEqual("round 2 of 2", self.seen("#position"))
        self.assertIn("event 4 of 4; round 2 runs", self.seen("#event"))

    def test_a_bad_schedule_gives_no_page(self):
        schedule = networks.write(self.folder, "schedule", "begin\n")
        _, said = self.page(*paths("square"), "--schedule", schedule, status=3)
        self.assertIn("bad schedule: 1 BadLine at 1", said)

    def test_runs_of_random_updates(self):
        changes = set()
        for maker, seed in UPDATES:
            with self.subTest(maker=maker.__name__, seed=seed):
                files = self.files(maker(seed))
                files.append(self.plan(files))
                plan = networks.read(files[4])
                changes |= {(plan["kind"], what) for one in plan["rounds"] for what, _ in one}
                status, text = self.ask("simulate", *files, str(seed * 7919), str(PACKETS * (len(plan["rounds"]) + 1)))
                self.assertEqual(0, status)
                self.assertEqual(set(range(len(plan["rounds"]) + 1)), set(map(int, re.findall(r" born (\d+):", text))))
                self.check_run(files, networks.write(self.folder, "record", text))
        self.assertEqual(
            {(kind, what) for kind in ("ordered", "two-phase") for what in ("insert", "delete", "replace")}, changes
        )

    def test_what_explain_says_of_careless_plans(self):
        shown = 0
        for maker, seed in CARELESS:
            with self.subTest(maker=maker.__name__, seed=seed):
                update = maker(seed)
                files = self.files(update)
                files.append(networks.write(self.folder, "careless.json", networks.careless(update, seed)))
                status, text = self.ask("explain", *files)
                self.assertEqual(0, status, text)
                if text == "no run: every mixed walk is good\n":
                    self.open(*files)
                    self.assertIsNone(self.tab.value(FIRST_BAD))
                    continue
                shown += 1
                self.check_run(files, networks.write(self.folder, "run", text))
                packet = self.tab.value("view.player.state.packets.map((it) => it.of)")
                self.assertEqual([text.count("start\n"), *packet], self.tab.value(FIRST_BAD))
        self.assertEqual(8, shown)

    def test_no_walk_is_forbidden_where_the_planner_accepts(self):
        for maker, seed in UPDATES:
            with self.subTest(maker=maker.__name__, seed=seed):
                files = self.files(maker(seed))
                self.open(*files, self.plan(files))
                found = self.tab.value("""(() => { const found = [];
                    for (let round = 0; round <= view.update.last; round++) for (const number of view.order) {
                        const it = view.update.classOf(number), walk = badWalk(view.update, round, it, walksOf(view.update, round, it), null);
                        if (walk) found.push([round, number, walk.kind]); } return found; })()""")
                self.assertEqual([], found)


if __name__ == "__main__":
    unittest.main()
