"""Where a page opens, what it says of a run's beginning and of packets that are sent back, and that no name is cut off
at the edge of the picture."""
import json
import os
import unittest

import networks
from common import PagesInBrowser
from test_examples import paths

# The labels of the picture that lie partly outside of what it shows.
CUT_OFF = """(() => { const box = document.getElementById('picture').getBoundingClientRect();
    return [...document.querySelectorAll('#picture text')].filter((it) => { const own = it.getBoundingClientRect();
        return own.width && (own.left < box.left - 1 || own.right > box.right + 1 || own.top < box.top - 1 || own.bottom > box.bottom + 1); }).map((it) => it.textContent); })()"""


class Opening(PagesInBrowser):
    def test_a_run_of_a_refused_plan_opens_at_the_step_that_goes_wrong(self):
        files = paths("square")
        files[4] = os.path.join(networks.ROOT, "examples/square/plan-at-once.json")
        status, text = self.ask("explain", *files)
        self.assertEqual(0, status)
        self.open(*files, "--schedule", networks.write(self.folder, "run", text))
        count = len([line for line in text.splitlines() if line and not line.startswith("#")])
        self.assertIn(f"event {count} of {count}; round 1 runs", self.seen("#event"))
        self.assertEqual("hop 0", text.splitlines()[-1])
        self.assertEqual("packet 0 goes from s3 to s1, where it has been before", self.seen("#events .now"))
        self.assertEqual(
            "round 1 of 2" if self.tab.value("view.update.rounds.length") == 2 else "round 1 of 1",
            self.seen("#position"),
        )
        self.tab.open(os.path.join(self.folder, "update.html"), "#event=0")
        self.assertIn("event 0 of", self.seen("#event"))

    def test_no_change_is_done_before_the_run_begins(self):
        files = paths("square")
        self.open(
            *files, "--schedule", os.path.join(networks.ROOT, "examples/square/schedule"), hash="#round=1&event=0"
        )
        self.assertIn("event 0 of 8", self.seen("#event"))
        self.assertIn("pending: ", self.seen("#changes"))
        self.assertNotIn("done", self.seen("#changes"))
        self.assertEqual(["pending"], self.text("#nodes .words"))
        self.tab.value("view.play(4)")
        self.assertIn("done: ", self.seen("#changes"))

    def test_groups_of_one_change_say_whether_it_is_made(self):
        update = networks.ring(12)
        files = self.files(update)
        plan = networks.at_once(update)
        of = [plan["rules"][number]["switch"] for _, number in plan["rounds"][0]]
        chosen = [at for at, name in enumerate(of) if name in ("r4", "r5")] + [of.index("r6"), of.index("r7")]
        plan["rounds"] = [[plan["rounds"][0][at] for at in reversed(chosen)]]
        files.append(networks.write(self.folder, "plan.json", plan))
        self.open(*files, "--schedule", networks.write(self.folder, "run", "start\nchange 0\n"), hash="#event=2")
        heads = self.text("#groups summary")
        self.assertTrue(any(" 1 change: " in head and head.endswith("; done") for head in heads), heads)
        self.assertTrue(any(" 1 change: " in head and head.endswith("; pending") for head in heads), heads)
        self.assertFalse(any("done:" in head or "pending:" in head for head in heads), heads)

    def test_a_packet_that_is_sent_back_is_said_to_be(self):
        files = paths("square")[:2]
        old = networks.read(files[1])
        old["rules"][2]["out"] = 1
        files[1] = networks.write(self.folder, "old.json", old)
        self.open(*files)
        self.tab.value(
            "view.choose({ class: [...view.order].find((it) => view.update.classOf(it).address === 10 * 2 ** 24) })"
        )
        self.assertIn("dropped by s3: its output is the port it came in by", self.seen("#packetclass"))

    def test_no_name_is_cut_off(self):
        for count in (24, 48):
            update = networks.ring(count)
            names = {f"r{number}": f"switch-with-a-very-long-name-{number:03}" for number in range(count + 1)}
            text = json.dumps(list(update))
            for name in sorted(names, key=len, reverse=True):
                text = text.replace(f'"{name}"', f'"{names[name]}"').replace(f'"{name}:', f'"{names[name]}:')
            files = self.files(json.loads(text))
            self.open(*files[:2], "--layout", "own")
            self.assertEqual([], self.tab.value(CUT_OFF), count)


if __name__ == "__main__":
    unittest.main()
