"""Tests of a switch that loses its table and its connection while a program runs that compares, and comes back at once:
what it answered on the older connection must not count. The program is held until the switch is back, so each of these
races is certain. PLANNER names the program."""
import os
import stat
import sys
import time
import unittest

from network import PLANNER, Network, UpdateTest

# A run of these tests may take so many seconds at a step; it ends early.
SECONDS = 60
# A program whose runs are counted, of some commands; one of them waits until it may go on.
HOLDING = """#!{python}
import os, sys, time
if sys.argv[1] in {held!r}:
    number = sum(name.startswith("run-") for name in os.listdir({folder!r})) + 1
    with open(os.path.join({folder!r}, "run-%d" % number), "w"):
        pass
    until = time.monotonic() + {seconds}
    while number == {at} and not os.path.exists(os.path.join({folder!r}, "go")) and time.monotonic() < until:
        time.sleep(0.01)
os.execv({planner!r}, [{planner!r}, *sys.argv[1:]])
"""


def until(is_so):
    """Waits until it is so; whether it came to be."""
    end = time.monotonic() + SECONDS
    while not is_so():
        if time.monotonic() > end:
            return False
        time.sleep(0.01)
    return True


class Races(UpdateTest):
    def racing(self, net, at, held, name, *more):
        """A run during which the switch `name` is emptied and comes back, while the run number `at` of a held command
        waits. Its status and what it said, or None where the update came to its end without so many runs."""
        folder = net.folder / f"held-{at}"
        folder.mkdir()
        script = folder / "program"
        script.write_text(
            HOLDING.format(
                python=sys.executable, held=held, folder=str(folder), seconds=SECONDS, at=at, planner=PLANNER
            )
        )
        os.chmod(script, stat.S_IRWXU)
        switch, run = net.switches[name], net.begin(*more, program=str(script))
        self.assertTrue(until(lambda: (folder / f"run-{at}").exists() or run.poll() is not None))
        if not (folder / f"run-{at}").exists():
            said = run.communicate()[1]
            self.assertEqual(run.returncode, 0, said)
            return None
        names = switch.names
        switch.lose()
        self.assertTrue(until(lambda: switch.names > names), "the switch didn't come back")
        self.sent = switch.flow_messages
        (folder / "go").touch()
        said = run.communicate(timeout=SECONDS)[1]
        return run.returncode, said

    def network(self, name, **more):
        net = Network(self, "square", **more)
        net.switches[name].counts_names = True
        return net

    def tell(self, name, net, run):
        """The emptied switch was told, nothing more was sent to it, and what is said next leads on."""
        self.stops(run, "not as they must be, and said above", "--repair")
        self.assertIn(f"{name}: missing: priority 100 ", run[1])
        self.assertEqual(net.switches[name].flow_messages, self.sent)

    def test_in_each_comparison_with_what_the_program_says_must_be_there(self):
        for at in range(1, 100):
            with self.subTest(at=at):
                # it is also compared when it comes back in the middle of a round
                net = self.network("s3", only={"s3": {"close_at": 1}})
                run = self.racing(net, at, ("tables",), "s3")
                if run is None:
                    self.assertGreater(at, 4)      # at first, before each round, when it is back, at the end
                    break
                self.tell("s3", net, run)
        self.assertIsNone(run)

    def test_where_the_switches_listen(self):
        net = self.network("s1", listen=True)
        self.tell("s1", net, self.racing(net, 2, ("tables",), "s1"))

    def test_in_each_comparison_on_the_way_back(self):
        for at in range(1, 100):
            with self.subTest(at=at):
                net = self.network("s3")
                self.settles(net, net.apply())
                run = self.racing(net, at, ("tables",), "s3", "--back")
                if run is None:
                    self.assertGreater(at, 3)
                    break
                self.tell("s3", net, run)
        self.assertIsNone(run)

    def test_in_the_comparisons_of_configurations(self):
        for more in ((), ("--no-mark",)):
            for at in range(1, 100):
                with self.subTest(at=at, more=more):
                    net = self.network("s4")
                    run = self.racing(net, at, ("import", "check"), "s4", *more)
                    if run is None:
                        self.assertEqual(at, 5)       # two before the first round, two at the end
                        break
                    self.tell("s4", net, run)

    def test_in_the_comparisons_of_a_repair(self):
        for at in range(1, 100):
            with self.subTest(at=at):
                net = self.network("s2")
                net.switches["s2"].table.clear()
                run = self.racing(net, at, ("tables", "emit"), "s2", "--repair")
                if run is None:
                    break
                self.settles(net, run)
        self.assertIsNone(run)


if __name__ == "__main__":
    unittest.main()
