"""The standard streams of the program and of the front end: an input that is a socket, that belongs to another user,
that was read in part or isn't there, and every command without one or more of the three. PLANNER names the program."""
import itertools
import os
import shutil
import socket
import subprocess
import sys
import tempfile
import unittest

import rows

sys.path.insert(0, rows.ROOT)
from planner_tools import program, words  # noqa: E402

PROGRAM = os.path.abspath(program.path())
SQUARE = os.path.join(rows.ROOT, "examples", "square")
UPDATE = "topology.json old.json new.json policy.json"
SERVE = ["serve", *UPDATE.split(), "plan.json"]
CHECK = ["check", *UPDATE.split(), "plan.json"]
HELLO = b"0100000800000000"
LINES = b"".join(b"feed s%d %s\n" % (number, HELLO) for number in (1, 2, 3, 4)) + b"start\nback\nreopen s1\nnone\n"
NOBODY = 65534
# Both by which a command can be run.
DIRECTLY, FRONT_END = [PROGRAM], [sys.executable, "-IS", rows.FRONT_END]
# Runs of the program, one for each of its commands, in the folder of the square.
RUNS = [
    "config topology.json old.json", "paths topology.json old.json policy.json",
    "trace topology.json old.json s1:1 untagged 10.0.0.1", f"plan {UPDATE}", f"pack {UPDATE}",
    f"check {UPDATE} plan.json", f"certify {UPDATE} plan.json", f"explain {UPDATE} plan-at-once.json",
    f"simulate {UPDATE} plan.json 7 5", "replay topology.json old.json plan.json schedule",
    "tables topology.json old.json plan.json schedule", "upgrade topology.json plan.json",
    "import topology.json replies-s1", "emit topology.json plan.json", f"drive {UPDATE} plan.json {{0}}/input",
    "sample 4", f"serve {UPDATE} plan.json",
]
# Runs of the commands of the front end, and of what it says of itself.
FRONT_RUNS = [
    "show .", "page .", "to-ofctl plan.json {0}/scripts", "from-mininet {0}/mininet",
    "from-graphml {0}/graph --hosts a --vlans 2 --tags 3000-3100 --capacity 9", "from-ofctl topology.json s1={0}/flows",
    "collect topology.json --switches {0}/none", "update . --switches {0}/none",
    "apply . {0}/record --switches {0}/none", "adopt . --switches {0}/none", "diff .", "links .", "policy .",
    "route topology.json {0}/prefixes", "install {0}/none/prefix", "--help", "--version", "check --help", "chek",
]
TEXTS = {
    "input": "start\n", "prefixes": "10.0.0.0/24 s4:3\n",
    "flows": (
        " cookie=0x0, duration=1s, table=0, n_packets=0, n_bytes=0, priority=5,ip,nw_dst=10.0.0.0/24 actions=output:2\n"
    ),
    "mininet": "h1 h1-eth0:s1-eth1\ns1 lo:  s1-eth1:h1-eth0 s1-eth2:s2-eth1\ns2 lo:  s2-eth1:s1-eth2\n",
    "graph": (
        '<graphml xmlns="http://graphml.graphdrawing.org/xmlns"><key id="d0" for="node" attr.name="label"'
        ' attr.type="string"/><graph edgedefault="undirected"><node id="0"><data key="d0">a</data></node><node'
        ' id="1"><data key="d0">b</data></node><edge source="0" target="1"/></graph></graphml>\n'
    ),
}
CLOSED = [one for count in (1, 2, 3) for one in itertools.combinations((0, 1, 2), count)]
FEW = [(0,), (1,), (2,), (0, 1, 2)]


def run(how, *given, closed=(), **more):
    """A run whose words stand behind those by which a command is run, without some of the standard streams."""
    taken = " ".join(f"{number}{'<' if number == 0 else '>'}&-" for number in closed)
    return subprocess.run(
        ["sh", "-c", f'exec "$@" {taken}', "sh", *how, *given], cwd=SQUARE, stdout=subprocess.PIPE,
        stderr=subprocess.PIPE, timeout=rows.SECONDS, check=False, env={**os.environ, "PLANNER": PROGRAM},
        **{"stdin": subprocess.DEVNULL, **more},
    )


class Serving(unittest.TestCase):
    """What `serve` reads is descriptor 0."""

    def setUp(self):
        self.whole = subprocess.run(
            [PROGRAM, *SERVE], cwd=SQUARE, input=LINES, stdout=subprocess.PIPE, timeout=rows.SECONDS, check=True
        ).stdout
        self.first = b"".join(b"send s%d %s\n" % (number, HELLO) for number in (1, 2, 3, 4)) + b"ok settled 0 of 2\n"
        self.assertTrue(self.whole.startswith(self.first))
        self.assertTrue(self.whole.endswith(b"ok running 1 of 2\nbad line\n"), self.whole)

    def is_whole(self, done):
        self.assertEqual((0, self.whole, b""), (done.returncode, done.stdout, done.stderr))

    def test_a_socket(self):
        for how in (DIRECTLY, FRONT_END):
            with self.subTest(how[-1]):
                ours, its = socket.socketpair()
                with ours, its:
                    ours.sendall(LINES)
                    ours.shutdown(socket.SHUT_WR)
                    self.is_whole(run(how, *SERVE, stdin=its))

    def test_lines_of_a_socket_are_answered_in_turn(self):
        ours, its = socket.socketpair()
        with ours, its, subprocess.Popen([PROGRAM, *SERVE], cwd=SQUARE, stdin=its, stdout=its) as process:
            its.close()
            ours.settimeout(rows.SECONDS)
            with ours.makefile("rb") as answers:
                answered = self.block(answers)
                for line in LINES.splitlines(keepends=True):
                    ours.sendall(line)
                    answered += self.block(answers)
                ours.shutdown(socket.SHUT_WR)
                self.assertEqual((self.whole, b""), (answered, answers.read()))
            self.assertEqual(0, process.wait(rows.SECONDS))

    def block(self, answers):
        """The lines up to the one that ends a block."""
        lines = [answers.readline()]
        while not lines[-1].startswith((b"ok ", b"no ", b"bad line")):
            self.assertNotEqual(b"", lines[-1])
            lines.append(answers.readline())
        return b"".join(lines)

    @unittest.skipUnless(os.geteuid() == 0, "only root can become another user")
    def test_a_pipe_of_another_user(self):
        with tempfile.TemporaryDirectory() as folder:
            os.chmod(folder, 0o755)
            shutil.copy(PROGRAM, os.path.join(folder, "program"))
            shutil.copytree(SQUARE, os.path.join(folder, "square"))
            reader, writer = os.pipe()
            os.write(writer, LINES)
            os.close(writer)
            with os.fdopen(reader, "rb") as pipe:
                try:
                    done = subprocess.run(
                        [os.path.join(folder, "program"), *SERVE], cwd=os.path.join(folder, "square"), stdin=pipe,
                        stdout=subprocess.PIPE, stderr=subprocess.PIPE, timeout=rows.SECONDS, check=False, user=NOBODY,
                    )
                except PermissionError:
                    self.skipTest("this root can't become another user")
            self.is_whole(done)

    def test_a_file_that_was_read_in_part(self):
        for how in (DIRECTLY, FRONT_END):
            with self.subTest(how[-1]), tempfile.TemporaryFile() as file:
                file.write(b"none\nback\n" + LINES)
                file.flush()
                os.lseek(file.fileno(), len(b"none\nback\n"), os.SEEK_SET)
                self.is_whole(run(how, *SERVE, stdin=file))

    def test_no_standard_input(self):
        for how in (DIRECTLY, FRONT_END):
            with self.subTest(how[-1]):
                done = run(how, *SERVE, closed=[0])
                self.assertEqual((6, self.first), (done.returncode, done.stdout))

    def test_a_standard_input_that_cannot_be_read(self):
        with open(os.devnull, "wb") as file:
            done = run(DIRECTLY, *SERVE, stdin=file)
        self.assertEqual((6, self.first), (done.returncode, done.stdout))

    def test_a_file_by_the_name_of_the_standard_input(self):
        with open(os.path.join(SQUARE, "plan.json"), "rb") as file:
            done = run(DIRECTLY, "check", *UPDATE.split(), "/dev/stdin", stdin=file)
        self.assertEqual((0, run(DIRECTLY, *CHECK).stdout), (done.returncode, done.stdout))
        done = run(DIRECTLY, "check", *UPDATE.split(), "/dev/stdin", closed=[0])
        self.assertEqual((6, b""), (done.returncode, done.stdout))


class Without(unittest.TestCase):
    """Runs without one or more of the three: what would be written is written, or the status says that it isn't;
    nothing goes anywhere else."""

    def setUp(self):
        self.folder = tempfile.mkdtemp(prefix="planner-tests-")
        self.addCleanup(shutil.rmtree, self.folder)
        for name, text in TEXTS.items():
            with open(os.path.join(self.folder, name), "w", encoding="utf-8") as file:
                file.write(text)

    def test_every_command_is_run(self):
        named = {line.split()[0] for line in RUNS + FRONT_RUNS}
        self.assertEqual([], [command.name for command in words.COMMANDS if command.name not in named])

    def test_each_command_of_the_program(self):
        self.each_closed(DIRECTLY, RUNS, CLOSED)

    def test_each_command_of_the_program_behind_the_front_end(self):
        self.each_closed(FRONT_END, RUNS, FEW)

    def test_each_command_of_the_front_end(self):
        self.each_closed(FRONT_END, FRONT_RUNS, FEW)

    def each_closed(self, how, lines, each):
        for line in lines:
            given = line.format(self.folder).split()
            whole = self.run_anew(how, given, ())
            for closed in each:
                with self.subTest(line, closed=closed):
                    self.is_as_far_as_it_can(line, whole, closed, self.run_anew(how, given, closed))

    def run_anew(self, how, given, closed):
        """A run without some of the streams, before which there is nothing that an earlier one has made."""
        shutil.rmtree(os.path.join(self.folder, "scripts"), ignore_errors=True)
        return run(how, *given, closed=closed)

    def is_as_far_as_it_can(self, line, whole, closed, done):
        """Compares a run without some of the streams with one that has them all."""
        status = 6 if line.startswith("serve") and 0 in closed else whole.returncode
        if 1 in closed and whole.stdout:
            status = 7
        self.assertEqual(status, done.returncode, done.stderr)
        self.assertEqual(b"" if 1 in closed else whole.stdout, done.stdout)
        if 2 in closed:
            self.assertEqual(b"", done.stderr)
        else:
            self.assertNotIn(b"Traceback", done.stderr)
        self.assertEqual(sorted(TEXTS), sorted(name for name in os.listdir(self.folder) if name in TEXTS))
        for name, text in TEXTS.items():
            with open(os.path.join(self.folder, name), encoding="utf-8") as file:
                self.assertEqual(text, file.read())
