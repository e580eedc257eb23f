"""Sessions over `planner serve`: for threads, and what those for asyncio share with them. They give lines and take
blocks; what follows from these is of core.py."""
from __future__ import annotations

import contextlib
import hashlib
import os
import threading
from typing import Callable, Generator, Iterator, Optional, Sequence

from planner.core import Core, Event, Message, Reply, ServeEnded, Step, checked, named, rounds_of
from planner.programs import File, Files, bytes_of, path
from planner.serving import Serve

Send = Callable[[str, bytes], None]
# A piece of work that gives lines and is sent their blocks.
Lines = Generator[str, "list[str]", Step]
FILES = ("topology.json", "old.json", "new.json", "policy.json", "plan.json")


class Record:
    """The lines that `serve` was given. Each is on the disk before it is given."""

    def __init__(self, path: str | os.PathLike[str], resume: bool, sums: str):
        head = f"# planner library 1 {sums}"
        self.file = open(path, "r+b" if resume else "xb", buffering=0)
        lines = self.file.read().split(b"\n")[:-1] if resume else []
        if lines and lines[0].decode() != head:
            self.file.close()
            raise ValueError(
                f"{os.fspath(path)} is the record of another update: its first line has the sums of its files"
            )
        self.lines = [line.decode("ascii") for line in lines[1:]]
        # without a last line that was cut off: nothing followed from it
        self.file.truncate(sum(len(line) + 1 for line in lines))
        self.file.seek(0, os.SEEK_END)
        if not lines:
            self.add(head)

    def add(self, line: str) -> None:
        data = f"{line}\n".encode("ascii")
        while data:
            data = data[self.file.write(data):]
        os.fsync(self.file.fileno())

    def close(self) -> None:
        self.file.close()


class Update:
    """What both sessions share: the work of each call, as lines that are given and blocks that are taken."""

    def __init__(
        self, files: dict[str, File], send: Optional[Send], record: str | os.PathLike[str] | None, resume: bool,
        patience: float,
    ):
        data = {name: bytes_of(file) for name, file in files.items()}
        # with a record `serve` reads the very bytes of which it has the sums
        self.files = Files(data, is_apart=False) if record is not None else Files(files, is_apart=False)
        self.send, self.patience = send, patience
        self.core = Core([])
        self._plan = data["plan.json"]
        sums = " ".join(hashlib.sha256(one).hexdigest()[:16] for one in data.values())
        self._record = Record(record, resume, sums) if record is not None else None
        self._is_broken = False

    @property
    def settled(self) -> int:
        """How many rounds are settled."""
        return self.core.settled

    @property
    def rounds(self) -> int:
        """How many rounds the plan has."""
        return self.core.rounds

    @property
    def is_running(self) -> bool:
        """Whether a round runs, in either way."""
        return self.core.is_running

    @property
    def open(self) -> frozenset[str]:
        """The switches whose session is open."""
        return frozenset(self.core.open)

    @property
    def failed(self) -> dict[str, str]:
        """By switch the cause for which its session failed."""
        return dict(self.core.failed)

    @property
    def gone(self) -> frozenset[str]:
        """The switches that are dead."""
        return frozenset(self.core.dead)

    @property
    def owing(self) -> frozenset[str]:
        """The switches that hold up the running round."""
        return frozenset(self.core.owing())

    def schedule(self) -> str:
        """The events that led here, as a schedule: `planner tables` says by it what the switches must have."""
        return self.core.schedule()

    # ---- the work

    def _begin(self, block: list[str]) -> list[str]:
        """Takes the first block. The lines of the record, which are given next."""
        self.core = Core(rounds_of(self._plan))
        checked(self.core.take("", block))
        return list(self._record.lines) if self._record else []

    def _note(self, line: str) -> None:
        if self._is_broken:
            raise ServeEnded("an earlier call of this session ended without an answer")
        if self._record:
            self._record.add(line)

    def _feed(self, switch: str, data: bytes) -> Lines:
        messages: list[Message] = []
        events: list[Event] = []
        others: list[Message] = []
        for piece, is_fed in self.core.pieces(named(switch), data):
            if is_fed:
                line = f"feed {switch} {piece.hex()}"
                self._take(line, (yield line), messages, events)
            else:
                others.append(Message(switch, piece))
        return self.core.step(messages, events, others)

    def _line(self, line: str) -> Lines:
        messages: list[Message] = []
        events: list[Event] = []
        self._take(line, (yield line), messages, events)
        return self.core.step(messages, events, [])

    def _take(self, line: str, block: list[str], messages: list[Message], events: list[Event]) -> None:
        reply = checked(self._taken(line, block))
        messages += reply.messages
        events += reply.events

    def _taken(self, line: str, block: list[str]) -> Reply:
        reply = self.core.take(line, block)
        if self.send is not None:
            for one in reply.messages:
                self.send(one.switch, one.data)
        return reply


class Session(Update):
    """A session for threads. Each call is whole before the next begins, and `send` is called in its midst, so messages
    go out in their order.

    `program` is the path of the program, where it isn't the one that is found. `meanwhile` is called again and again as
    long as an answer is waited for; it takes some time, and what it raises ends the session."""

    def __init__(
        self, topology: File, old: File, new: File, policy: File, plan: File, *, send: Optional[Send] = None,
        record: str | os.PathLike[str] | None = None, resume: bool = False, patience: float = 60.0,
        program: str | None = None, meanwhile: Optional[Callable[[], None]] = None,
    ):
        super().__init__(dict(zip(FILES, (topology, old, new, policy, plan))), send, record, resume, patience)
        self.lock = threading.RLock()
        self._serve: Serve | None = None
        try:
            with self.files as names:
                self._serve = Serve(program or path(), names, self.files.folder, patience, meanwhile)
                lines = self._begin(self._serve.block())
            for line, block in zip(lines, self._serve.blocks(lines)):
                # what it says was sent before, or is said again behind `reopen`; what was refused then is refused again
                self.core.take(line, block)
        except BaseException:
            self.close()
            raise

    # ---- the calls

    def feed(self, switch: str, data: bytes) -> Step:
        """These bytes came from the switch, in any pieces."""
        return self._do(self._feed(switch, data))

    def start(self) -> Step:
        """The next round begins: every packet that entered before the last one was settled has left, was dropped or was
        lost. NotNow where it can't."""
        return self._do(self._line("start"))

    def back(self) -> Step:
        """The running round is turned; where none runs, the one that was settled last is undone, and of packets it is
        said what `start` says."""
        return self._do(self._line("back"))

    def reopen(self, switch: str) -> Step:
        """There is a new session with the switch: what was sent to it before and isn't carried out by now never will
        be, and it has kept its table; of a dead one: it has now the table that `planner tables` gives for the schedule
        so far."""
        with self.lock:
            return self._do(self._line(self.core.reopen(switch)))

    def dead(self, switch: str) -> Step:
        """No packet passes this switch any more, and none will before it is said to be open anew. No round waits for
        it."""
        with self.lock:
            return self._do(self._line(self.core.die(switch)))

    def replies(self, lines: Sequence[str]) -> Iterator[Reply]:
        """Gives lines of a record that whoever calls keeps himself, all of them together, and yields what is answered
        to each as soon as that is there. A line that isn't taken is a reply too. All of the replies are to be taken
        before the next call."""
        with self.lock:
            for line in lines:
                self._note(line)
            with self._whole() as serve:
                for line, block in zip(lines, serve.blocks(lines)):
                    yield self._taken(line, block)

    def close(self) -> None:
        """Ends `serve`, and closes the record. The update stays where it is."""
        if self._serve is not None:
            self._serve.close()
            self._serve = None
        if self._record:
            self._record.close()

    def __enter__(self) -> Session:
        return self

    def __exit__(self, *_: object) -> None:
        self.close()

    def _do(self, work: Lines) -> Step:
        with self.lock:
            try:
                line = next(work)
                while True:
                    self._note(line)
                    with self._whole() as serve:
                        block = next(serve.blocks([line]))
                    line = work.send(block)
            except StopIteration as end:
                step: Step = end.value
                return step

    @contextlib.contextmanager
    def _whole(self) -> Iterator[Serve]:
        """The run of `serve`. Where it isn't left in good order the session is of no use any more: a block may be
        outstanding."""
        if self._serve is None:
            raise ServeEnded("the session is closed")
        self._is_broken, was_broken = True, self._is_broken
        yield self._serve
        self._is_broken = was_broken
