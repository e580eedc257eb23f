"""Sessions over `planner serve`, for threads and for asyncio, with switches that are functions. PLANNER names the
program."""
import asyncio
import json
import os
import pathlib
import queue
import stat
import struct
import sys
import tempfile
import threading
import unittest

ROOT = pathlib.Path(__file__).resolve().parents[2]
sys.path.insert(0, str(ROOT / "library"))

import planner  # noqa: E402

SQUARE, DETOUR = ROOT / "examples" / "square", ROOT / "examples" / "detour"
NAMES = ("topology", "old", "new", "policy", "plan")
LONGEST = 120


def files(folder):
    return [folder / f"{name}.json" for name in NAMES]


def switches(folder):
    return [one["name"] for one in json.loads((folder / "topology.json").read_text())["switches"]]


def reply(message):
    """What a good switch answers to a message, or None."""
    return bytes([1, 19]) + message[2:] if message[1] == 18 else None


def error(xid, kind=3, code=0):
    return struct.pack("!BBHIHH", 1, 1, 12, xid, kind, code)


def own(message):
    """A message with an xid of the controller's own."""
    return message[:4] + struct.pack("!I", planner.OWN_XIDS[7]) + message[8:]


def answered(session, step, events):
    """Answers what a step sends, and what that sends, and notes the events."""
    events += step.events
    for one in step.messages:
        data = reply(one.data)
        if data:
            answered(session, session.feed(one.switch, data), events)


class Sessions(unittest.TestCase):
    def open(self, folder, **more):
        session = planner.Session(*files(folder), **more)
        self.addCleanup(session.close)
        for name in switches(folder):
            session.feed(name, planner.HELLO)
        return session

    def test_a_whole_update_there_and_back(self):
        for folder, rounds in ((SQUARE, 2), (DETOUR, 8)):
            with self.subTest(folder.name):
                session, events = self.open(folder), []
                self.assertEqual((0, rounds, False), (session.settled, session.rounds, session.is_running))
                while session.settled < session.rounds:
                    answered(session, session.start(), events)
                plan = json.loads((folder / "plan.json").read_text())
                changes = [
                    (round_, plan["rules"][number])
                    for round_, those in enumerate(plan["rounds"], 1)
                    for _, number in those
                ]
                changed = [one for one in events if one.kind == "changed"]
                self.assertEqual(
                    sorted(changes, key=repr), sorted([(one.round, dict(one.rule)) for one in changed], key=repr)
                )
                self.assertTrue(
                    all(
                        one.switch == one.rule["switch"] and plan["rounds"][one.round - 1][one.change][0] == one.do
                        for one in changed
                    )
                )
                self.assertEqual(list(range(1, rounds + 1)), [one.round for one in events if one.kind == "settled"])
                with self.assertRaises(planner.NotNow) as refused:
                    session.start()
                self.assertEqual("finished", refused.exception.why)
                events = []
                while session.settled:
                    answered(session, session.back(), events)
                self.assertEqual(list(range(rounds, 0, -1)), [one.round for one in events if one.kind == "taken back"])
                self.assertEqual(len(changes), len([one for one in events if one.kind == "undone"]))
                with self.assertRaises(planner.NotNow):
                    session.back()

    def test_a_round_is_turned_in_its_midst(self):
        session = self.open(SQUARE)
        step = session.start()
        self.assertEqual(["started"], [one.kind for one in step.events])
        self.assertEqual(["s1", "s1"], [one.switch for one in step.messages])
        self.assertEqual(frozenset(["s1"]), session.owing)
        turned, events = session.back(), []
        self.assertEqual(
            ([("turned", 1)], True, True),
            ([(one.kind, one.round) for one in turned.events], turned.is_running, turned.is_back),
        )
        for one in (step.messages[-1], turned.messages[-1]):
            events += session.feed("s1", reply(one.data)).events
        self.assertEqual([("changed", 1), ("undone", 1), ("taken back", 1)][-1], (events[-1].kind, events[-1].round))
        self.assertEqual((0, False, frozenset()), (session.settled, session.is_running, session.owing))

    def test_messages_come_in_pieces_and_own_ones_are_kept_apart(self):
        session = self.open(SQUARE)
        sent = session.start().messages
        packet_in = bytes([1, 10, 0, 12]) + bytes(8)
        data = (
            own(reply(sent[-1].data))
            + packet_in
            + own(error(0))
            + bytes([1, 2, 0, 9, 0, 0, 0, 5, 77])
            + reply(sent[-1].data)
        )
        others, replies, events = [], [], []
        for at in range(len(data)):
            step = session.feed("s1", data[at:at + 1])
            others += step.others
            replies += step.messages
            events += step.events
        self.assertEqual([own(reply(sent[-1].data)), packet_in, own(error(0))], [one.data for one in others])
        self.assertEqual([bytes([1, 3, 0, 9, 0, 0, 0, 5, 77])], [one.data for one in replies])
        self.assertEqual((["changed", "settled"], {}), ([one.kind for one in events], session.failed))

    def test_a_failed_session_is_opened_anew(self):
        session = self.open(SQUARE)
        sent = session.start().messages
        step = session.feed("s1", error(struct.unpack("!I", sent[0].data[4:8])[0]))
        self.assertEqual(
            [("failed", 1, "s1", "Error 3 0")], [(one.kind, one.round, one.switch, one.cause) for one in step.events]
        )
        self.assertEqual(({"s1": "Error 3 0"}, frozenset(["s1"])), (session.failed, session.owing))
        self.assertEqual((), session.feed("s1", reply(sent[-1].data)).events)
        self.assertEqual([planner.HELLO], [one.data for one in session.reopen("s1").messages])
        step = session.feed("s1", planner.HELLO)
        self.assertEqual(sent, step.messages)
        self.assertEqual(["changed", "settled"], [one.kind for one in session.feed("s1", reply(sent[-1].data)).events])

    def round_without(self, session, name):
        """Begins a round, of which all switches but this one answer. What it was sent, and the events."""
        step, events = session.start(), []
        events += step.events
        for one in step.messages:
            if one.switch != name and reply(one.data):
                events += session.feed(one.switch, reply(one.data)).events
        return [one for one in step.messages if one.switch == name], events

    def numbers(self, folder, round_, name):
        """The numbers of a round's changes at a switch."""
        plan = json.loads((folder / "plan.json").read_text())
        return [at for at, (_, rule) in enumerate(plan["rounds"][round_ - 1]) if plan["rules"][rule]["switch"] == name]

    def test_a_round_is_settled_without_a_dead_switch_that_was_the_last_one(self):
        session = self.open(DETOUR)
        sent, _ = self.round_without(session, "w")
        self.assertEqual((True, frozenset(["w"])), (session.is_running, session.owing))
        step = session.dead("w")
        changed = [(one.kind, one.switch, one.change) for one in step.events[:-1]]
        self.assertEqual([("changed", "w", one) for one in self.numbers(DETOUR, 1, "w")], changed)
        self.assertEqual(
            ("settled", 1, False, ()), (step.events[-1].kind, step.settled, step.is_running, step.messages)
        )
        self.assertEqual((frozenset(["w"]), frozenset()), (session.gone, session.owing))
        # of the round that was settled without it it gets nothing
        self.assertEqual([planner.HELLO], [one.data for one in session.reopen("w").messages])
        self.assertEqual((), session.feed("w", planner.HELLO).messages)
        self.assertEqual(frozenset(), session.gone)
        self.assertTrue(sent)

    def test_a_dead_switch_that_is_there_again_is_sent_the_running_round(self):
        for is_back in (False, True):
            with self.subTest(is_back=is_back):
                session = self.open(DETOUR)
                first = session.start()
                sent = [one for one in first.messages if one.switch == "w"]
                self.assertEqual((), session.dead("w").events)
                if is_back:
                    turned = session.back()
                    self.assertFalse([one for one in turned.messages if one.switch == "w"])
                self.assertEqual(((), ()), (session.dead("w").events, session.dead("w").messages))
                session.reopen("w")
                again = session.feed("w", planner.HELLO).messages
                if is_back:
                    xids = [one.data[4:8] for step in (first, turned) for one in step.messages]
                    self.assertEqual((len(sent), []), (len(again), [one for one in again if one.data[4:8] in xids]))
                else:
                    self.assertEqual(tuple(sent), again)
                self.assertEqual(frozenset(["w"]), session.owing & {"w"})

    def test_a_round_of_dead_switches_alone_is_settled_as_it_begins(self):
        session = self.open(SQUARE)
        session.dead("s1")
        step = session.start()
        self.assertEqual(["started", "changed", "settled"], [one.kind for one in step.events])
        self.assertEqual(((), 1), (step.messages, step.settled))
        step = session.back()
        self.assertEqual(["turned", "undone", "taken back"], [one.kind for one in step.events])
        self.assertEqual(((), 0), (step.messages, step.settled))

    def test_of_a_dead_switch_nothing_is_given(self):
        session = self.open(SQUARE)
        session.dead("s1")
        step = session.feed("s1", planner.HELLO + bytes([1, 2, 0, 8, 0, 0, 0, 0]))
        self.assertEqual(((), 2), (step.messages, len(step.others)))
        self.assertEqual((), session.feed("s1", bytes([4, 5, 0, 8, 0, 0, 0, 0])).events)
        with self.assertRaises(ValueError):
            session.dead("s9")
        with self.assertRaises(ValueError):
            session.dead("s 1")

    def test_a_record_keeps_which_switches_are_dead(self):
        with tempfile.TemporaryDirectory() as folder:
            record = os.path.join(folder, "record")
            with planner.Session(*files(SQUARE), record=record) as session:
                session.dead("s1")
            with planner.Session(*files(SQUARE), record=record, resume=True) as session:
                self.assertEqual(frozenset(["s1"]), session.gone)

    def test_what_comes_before_hello_fails_the_session(self):
        with planner.Session(*files(SQUARE)) as session:
            self.assertEqual("NoHello", session.feed("s1", bytes([1, 10, 0, 8, 0, 0, 0, 0])).events[0].cause)
            self.assertEqual("Version", session.feed("s2", bytes([4, 5, 0, 8, 0, 0, 0, 0])).events[0].cause)
            with self.assertRaises(planner.NotNow) as refused:
                session.start()
            self.assertEqual(("open", "s1"), (refused.exception.why, refused.exception.switch))
            for name in ("s9", "s 1", "s1\nstart", ""):
                with self.assertRaises(ValueError):
                    session.feed(name, planner.HELLO)

    def test_send_is_called_in_order_from_many_threads(self):
        """Each switch has a thread. What is sent is what one thread would send, and the rounds come one behind the
        other."""
        told, work = [], {name: queue.Queue() for name in switches(DETOUR)}

        def send(name, data):
            told.append((name, data))
            if reply(data):
                work[name].put(reply(data))

        session = self.open(DETOUR, send=send)
        settled = threading.Condition()

        def attend(name):
            while (data := work[name].get()) is not None:
                session.feed(name, data)
                with settled:
                    settled.notify_all()

        threads = [threading.Thread(target=attend, args=(name,), daemon=True) for name in work]
        for one in threads:
            one.start()
        while session.settled < session.rounds:
            session.start()
            with settled:
                self.assertTrue(settled.wait_for(lambda: not session.is_running, LONGEST))
        for one in work.values():
            one.put(None)
        for one in threads:
            one.join(LONGEST)
        emitted = planner.ask(
            "emit", {"topology.json": DETOUR / "topology.json", "plan.json": DETOUR / "plan.json"}
        ).answer.split("\n")[:-1]
        self.assertEqual(
            [(line.split()[1], line.split()[2]) for line in emitted], [(name, data.hex()) for name, data in told]
        )

    def test_a_record_is_gone_on_with(self):
        with tempfile.TemporaryDirectory() as folder:
            record = os.path.join(folder, "record")
            with planner.Session(*files(SQUARE), record=record) as session:
                for name in switches(SQUARE):
                    session.feed(name, planner.HELLO)
                events = []
                answered(session, session.start(), events)
                sent = session.start().messages
                with self.assertRaises(planner.NotNow):
                    session.start()
            with open(record, "ab") as file:
                file.write(b"feed s3 01")        # it was cut off
            with self.assertRaises(FileExistsError):
                planner.Session(*files(SQUARE), record=record)
            with self.assertRaises(ValueError):
                planner.Session(*files(DETOUR), record=record, resume=True)
            with planner.Session(*files(SQUARE), record=record, resume=True) as session:
                self.assertEqual((1, True, frozenset(["s3"])), (session.settled, session.is_running, session.owing))
                session.reopen("s3")
                self.assertEqual(sent, session.feed("s3", planner.HELLO).messages)
                answered(session, session.feed("s3", reply(sent[-1].data)), events)
                self.assertEqual(2, session.settled)
            with planner.Session(*files(SQUARE), record=record, resume=True) as session:
                self.assertEqual((2, False), (session.settled, session.is_running))

    def test_a_plan_that_is_refused(self):
        names = files(SQUARE)
        with self.assertRaises(planner.Refused) as refused:
            planner.Session(*names[:4], SQUARE / "plan-at-once.json")
        self.assertEqual(
            (1, True), (refused.exception.status, refused.exception.text.startswith("refused: 7 NotLower "))
        )
        with self.assertRaises(planner.Refused) as refused:
            planner.Session(*names[:4], b"{")
        self.assertEqual(3, refused.exception.status)

    def test_a_program_that_ends_or_hangs(self):
        session = self.open(SQUARE)
        session._serve.process.kill()
        with self.assertRaises(planner.ServeEnded):
            session.start()
        with self.assertRaises(planner.ServeEnded):
            session.feed("s1", planner.HELLO)
        with tempfile.TemporaryDirectory() as folder:
            path = os.path.join(folder, "hangs")
            with open(path, "w", encoding="ascii") as file:
                file.write("#!/bin/sh\nexec sleep 600\n")
            os.chmod(path, stat.S_IRWXU)
            before = os.environ.get("PLANNER")
            self.addCleanup(lambda: os.environ.pop("PLANNER") if before is None else os.environ.update(PLANNER=before))
            os.environ["PLANNER"] = path
            with self.assertRaises(planner.ServeEnded) as ended:
                planner.Session(*files(SQUARE), patience=0.2)
            self.assertIn("no answer within 0.2 s", str(ended.exception))


class AsyncSessions(unittest.IsolatedAsyncioTestCase):
    async def opened(self, folder, **more):
        session = await planner.AsyncSession.begin(*files(folder), **more)
        self.addAsyncCleanup(session.close)
        for name in switches(folder):
            await session.feed(name, planner.HELLO)
        return session

    async def test_a_whole_update_with_a_task_for_each_switch(self):
        queues = {name: asyncio.Queue() for name in switches(DETOUR)}
        session = await self.opened(
            DETOUR, send=lambda name, data: reply(data) and queues[name].put_nowait(reply(data))
        )
        events, settled = [], asyncio.Event()

        async def attend(name):
            while True:
                step = await session.feed(name, await queues[name].get())
                events.extend(step.events)
                if not step.is_running:
                    settled.set()

        tasks = [asyncio.create_task(attend(name)) for name in queues]
        while session.settled < session.rounds:
            settled.clear()
            if (await session.start()).is_running:
                await asyncio.wait_for(settled.wait(), LONGEST)
        for one in tasks:
            one.cancel()
        self.assertEqual([1, 2, 3, 4, 6, 7, 8], [one.round for one in events if one.kind == "settled"])
        with self.assertRaises(planner.NotNow):
            await session.start()

    async def test_a_cancelled_call_is_carried_out(self):
        sent = []
        session = await self.opened(SQUARE, send=lambda name, data: sent.append(name))
        call = asyncio.ensure_future(session.start())
        await asyncio.sleep(0)
        await asyncio.sleep(0)
        call.cancel()
        with self.assertRaises(asyncio.CancelledError):
            await call
        with self.assertRaises(planner.NotNow) as refused:
            await session.start()
        self.assertEqual(("running", ["s1", "s1"]), (refused.exception.why, sent))

    async def test_a_switch_is_dead(self):
        session = await self.opened(SQUARE)
        await session.start()
        step = await session.dead("s1")
        self.assertEqual((["changed", "settled"], 1), ([one.kind for one in step.events], step.settled))
        self.assertEqual(["s1"], [one.switch for one in (await session.reopen("s1")).messages])

    async def test_refusals_records_and_ends(self):
        with self.assertRaises(planner.Refused):
            await planner.AsyncSession.begin(*files(SQUARE)[:4], SQUARE / "plan-at-once.json")
        with tempfile.TemporaryDirectory() as folder:
            record = os.path.join(folder, "record")
            async with await planner.AsyncSession.begin(*files(SQUARE), record=record) as session:
                for name in switches(SQUARE):
                    await session.feed(name, planner.HELLO)
                sent = (await session.start()).messages
            async with await planner.AsyncSession.begin(*files(SQUARE), record=record, resume=True) as session:
                await session.reopen("s1")
                self.assertEqual(sent, (await session.feed("s1", planner.HELLO)).messages)
                session._process.kill()
                with self.assertRaises(planner.ServeEnded):
                    await session.feed("s1", reply(sent[-1].data))


if __name__ == "__main__":
    unittest.main()
