#!/usr/bin/env python3
"""A controller over plain sockets that leads a network from target to target: it reads the tables, plans, carries out:
    sockets.py TOPOLOGY POLICY WAIT NAME=HOST:PORT.. -- TARGET..
Each switch listens where it is said. A packet may be on its way for WAIT seconds. Each TARGET is a configuration."""
import asyncio
import struct
import sys

import planner

ECHO, STATS_REPLY, BARRIER_REPLY, XID = 2, 17, 19, planner.OWN_XIDS[0]       # XID is this controller's own
ALL_FLOWS = struct.pack("!BBHIHHI36xBxHBBHI", 1, 16, 56, XID, 1, 0, 0x3FFFFF, 0xFF, 0xFFFF, 1, 18, 8, XID)


class Controller:
    def __init__(self, topology, policy, wait):
        self.topology, self.policy, self.wait = topology, policy, wait
        self.writers, self.tasks, self.came = {}, [], asyncio.Queue()        # what came; b"" at the end of a connection

    async def connect(self, name, host, port):
        reader, self.writers[name] = await asyncio.open_connection(host, port)
        self.send(name, planner.HELLO)
        self.tasks.append(asyncio.create_task(self.listen(name, reader)))

    def send(self, name, data):
        self.writers[name].write(data)

    async def listen(self, name, reader):
        rest = b""
        while data := await reader.read(1 << 16):
            messages, rest = planner.cut(rest + data)
            for one in messages:
                self.send(name, one[:1] + b"\3" + one[2:]) if one[1] == ECHO else self.came.put_nowait((name, one))
        self.came.put_nowait((name, b""))

    async def message(self):
        name, message = await asyncio.wait_for(self.came.get(), 60)
        return (name, message) if message else sys.exit(f"{name} closed its connection; see docs/LIBRARY.md")

    async def tables(self):
        lines, asked = [], set(self.writers)
        for name in asked:
            self.send(name, ALL_FLOWS)
        while asked:
            name, message = await self.message()
            lines += [f"{name} {message.hex()}\n"] if message[1] == STATS_REPLY else []
            asked -= {name} if message[1] == BARRIER_REPLY else set()
        return await asyncio.to_thread(planner.configuration, self.topology, "".join(lines).encode())

    async def update(self, target):
        """Leads the network to a configuration."""
        old = await self.tables()
        files = self.topology, old.answer, target, self.policy
        answer = await asyncio.to_thread(planner.pack, *files) if old else old
        if not answer or answer.warnings:
            raise SystemExit("\n".join(map(str, [*answer.warnings, *answer.refusals])))
        async with await planner.AsyncSession.begin(*files, answer.plan, send=self.send) as session:
            for name in self.writers:
                await session.feed(name, planner.HELLO)          # it came when the switch was connected
            while session.settled < session.rounds:
                await asyncio.sleep(self.wait)                   # packets that entered before are on their way
                await session.start()
                while session.is_running:
                    for one in (await session.feed(*await self.message())).events:
                        print(one.kind, one.round, one.switch or "", one.do or "", one.rule or one.cause or "")
                    if session.failed:
                        raise SystemExit(f"round {session.settled + 1} isn't settled: see docs/LIBRARY.md")


async def main(topology, policy, wait, *more):
    controller = Controller(topology, policy, float(wait))
    for name, place in (one.split("=") for one in more[:more.index("--")]):
        await controller.connect(name, *place.rsplit(":", 1))
    for target in more[more.index("--") + 1:]:
        await controller.update(target)
        print(f"the switches have the tables of {target}", flush=True)


if __name__ == "__main__":
    asyncio.run(main(*sys.argv[1:]))
