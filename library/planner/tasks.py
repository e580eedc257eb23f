"""Sessions for asyncio."""
from __future__ import annotations

import asyncio
import os
import subprocess
from typing import Any, Callable, Optional

from planner.core import ServeEnded, Step, end_of
from planner.programs import File, path
from planner.serving import END, Blocks
from planner.session import FILES, Lines, Send, Update


class AsyncSession(Update):
    """A session for asyncio: `session = await AsyncSession.begin(..)`. A call that is cancelled is carried out all the
    same; its messages go by `send`."""

    _process: asyncio.subprocess.Process
    _lock: asyncio.Lock
    _said: Blocks

    @classmethod
    async def begin(
        cls, topology: File, old: File, new: File, policy: File, plan: File, *, send: Optional[Send] = None,
        record: str | os.PathLike[str] | None = None, resume: bool = False, patience: float = 60.0,
    ) -> AsyncSession:
        """Begins a session. Refused where the plan isn't accepted."""
        self = cls(dict(zip(FILES, (topology, old, new, policy, plan))), send, record, resume, patience)
        self._lock, self._said = asyncio.Lock(), Blocks()
        try:
            with self.files as names:
                self._process = await asyncio.create_subprocess_exec(
                    path(), "serve", *names, stdin=subprocess.PIPE, stdout=subprocess.PIPE, limit=1 << 22,
                    cwd=self.files.folder, start_new_session=True,
                )
                lines = self._begin(await self._block(b""))
            for line in lines:
                self.core.take(line, await self._block(f"{line}\n".encode()))
        except BaseException:
            await self.close()
            raise
        return self

    async def feed(self, switch: str, data: bytes) -> Step:
        """As `Session.feed`."""
        return await self._do(self._feed(switch, data))

    async def start(self) -> Step:
        """As `Session.start`."""
        return await self._do(self._line("start"))

    async def back(self) -> Step:
        """As `Session.back`."""
        return await self._do(self._line("back"))

    async def reopen(self, switch: str) -> Step:
        """As `Session.reopen`."""
        return await self._do(self._made(self.core.reopen, switch))

    async def dead(self, switch: str) -> Step:
        """As `Session.dead`."""
        return await self._do(self._made(self.core.die, switch))

    def _made(self, line: Callable[[str], str], switch: str) -> Lines:
        """A line that is made when its turn has come."""
        return (yield from self._line(line(switch)))

    async def close(self) -> None:
        """As `Session.close`."""
        process: Any = getattr(self, "_process", None)
        if process is not None and process.returncode is None:
            process.stdin.close()
            try:
                await asyncio.wait_for(process.wait(), END)
            except asyncio.TimeoutError:
                process.kill()
                await process.wait()
        if self._record:
            self._record.close()

    async def __aenter__(self) -> AsyncSession:
        return self

    async def __aexit__(self, *_: object) -> None:
        await self.close()

    async def _do(self, work: Lines) -> Step:
        return await asyncio.shield(asyncio.ensure_future(self._whole(work)))

    async def _whole(self, work: Lines) -> Step:
        async with self._lock:
            try:
                line = next(work)
                while True:
                    self._note(line)
                    line = work.send(await self._block(f"{line}\n".encode()))
            except StopIteration as end:
                step: Step = end.value
                return step

    async def _block(self, data: bytes) -> list[str]:
        try:
            return await asyncio.wait_for(self._exchange(data), self.patience)
        except asyncio.TimeoutError:
            self._is_broken = True
            self._process.kill()
            raise ServeEnded(f"`planner serve` gives no answer within {self.patience:g} s") from None

    async def _exchange(self, data: bytes) -> list[str]:
        assert self._process.stdin is not None and self._process.stdout is not None
        if data:
            self._process.stdin.write(data)
        while (block := self._said.next()) is None:
            piece = await self._process.stdout.read(1 << 16)
            if not piece:
                self._is_broken = True
                raise end_of(await self._process.wait(), self._said.text())
            self._said.feed(piece)
        return block
