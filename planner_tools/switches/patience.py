"""How long is waited for the program, and for the switches. Of what takes long it is told that it does, and it is Stop
where the patience is at its end."""
from __future__ import annotations

import time
from typing import Callable, Collection

from planner_tools.switches.connections import Stop, progress

# Who hasn't answered yet is said so often while the patience lasts.
TOLD = 12
# Of a run of the program it is said at least so often that it hasn't answered, and it may take so long whatever the
# patience, in seconds.
TELL_PROGRAM, LEAST = 10.0, 20.0


class ProgramPatience:
    """The patience with a run of the program."""

    def __init__(self, seconds: float) -> None:
        self.seconds = seconds
        self.command: str | None = None          # which command is waited for, or None
        self.since = self.most = self.told = 0.0         # since when, for how long, and when that was said last

    def wait_for(self, command: str, times: int = 1) -> None:
        """From now on the program is waited for, as long as the patience allows, so many times over, and for LEAST."""
        now = time.monotonic()
        self.command, self.since, self.most, self.told = command, now, max(LEAST, self.seconds * times), now

    def answered(self) -> None:
        """It has answered."""
        self.command = None

    def mind(self) -> None:
        """Tells that the program takes long, and ends where that lasts longer than the patience."""
        if self.command is None:
            return
        now = time.monotonic()
        if now - self.since > self.most:
            raise Stop(
                (
                    f"the patience of {self.most:g} s with the program is at its end: `planner {self.command}` hasn't"
                    " answered"
                ),
                (
                    "see whether the machine is that busy (then --patience may be greater), or what holds up that"
                    " program; then go on with --resume"
                ),
            )
        if now - self.told > min(TELL_PROGRAM, self.most / TOLD):
            self.told = now
            progress(f"{now - self.since:.0f} s: no answer yet from `planner {self.command}`")


class SwitchPatience:
    """The patience with the switches."""

    def __init__(self, seconds: float) -> None:
        self.seconds = seconds
        self.since: dict[str, float] = {}        # since when each switch is waited for
        self.told = time.monotonic()             # when that was said last

    def mind(
        self, names: Collection[str], more: float, why: Callable[[str], str], state: Callable[[], str],
        dead: Collection[str] = (),
    ) -> None:
        """Ends where one of these switches is waited for longer than the patience and `more`: `why` says of it what it
        owes. Tells the state meanwhile. Those that are dead are waited for since they are to take part again."""
        now = time.monotonic()
        self.since = {name: self.since.get(name, now) for name in names}
        if not names:
            self.told = now
            return
        name = min(names, key=lambda one: self.since[one])
        waited = now - self.since[name]
        if waited > self.seconds + more:
            raise Stop(
                f"the patience of {self.seconds:g} s is at its end: {name} {why(name)}",
                (
                    f"see that {name} is connected and answers; then go on with --resume --repair {name}. While it is"
                    " gone --resume goes on without it"
                )
                if name in dead
                else (
                    f"see that {name} is connected and answers; then go on with --resume. Where it is gone, and no"
                    f" packet passes it, --resume --without {name} goes on without it"
                ),
            )
        if min(waited, now - self.told) > self.seconds / TOLD:
            self.told = now
            progress(f"{waited:.0f} s: {state()}")
