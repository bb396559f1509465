"""Starts the runtime, and starts it again."""
from __future__ import annotations

import asyncio
import contextlib
import os
import signal
import time

from .broker import Broker
from .limits import GRACE, LEAST_PAUSE, MOST_PAUSE
from .lines import Line
from .manager import Manager
from .polls import Poll, line_left
from .processes import end_with_parent, first_of, has_terminal, how
from .telling import say
from .variables import variables_of
from .words import Words


class Supervisor:
    """Starts the runtime, and starts it again."""

    def __init__(self, broker: Broker, words: Words, port: int, manager: Manager) -> None:
        self.broker, self.command, self.keeps_hung, self.manager = broker, words.command, words.keeps_hung, manager
        self.group: int | None = None
        # Whether it ends with its terminal, as by nohup it does not.
        self.has_terminal = has_terminal() and signal.getsignal(signal.SIGHUP) != signal.SIG_IGN
        self.env = {**variables_of(words.arn), **os.environ, "AWS_LAMBDA_RUNTIME_API": f"127.0.0.1:{port}"}
        # Whether this program is to end, whether a new version is to be started, and whether the runtime was ended since it hung.
        self.stopping, self.renewing, self.hung = asyncio.Event(), asyncio.Event(), False

    def stop(self) -> None:
        self.broker.polls = self.broker.gives = False
        if self.broker.poll and self.manager.path:
            self.broker.poll.hold()
        self.stopping.set()

    def hang_up(self) -> None:
        """SIGHUP asks for a new version, but where it says that the terminal has gone."""
        if self.has_terminal and not has_terminal():
            self.stop()
        else:
            self.renewing.set()

    async def rest(self, seconds: float, *others: asyncio.Event) -> None:
        rests = asyncio.create_task(asyncio.sleep(seconds))
        await first_of(rests, self.stopping, *others)
        rests.cancel()

    def signal(self, number: int) -> bool:
        """Whether there was a process of the runtime's group to tell."""
        if self.group is None:
            return False
        try:
            os.killpg(self.group, number)
            return True
        except (ProcessLookupError, PermissionError):
            return False

    async def live(self) -> str:
        """One life of the runtime: how it ended."""
        self.broker.begin()
        self.renewing.clear()
        self.group, self.hung = None, False
        try:
            process = await asyncio.create_subprocess_exec(
                *self.command, env=self.env, start_new_session=True, preexec_fn=end_with_parent
            )
        except OSError as why:
            return f"exited with error: {why}"
        self.group = process.pid
        ended = asyncio.create_task(process.wait())
        await self.until_over(ended)
        if not ended.done():
            await self.end(process, ended)
        return how(ended.result()) if ended.done() else f"did not end by a kill: process {process.pid} is left behind"

    async def until_over(self, ended: asyncio.Future[int]) -> None:
        """Waits until the process has ended, or is to be ended."""
        hangs = () if self.keeps_hung else (self.broker.late,)
        await first_of(ended, self.stopping, self.renewing, *hangs)
        if self.renewing.is_set() and not self.stopping.is_set():
            await self.until_free(ended)
        self.hung = self.broker.late.is_set() and not ended.done() and not self.stopping.is_set()

    async def until_free(self, ended: asyncio.Future[int]) -> None:
        """Waits until nobody has an event, for as long as one may take. No new poll is made meanwhile, so that the next process can."""
        broker = self.broker
        broker.polls, broker.gives = False, bool(broker.extensions)
        await first_of(ended, self.stopping, broker.idle, broker.late)
        # An event that the broker is giving would end with the registrations: it is run before.
        while broker.gives and broker.has_poll() and not ended.done() and not self.stopping.is_set() and not await broker.gives_nothing():
            await asyncio.sleep(0.01)
            await first_of(ended, self.stopping, broker.idle, broker.late)
        broker.gives = False
        if broker.idle.is_set() and not self.stopping.is_set():
            await broker.end_extensions()

    async def end(self, process: asyncio.subprocess.Process, ended: asyncio.Future[int]) -> None:
        """Ends the process, by a kill where it hangs, and else in order."""
        if not self.hung:
            self.signal(signal.SIGTERM)
            await asyncio.wait({ended}, timeout=GRACE)
        with contextlib.suppress(ProcessLookupError):
            process.kill()
        await asyncio.wait({ended}, timeout=GRACE)

    async def end_group(self) -> None:
        """Ends what the runtime left of its process group: extensions, which were told of the end."""
        end = time.monotonic() + GRACE
        while time.monotonic() < end and self.signal(0):
            await asyncio.sleep(0.05)
        self.signal(signal.SIGKILL)

    async def settle(self, why: str) -> None:
        """Behind the end of the runtime: what it had is reported, or kept for the next one."""
        if not self.broker.has_extensions:
            self.signal(signal.SIGKILL)
        # What it sent, and how its connections ended, is looked at first.
        await self.broker.look()
        event = await self.broker.left_with()
        told = [f"Runtime {why}"]
        if event and self.hung:
            # The broker has failed it, unless its clock was put back.
            told = [f"Task timed out after {event.seconds:.2f} seconds", "Sandbox.Timedout"]
            event = None if event.is_over() else event
        while event and not await self.broker.report(event, *told) and not event.is_over() and not self.stopping.is_set():
            await self.rest(1)
        if self.broker.has_extensions:
            await self.broker.end_extensions()
            await self.end_group()
            # One may have registered before it was ended.
            await self.broker.end_extensions()

    async def until_broker(self) -> bool:
        """Waits for the broker: whether the runtime is wanted then."""
        waits = False
        while not self.stopping.is_set() and not await self.broker.is_there():
            if not waits:
                say("there is no broker; waiting for it")
            waits = True
            await self.rest(1)
        return not self.stopping.is_set()

    async def rest_behind(self, why: str, pause: int) -> int:
        """Rests behind a life, unless it is told to start a new version: how long it meant to."""
        if self.hung or self.renewing.is_set():
            what = "the runtime or an extension hung" if self.hung else "a new version is asked for, by SIGHUP"
            say(f"{what}; the runtime {why}; it is started again at once")
            return 0
        pause = LEAST_PAUSE if self.broker.has_polled or not pause else min(2 * pause, MOST_PAUSE)
        say(f"the runtime {why}; it is started again in {pause} s")
        await self.rest(pause, self.renewing)
        return pause

    async def run(self) -> None:
        loop = asyncio.get_running_loop()
        for number in signal.SIGTERM, signal.SIGINT:
            loop.add_signal_handler(number, self.stop)
        loop.add_signal_handler(signal.SIGHUP, self.hang_up)
        left, pause = self.manager.take(), 0
        if left is not None:
            self.broker.poll = Poll(Line.of(), line_left(left, self.broker.address))
        while await self.until_broker():
            why = await self.live()
            await self.settle(why)
            if not self.stopping.is_set():
                pause = await self.rest_behind(why, pause)
        await self.leave()

    async def leave(self) -> None:
        """Leaves a poll that nobody has any more to the next supervisor, or reports what was given while no process polled."""
        poll = self.broker.poll
        is_left = False
        if poll and self.manager.path:
            file = await poll.file()
            is_left = file is not None and self.manager.leave(file)
        if poll and poll.event and poll.has_event() and not is_left:
            await self.broker.report(poll.event, f"Runtime {how(-signal.SIGTERM)}")
