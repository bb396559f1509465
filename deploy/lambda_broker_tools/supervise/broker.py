"""What is handed on to the broker, and what is told to it."""
from __future__ import annotations

import asyncio
import contextlib
import dataclasses
import json
import os
import time
from collections.abc import Awaitable, Iterator
from typing import Any, Union

from .heads import TOO_LARGE, Head, hand_on
from .limits import GONE, HUNG, IDLE, LATE, OWED
from .lines import Address, Line, user_of
from .paths import ANSWER, EXTENSION, EXTENSION_NEXT, NEXT, NO_ANSWER, REGISTER, RUNTIME
from .polls import Event, Poll
from .telling import say


# The runtime, by the path of its poll, or an extension, by its identifier.
Party = Union[bytes, str]


def party_of(head: Head) -> Party:
    """Who asks for the next event: the runtime, or an extension."""
    return NEXT if head.path == NEXT else head.fields.get("lambda-extension-identifier", "")


@dataclasses.dataclass
class Beside:
    """The connection to the broker that belongs to one of the runtime, once there is one."""

    line: Line | None = None

    def close(self) -> None:
        if self.line:
            self.line.close()

    async def opened(self, address: Address) -> Line:
        """That connection, opened anew where it was idle for long."""
        if self.line and not self.line.is_gone() and time.monotonic() < self.line.used + IDLE:
            return self.line
        self.close()
        self.line = await Line.to(address)
        return self.line


class Broker:
    """What is handed on to the broker, and what is told to it."""

    def __init__(self, address: Address) -> None:
        self.address = address
        self.poll: Poll | None = None
        self.event: Event | None = None
        self.has_polled, self.has_extensions = False, False
        self.extensions: list[Party] = []
        self.answering: set[asyncio.Future[None]] = set()
        # Who was told something and has not asked for more, and until when the last event may take.
        self.owing: set[Party] = set()
        self.end = 0.0
        # Whether polls are made, and events given.
        self.polls, self.gives = True, True
        # Whether nobody owes, and whether somebody does for too long.
        self.idle, self.late = asyncio.Event(), asyncio.Event()
        self.timer: asyncio.TimerHandle | None = None

    def begin(self) -> None:
        """A process begins its life."""
        self.has_polled, self.has_extensions, self.polls, self.gives = False, False, True, True
        self.owing.clear()
        self.settle()

    def has_poll(self) -> bool:
        """Whether a poll waits for an event, or has one that nobody was given."""
        return self.poll is not None and not self.poll.is_over()

    async def gives_nothing(self) -> bool:
        """Whether the broker had given nothing to the poll that waits. It answers a call once all is durable that was given before, and
        a second one once it has told that.
        """
        poll = self.poll
        for _ in range(2):
            await self.post(NO_ANSWER, {}, b"null")
        await self.look()
        return poll is not None and poll.is_silent()

    async def look(self) -> None:
        """Takes note of what has come on each connection."""
        for _ in range(10):
            await asyncio.sleep(0.002)

    # Who owes: the runtime, by its path, and extensions, by their identifiers

    def told(self, party: Party) -> None:
        """A party was told something, for which it asks again once it has done its work."""
        self.owing.add(party)
        self.idle.clear()
        self.judge_in(max(self.end - time.monotonic(), 0) + HUNG)

    def judge_in(self, seconds: float) -> None:
        if self.timer:
            self.timer.cancel()
        self.timer = asyncio.get_running_loop().call_later(seconds, self.judge)

    def judge(self) -> None:
        """Somebody owes for too long, unless an answer waits for the broker."""
        if self.answering:
            self.judge_in(HUNG)
        else:
            self.late.set()

    def settle(self) -> None:
        """Nobody owes, if it is so."""
        if not self.owing:
            self.idle.set()
            self.late.clear()
            if self.timer:
                self.timer.cancel()

    def asks(self, party: Party) -> None:
        self.owing.discard(party)
        self.settle()
        if party == NEXT:
            self.has_polled = True
            # Who asks has done with an event that is over.
            self.event = None if self.event and self.event.is_over() else self.event

    def answers_poll(self, event: Event | None) -> None:
        """The runtime's poll is answered, with an event or otherwise: then it still owes one that it has not answered."""
        if event:
            self.event, self.end = event, event.end
        if self.event:
            self.told(NEXT)

    async def serve(self, line: Line) -> None:
        """Answers one connection of the runtime or of an extension."""
        beside, keeps, user = Beside(), True, user_of(line)
        try:
            if user not in (0, os.getuid(), None):
                say(f"refused a connection of user {user}: the runtime has to run as user {os.getuid()}")
                return
            while keeps:
                head = await line.head()
                # Who has sent an answer and gone is known by the event's id, which nobody else knows.
                if user is None and not self.answers(head):
                    return
                if self.event and self.event.poll and self.event.poll.line is line:
                    self.event.was_read = True
                if head.path in (NEXT, EXTENSION_NEXT):
                    self.asks(party_of(head))
                with self.answered(head):
                    keeps = await self.reply(head, line, beside)
        except asyncio.LimitOverrunError:
            with contextlib.suppress(OSError):
                await line.write(TOO_LARGE)
            await line.linger()
        except GONE:
            pass
        finally:
            line.close()
            beside.close()

    def reply(self, head: Head, line: Line, beside: Beside) -> Awaitable[bool]:
        """Answers a request, by the broker: whether the connection goes on."""
        if self.is_poll(head, line):
            return self.give(head, line)
        if head.path == EXTENSION_NEXT and not self.polls:
            return self.let_end(line)
        return self.pass_on(head, line, beside)

    def is_poll(self, head: Head, line: Line) -> bool:
        """A poll as runtimes make it. Any other, as one of a web page, goes to the broker by itself, which refuses it."""
        host, port = line.writer.get_extra_info("sockname")
        plain = not head.length and not {"origin", "sec-fetch-site"} & head.fields.keys()
        return head.first[0] == b"GET" and head.first[1] == NEXT and plain and head.fields.get("host") == f"{host}:{port}"

    async def give(self, head: Head, line: Line) -> bool:
        """Answers a poll, unless its client goes before: then it stays for the next one."""
        poll = self.poll
        if poll is None or poll.is_over() or not poll.line.is_gone():
            if not self.polls:
                return await self.let_end(line)
            poll = self.poll = Poll(line, Line.to(self.address), head.raw)
        poll.line = line
        await asyncio.wait({poll.asked, line.left}, return_when=asyncio.FIRST_COMPLETED)
        if not self.gives:
            return await self.let_end(line)
        if poll.line is not line or not poll.asked.done() or line.is_gone():
            return False
        self.poll = None if self.poll is poll else self.poll
        self.answers_poll(poll.event)
        if poll.reply is None:
            return False
        await line.write(poll.reply.raw, poll.body)
        return poll.reply.keeps()

    async def let_end(self, line: Line) -> bool:
        """Tells nothing any more to who is to end."""
        await line.left
        return False

    async def pass_on(self, head: Head, line: Line, beside: Beside) -> bool:
        """Hands a request on, and its reply back: whether the connection goes on."""
        broker = await beside.opened(self.address)
        body = asyncio.create_task(self.body_on(head, line, broker))
        try:
            reply = await broker.head(head)
            while reply.status < 200:
                await line.write(reply.raw)
                reply = await broker.head(head)
            self.note(head, reply)
            await line.write(reply.raw)
            await hand_on(reply.length, broker.reader, line.writer)
            if not body.done():
                body.cancel()
                await line.linger()
                return False
            return reply.keeps()
        finally:
            body.cancel()

    async def body_on(self, head: Head, line: Line, broker: Line) -> None:
        """Hands a request on. Where it breaks off, so does its connection."""
        try:
            await broker.write(head.raw)
            await hand_on(head.length, line.reader, broker.writer)
        except GONE:
            # What the broker answers before it closes its end is still read.
            if line.is_gone():
                broker.transport.abort()

    @contextlib.contextmanager
    def answered(self, head: Head) -> Iterator[None]:
        """Where a request is an answer or a registration, the end of the runtime waits for what the broker says to it."""
        ended: asyncio.Future[None] = asyncio.get_running_loop().create_future()
        self.answering |= {ended} if self.answers(head) or head.path == REGISTER else set()
        try:
            yield
        finally:
            self.answering.discard(ended)
            ended.set_result(None)

    def answers(self, head: Head) -> bool:
        """Whether a request answers the event that the runtime has."""
        path = ANSWER.fullmatch(head.path)
        return bool(path and self.event and path[1].decode("latin-1").lower() == self.event.id)

    def note(self, head: Head, reply: Head) -> None:
        """What a reply changes of what is kept here."""
        if reply.status == 202 and self.answers(head):
            self.event = None
        if head.path == NEXT:
            self.answers_poll(Event(reply) if reply.status == 200 else None)
        # An event or the end; or that its registration is void.
        if reply.status in (200, 500) and head.path == EXTENSION_NEXT and party_of(head) in self.extensions:
            self.told(party_of(head))
        if reply.status == 200 and head.path == REGISTER:
            self.extensions.append(reply.fields.get("lambda-extension-identifier", ""))
            self.has_extensions = True

    # Behind the end of the runtime

    async def post(self, path: str, fields: dict[str, Party], body: bytes) -> int | None:
        """The status that the broker answers to a call, or None where it has gone."""
        told: dict[str, Any] = {"Host": "127.0.0.1", "Content-Type": "application/json", "Content-Length": len(body)}
        told |= {"Connection": "close", **fields}
        lines = "".join(f"{name}: {value}\r\n" for name, value in told.items())
        try:
            line = await Line.to(self.address)
            try:
                await line.write(f"POST {path} HTTP/1.1\r\n{lines}\r\n".encode(), body)
                return (await asyncio.wait_for(line.head(), OWED)).status
            finally:
                line.close()
        except GONE:
            return None

    async def report(self, event: Event, words: str, kind: str = "Runtime.ExitError") -> bool:
        """Tells the broker how an event ended: whether it heard that."""
        told = {"errorType": kind, "errorMessage": f"RequestId: {event.id} Error: {words}"}
        for body in json.dumps(told, separators=(",", ":")).encode(), b"{}":
            path = f"{RUNTIME}/invocation/{event.id}/error"
            status = await self.post(path, {"Lambda-Runtime-Function-Error-Type": kind}, body)
            if status != 413:
                break
        say(f"event {event.id} ended: {words}; the broker was told, and answered {status or 'nothing'}")
        return status not in (None, 503)

    async def until_answered(self) -> None:
        if self.answering:
            await asyncio.wait(self.answering, timeout=OWED)

    async def left_with(self) -> Event | None:
        """The event that the runtime had when it ended. One that it has not read stays for the next process."""
        if self.poll:
            self.poll.line.leave()
        await self.until_answered()
        if self.event and self.event.poll:
            # The end of its connection was there before its own, and may be heard after it.
            await asyncio.wait([self.event.poll.line.left], timeout=LATE)
        event, self.event = self.event, None
        if event and event.poll and event.poll.line.is_reset and not event.was_read and self.poll is None:
            self.poll, event = event.poll, None
        return event

    async def end_extensions(self) -> None:
        """Reports extensions as ended until the broker takes one: that makes all registrations void, and opens registration again."""
        await self.until_answered()
        told, self.extensions = self.extensions, []
        for identifier in reversed(told):
            fields = {"Lambda-Extension-Identifier": identifier, "Lambda-Extension-Function-Error-Type": "Extension.Exit"}
            if await self.post(f"{EXTENSION}/exit/error", fields, b"{}") == 202:
                # A poll is over by that, and an event that it had.
                self.poll = None
                break

    async def is_there(self) -> bool:
        try:
            (await Line.to(self.address)).close()
            return True
        except (OSError, asyncio.TimeoutError):
            return False
