"""The runtime's poll, which the broker has, and the event that it is answered with."""
from __future__ import annotations

import asyncio
import calendar
import os
import socket
import stat
import time
from collections.abc import Coroutine
from typing import Any

from .heads import END, Head, hand_on
from .limits import GONE, LATE, MOST_LEFT
from .lines import Address, Line
from .manager import LEFT
from .paths import NEXT

# How a poll is asked for, as far as its reply's length depends on that.
POLL = Head(b"GET " + NEXT + b" HTTP/1.1" + END)


class Collected:
    """Takes a body, as a writer does."""

    def __init__(self) -> None:
        self.bytes = bytearray()

    def write(self, piece: bytes) -> None:
        self.bytes += piece

    async def drain(self) -> None:
        pass


def seconds_left(reply: Head, deadline: float) -> float:
    """How long the attempt that a reply gives may last, by the clock that set its deadline, which stands in the reply's date: this
    machine's, unless that was stepped or is another one. Where the two differ, it is the greater time that can be.
    """
    here = time.time()
    try:
        there: float = calendar.timegm(time.strptime(reply.fields.get("date", ""), "%a, %d %b %Y %H:%M:%S GMT"))
    except ValueError:
        there = here
    if 0 <= here - there < 1:
        there = here
    possible = [left for left in (deadline - here, deadline - there) if 0 <= left <= MOST_LEFT]
    return max(possible, default=MOST_LEFT if deadline > here else 0)


class Event:
    """An event that the broker gave by a reply, of this poll if it is one that is kept here."""

    def __init__(self, reply: Head, poll: Poll | None = None) -> None:
        self.id = reply.fields.get("lambda-runtime-aws-request-id", "")
        told = reply.fields.get("lambda-runtime-deadline-ms")
        self.seconds = seconds_left(reply, int(told) / 1000) if told else MOST_LEFT
        # By the clock that may be stepped, as the broker's, and by the one that is not, as a process is judged.
        self.deadline, self.end = time.time() + self.seconds, time.monotonic() + self.seconds
        self.poll, self.was_read = poll, False

    def is_over(self) -> bool:
        """Whether its attempt is over by the timeout."""
        return time.time() >= self.deadline


class Poll:
    """A poll that the broker has, and the connection that waits for its reply. It stays where that one has gone."""

    def __init__(self, line: Line, connecting: Coroutine[Any, Any, Line], head: bytes = b"") -> None:
        """The broker is asked by this head, or has been asked before."""
        self.line, self.body, self.is_held = line, b"", False
        self.broker: Line | None = None
        self.reply: Head | None = None
        self.event: Event | None = None
        self.asked = asyncio.create_task(self.ask(connecting, head))

    async def ask(self, connecting: Coroutine[Any, Any, Line], head: bytes) -> None:
        try:
            self.broker = await connecting
            if head:
                await self.broker.write(head)
            reply, body = await self.broker.head(POLL), Collected()
            await hand_on(reply.length, self.broker.reader, body)
            self.body, self.event = bytes(body.bytes), Event(reply, self) if reply.status == 200 else None
            self.reply = reply
        except GONE:
            pass
        finally:
            if self.broker:
                self.broker.close()

    def has_event(self) -> bool:
        return self.event is not None and not self.event.is_over()

    def is_over(self) -> bool:
        """Whether nobody needs its reply any more."""
        return self.asked.done() and not self.has_event()

    def is_silent(self) -> bool:
        """Whether nothing of its reply has come."""
        return self.broker is not None and not self.broker.has_said and not self.asked.done()

    def hold(self) -> None:
        """Reads no reply that has not begun to come, so that the next supervisor can."""
        if self.broker and self.is_silent():
            self.broker.transport.pause_reading()
            self.is_held = True

    async def file(self) -> int | None:
        """What the next supervisor reads its reply from: the connection, or a file that has it; or None where that is not to be had."""
        if not self.is_held:
            await asyncio.wait({self.asked}, timeout=LATE)
            self.hold()
        if self.is_held and self.broker:
            return os.dup(self.broker.writer.get_extra_info("socket").fileno())
        if not self.asked.done() or not self.has_event() or not self.reply:
            return None
        file = os.memfd_create(LEFT)
        with open(file, "wb", closefd=False) as content:
            content.write(self.reply.raw + self.body)
        os.lseek(file, 0, os.SEEK_SET)
        return file


async def line_left(file: int, address: Address) -> Line:
    """The connection to the broker that the supervisor before this one had, as its file, or what had come on it."""
    if not stat.S_ISSOCK(os.fstat(file).st_mode):
        with open(file, "rb") as content:
            return Line.of(content.read())
    connection = socket.socket(fileno=file)
    connection.setblocking(False)
    if connection.getpeername()[1] != address[1]:
        connection.close()
        raise OSError("a connection to another port")
    return await Line.over(connection)
