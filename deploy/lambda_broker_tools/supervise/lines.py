"""Connections, and who is at their other ends."""
from __future__ import annotations

import asyncio
import contextlib
import select
import socket
import struct
import time
from collections.abc import Awaitable, Callable
from typing import Any, Tuple, cast

from .heads import END, Head
from .limits import CONNECT, GONE, LINGER, MOST_HEAD, PIECE

Address = Tuple[str, int]


class Line(asyncio.StreamReaderProtocol):
    """A connection, and whether its other end has gone: `left` is done then."""

    def __init__(self, serve: Callable[[Line], Awaitable[None]] | None = None) -> None:
        loop = asyncio.get_running_loop()
        self.reader = asyncio.StreamReader(limit=MOST_HEAD)
        super().__init__(self.reader, self.serving if serve else None)
        self.serve = serve
        self.left: asyncio.Future[None] = loop.create_future()
        self.is_reset, self.has_said, self.used = False, False, 0.0
        self.opened: asyncio.StreamWriter | None = None

    @property
    def writer(self) -> asyncio.StreamWriter:
        if self.opened is None:
            raise EOFError("nobody is at the other end")
        return self.opened

    @property
    def transport(self) -> asyncio.Transport:
        return cast(asyncio.Transport, self.writer.transport)

    @classmethod
    def of(cls, content: bytes = b"") -> Line:
        """One whose other end has gone, with what it said."""
        line = cls()
        line.reader.feed_data(content)
        line.reader.feed_eof()
        line.leave()
        return line

    async def serving(self, _: asyncio.StreamReader, writer: asyncio.StreamWriter) -> None:
        self.opened = writer
        if self.serve:
            await self.serve(self)

    @classmethod
    async def to(cls, address: Address) -> Line:
        """One to an address."""
        return await cls.once_made(asyncio.get_running_loop().create_connection(cls, *address))

    @classmethod
    async def over(cls, connection: socket.socket) -> Line:
        """One over a connection that is there."""
        return await cls.once_made(asyncio.get_running_loop().create_connection(cls, sock=connection))

    @staticmethod
    async def once_made(making: Awaitable[tuple[Any, Line]]) -> Line:
        transport, line = await asyncio.wait_for(making, CONNECT)
        line.opened = asyncio.StreamWriter(transport, line, line.reader, asyncio.get_running_loop())
        return line

    def data_received(self, data: bytes) -> None:
        self.has_said = True
        super().data_received(data)

    def leave(self) -> None:
        if not self.left.done():
            self.left.set_result(None)

    def eof_received(self) -> bool | None:
        self.leave()
        return super().eof_received()

    def connection_lost(self, why: Exception | None) -> None:
        # A process that dies with bytes that it has not read resets its connection.
        self.is_reset = isinstance(why, OSError) and not self.left.done()
        self.leave()
        super().connection_lost(why)

    def is_gone(self) -> bool:
        """Whether the other end has gone, by the last that the system knows."""
        if self.left.done() or self.transport.is_closing():
            return True
        poll = select.poll()
        poll.register(self.writer.get_extra_info("socket").fileno(), select.POLLRDHUP)
        return bool(poll.poll(0))

    async def write(self, *pieces: bytes) -> None:
        self.writer.writelines(pieces)
        await self.writer.drain()

    async def head(self, asked: Head | None = None) -> Head:
        self.used = time.monotonic()
        return Head(await self.reader.readuntil(END), asked)

    def close(self) -> None:
        if self.opened:
            self.opened.close()

    async def linger(self) -> None:
        """Reads on for a while, so that who still sends sees why it was refused."""

        async def read() -> None:
            self.writer.write_eof()
            while await self.reader.read(PIECE):
                pass

        with contextlib.suppress(*GONE):
            await asyncio.wait_for(read(), LINGER)


def end_of(line: Line, name: str) -> str:
    """An end of a connection as the system's table has it."""
    host, port = line.writer.get_extra_info(name)
    return f"{struct.unpack('=I', socket.inet_aton(host))[0]:08X}:{port:04X}"


def user_of(line: Line) -> int | None:
    """The user of the process at the other end, or None where that has gone."""
    here, there = end_of(line, "sockname"), end_of(line, "peername")
    for name in "tcp", "tcp6":
        with contextlib.suppress(FileNotFoundError), open(f"/proc/self/net/{name}", encoding="ascii") as table:
            for row in map(str.split, table):
                # A row without a file of its own (0) is of nobody any more, though it says root.
                if row[1].endswith(there) and row[2].endswith(here) and row[9] != "0":
                    return int(row[7])
    return None
