"""Heads of requests and replies, and the bodies behind them."""
from __future__ import annotations

import asyncio
import enum
import re
from typing import Protocol, Union

from .limits import PIECE

END = b"\r\n\r\n"
TOO_LARGE = b"HTTP/1.1 431 Request Header Fields Too Large\r\nconnection: close\r\ncontent-length: 0\r\n\r\n"


class Length(enum.Enum):
    """A length of a body that no number tells beforehand."""

    CHUNKED = "in chunks, each with its size"
    TO_THE_END = "up to the connection's end"


class Head:
    """The head of a request, or of the reply to one that was asked, and how long the body is that follows."""

    def __init__(self, raw: bytes, asked: Head | None = None) -> None:
        self.raw = raw
        first, *lines = raw[: -len(END)].split(b"\r\n")
        self.first = [*first.split(b" ", 2), b"", b""]
        self.fields: dict[str, str] = {}
        for line in lines:
            name, _, value = line.partition(b":")
            self.fields.setdefault(name.strip().lower().decode("latin-1"), value.strip().decode("latin-1"))
        self.length = self.length_of(asked)

    def length_of(self, asked: Head | None) -> int | Length:
        if asked and (asked.first[0] == b"HEAD" or self.status < 200 or self.status in (204, 304)):
            return 0
        if "transfer-encoding" in self.fields:
            return Length.CHUNKED
        told = self.fields.get("content-length", "" if asked else "0")
        # Without a length that can be read the broker refuses a request, before its end.
        return int(told) if re.fullmatch("[0-9]+", told) else Length.TO_THE_END

    @property
    def status(self) -> int:
        return int(self.first[1])

    @property
    def path(self) -> bytes:
        return self.first[1].split(b"?")[0]

    def keeps(self) -> bool:
        """Whether the connection goes on behind this reply."""
        told = self.fields.get("connection", "").lower()
        return "close" not in told and (self.first[0] != b"HTTP/1.0" or "keep-alive" in told) and self.length is not Length.TO_THE_END


class Writer(Protocol):
    """What takes a body."""

    def write(self, piece: bytes, /) -> None:
        """Takes a piece of it."""

    async def drain(self) -> None:
        """Waits until there is room for more."""


async def hand_on(length: Union[int, Length], reader: asyncio.StreamReader, writer: Writer) -> None:
    """Hands a body on, byte by byte as it comes."""
    if length is Length.CHUNKED:
        await hand_chunks_on(reader, writer)
    elif isinstance(length, Length):
        while piece := await reader.read(PIECE):
            writer.write(piece)
            await writer.drain()
    else:
        await hand_bytes_on(length, reader, writer)


async def hand_bytes_on(count: int, reader: asyncio.StreamReader, writer: Writer) -> None:
    """The same of so many bytes."""
    while count > 0:
        piece = await reader.read(min(PIECE, count))
        if not piece:
            raise EOFError("a body broke off")
        count -= len(piece)
        writer.write(piece)
        await writer.drain()


async def hand_chunks_on(reader: asyncio.StreamReader, writer: Writer) -> None:
    """The same of a body in chunks, with their sizes, and with the fields behind the last one."""
    is_last = False
    while True:
        line = await reader.readuntil(b"\n")
        writer.write(line)
        if is_last:
            if line in (b"\r\n", b"\n"):
                break
        else:
            size = int(line.split(b";")[0], 16)
            await hand_bytes_on(size + 2 if size else 0, reader, writer)
            is_last = size == 0
    await writer.drain()
