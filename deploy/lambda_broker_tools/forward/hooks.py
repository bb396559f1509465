"""Places that take records: a URL, and a file."""
from __future__ import annotations

import fcntl
import os
import threading
from typing import Protocol

from .asking import Request, ask
from .records import Record
from .words import Words

HEADERS = {"Content-Type": "application/json", "X-Amz-Invocation-Type": "Event", "Connection": "close"}
# How much of an answer is told.
MOST_TOLD = 200


class TooLarge(str):
    """Why a place never takes a record."""


class Place(Protocol):
    """What takes records: how many at once, how that is told, and where it is."""

    most: int
    verb: str
    url: str

    def send(self, records: list[Record]) -> list[str | None]:
        """Of each record None where it is taken, else why not."""


class Post(Protocol):
    """What takes the content of a record that is too large for its place."""

    url: str

    def post(self, content: bytes) -> str | None:
        """None where it is taken, else why not."""


class Hook:
    """A URL."""

    most, verb = 1, "posting {}"

    def __init__(self, url: str, words: Words) -> None:
        self.url, self.seconds, self.proxy = url, words.timeout, words.proxy

    def send(self, records: list[Record]) -> list[str | None]:
        """Of each record None where it is taken, else why not."""
        return [self.post(record.content) for record in records]

    def post(self, content: bytes) -> str | None:
        reply = ask(Request(self.url, "POST", content, HEADERS, self.seconds, self.proxy, MOST_TOLD))
        return None if 200 <= reply.status < 300 else reply.why()


class File:
    """A file, which takes each record as a line behind its end."""

    def __init__(self, path: str) -> None:
        self.url, self.lock = path, threading.Lock()

    def post(self, content: bytes) -> str | None:
        try:
            with self.lock:
                self.append(content.replace(b"\r", b" ").replace(b"\n", b" ") + b"\n")
            return None
        except OSError as why:
            return why.strerror

    def append(self, line: bytes) -> None:
        """Behind a line that broke off it begins a new one."""
        with open(os.open(self.url, os.O_RDWR | os.O_CREAT | os.O_APPEND, 0o600), "r+b") as file:
            fcntl.flock(file, fcntl.LOCK_EX)
            end = file.seek(0, os.SEEK_END)
            broke_off = end and os.pread(file.fileno(), 1, end - 1) != b"\n"
            file.write((b"\n" if broke_off else b"") + line)
            file.flush()
            os.fsync(file.fileno())
        folder = os.open(os.path.dirname(os.path.abspath(self.url)), os.O_RDONLY)
        try:
            os.fsync(folder)
        finally:
            os.close(folder)
