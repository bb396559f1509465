"""What is asked by HTTP, and the replies that have come whole."""
from __future__ import annotations

import http.client
import socket
import sys
import threading
import time
import urllib.parse
from collections.abc import Callable, Mapping
from email.message import Message
from typing import Any, NamedTuple

KINDS = {"http": http.client.HTTPConnection, "https": http.client.HTTPSConnection}
PAUSE, MOST_PAUSE = 0.2, 60
BROKER_SECONDS = 60


class WholeLines:
    """What the head of a reply is read from: a line that broke off is none."""

    def __init__(self, file: Any) -> None:
        self.file = file

    def readline(self, most: int) -> bytes:
        line: bytes = self.file.readline(most)
        if not line.endswith(b"\n"):
            raise ConnectionError("the answer broke off in its head")
        return line

    def close(self) -> None:
        self.file.close()


class Whole(http.client.HTTPResponse):
    """A reply whose head has come whole."""

    fp: Any

    def begin(self) -> None:
        file, self.fp = self.fp, WholeLines(self.fp)
        try:
            super().begin()
        finally:
            self.fp = self.fp and file


class Reply(NamedTuple):
    """A reply that has come whole, or 0 and why there is none."""

    status: int
    headers: Message | dict[str, str]
    body: bytes

    def why(self) -> str:
        """Why it is not what was wanted."""
        kinds = {0: "no answer", 3: f"{self.status}, a redirect, which is not followed"}
        why = kinds.get(self.status // 100, str(self.status))
        return f"{why}: {' '.join(self.body[:200].decode(errors='replace').split())}"


def connection_to(url: str, seconds: float, proxy: str | None) -> tuple[http.client.HTTPConnection, str]:
    """A connection for a URL, and what to ask for there."""
    parts = urllib.parse.urlsplit(url)
    target = (parts.path or "/") + (f"?{parts.query}" if parts.query else "")
    connection = KINDS[parts.scheme](proxy or parts.netloc, timeout=seconds)
    connection.response_class = Whole
    if proxy and parts.scheme == "https":
        connection.set_tunnel(parts.netloc)
    elif proxy:
        target = f"http://{parts.netloc}{target}"
    return connection, target


class Limit:
    """Breaks a connection that is still in use after so many seconds, however slowly it goes on."""

    def __init__(self, connection: http.client.HTTPConnection, seconds: float) -> None:
        self.is_over = False
        self.socket: socket.socket = connection.sock
        self.timer = threading.Timer(seconds, self.break_it)
        self.timer.daemon = True

    def break_it(self) -> None:
        self.is_over = True
        try:
            self.socket.shutdown(socket.SHUT_RDWR)
        except OSError:
            pass  # It has ended by itself.

    def __enter__(self) -> Limit:
        self.timer.start()
        return self

    def __exit__(self, *why: object) -> None:
        self.timer.cancel()
        if self.is_over:
            raise TimeoutError("no whole answer within the timeout")


def body_of(reply: http.client.HTTPResponse, most: int) -> bytes:
    """The first bytes of a body, all of which has come."""
    kept = b""
    while piece := reply.read(65536):
        kept += piece[: most - len(kept)]
    if reply.length:
        raise http.client.IncompleteRead(kept, reply.length)
    return kept


class Request(NamedTuple):
    """What is asked, of a broker unless a URL has other times and a proxy of its own."""

    url: str
    method: str = "GET"
    body: bytes | str | None = None
    headers: Mapping[str, str] | None = None
    seconds: float = BROKER_SECONDS
    proxy: str | None = None
    most: int = sys.maxsize


def ask(request: Request) -> Reply:
    """The reply that has come whole, or why there is none. A redirect is a reply like others."""
    connection, target = connection_to(request.url, request.seconds, request.proxy)
    try:
        connection.connect()
        with Limit(connection, request.seconds):
            connection.request(request.method, target, request.body, dict(request.headers or {}))
            reply = connection.getresponse()
            return Reply(reply.status, reply.headers, body_of(reply, request.most))
    except (OSError, http.client.HTTPException) as why:
        return Reply(0, {}, (str(why) or type(why).__name__).encode())
    finally:
        connection.close()


def say(text: str) -> None:
    """One write has the whole line, so that no other job's stands within."""
    sys.stderr.write(f"{text}\n")
    sys.stderr.flush()


def until(what: str, done: Callable[[int], bool], request: Request) -> Reply:
    """Asks until it is done, ever more seldom: the reply."""
    pause = 1
    while True:
        reply = ask(request)
        if done(reply.status):
            return reply
        say(f"{what}: {reply.why()}: again in {pause} s")
        time.sleep(pause)
        pause = min(2 * pause, MOST_PAUSE)
