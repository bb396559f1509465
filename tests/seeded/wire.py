"""Requests and replies over a connection to a port of the program on the seeded machine."""
from __future__ import annotations

import os
import socket
from dataclasses import dataclass


@dataclass(frozen=True)
class Reply:
    """What a request was told."""

    status: int
    headers: dict[str, str]
    body: bytes


class Connection:
    """A connection to a port, over which one request goes at a time. It is gone once either side has closed it."""

    def __init__(self, folder: str, port: int) -> None:
        self.socket = socket.socket(socket.AF_UNIX, socket.SOCK_STREAM)
        self.socket.setblocking(False)
        self.came, self.is_gone = b"", False
        try:
            self.socket.connect(os.path.join(folder, str(port)))
        except OSError:
            self.close()

    def close(self) -> None:
        """The client goes away."""
        self.is_gone = True
        self.socket.close()

    def send(self, data: bytes) -> None:
        """Sends some bytes, if the other side is still there."""
        try:
            self.socket.send(data)
        except OSError:
            self.close()

    def look(self) -> Reply | None:
        """The reply, once all of it is there."""
        while not self.is_gone:
            try:
                more = self.socket.recv(1 << 16)
            except BlockingIOError:
                break
            except OSError:
                more = b""
            self.came += more
            if not more:
                reply = self.whole()
                self.close()
                return reply
        return self.whole()

    def whole(self) -> Reply | None:
        """The first reply of what came, if it came whole."""
        head, between, rest = self.came.partition(b"\r\n\r\n")
        if not between:
            return None
        first, *lines = head.decode("latin-1").split("\r\n")
        pairs = (line.split(":", 1) for line in lines)
        headers = {name.lower(): value.strip() for name, value in pairs}
        size = int(headers.get("content-length", "0"))
        if len(rest) < size:
            return None
        self.came = rest[size:]
        return Reply(int(first.split()[1]), headers, rest[:size])


def request(method: str, path: str, body: bytes = b"", headers: dict[str, str] | None = None) -> bytes:
    """The bytes of a request."""
    lines = [f"{method} {path} HTTP/1.1", "Host: localhost", *(f"{name}: {value}" for name, value in (headers or {}).items())]
    if method == "POST":
        lines.append(f"Content-Length: {len(body)}")
    return "\r\n".join(lines).encode() + b"\r\n\r\n" + body
