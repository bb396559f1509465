"""What units run: the broker's, with PORT, ADDRESS and MAINPID in its environment, and that of the walls."""
from __future__ import annotations

import contextlib
import dataclasses
import errno
import http.client
import os
import socket
import time

from .looking import look, reached
from .telling import Failed, say
from .walls import load_walls
from .words import Words


def is_gone(pid: int) -> bool:
    try:
        os.kill(pid, 0)
    except ProcessLookupError:
        return True
    except PermissionError:
        pass
    return False


@dataclasses.dataclass
class Unit:
    """A broker as its unit tells it."""

    port: int
    address: str
    pid: int

    def expect_free(self) -> None:
        """Refuses a port on which another program listens."""
        with socket.socket(socket.AF_INET6 if ":" in self.address else socket.AF_INET) as probe:
            probe.setsockopt(socket.SOL_SOCKET, socket.SO_REUSEADDR, 1)
            try:
                probe.bind((self.address, self.port))
            except OSError as why:
                if why.errno == errno.EADDRINUSE:
                    raise Failed(f"another program listens on port {self.port}") from None

    def until_serving(self) -> None:
        while not is_gone(self.pid):
            with contextlib.suppress(OSError, http.client.HTTPException):
                look(self.port, "/", reached(self.address))
                if not is_gone(self.pid):
                    return
            time.sleep(0.1)
        raise Failed("the broker has ended: its own line says why")

    def end(self) -> None:
        """Asks the broker to stop, and waits for its end, unless it has ended."""
        if not self.pid or is_gone(self.pid):
            return
        told, _ = look(self.port, "/broker/stop", reached(self.address), "POST", 20)
        if told != 202:
            raise Failed(f"/broker/stop is answered {told}")
        while not is_gone(self.pid):
            time.sleep(0.1)


def own_unit() -> Unit:
    """That of the environment."""
    port, address = int(os.environ["PORT"]), os.environ.get("ADDRESS", "127.0.0.1")
    return Unit(port, address, int(os.environ.get("MAINPID") or 0))


def walls(root: str) -> None:
    if not load_walls(root):
        say("there is no nft: each user of this machine reaches the ports of all functions")


def run_step(words: Words) -> None:
    """Does what a unit asks for."""
    if words.step == "walls":
        walls(words.root)
    elif words.step == "free":
        own_unit().expect_free()
    elif words.step == "serving":
        own_unit().until_serving()
    else:
        own_unit().end()
