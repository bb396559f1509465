"""The service manager, which keeps a poll from a supervisor to the next."""
from __future__ import annotations

import contextlib
import os
import re
import socket

from .telling import say

# What is left to a service manager, by this name, and how long it is waited until that has it.
LEFT, TAKEN = "poll", 5


class Manager:
    """The service manager that started this program. Where it takes files, by sd_notify and sd_listen_fds, it keeps one from a
    supervisor to the next. It is looked for before this program opens files of its own.
    """

    def __init__(self) -> None:
        self.path = os.environ.pop("NOTIFY_SOCKET", "")
        process, count, names = (os.environ.pop(f"LISTEN_{name}", "") for name in ("PID", "FDS", "FDNAMES"))
        left = dict(zip(names.split(":"), range(3, 3 + int(count or 0)))) if process == str(os.getpid()) else {}
        self.left = {name: file for name, file in left.items() if os.path.exists(f"/proc/self/fd/{file}")}

    def tell(self, text: str, *files: int) -> None:
        with socket.socket(socket.AF_UNIX, socket.SOCK_DGRAM) as manager:
            manager.settimeout(TAKEN)
            manager.connect(re.sub("^@", "\0", self.path))
            socket.send_fds(manager, [text.encode()], [*files])

    def take(self) -> int | None:
        """The file that was left, or None."""
        if LEFT in self.left:
            with contextlib.suppress(OSError):
                self.tell(f"FDSTOREREMOVE=1\nFDNAME={LEFT}")
        return self.left.get(LEFT)

    def leave(self, file: int) -> bool:
        """Leaves a file to the next supervisor, and waits until the manager has it: whether it was told."""
        here, there = socket.socketpair()
        with here:
            try:
                with there:
                    self.tell(f"FDSTORE=1\nFDNAME={LEFT}", file)
                    self.tell("BARRIER=1", there.fileno())
                # Once the manager has come to that, it closes its end.
                here.settimeout(TAKEN)
                return here.recv(1) == b""
            except OSError as why:
                say(f"the service manager took no file: {why}")
                return False
