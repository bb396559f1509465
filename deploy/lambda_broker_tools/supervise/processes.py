"""Processes: how they end, and whether they have a terminal."""
from __future__ import annotations

import asyncio
import ctypes
import os
import signal
from typing import Any

LIBC, DEATH_SIGNAL = ctypes.CDLL(None), 1


def how(status: int) -> str:
    """How a process ended, in AWS's words."""
    if status == 0:
        return "exited without providing a reason"
    told = f"exit status {status}" if status > 0 else f"signal: {(signal.strsignal(-status) or '').lower()}"
    return f"exited with error: {told}"


def end_with_parent() -> None:
    """The process that calls it is killed where its parent dies."""
    LIBC.prctl(DEATH_SIGNAL, signal.SIGKILL)


def has_terminal() -> bool:
    try:
        os.close(os.open("/dev/tty", os.O_RDWR | os.O_NOCTTY))
        return True
    except OSError:
        return False


async def first_of(ended: asyncio.Future[Any], *events: asyncio.Event) -> None:
    """Waits for the end of a process, or for one of these events."""
    waits = [asyncio.create_task(event.wait()) for event in events]
    await asyncio.wait({ended, *waits}, return_when=asyncio.FIRST_COMPLETED)
    for wait in waits:
        wait.cancel()
