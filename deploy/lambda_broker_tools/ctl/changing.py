"""One add or remove at once, which is done or undone."""
from __future__ import annotations

import fcntl
import os
import signal
import sys
from collections.abc import Callable

from .steps import Steps
from .telling import Failed, say
from .words import Words


def ended(number: int, _: object) -> None:
    sys.exit(f"lambda-broker-ctl: ended by {signal.Signals(number).name}")


def change(words: Words, what: Callable[[Words, Steps], None]) -> None:
    """Adds or removes, or undoes what was done of that."""
    if not words.root and os.geteuid():
        raise Failed("only root can do that")
    lock = os.open(words.root or "/etc", os.O_RDONLY)
    fcntl.flock(lock, fcntl.LOCK_EX)
    steps = Steps(words.root)
    for each in signal.SIGTERM, signal.SIGHUP:
        signal.signal(each, ended)
    try:
        what(words, steps)
    except (Failed, OSError) as why:
        raise Failed(f"{why}\n{steps.undo()}") from None
    except BaseException:
        say(steps.undo())
        raise
