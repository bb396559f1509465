"""What systemd is asked for, as a function is added and removed."""
from __future__ import annotations

import functools
import subprocess
from typing import NamedTuple

from .places import broker_of
from .steps import Steps
from .telling import Failed, run, say

# What is done in any case, and again where what was done before is undone.
RELOADED, WALLED = "daemon-reload", "load the walls"


class Asking(NamedTuple):
    """A word to systemd: how it is asked whether that is done, and what undoes it."""

    is_done: str
    word: str
    done: str
    back: str


def start(steps: Steps, name: str) -> None:
    """Has systemd start a function, now and with the machine."""
    unit = broker_of(name)
    for asking in Asking("is-enabled", "enable", "enabled", "disable"), Asking("is-active", "start", "started", "stop"):
        if subprocess.run(["systemctl", "-q", asking.is_done, unit], stderr=subprocess.DEVNULL).returncode:
            # A start that failed has to be stopped too: systemd goes on with it.
            steps.will(f"{asking.done} {unit}", functools.partial(back_again, asking.back, unit))
            do(asking.word, unit)
            say(f"{asking.done} {unit}")


def do(word: str, unit: str) -> None:
    try:
        run("systemctl", word, unit)
    except Failed:
        told = run("journalctl", "-u", unit, "-o", "cat", "-n", "12") if word == "start" else ""
        raise Failed(f"systemctl {word} {unit} failed. Its last lines:\n{told.strip()}") from None


def back_again(word: str, unit: str) -> None:
    run("systemctl", word, unit)
    subprocess.run(["systemctl", "reset-failed", unit], stderr=subprocess.DEVNULL)


def reload(steps: Steps) -> None:
    if not steps.root:
        run("systemctl", "daemon-reload")
