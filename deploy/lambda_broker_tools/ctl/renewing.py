"""A new version of a function's code is started."""
from __future__ import annotations

import dataclasses
import math
import time

from .places import parts_of, ports_of, read
from .telling import Failed, run, say
from .words import Words

# How long an event may take that a runtime ends first, how long there may be no process, and how long a new one has to live, in seconds.
MOST_EVENT, MOST_GAP, LIVES = 920, 10, 3


def runtimes_of(words: Words) -> list[str]:
    """The units of a function's runtimes."""
    if words.name not in ports_of(words.root):
        raise Failed(f"there is no {words.name}")
    units = [unit for _, unit in parts_of(words.root, words.name) if unit.startswith("lambda_runtime@")]
    if not units:
        raise Failed(f"{words.name} has no runtime on this machine: it was added without --runtime")
    if words.root:
        raise Failed(f"with --root no unit is reloaded: {' '.join(units)}")
    return units


def process_of(supervisor: str) -> str | None:
    """The process that a supervisor runs, or None."""
    return next(iter((read(f"/proc/{supervisor}/task/{supervisor}/children") or "").split()), None)


@dataclasses.dataclass
class Runtime:
    """A unit that was told to start a new process: its supervisor, the process of before, and the one that came."""

    unit: str
    supervisor: str
    old: str | None
    new: str | None = None

    def until_renewed(self) -> None:
        """Waits until another process has taken the place of the old one, or none comes."""
        begin = there = now = time.monotonic()
        new, says = process_of(self.supervisor), begin + 1
        while new in (None, self.old) and now < min(begin + MOST_EVENT, there + MOST_GAP):
            if new and now > says:
                say(f"{self.unit}: process {self.old} ends its event first")
                says = math.inf
            time.sleep(0.1)
            new, now = process_of(self.supervisor), time.monotonic()
            there = now if new else there
        if new not in (None, self.old):
            say(f"{self.unit}: process {new} has taken the place of {self.old or 'none'}")
            self.new = new

    def has_stayed(self) -> bool:
        return self.new is not None and process_of(self.supervisor) == self.new


def renew(words: Words) -> None:
    """Has the supervisor of each runtime of a function start a new process, and waits until that is there."""
    told, failed = [], []
    for unit in runtimes_of(words):
        supervisor = run("systemctl", "show", "--property=MainPID", "--value", unit).strip()
        runtime = Runtime(unit, supervisor, process_of(supervisor))
        try:
            run("systemctl", "reload", unit)
            told.append(runtime)
        except Failed as why:
            failed.append(f"{unit}: {why}")
    for runtime in told:
        runtime.until_renewed()
    time.sleep(LIVES if told else 0)
    for runtime in told:
        if not runtime.has_stayed():
            what = "did not stay" if runtime.new else "did not come"
            failed.append(f"{runtime.unit}: its new process {what}: journalctl -u {runtime.unit} says why")
    if failed:
        raise Failed("\n".join(failed))
