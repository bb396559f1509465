"""The machine that follows a seed: its library, the points at which threads may change, and one life of the program on it.

In a life the program runs one thread at a time, by the library that is made of the C files beside this one. At its turns the world,
which is given here as an object, reads and writes the connections, and says when it wants its next turn and what the disk does.
"""
from __future__ import annotations

import bisect
import hashlib
import os
import re
import socket
import struct
import subprocess
from dataclasses import dataclass
from typing import Protocol

HERE = os.path.dirname(os.path.abspath(__file__))
NEVER = (1 << 64) - 1
MILLIS = 1_000_000
SECONDS = 1_000_000_000

ASK = struct.Struct("6Q")
TOLD = struct.Struct("QqQQ")
ACTS = "nothing kill lose_power fail_flushes fail_writes fail_reads slow_flushes end".split()

# How many seconds the program may take between two turns of the world.
PATIENCE = 60

# How many choices a life has at most. One that takes more goes round in a circle.
STEPS = 2_000_000


@dataclass(frozen=True)
class Ask:
    """What the machine tells at a turn: its time, whether nobody can go on, and how much was done."""

    now: int
    is_stuck: bool
    steps: int
    flushes: int
    writes: int
    reads: int


@dataclass
class Told:
    """What the world says at its turn: when it wants the next, by how many milliseconds the clock is set, and an act."""

    next: int = NEVER
    step: int = 0
    act: str = "nothing"
    number: int = 0


class World(Protocol):
    """What is outside the program."""

    def turn(self, ask: Ask) -> Told: ...


@dataclass(frozen=True)
class Machine:
    """A program, and what makes it follow a seed."""

    program: str
    library: str
    points: str
    is_woven: bool


@dataclass(frozen=True)
class Life:
    """How a life ended: the status, the time then, what it printed, and how many choices were made."""

    status: int
    now: int
    steps: int
    said: str


def build_library(folder: str) -> str:
    """Builds the library that is preloaded."""
    made = os.path.join(folder, "seeded.so")
    sources = [os.path.join(HERE, name) for name in ("threads.c", "calls.c", "points.c")]
    subprocess.run(["cc", "-O2", "-Wall", "-Wextra", "-Werror", "-shared", "-fPIC", "-o", made, *sources, "-ldl"], check=True)
    return made


# A step on a word of 64 bits that others see, `lock cmpxchg` or `lock xadd`, up to what says at which place the word is.
STEP = re.compile(rb"\xf0[\x48\x49\x4c\x4d]\x0f[\xb1\xc1]")
# Functions of the compiler's own library, which have locks that this machine does not see.
FOREIGN = re.compile(r"asan|sanitizer|interceptor|ubsan|lsan")


def length_of(code: bytes, at: int) -> int:
    """How long the step there is; 0 where its place is a register, or goes by its own."""
    kind, base, index = code[at + 4] >> 6, code[at + 4] & 7, code[at + 5]
    is_wide = base == 4
    if kind == 3 or (kind == 0 and (base == 5 or (is_wide and index & 7 == 5))):
        return 0
    return 5 + is_wide + (0, 1, 4)[kind]


def text_of(program: str, content: bytes) -> tuple[int, bytes]:
    """Where the program's code is once it is loaded, and its bytes."""
    told = subprocess.run(["objdump", "-h", "-j", ".text", program], stdout=subprocess.PIPE, text=True, check=True)
    size, place, _, offset = next(line.split()[2:6] for line in told.stdout.splitlines() if " .text " in line)
    start = int(offset, 16)
    return int(place, 16), content[start:start + int(size, 16)]


def points_of(program: str, content: bytes) -> list[tuple[int, int]]:
    """Where the program makes such steps, as offsets in its file, and how long they are."""
    told = subprocess.run(["nm", "-n", program], stdout=subprocess.PIPE, stderr=subprocess.DEVNULL, text=True)
    names = [(int(line[:16], 16), line[19:]) for line in told.stdout.splitlines() if line[:1] != " "]
    places, (place, code) = [at for at, _ in names], text_of(program, content)
    found = []
    for step in STEP.finditer(code):
        at, length = place + step.start(), length_of(code, step.start())
        before = bisect.bisect_right(places, at) - 1
        is_foreign = before >= 0 and FOREIGN.search(names[before][1])
        if length and not is_foreign:
            found.append((at, length))
    return found


def prepare(program: str, folder: str, kept: str) -> Machine:
    """A machine for a program, with its library in a folder. Where the program's points are is kept in another."""
    with open(program, "rb") as file:
        content = file.read()
    key = hashlib.sha256(content).hexdigest()[:16]
    points = os.path.join(kept, f"points.{key}")
    if not os.path.exists(points):
        found = points_of(program, content)
        with open(f"{points}.new", "w") as made:
            made.write(f"{len(found)}\n" + "".join(f"{at:x} {length}\n" for at, length in found))
        os.rename(f"{points}.new", points)
    return Machine(program, build_library(folder), points, b"__asan_" not in content)


def live(machine: Machine, seed: int, folder: str, disk: str, start: int, ahead: int, words: list[str], world: World) -> Life:
    """Runs the program with these words from this time on, until it ends."""
    ours, theirs = socket.socketpair()
    for name in os.listdir(folder):
        if name.isdigit():
            os.unlink(os.path.join(folder, name))
    env = {
        "LD_PRELOAD": machine.library, "SEEDED": str(seed), "SEEDED_WORLD": str(theirs.fileno()), "SEEDED_FOLDER": folder,
        "SEEDED_DISK": disk, "SEEDED_POINTS": machine.points, "SEEDED_STEPS": str(STEPS), "SEEDED_START": str(start), "SEEDED_AHEAD": str(ahead),
        "SEEDED_WOVEN": str(int(machine.is_woven)), **extra(),
    }
    with open(os.path.join(folder, "said"), "w+b") as said:
        program = subprocess.Popen(
            [machine.program, *words], env=env, stdin=subprocess.DEVNULL, stdout=said, stderr=said,
            pass_fds=[theirs.fileno()],
        )
        theirs.close()
        try:
            ask = take_turns(ours, world)
            status = program.wait(PATIENCE)
        finally:
            program.kill()
        said.seek(0)
        return Life(status, ask.now if ask else start, ask.steps if ask else 0, said.read().decode(errors="replace"))


def extra() -> dict[str, str]:
    """What else the program is to find around it: a planted fault's number."""
    return {name: os.environ[name] for name in ("SEEDED_FAULT",) if name in os.environ}


def take_turns(ours: socket.socket, world: World) -> Ask | None:
    """Gives the world its turns until the program has ended: the last one."""
    ask = None
    ours.settimeout(PATIENCE)
    with ours:
        while True:
            told = ours.recv(ASK.size)
            if len(told) < ASK.size:
                return ask
            now, reason, *counts = ASK.unpack(told)
            ask = Ask(now, reason == 1, *counts)
            answer = world.turn(ask)
            try:
                ours.send(TOLD.pack(answer.next, answer.step, ACTS.index(answer.act), answer.number))
            except OSError:
                return ask
