#!/usr/bin/env python3
"""Makes random disks, as docs/FORMATS.md says them and by nothing of the program, and compares what the program says of each.

Usage: random_disks.py PROGRAM SEED FIRST END    where the disks from number FIRST on, before END, of this seed are made

A disk is of either version of the format, lives through some commits and switches, and may have been left in the middle of one.
Then it may have been grown or cut. It prints one line of JSON: how many disks of each sort there were, and of which the program
said something else. A disk is made again by its seed and its number alone.
"""
import json
import os
import random
import subprocess
import sys
import tempfile
import uuid

import disks
from disks import (
    ACCEPT, COLLECT, CONFIGURE, DUE_AGAIN, ENDED, EVENT_AGE_EXCEEDED, EXPIRE, FAIL, INTERRUPT, NONE, RETRIES_EXHAUSTED, RUNNING, SECTOR,
    START, SUCCEED, SUCCESS, THROTTLE, WAITING,
)

REPORTED, TIMEOUT, EXITED = b"\1", b"\2", b"\3"
STANDINGS = {WAITING: "waiting", DUE_AGAIN: "due again", RUNNING: "running"}
OUTCOMES = {SUCCESS: "Success", RETRIES_EXHAUSTED: "RetriesExhausted", EVENT_AGE_EXCEEDED: "EventAgeExceeded"}
GREATEST = 1 << 62
OPEN, CLOSED = disks.padded(b"\1"), bytes(SECTOR)


class Event:
    """An event that is held."""

    def __init__(self, id, now, number, policy, payload):
        self.id, self.accepted, self.first, self.policy, self.payload = id, now, number, policy, payload
        self.last, self.standing, self.moment, self.outcome, self.environment = number, WAITING, now, NONE, 0
        self.starts, self.failures, self.pushbacks, self.answer = 0, 0, 0, None

    def is_too_old(self, now):
        return now >= self.accepted + 1000 * self.policy[1]

    def stands(self, standing, moment, outcome=NONE, environment=0):
        self.standing, self.moment, self.outcome, self.environment = standing, moment, outcome, environment

    def push_back(self, now):
        self.pushbacks += 1
        self.stands(DUE_AGAIN, now + 1000 * min(2 ** (self.pushbacks - 1), 300))

    def fail(self, now):
        self.failures, self.pushbacks = self.failures + 1, 0
        if self.failures > self.policy[0]:
            self.stands(ENDED, now, RETRIES_EXHAUSTED)
        else:
            self.stands(DUE_AGAIN, now + 60000 * self.failures)

    def row(self):
        return disks.Row(
            self.id, self.accepted, self.first, self.last, self.standing, self.moment, self.payload, self.outcome, self.starts,
            self.failures, self.answer, self.environment, self.policy, self.pushbacks)

    def line(self):
        """What an audit tells of it."""
        standing = STANDINGS.get(self.standing) or f"ended {OUTCOMES[self.outcome]}"
        counts = f"starts {self.starts} failures {self.failures} pushbacks {self.pushbacks}"
        return f"{self.id} {standing} accepted {self.accepted} moment {self.moment} {counts}"


class Table:
    """The events that are held, and commands that are legal one after another."""

    def __init__(self, settings, chance):
        self.settings, self.chance, self.events = settings, chance, []
        self.policy = settings.retries, settings.age
        self.number = 0 if chance.random() < 0.7 else chance.randrange(GREATEST - 1000000)
        self.moment = 0 if not self.number else chance.randrange(2000000000000)

    def choices(self, version, now):
        """What may come now: kinds of commands, with their events."""
        running = [event.environment for event in self.events if event.standing == RUNNING]
        is_full = len(running) >= self.settings.concurrency
        found = [(ACCEPT, None)] * 3 if len(self.events) < self.settings.events else []
        found += [(CONFIGURE, None)] if version == 2 and self.chance.random() < 0.2 else []
        for event in self.events:
            if event.standing == ENDED:
                found.append((COLLECT, event))
            elif event.standing == RUNNING:
                found += [(INTERRUPT, event), (FAIL, event)] + ([(SUCCEED, event)] if now < event.moment else [])
            elif event.is_too_old(now):
                found.append((EXPIRE, event))
            elif event.moment <= now and is_full:
                found.append((THROTTLE, event))
            elif event.moment <= now and len(running) < self.settings.environments:
                found.append((START, event))
        return found

    def command(self, version):
        """A command that is legal, spelled, and what it does is done."""
        now = max(self.moment, 1573755365568) + self.chance.choice((0, 0, 1, 9, 250, 1500, 61000))
        found = self.choices(version, now)
        while not found:
            later = [event.moment for event in self.events if event.moment > now]
            now = min(later, default=now + 60000)
            found = self.choices(version, now)
        kind, event = self.chance.choice(found)
        self.number, self.moment = self.number + 1, now
        return self.apply(kind, event, now)

    def apply(self, kind, event, now):
        if kind == CONFIGURE:
            self.policy = self.chance.randint(0, 2), self.chance.randint(60, 21600)
            return disks.command(kind, None, now, disks.number(self.policy[0], 1) + disks.number(self.policy[1], 4))
        if kind == ACCEPT:
            payload = self.bytes(1, self.settings.payload)
            event = Event(str(uuid.UUID(int=self.chance.getrandbits(128))), now, self.number, self.policy, payload)
            self.events.append(event)
            return disks.command(kind, event.id, now, payload)
        event.last = self.number
        if kind == COLLECT:
            self.events.remove(event)
        return disks.command(kind, event.id, now, *self.change(kind, event, now))

    def change(self, kind, event, now):
        """Does to an event what a command does, and tells the bytes of that and its environment."""
        content, environment = b"", 0
        if kind == START:
            taken = {other.environment for other in self.events if other.standing == RUNNING}
            environment = self.chance.choice([n for n in range(1, self.settings.environments + 1) if n not in taken])
            event.starts += 1
            event.stands(RUNNING, now + 1000 * self.settings.timeout, environment=environment)
        elif kind == SUCCEED:
            content = self.bytes(0, self.settings.response)
            event.answer = 1, content
            event.stands(ENDED, now, SUCCESS)
        elif kind == FAIL:
            content = self.chance.choice((REPORTED, EXITED)) if now < event.moment else TIMEOUT
            if content == REPORTED:
                event.answer = 2, self.bytes(0, self.settings.response)
                content += event.answer[1]
            event.fail(now)
        elif kind in (THROTTLE, INTERRUPT):
            event.push_back(now)
        elif kind == EXPIRE:
            event.stands(ENDED, now, EVENT_AGE_EXCEEDED)
        return content, environment

    def bytes(self, least, most):
        size = self.chance.choice((least, most, self.chance.randint(least, most), min(most, 9)))
        return self.chance.randbytes(size) if self.chance.random() < 0.5 else self.chance.choice((b"x", b" ", b"\1", b"\0")) * size

    def snapshot(self, version):
        rows = [event.row() for event in self.events]
        content = disks.number(self.number, 8) + disks.number(self.moment, 8)
        if version == 2:
            content += disks.number(self.policy[0], 1) + disks.number(self.policy[1], 4)
        return content + disks.number(len(rows), 4) + b"".join(row.spelled(version) for row in rows)

    def held_line(self):
        def count(*standings):
            return sum(event.standing in standings for event in self.events)

        success = sum(event.outcome == SUCCESS for event in self.events)
        told = f"held {len(self.events)} waiting {count(WAITING, DUE_AGAIN)} running {count(RUNNING)}"
        return f"{told} success {success} failure {count(ENDED) - success}"


class Segment:
    """What one of the two segments holds: from which number of commands on up to which, where its next gate is, and its frames."""

    def __init__(self, base, version, generation, number, gate):
        self.base, self.version, self.generation, self.is_open = base, version, generation, True
        self.began = self.number = number
        self.gate, self.frames = gate, []


def settings_by(chance):
    """Settings of a small disk."""
    def text(letters, most):
        return "".join(chance.choice(letters) for _ in range(chance.choice((1, most, chance.randint(1, most)))))

    letters = "abcXYZ0189-_"
    return disks.Settings(
        chance.randint(0, 2), chance.choice((60, 61, 3600, 21600)), chance.choice((1, 3, 900)), chance.choice((1, 2, 10, 64)),
        chance.choice((1, 2, 3, 16)), chance.choice((1, 2, 4, 12)), chance.choice((2, 40, 700, 2500)), chance.choice((2, 40, 700, 2500)),
        text(letters, 64), text(letters + ".:/~!", 128), text(letters + ".:/~!", 200))


class Disk:
    """A disk that lived through some commits and switches. `segments` are the live one, and the other one where there is one."""

    def __init__(self, chance):
        self.chance, self.settings = chance, settings_by(chance)
        self.version = chance.choice((1, 2, 2))
        self.least = self.settings.least_segment(chance.choice((self.version, 2)))
        self.sectors = 2 * self.least + chance.choice((0, 1, chance.randint(0, 9), chance.randint(0, 120), chance.randint(60, 400)))
        self.half = self.sectors // 2
        self.content = bytearray(self.sectors * SECTOR)
        self.table = Table(self.settings, chance)
        generation = 1 if chance.random() < 0.7 else chance.randrange(2, GREATEST - 1000)
        self.segments = [self.write_segment(0, generation)]
        for _ in range(chance.choice((0, 1, 3, 10, 30, 60))):
            self.commit()
        self.leave()

    @property
    def live(self):
        return self.segments[0]

    @property
    def older(self):
        """The other segment, where it counts."""
        return self.segments[1] if len(self.segments) > 1 and self.segments[1].is_open else None

    def put(self, sector, content):
        self.content[sector * SECTOR : sector * SECTOR + len(content)] = content

    def write_segment(self, base, generation):
        taken = self.table.snapshot(self.version)
        header = disks.header(self.version, self.settings, generation, taken)
        self.put(base + 1, header + disks.padded(taken) + CLOSED)
        self.put(base, OPEN)
        return Segment(base, self.version, generation, self.table.number, base + 2 + disks.sectors_of(len(taken)))

    def close_other(self):
        if self.older:
            self.put(self.older.base, CLOSED)
            self.older.is_open = False

    def switch(self):
        """Makes the other segment the live one. The first one behind a migration is of version 2."""
        self.close_other()
        base = self.half if self.live.base == 0 else 0
        self.segments = [self.write_segment(base, self.live.generation + 1), self.live]

    def frame(self, first, commands):
        """The body of a frame of the live segment, if it fits there."""
        body = disks.body(self.live.generation, first, commands)
        fits = self.live.gate + len(body) // SECTOR + 2 <= self.live.base + self.half
        return body if fits else None

    def commit(self):
        """Makes some commands durable: by a frame, or by a switch."""
        first, most = self.table.number + 1, self.chance.choice((1, 1, 2, 5, 20))
        commands = [self.table.command(self.version) for _ in range(self.chance.randint(1, most))]
        body = self.frame(first, commands)
        if not body or self.chance.random() < 0.1:
            return self.switch()
        gate = self.live.gate
        self.put(gate + 1, body + CLOSED)
        self.put(gate, OPEN)
        self.live.frames.append((gate, len(body) // SECTOR))
        self.live.gate, self.live.number = gate + 1 + len(body) // SECTOR, self.table.number
        if self.version == 1 and self.chance.random() < 0.1 and 2 * self.settings.least_segment() <= self.sectors:
            self.version = 2
            self.switch()

    def leave(self):
        """Ends it: as it stands, with a frame that was half written, or in the middle of a switch."""
        how = self.chance.random()
        if how < 0.2:
            body = self.frame(self.table.number + 1, [disks.command(ACCEPT, str(uuid.UUID(int=1)), self.table.moment, b"lost")])
            torn = self.chance.randint(0, len(body or b""))
            self.put(self.live.gate + 1, (body or b"")[:torn])
        elif how < 0.35:
            self.close_other()
            base = self.half if self.live.base == 0 else 0
            taken = self.table.snapshot(self.version)
            written = disks.header(self.version, self.settings, self.live.generation + 1, taken) + disks.padded(taken) + CLOSED
            self.put(base + 1, written[: self.chance.randint(0, len(written))])

    def older_line(self):
        if not self.older:
            return "older none"
        ahead = self.live.began - self.older.number
        return f"older ahead {ahead}" if ahead else "older agrees"

    def lines(self, generation, older, in_force, event):
        """What an audit prints of its table."""
        held = next((one.line() for one in self.table.events if one.id == event), f"{event} unknown")
        told = [f"generation {generation} number {self.table.number}", self.table.held_line(), older, "in force retries {} age {}".format(*in_force)]
        return "\n".join([*told, held]) + "\n"


class Laid:
    """A disk as it lies there now, grown or cut or as it was, and what the program may say of it."""

    def __init__(self, disk):
        self.disk, chance = disk, disk.chance
        self.sectors = disk.sectors if chance.random() < 0.4 else self.another(chance)
        more = self.sectors - disk.sectors
        self.content = disk.content[: self.sectors * SECTOR] + self.filler(chance, max(more, 0))
        self.half = self.sectors // 2
        self.event = chance.choice(disk.table.events).id if disk.table.events else str(uuid.UUID(int=7))
        self.decoy = self.put_decoy(chance) if chance.random() < 0.2 else None

    def another(self, chance):
        """Another number of sectors, on which the live segment lies, or its gate and its header where it is B; and all of A."""
        disk = self.disk
        parts = [segment for segment in disk.segments if segment.base == 0]
        least = max([part.gate + 1 for part in parts] + [disk.half + 2 if disk.live.base else 6])
        if chance.random() < 0.5 and least < disk.sectors:
            ends = [2 * chance.choice(disk.live.frames)[0] + chance.randint(1, 9)] if disk.live.frames else []
            cut = [sectors for sectors in ends if least <= sectors < disk.sectors]
            return chance.choice((chance.randrange(least, disk.sectors), disk.sectors - 1, least, *cut, *cut))
        return disk.sectors + chance.choice((1, 2, chance.randint(1, 30), chance.randint(1, 300), disk.sectors))

    def filler(self, chance, sectors):
        """What stands behind a disk that has grown: zeros, mostly."""
        if chance.random() < 0.8:
            return bytes(sectors * SECTOR)
        return bytes(b & 254 if n % SECTOR == 0 else b for n, b in enumerate(chance.randbytes(sectors * SECTOR)))

    def put_decoy(self, chance):
        """What looks like a displaced segment and is none, somewhere behind all that is used: of another generation, of other
        settings, or of no version. Where both segments are open it may be just like one.
        """
        disk = self.disk
        free = max(max(disk.half + disk.least, self.sectors - 40), disk.segments[0].gate + 9, (disk.segments[-1].gate + 9))
        if free + 3 > self.sectors:
            return None
        at, live = chance.randrange(free, self.sectors - 2), disk.live
        if at in (self.half, self.half - 1):
            return None
        other = disks.Settings(name="other")
        versions, generations, settings = chance.choice((
            ((1, 2), (live.generation + 2, live.generation, live.generation + 256), disk.settings), ((1, 2), (live.generation + 1,), other),
            ((0, 3, 255), (live.generation + 1,), disk.settings),
        ))
        if disk.older and not self.is_displaced and chance.random() < 0.5:
            versions, generations, settings = (1, 2), (live.generation + 1,), disk.settings
        header = disks.header(chance.choice(versions), settings, chance.choice(generations), bytes(25))
        self.content[at * SECTOR : (at + 2) * SECTOR] = OPEN + header
        return at

    def gate(self, sector):
        return self.content[sector * SECTOR] == 1

    @property
    def is_displaced(self):
        """Whether segment B is no longer at half of the sectors."""
        return self.half != self.disk.half

    def resized(self):
        return f"refused: resized, formatted with {2 * self.disk.half} sectors\n"

    def damaged(self, sector):
        return f"refused: damaged at sector {sector}\n"

    def told(self):
        """The sort of this disk, and what an audit may say of it, each with its status."""
        if not self.is_displaced:
            return "as it was", {self.whole(self.disk.older_line())}
        return self.told_of_b() if self.disk.live.base else self.told_of_a()

    def whole(self, older):
        disk = self.disk
        if disk.live.version == 1:
            return 1, "refused: old version\n"
        return 0, disk.lines(disk.live.generation, older, disk.table.policy, self.event)

    def too_small(self):
        """What is told where A is open and its settings need a larger disk, else nothing."""
        a = next((segment for segment in self.disk.segments if segment.base == 0 and segment.is_open), None)
        return {(1, self.damaged(1))} if a and self.half < self.disk.settings.least_segment(a.version) else set()

    def told_of_b(self):
        """Where B was live, and is displaced."""
        if self.gate(self.half):
            # Two sectors are open then, and nothing says more than that there is no header behind the one. The settings of the
            # other one may need a larger disk.
            may_say = {(1, self.resized()), (1, self.damaged(self.half + 1))}
            return "B live, displaced, an open sector in its place", may_say | self.too_small()
        if not self.disk.older:
            return "B live alone, displaced", {(1, self.resized()), (1, "refused: not formatted\n")}
        return "B live, displaced", {(1, self.resized())}

    def told_of_a(self):
        """Where A is live. What it holds is told whole, or refused."""
        live = self.disk.live
        if self.too_small():
            # Frames that the new half cuts off are told before the settings that it is too small for.
            cut = {(1, self.damaged(gate)) for gate, body in live.frames if gate + body + 2 > self.half}
            return "A live, too small for its settings", self.too_small() | cut | {(1, self.resized())}
        if self.gate(self.half):
            return "A live, an open sector in B's place", {(1, self.damaged(self.half + 1)), (1, self.resized())}
        for gate, body in live.frames:
            if gate + body + 2 > self.half:
                return self.told_of_cut(gate)
        return "A live", {self.whole("older none")}

    def told_of_cut(self, gate):
        sort = "A live, a frame cut off" if gate + 3 <= self.half else "A live, a frame cut off by its gate"
        return sort, {(1, self.damaged(gate)), (1, self.resized())}


def make(seed, number):
    """Disk number so much of a seed, as it lies there."""
    return Laid(Disk(random.Random(f"{seed} {number}")))


def is_claimed(content):
    """Whether what lies in the last sector is a claim, by the size of the disk, and no zeros."""
    sectors = len(content) // 512
    return sectors % 8 == 1 and any(content[512 * (sectors - 1) :][:16])


CLAIMED = 1, "refused: claimed\n"


class Checker:
    """Asks the program of disks, each in the same file."""

    def __init__(self, program, path):
        self.program, self.path = program, path

    def said(self, *words):
        done = subprocess.run([self.program, *words], capture_output=True, text=True, timeout=240)
        return done.returncode, done.stdout

    def content(self):
        with open(self.path, "rb") as file:
            return file.read()

    def wrong(self, laid, number):
        """The sort of a disk, and what is wrong with what is said of it, if anything is. Some are asked more of."""
        with open(self.path, "wb") as file:
            file.write(laid.content)
        sort, may_say = laid.told()
        asked = {"audit": ["audit", self.path, "--in-force", "--event", laid.event]}
        if number % 100 == 0 and all(status == 1 and "resized" in told for status, told in may_say):
            asked.update({"configure": ["configure", self.path, "--retries", "1"], "migrate": ["migrate", self.path]})
        for name, words in asked.items():
            said = self.said(*words)
            if said not in may_say and not (name != "audit" and is_claimed(laid.content) and said == CLAIMED):
                return sort, f"{name}: {said}, and not {sorted(may_say)}"
        if self.content() != laid.content:
            return sort, "the disk was changed"
        if may_say == {(1, "refused: old version\n")}:
            return f"{sort}, version 1", self.wrong_migration(laid) if number % 4 == 0 else None
        return sort, None

    def wrong_migration(self, laid):
        """What is wrong with what is said when a disk of version 1 is migrated."""
        disk = laid.disk
        if is_claimed(laid.content):
            said = self.said("migrate", self.path)
            return None if said == CLAIMED and self.content() == laid.content else f"migrate: {said}, and not {CLAIMED}"
        least, generation, settings = disk.settings.least_segment(2), disk.live.generation + 1, disk.settings
        if laid.half < least:
            wanted, words = (1, f"refused: too small, least {2 * least}\n"), ["migrate", self.path]
            said = self.said(*words)
            return None if said == wanted and self.content() == laid.content else f"migrate: {said}, and not {wanted}"
        said, wanted = self.said("migrate", self.path), (0, f"migrated generation {generation} number {disk.table.number}\n")
        if said != wanted:
            return f"migrate: {said}, and not {wanted}"
        said = self.said("audit", self.path, "--in-force", "--event", laid.event)
        wanted = 0, disk.lines(generation, "older agrees", (settings.retries, settings.age), laid.event)
        return None if said == wanted else f"audit behind the migration: {said}, and not {wanted}"


def main():
    program, seed, first, end = sys.argv[1], sys.argv[2], int(sys.argv[3]), int(sys.argv[4])
    counts, found = {}, []
    room = "/dev/shm" if os.access("/dev/shm", os.W_OK) else None
    with tempfile.TemporaryDirectory(prefix="lambda_broker_disks.", dir=room) as folder:
        checker = Checker(program, os.path.join(folder, "disk"))
        for number in range(first, end):
            sort, why = checker.wrong(make(seed, number), number)
            counts[sort] = counts.get(sort, 0) + 1
            if why:
                found.append([number, sort, why])
    print(json.dumps({"counts": counts, "found": found}))


if __name__ == "__main__":
    main()
