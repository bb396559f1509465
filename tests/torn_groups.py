#!/usr/bin/env python3
"""Records the writes and flushes of a served broker whose groups of changes follow each other, and makes images that a stop may leave
at any moment of that run: of what was not flushed, each sector is as it was, as it was to be, torn, or of bytes 1. Each image has to
read, as docs/FORMATS.md says, to a beginning of the changes that were written, with all that the last flush had made durable.

Usage: torn_groups.py PROGRAM IMAGES [SEED [SECTORS]]    on a small disk the broker switches segments

It prints how many writes and flushes there were, and what was wrong with how many images, and ends with 1 where one was.
"""
import bisect
import collections
import http.client
import os
import random
import sys
import tempfile
import threading

import harness
import stopped
from harness import Broker, Built

SECTOR = 512
CALLERS, EVENTS, RUNTIMES = 16, 60, 4


def number(data, at, size):
    return int.from_bytes(data[at:at + size], "big")


class Wrong(Exception):
    """What an image holds that no stop may leave."""


class Image:
    """The bytes behind the last flush, and over them the sectors that a stop left."""

    def __init__(self, settled, left):
        self.settled, self.left = settled, left

    def sector(self, at):
        found = self.left.get(at)
        return self.settled[SECTOR * at:SECTOR * (at + 1)] if found is None else found

    def read(self, at, count):
        return b"".join(map(self.sector, range(at, at + count)))

    def segment(self, first):
        """The generation of a segment, how many changes its snapshot has, and where its frames begin; None where its gate is closed."""
        if self.sector(first)[0] != 1:
            return None
        header = self.sector(first + 1)
        if header[:8] != b"AINVOKE\2":
            raise Wrong("a header")
        size = number(header, 16, 8)
        return number(header, 8, 8), number(self.sector(first + 2), 0, 8), first + 2 + -(-size // SECTOR)

    def frames(self, generation, changes, at, end, bodies):
        """How many changes there are with those of the frames from this gate on."""
        while end - at >= 3 and self.sector(at)[0] == 1:
            head = self.sector(at + 1)
            if (number(head, 0, 8), number(head, 8, 8)) != (generation, changes + 1):
                raise Wrong(f"a frame at {at}")
            count = -(-(32 + number(head, 20, 4)) // SECTOR)
            if self.read(at + 1, count) not in bodies[generation, changes + 1]:
                raise Wrong(f"a body at {at + 1}")
            changes, at = changes + number(head, 16, 4), at + 1 + count
        return changes

    def changes(self, sectors, bodies):
        """How many changes it recovers to."""
        half = sectors // 2
        open_ones = [(found, first) for first in (0, half) if (found := self.segment(first))]
        if not open_ones:
            raise Wrong("no segment is open")
        (generation, changes, at), first = max(open_ones)
        return self.frames(generation, changes, at, first + half, bodies)


def calls_of(path):
    """The writes, each as its first sector and its bytes, and None for each flush."""
    return [(place // SECTOR, content) if kind else None for kind, place, content in stopped.calls_of(path)]


def call_until_it_ends(broker, environment):
    """A runtime, whose answers are discarded."""
    try:
        while True:
            event = broker.next(environment)
            broker.respond(event.id, "1" * 90, environment)
    except (OSError, http.client.HTTPException):
        pass


def serve_many(sectors):
    """What the disk was before it was served, and the calls of a run in which many invoke at once."""
    broker = Broker(sectors, events=40, payload=200, response=100, environments=RUNTIMES, concurrency=RUNTIMES)
    watch = broker.watches_disk()
    before = broker.content()
    watch.record = 1
    broker.serve("--discard", "both", admin=False)

    def invoke(caller):
        for n in range(EVENTS):
            broker.invoke("1" * (1 + 7 * n * caller % 200))

    for environment in range(1, RUNTIMES + 1):
        threading.Thread(target=call_until_it_ends, args=(broker, environment), daemon=True).start()
    threads = [threading.Thread(target=invoke, args=(caller,)) for caller in range(1, CALLERS + 1)]
    for thread in threads:
        thread.start()
    for thread in threads:
        thread.join()
    broker.stop()
    calls = calls_of(f"{broker.disk}.calls")
    broker.close()
    return before, calls


def bodies_in(calls):
    """The bodies that were written, by generation and number of their first change."""
    bodies = collections.defaultdict(set)
    for call in filter(None, calls):
        content = call[1]
        generation, first, size = number(content, 0, 8), number(content, 8, 8), number(content, 20, 4)
        length = SECTOR * -(-(32 + size) // SECTOR)
        # (a snapshot or a gate is taken for one too, which no image reads as a frame)
        bodies[generation, first].add(content[:length])
    return bodies


def torn(draw, old, new):
    """What a stop may leave of a sector in flight."""
    return (old, new, new[:(cut := draw.randrange(SECTOR))] + old[cut:], b"\1" * SECTOR)[draw.randrange(4)]


def judge(before, calls, images, draw):
    """What was wrong, with so many images."""
    sectors, bodies = len(before) // SECTOR, bodies_in(calls)
    flushes = [at for at, call in enumerate(calls) if call is None]
    settled, durable, done, wrong = bytearray(before), 0, -1, []
    for moment in sorted(draw.randrange(len(calls)) for _ in range(images)):
        last = bisect.bisect_right(flushes, moment) - 1
        if last > done:
            for at, content in filter(None, calls[flushes[done] if done >= 0 else 0:flushes[last]]):
                settled[SECTOR * at:SECTOR * at + len(content)] = content
            done, durable = last, Image(settled, {}).changes(sectors, bodies)
        left = {}
        for at, content in filter(None, calls[flushes[last] if last >= 0 else 0:moment + 1]):
            for n in range(len(content) // SECTOR):
                old = bytes(settled[SECTOR * (at + n):SECTOR * (at + n + 1)])
                left[at + n] = torn(draw, left.get(at + n, old), content[SECTOR * n:SECTOR * (n + 1)])
        try:
            found = Image(settled, left).changes(sectors, bodies)
            if found < durable:
                raise Wrong(f"{found} changes, where {durable} were durable")
        except Wrong as why:
            wrong.append(f"at call {moment}: {why}")
    return wrong


def main():
    if not 3 <= len(sys.argv) <= 5:
        sys.exit(__doc__)
    Built.program = os.path.abspath(sys.argv[1])
    images, seed = int(sys.argv[2]), int(sys.argv[3]) if len(sys.argv) > 3 else 1
    with tempfile.TemporaryDirectory() as folder:
        Built.watch_disk = harness.build(folder, "watch_disk")
        before, calls = serve_many(int(sys.argv[4]) if len(sys.argv) > 4 else 16384)
    wrong = judge(before, calls, images, random.Random(seed))
    writes = sum(call is not None for call in calls)
    print(*wrong[:20], f"{writes} writes, {len(calls) - writes} flushes, {len(wrong)} of {images} images wrong", sep="\n")
    sys.exit(bool(wrong))


if __name__ == "__main__":
    main()
