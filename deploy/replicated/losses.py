"""What is known to lose: each has to be seen to do so, else `check` might not see a loss at all."""
import os
import random
import subprocess
import sys
import time

from brokers import FORMAT, LIMITS, PROGRAM, Broker, formatted
from ceph_volume import CLIENT, POOL, SECTOR
from machines import run, until

TRIES_TO_LOSE, PATIENCE = 30, 30
# How long a client of GlusterFS takes to connect again, at most.
SECONDS_TO_COME_BACK = 5
# A disk of less than 64 KiB.
SMALL = "--sectors 127 --events 256 --payload 2 --response 2".split()
# Writes numbers into a file, and prints each for which fdatasync succeeded.
WRITER = """import itertools, os, sys
file = os.open(sys.argv[1], os.O_RDWR)
for number in itertools.count(1):
    os.pwrite(file, str(number).encode().ljust(512, b"\\0"), 0)
    os.fdatasync(file)
    print(number, flush=True)
"""


def lost_by(brokers, again):
    """How many events were acknowledged, and how many of them are gone. Where the disk cannot be read at all, nothing was seen."""
    acknowledged = [event for broker in brokers for event in broker.acknowledged]
    seen = again.serves() or again.told().startswith(("refused: damaged", "refused: not formatted"))
    gone = again.gone(acknowledged) if seen else []
    again.kill()
    return len(acknowledged), len(gone)


def serve_both(brokers):
    """Both take events at once, and are killed."""
    for broker in brokers:
        broker.load(100)
    time.sleep(0.5)
    for broker in brokers:
        broker.kill()
        broker.rest()


def served_twice(net):
    """Two brokers at once on two loop devices of one file."""
    machines, path = net.machines[-2:], os.path.join(net.folder, "twice")
    run(PROGRAM, "format", path, "--force", *LIMITS, *FORMAT)
    devices = [run("losetup", "--find", "--show", path).strip() for _ in machines]
    try:
        brokers = [Broker(machine, device) for machine, device in zip(machines, devices)]
        serve_both(brokers)
        return lost_by(brokers, Broker(machines[1], devices[1]))
    finally:
        for device in devices:
            run("losetup", "--detach", device)


def unfenced(volume):
    """Two brokers at once on one volume: where a lock kept the second off, the first has lost it, and goes on."""
    first, second = volume.machines
    brokers = [Broker(first, formatted(volume, first))]
    try:
        volume.break_connections(first)
        brokers.append(Broker(second, volume.attach(second)))
        time.sleep(SECONDS_TO_COME_BACK)
        serve_both(brokers)
        for machine in volume.machines:
            volume.detach(machine)
        return lost_by(brokers, Broker(first, volume.attach(first)))
    finally:
        for broker in brokers:
            broker.kill()
        for machine in volume.machines:
            volume.drop(machine)


class Numbers:
    """A writer of numbers on a machine, and what it was told."""

    def __init__(self, machine, *words):
        self.path = os.path.join(machine.folder, "numbers")
        with open(self.path, "w", encoding="ascii") as told:
            self.writer = machine.start(*words, stdout=told, stderr=subprocess.DEVNULL)
        until(lambda: os.path.getsize(self.path), "a number")
        time.sleep(random.uniform(0.1, 0.4))

    def last(self, seconds):
        """The last number that it was told to be durable, once it was refused or after so many seconds."""
        try:
            self.writer.wait(seconds)
        except subprocess.TimeoutExpired:
            self.writer.kill()
            self.writer.wait()
        with open(self.path, encoding="ascii") as told:
            return int(told.read().split()[-1])


def read_fenced(volume, when):
    """Numbers by librbd alone: how many were told to be durable, and how many of them a second client does not read as soon as the
    fence has returned, where it attached the image before or behind that."""
    first, second = volume.machines
    image = volume.make(SECTOR)
    reader = second.start(*CLIENT, "read-fenced", image, first.address, when, stdin=subprocess.PIPE, stdout=subprocess.PIPE, text=True)
    try:
        reader.stdout.readline()
        numbers = Numbers(first, *CLIENT, "write", image)
        seen = int(reader.communicate("\n", timeout=PATIENCE)[0])
        last = numbers.last(PATIENCE)
        return last, max(0, last - seen)
    finally:
        volume.admit(first)


def attached_before(volume):
    return read_fenced(volume, "before")


def attached_behind(volume):
    return read_fenced(volume, "behind")


def kept_by_rbd_fuse(volume):
    """rbd-fuse with its cache, fenced under load."""
    first, second = volume.machines
    image, place = volume.make(SECTOR), f"{first.folder}/volume"
    mount = first.serve("rbd-fuse", "-f", "-p", POOL, place)
    try:
        until(lambda: first.mounted(place), "rbd-fuse")
        numbers = Numbers(first, sys.executable, "-S", "-c", WRITER, f"{place}/{image}")
        volume.fence(first)
        last = numbers.last(1)
        return last, max(0, last - int(second.run(*CLIENT, "read", image)))
    finally:
        mount.kill()
        mount.wait()
        first.run("umount", "-l", place, check=False)
        volume.admit(first)


def read_before(volume):
    """The second machine reads the disk while the first one serves it, and it is small enough to be kept there."""
    first, second = volume.machines
    broker = Broker(first, formatted(volume, first, *SMALL))
    theirs = volume.attach(second)
    reader = second.serve("sh", "-c", f"while cat {theirs} > /dev/null; do :; done")
    try:
        broker.load(200)
        time.sleep(random.uniform(0.1, 0.5))
        broker.kill()
        broker.rest()
        return lost_by([broker], Broker(second, theirs))
    finally:
        for process in broker.served, reader:
            process.kill()
            process.wait()
        for machine in volume.machines:
            volume.drop(machine)


def sees(loss, *where):
    """Whether something that is known to lose does so, which is printed."""
    what = loss.__name__
    for attempt in range(1, TRIES_TO_LOSE + 1):
        acknowledged, gone = loss(*where)
        if gone:
            print(f"ok      {what} loses: {gone} of {acknowledged} gone in try {attempt}", flush=True)
            return True
    print(f"FAILED  {what}: nothing was lost in {TRIES_TO_LOSE} tries, so this check may not see a loss", flush=True)
    return False


def keeps(way, volume, tries):
    """Whether a way loses nothing in so many tries, which is printed."""
    told = [way(volume) for _ in range(tries)]
    acknowledged, gone = (sum(column) for column in zip(*told))
    print("FAILED " if gone else "ok     ", f"{way.__name__}: {gone} of {acknowledged} numbers gone in {tries} tries", flush=True)
    return not gone
