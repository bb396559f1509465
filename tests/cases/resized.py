"""Disks of another size than they were formatted with, and random disks of every sort: each is refused, or told as it is.

Segment B begins at half of the sectors. So where a disk was grown or cut, B is looked for in the wrong place, and A alone is open,
which may be the older one.
"""
import concurrent.futures
import json
import os
import shutil
import subprocess
import sys

import disks
import random_disks
from disks import ACCEPT, ENDED, SUCCESS, Row, Settings, command, id_of
from harness import HERE, Built, Ports, case, needs, same

SEED, DISKS = "1", 10000

# Sorts of disks of which there are some among the random ones.
SORTS = {
    "as it was", "as it was, version 1", "A live", "A live, version 1", "A live, too small for its settings",
    "A live, an open sector in B's place", "A live, a frame cut off", "A live, a frame cut off by its gate", "B live, displaced",
    "B live alone, displaced", "B live, displaced, an open sector in its place",
}


def judged(first):
    """What one process finds of its share of the random disks."""
    share = -(-DISKS // processes())
    words = [os.path.join(HERE, "random_disks.py"), Built.program, SEED, str(first * share), str(min((first + 1) * share, DISKS))]
    done = subprocess.run([sys.executable, "-B", *words], capture_output=True, text=True, timeout=3600)
    assert done.returncode == 0, done.stderr[-2000:]
    return json.loads(done.stdout)


def processes():
    return os.cpu_count() or 1


@case(slow=True)
def random_disks_are_told_as_they_are_or_refused(broker):
    with concurrent.futures.ThreadPoolExecutor(processes()) as pool:
        told = list(pool.map(judged, range(processes())))
    counts = {sort: sum(one["counts"].get(sort, 0) for one in told) for sort in SORTS}
    found = [one for part in told for one in part["found"]]
    assert not found, f"{len(found)} of {DISKS} disks, such as {found[:3]}, of seed {SEED}; of each sort there are {counts}"
    same((sum(counts.values()), [sort for sort in SORTS if not counts[sort]]), (DISKS, []))


def put(broker, content):
    """Its disk holds this."""
    with open(broker.disk, "wb") as disk:
        disk.write(content)


def resized(sectors):
    return 1, f"refused: resized, formatted with {sectors} sectors\n"


def is_refused(broker, path, sectors):
    """A disk of another size is refused by every command that opens one, and stays as it is."""
    with open(path, "rb") as disk:
        before = disk.read()
    free = Ports()
    for words in (
        ["audit", path], ["audit", path, "--json"], ["audit", path, "--records"], ["serve", path, "--port", free.first],
        ["configure", path, "--retries", 1], ["migrate", path],
    ):
        same((words[0], broker.said(*words)), (words[0], resized(sectors)))
    free.close()
    with open(path, "rb") as disk:
        assert disk.read() == before, "a disk that is refused was changed"


@case()
def random_disks_of_another_size_are_refused_by_serve_too(broker):
    numbers, found = iter(range(DISKS)), 0
    while found < 3:
        laid = random_disks.make(SEED, next(numbers))
        if laid.told()[0] == "B live, displaced":
            found += 1
            put(broker, laid.content)
            is_refused(broker, broker.disk, 2 * laid.disk.half)


def switch_and_accept(broker, count):
    """Lives through the first switch, accepts so many events more, and stops: their ids."""
    broker.serve()
    while broker.number("switches_total") == 0:
        same(broker.delete(broker.live(f'"{900 * "x"}"', f'"{900 * "y"}"')).status, 204)
    same(broker.number("switches_total"), 1)
    accepted = [broker.invoke(f"{n}") for n in range(count)]
    same([one.status for one in accepted], count * [202])
    same(broker.stop(), (202, 0, ""))
    same(broker.audit()[1], f"held {count} waiting {count} running 0 success 0 failure 0")
    return [one.id for one in accepted]


def are_there(broker, ids):
    """All of these events are given, one after another."""
    broker.serve()
    for event in ids:
        same(broker.next().id, event)
        same(broker.respond(event, "1").status, 202)
    same(broker.stop(), (202, 0, ""))


@case({"sectors": 520})
def a_disk_that_has_grown_is_refused_and_all_is_there_once_it_is_cut_back(broker):
    ids = switch_and_accept(broker, 5)
    for sectors in 1040, 522:
        os.truncate(broker.disk, sectors * 512)
        is_refused(broker, broker.disk, 520)
    os.truncate(broker.disk, 520 * 512)
    are_there(broker, ids)


@case({"sectors": 520})
def a_disk_that_was_copied_onto_a_larger_one_is_refused(broker):
    needs("dd")
    ids = switch_and_accept(broker, 5)
    for name, sectors in ("double", 1040), ("more", 700):
        larger = os.path.join(broker.folder, name)
        with open(larger, "wb") as disk:
            disk.truncate(sectors * 512)
        subprocess.run(["dd", f"if={broker.disk}", f"of={larger}", "conv=notrunc", "status=none"], check=True)
        is_refused(broker, larger, 520)
    are_there(broker, ids)


def loop_device(path):
    """A block device over a file, where this machine lets one be made."""
    if os.getuid() != 0 or not shutil.which("losetup"):
        return None
    done = subprocess.run(["losetup", "--find", "--show", path], capture_output=True, text=True)
    return done.stdout.strip() if done.returncode == 0 else None


@case({"sectors": 520})
def a_device_that_has_grown_is_refused(broker):
    """Where no device can be made, a file stands for it."""
    ids = switch_and_accept(broker, 5)
    device, kept = loop_device(broker.disk), broker.disk
    try:
        broker.disk = device or kept
        same(broker.audit()[1], "held 5 waiting 5 running 0 success 0 failure 0")
        os.truncate(kept, 1040 * 512)
        if device:
            subprocess.run(["losetup", "--set-capacity", device], check=True)
        is_refused(broker, broker.disk, 520)
        os.truncate(kept, 520 * 512)
        if device:
            subprocess.run(["losetup", "--set-capacity", device], check=True)
        are_there(broker, ids)
    finally:
        if device:
            subprocess.run(["losetup", "--detach", device], check=True)
        broker.disk = kept


@case()
def a_migrated_disk_that_has_grown_is_refused(broker):
    """A is of version 1, and B of version 2 with the next generation."""
    settings = Settings()
    frames = [(1, [command(ACCEPT, id_of(1), 1573755365568, b"{}")])]
    put(broker, disks.disk(64, disks.segment(1, settings, 1, disks.snapshot(1, settings), frames)))
    same(broker.migrate(), (0, "migrated generation 2 number 1\n"))
    for sectors in 65, 66, 67, 100, 128:
        os.truncate(broker.disk, sectors * 512)
        if sectors == 65:
            same(broker.audit()[1], "held 1 waiting 1 running 0 success 0 failure 0")
        else:
            is_refused(broker, broker.disk, 64)
    os.truncate(broker.disk, 64 * 512)
    same(broker.audit()[1], "held 1 waiting 1 running 0 success 0 failure 0")


@case()
def a_disk_of_version_1_that_has_grown_is_refused_so_and_not_as_old(broker):
    settings = Settings()
    a, b = (disks.segment(1, settings, n, disks.snapshot(1, settings)) for n in (1, 2))
    put(broker, disks.disk(64, a, b) + bytes(64 * 512))
    is_refused(broker, broker.disk, 64)


@case()
def an_older_segment_that_is_displaced_is_not_missed(broker):
    """A is live, and B the older one: nothing is lost with it."""
    settings = Settings()
    rows = [Row(id_of(1), 1000, 1, 3, ENDED, 1500, b"{}", outcome=SUCCESS, starts=1, answer=(1, b"1"))]
    a = disks.segment(2, settings, 3, disks.snapshot(2, settings, 3, 1500, rows))
    b = disks.segment(2, settings, 2, disks.snapshot(2, settings))
    put(broker, disks.disk(64, a, b) + bytes(30 * 512))
    same(broker.audit(), ["generation 3 number 3", "held 1 waiting 0 running 0 success 1 failure 0", "older none"])


@case({"events": 60, "sectors": 1024, "payload": 100, "response": 64})
def a_disk_that_was_cut_tells_all_that_it_holds_or_is_refused(broker):
    """A is live, and its frames go beyond half of what is left. Those behind it lie on the disk, and are not left out in silence."""
    broker.serve()
    for n in range(60):
        same(broker.invoke('"x"').status, 202)
    same(broker.stop(), (202, 0, ""))
    content, held, wrong = broker.content(), broker.audit()[1], []
    least = 2 * Settings(events=60, payload=100, response=64).least_segment()
    # A frame has a gate and a body of one sector. The last one ends at sector 123.
    for sectors in range(max(least, 124), 260):
        put(broker, content[: sectors * 512])
        status, told = broker.said("audit", broker.disk)
        if status == 0 and held not in told or status == 1 and not told.startswith("refused: "):
            wrong.append((sectors, told))
    same(wrong, [])


def answers_with_a_segment(settings, generation):
    """An answer of a runtime which, as it comes to lie on the disk, has an open gate and a header in two sectors of its own."""
    # A frame's body begins with 32 bytes, and a command with 31.
    lead = 512 - 32 - 31
    return bytes(lead) + disks.padded(b"\1") + disks.header(2, settings, generation, bytes(25))


@case()
def an_answer_that_looks_like_a_displaced_segment_is_an_answer(broker):
    """What a runtime answers is any bytes. None of them make a disk one that is refused."""
    settings = Settings(timeout=900, events=16, payload=1024, response=2048)
    same(broker.format(broker.disk, 4096, timeout=900, events=16, payload=1024, response=2048)[0], 0)
    broker.serve()
    event = broker.live("{}", answers_with_a_segment(settings, 2))
    same(broker.stop(), (202, 0, ""))
    at = broker.content().find(b"AINVOKE\2" + (2).to_bytes(8, "big"))
    same((at % 512, broker.content()[at - 512]), (0, 1))
    same(broker.audit(), ["generation 1 number 3", "held 1 waiting 0 running 0 success 1 failure 0", "older none"])
    broker.serve()
    same(broker.delete(event).status, 204)
