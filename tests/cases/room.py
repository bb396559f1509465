"""The room that a disk in a file takes: what must be written, or all of it by `--allocate`; and what comes of a full file system."""
import os
import subprocess

import disks
from cases.copying import content_of, holds_much, put, told
from cases.formatting import small_room, words_of
from cases.migrate import FIRST, HELD, old_disk
from disks import Settings
from harness import Skipped, case, same

SECTORS = 20000
REFUSED = 1, "refused: no room for so many sectors\n"
# How much room a new disk takes at most that holds nothing.
LITTLE = 1 << 20


def room_of(path):
    """How many bytes a file takes of its file system."""
    return os.stat(path).st_blocks * 512


def wants_holes(broker):
    """Skips a case where a file without bytes takes room once it is made longer."""
    path = os.path.join(broker.folder, "hole")
    put(path, b"")
    os.truncate(path, SECTORS * 512)
    if room_of(path) > LITTLE:
        raise Skipped("the file system has no holes")
    os.remove(path)


def new_disk(sectors):
    """A disk that was just formatted by `words_of`."""
    settings = Settings()
    return disks.disk(sectors, disks.segment(2, settings, 1, disks.snapshot(2, settings)))


@case()
def a_new_file_takes_the_room_of_what_must_be_written(broker):
    wants_holes(broker)
    made = broker.disk + ".made"
    for sectors in 44, 64, 255, 256, 257, 258, 4096, SECTORS:
        for content in None, b"":
            for more in (), ("--allocate",):
                if content is not None:
                    put(made, content)
                same((sectors, broker.said(*words_of(made, sectors), *more)), (sectors, (0, f"formatted {sectors} sectors\n")))
                assert content_of(made) == new_disk(sectors), (sectors, content, more)
                least, most = (sectors * 512, 2 * sectors * 512 + LITTLE) if more else (1, LITTLE)
                assert least <= room_of(made) <= most, (sectors, more, room_of(made))
                os.remove(made)


@case()
def what_has_bytes_is_written_whole(broker):
    """Whatever these are: what stands there is made zeros, and not left to a file system."""
    wants_holes(broker)
    made = broker.disk + ".made"
    for content, more in (bytes(SECTORS * 512), ()), (b"\1" * 512, ("--force",)), (b"\1" * SECTORS * 512, ("--force",)):
        put(made, content)
        same(broker.said(*words_of(made, SECTORS), *more), (0, f"formatted {SECTORS} sectors\n"))
        assert content_of(made) == new_disk(SECTORS), "it is another disk"
        assert room_of(made) >= SECTORS * 512, room_of(made)


@case()
def a_full_file_system_is_met_at_once_by_allocate(broker):
    holds_much(broker)
    with small_room(broker.folder, "256k") as room:
        made = os.path.join(room, "disk")
        for words in words_of(made, 4096), ("copy", broker.disk, made):
            same((words[0], broker.said(*words, "--allocate"), os.listdir(room)), (words[0], REFUSED, []))
            put(made, b"")
            same((words[0], broker.said(*words, "--allocate"), content_of(made)), (words[0], REFUSED, b""))
            os.remove(made)
            same((words[0], broker.said(*words)[0], os.path.getsize(made)), (words[0], 0, 4096 * 512))
            os.remove(made)


@case()
def a_full_file_system_is_met_by_what_must_be_written(broker):
    with small_room(broker.folder, "256k") as room:
        made, other = os.path.join(room, "disk"), os.path.join(room, "other")
        for left in 0, 4096, 65536, 120000:
            put(other, bytes((256 << 10) - left))
            done = broker.command(*words_of(made, 4096))
            same((left, done.returncode, done.stdout, done.stderr, os.listdir(room)), (left, *REFUSED, "", ["other"]))
        put(other, bytes(100 << 10))
        same(broker.said(*words_of(made, 4096)), (0, "formatted 4096 sectors\n"))


@case()
def a_broker_that_finds_no_room_ends_and_goes_on_once_there_is_some(broker):
    with small_room(broker.folder, "160k") as room:
        broker.disk = os.path.join(room, "disk")
        same(broker.said(*words_of(broker.disk, 4096, events=200)), (0, "formatted 4096 sectors\n"))
        broker.serve()
        accepted = 0
        while accepted < 200 and broker.invoke('"' + 1000 * "x" + '"').status == 202:
            accepted += 1
        assert 10 < accepted < 200, accepted
        same(broker.ended(), (3, "device fault\n"))
        faults = [line for line in broker.stderr().splitlines() if line.startswith("device fault: ")]
        assert len(faults) == 1 and f" {broker.disk}" in faults[0] and ": no room on its file system: " in faults[0], faults
        subprocess.run(["mount", "-o", "remount,size=8m", room], check=True)
        # The one that was refused may have been accepted too.
        assert broker.held() in (accepted, accepted + 1), (broker.held(), accepted)
        broker.serve()
        same(broker.invoke("{}").status, 202)
        same(broker.stop(), (202, 0, ""))


@case({"timeout": 900})
def events_are_copied_on_holes(broker):
    wants_holes(broker)
    events = holds_much(broker)
    new, newer = broker.disk + ".new", broker.disk + ".newer"
    held = told(broker, broker.disk)[1].split()[1]
    for old, made, more in (broker.disk, new, ()), (new, newer, ("--age", 21600)):
        same(broker.said("copy", old, made, "--sectors", SECTORS, *more), (0, f"copied {held} events to {SECTORS} sectors\n"))
        assert room_of(made) <= LITTLE, room_of(made)
    same(told(broker, new, events), told(broker, broker.disk, events))
    full = broker.disk + ".full"
    same(broker.said("copy", broker.disk, full, "--sectors", SECTORS, "--allocate"), (0, f"copied {held} events to {SECTORS} sectors\n"))
    same((content_of(full) == content_of(new), room_of(full) >= SECTORS * 512), (True, True))


@case()
def events_are_migrated_on_holes(broker):
    wants_holes(broker)
    os.remove(broker.disk)
    old = old_disk(sectors=SECTORS)
    with open(broker.disk, "wb") as disk:
        disk.write(old[:64 * 512])
    os.truncate(broker.disk, SECTORS * 512)
    same((broker.content() == old, room_of(broker.disk) <= LITTLE), (True, True))
    same(broker.migrate(), (0, "migrated generation 2 number 1\n"))
    same((broker.audit("--event", FIRST)[:2], room_of(broker.disk) <= LITTLE), (["generation 2 number 1", HELD], True))
