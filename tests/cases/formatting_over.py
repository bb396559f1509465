"""Formatting, and copying, over a disk that was used: no stop leaves an older half of it, and what finds no room changes nothing."""
import collections
import os
import random
import signal
import subprocess
import time

import disks
import stopped
from cases.formatting import content_of, put, small_room, words_of
from disks import ACCEPT, COLLECT, START, SUCCEED, Settings, command, id_of
from harness import Built, case, same

MOMENT = 1573755365568
SETTINGS = Settings()
HELD_NONE = "held 0 waiting 0 running 0 success 0 failure 0"
HELD_TWO = "held 2 waiting 2 running 0 success 0 failure 0"

# What an audit tells of a used disk, of none, and of a new one.
WAS, NONE, NEW = ("generation 2 number 8", HELD_NONE), ("refused: not formatted",), ("generation 1 number 0", HELD_NONE)

# How often a format of one kind is killed.
KILLS = int(os.environ.get("LAMBDA_BROKER_KILLS", 8))


def life(number):
    """The commands of an event that ran and was collected, behind its acceptance."""
    event = id_of(number)
    return [command(START, event, MOMENT, environment=1), command(SUCCEED, event, MOMENT, b"1"), command(COLLECT, event, MOMENT)]


def used_disk(live_first, sectors=64):
    """A disk that holds nothing, beside whose live segment the older one holds two events that ran since."""
    accepts = [command(ACCEPT, id_of(number), MOMENT, b"{}") for number in (1, 2)]
    older = disks.segment(2, SETTINGS, 1, disks.snapshot(2, SETTINGS), [(1, accepts)])
    frames = [(3, life(1) + life(2))]
    rows = [disks.Row(id_of(number), MOMENT, number, number, disks.WAITING, MOMENT, b"{}") for number in (1, 2)]
    live = disks.segment(2, SETTINGS, 2, disks.snapshot(2, SETTINGS, 2, MOMENT, rows), frames)
    return disks.disk(sectors, *((live, older) if live_first else (older, live)))


def read(broker, path, image):
    """What an audit tells of an image: generation and what is held, or why it is refused."""
    put(path, image)
    status, told = broker.said("audit", path)
    same((status in (0, 1), told.startswith("refused") == (status == 1)), (True, True))
    return tuple(told.splitlines()[:1 if status else 2])


def leaves_no_older_half(broker, before, words, fresh):
    """Of each stop in this command, made over this disk, an audit tells the disk as it was, none, or the new one."""
    made, image = broker.disk + ".made", broker.disk + ".image"
    broker.watch = None
    was = read(broker, image, before)
    same(was, WAS)
    put(made, before)
    watch = broker.watches_disk()
    watch.env["WATCH_DISK"] = made
    watch.record = 1
    same(broker.said(*words)[0], 0)
    watch.clear()
    broker.watch = None
    calls = stopped.calls_of(made + ".calls")
    os.remove(made + ".calls")
    images = {bytes(left) for left in stopped.images_of(before, calls, random.Random(80), 3)}
    seen = {read(broker, image, left) for left in images}
    assert seen <= {WAS, NONE, fresh}, seen
    assert fresh in seen and NONE in seen, seen


@case()
def no_stop_in_a_format_leaves_an_older_half(broker):
    for live_first in True, False:
        for sectors in 64, 201, 44:
            words = words_of(broker.disk + ".made", sectors)
            leaves_no_older_half(broker, used_disk(live_first), words, NEW)


@case()
def no_stop_in_a_copy_leaves_an_older_half(broker):
    put(broker.disk, disks.disk(64, disks.segment(2, SETTINGS, 1, disks.snapshot(2, SETTINGS), [
        (1, [command(ACCEPT, id_of(number), MOMENT, b"{}") for number in (1, 2)])])))
    for live_first in True, False:
        for sectors in 64, 200:
            words = "copy", broker.disk, broker.disk + ".made", "--sectors", sectors, "--force"
            leaves_no_older_half(broker, used_disk(live_first), words, ("generation 1 number 2", HELD_TWO))


@case()
def a_format_that_is_killed_leaves_no_older_half(broker):
    """Killed, or interrupted as by Ctrl-C, at any moment of a format of another size."""
    made, draw, seen = broker.disk + ".made", random.Random(80), collections.Counter()
    for live_first in True, False:
        before = used_disk(live_first, 100000)
        for sectors in 100000, 200001:
            words = [Built.program, *map(str, words_of(made, sectors))]
            put(made, before)
            began = time.monotonic()
            subprocess.run(words, check=True, capture_output=True)
            took = time.monotonic() - began
            for number in range(KILLS):
                put(made, before)
                program = subprocess.Popen(words, stdout=subprocess.PIPE, stderr=subprocess.DEVNULL)
                time.sleep(draw.random() * took)
                program.send_signal((signal.SIGKILL, signal.SIGINT)[number % 2])
                program.communicate()
                seen[tuple(broker.said("audit", made)[1].splitlines()[:2])] += 1
    assert set(seen) <= {WAS, NONE, NEW}, seen
    assert seen[NONE] > 0, seen


@case()
def a_write_or_flush_that_fails_leaves_no_older_half(broker):
    made = broker.disk + ".made"
    watch = broker.watches_disk()
    watch.env["WATCH_DISK"] = made
    for live_first in True, False:
        for word in "fail_write", "fail_flush":
            for number in range(1, 40):
                put(made, used_disk(live_first))
                watch.clear()
                setattr(watch, word, number)
                done = broker.said(*words_of(made, 64))
                watch.clear()
                if done[0] == 0:
                    break
                same(done, (3, "device fault\n"))
                told = tuple(broker.said("audit", made)[1].splitlines()[:2])
                assert told in (WAS, NONE, NEW), (word, number, told)
            assert number > 3, (word, number)


@case()
def a_disk_that_finds_no_room_to_grow_is_as_it_was(broker):
    with small_room(broker.folder) as room:
        made = os.path.join(room, "disk")
        for live_first in True, False:
            before = used_disk(live_first)
            for force in (), ("--force",):
                put(made, before)
                same(broker.said(*words_of(made, 4096), *force), (1, "refused: no room for so many sectors\n"))
                same(content_of(made) == before, True)
        for before in b"\1" * 20000, b"\1" * 512, used_disk(True)[:-1]:
            put(made, before)
            same(broker.said(*words_of(made, 4096), "--force"), (1, "refused: no room for so many sectors\n"))
            same(content_of(made) == before, True)


@case()
def what_shows_no_segment_is_not_written_before_it_is_zeros(broker):
    """A file of zeros costs one flush more than a new one."""
    made, told = broker.disk + ".made", []
    watch = broker.watches_disk()
    watch.env["WATCH_DISK"] = made
    for content in b"", bytes(64 * 512):
        put(made, content)
        watch.clear()
        same(broker.said(*words_of(made, 64)), (0, "formatted 64 sectors\n"))
        told.append((watch.flushes, watch.writes))
    same(told[1], (told[0][0] + 1, told[0][1]))


@case()
def a_disk_of_a_newer_version_is_told_so(broker):
    content = disks.disk(64, disks.segment(3, SETTINGS, 1, disks.snapshot(2, SETTINGS)))
    whole = disks.segment(2, SETTINGS, 1, disks.snapshot(2, SETTINGS))
    newer = disks.segment(200, SETTINGS, 2, disks.snapshot(2, SETTINGS))
    new = broker.disk + ".new"
    for before in content, disks.disk(64, whole, newer), disks.disk(64, newer, whole), disks.disk(64, b"", newer):
        put(broker.disk, before)
        for words in (
                ("audit", broker.disk), ("configure", broker.disk), ("migrate", broker.disk), ("copy", broker.disk, new),
                ("serve", broker.disk, "--port", 20000), words_of(broker.disk)):
            same((words, broker.said(*words)), (words, (1, "refused: newer version\n")))
        assert broker.content() == before, "what was refused was changed"
        same(os.path.exists(new), False)
    same(broker.said(*words_of(broker.disk), "--force"), (0, "formatted 64 sectors\n"))
