"""Migrating disks of version 1: those that the older program wrote, and ones that are spelled here."""
import ast
import json
import os
import shutil

import disks
from disks import ACCEPT, DUE_AGAIN, ENDED, RETRIES_EXHAUSTED, SUCCESS, WAITING, Row, Settings, command, id_of
from harness import HERE, OPENING, case, matches, same, until

MOMENT = 1573755365568
FIRST = id_of(1)


def become(broker, content):
    """Its disk holds this."""
    with open(broker.disk, "wb") as disk:
        disk.write(content)


def old_disk(settings=Settings(), sectors=64):
    """A disk of version 1 that holds an event which waits."""
    frames = [(1, [command(ACCEPT, FIRST, MOMENT, b"{}")])]
    return disks.disk(sectors, disks.segment(1, settings, 1, disks.snapshot(1, settings), frames))


HELD = "held 1 waiting 1 running 0 success 0 failure 0"


@case()
def a_disk_of_version_1_is_refused_until_it_is_migrated(broker):
    become(broker, old_disk())
    for words in ("audit", broker.disk), ("configure", broker.disk), ("serve", broker.disk, "--port", 20000):
        same((words, broker.said(*words)), (words, (1, "refused: old version\n")))
    assert broker.content() == old_disk(), "the disk was changed"
    same(broker.migrate(), (0, "migrated generation 2 number 1\n"))
    same(broker.audit("--event", FIRST, "--in-force"), [
        "generation 2 number 1", HELD, "older agrees", "in force retries 2 age 21600",
        f"{FIRST} waiting accepted {MOMENT} moment {MOMENT} starts 0 failures 0 pushbacks 0"])
    same(broker.migrate(), (1, "refused: not an old version\n"))
    broker.serve()
    # The event is of 2019, and so too old by now.
    record = until("its end", lambda: broker.record("failure").body)
    told = json.loads(record)["requestContext"]
    same((told["requestId"], told["condition"], told["approximateInvokeCount"]), (FIRST, "EventAgeExceeded", 0))
    same(broker.migrate(), (1, "refused: in use by another program\n"))


@case()
def each_event_stays_as_it_stands(broker):
    settings = Settings(retries=1, age=70)
    rows = [
        Row(id_of(1), 1000, 1, 1, WAITING, 1000, b"1"),
        Row(id_of(2), 1001, 2, 4, DUE_AGAIN, 61500, b"2", starts=1, failures=1, answer=(2, b"no")),
        Row(id_of(3), 1002, 5, 7, ENDED, 1600, b"3", outcome=SUCCESS, starts=1, answer=(1, b"yes")),
        Row(id_of(4), 1003, 8, 12, ENDED, 1700, b"4", outcome=RETRIES_EXHAUSTED, starts=2, failures=2),
    ]
    become(broker, disks.disk(64, disks.segment(1, settings, 7, disks.snapshot(1, settings, 12, 1700, rows))))
    same(broker.migrate(), (0, "migrated generation 8 number 12\n"))
    same(broker.audit("--in-force"), [
        "generation 8 number 12", "held 4 waiting 2 running 0 success 1 failure 1", "older agrees", "in force retries 1 age 70"])
    same([broker.audit("--event", id_of(n))[3] for n in range(1, 5)], [
        f"{id_of(1)} waiting accepted 1000 moment 1000 starts 0 failures 0 pushbacks 0",
        f"{id_of(2)} due again accepted 1001 moment 61500 starts 1 failures 1 pushbacks 0",
        f"{id_of(3)} ended Success accepted 1002 moment 1600 starts 1 failures 0 pushbacks 0",
        f"{id_of(4)} ended RetriesExhausted accepted 1003 moment 1700 starts 2 failures 2 pushbacks 0"])
    # What was read is what was spelled, and what was written what version 2 spells of it.
    taken = disks.snapshot(2, settings, 12, 1700, [
        Row(id_of(1), 1000, 1, 1, WAITING, 1000, b"1", policy=(1, 70)),
        Row(id_of(2), 1001, 2, 4, DUE_AGAIN, 61500, b"2", starts=1, failures=1, answer=(2, b"no"), policy=(1, 70)),
        Row(id_of(3), 1002, 5, 7, ENDED, 1600, b"3", outcome=SUCCESS, starts=1, answer=(1, b"yes"), policy=(1, 70)),
        Row(id_of(4), 1003, 8, 12, ENDED, 1700, b"4", outcome=RETRIES_EXHAUSTED, starts=2, failures=2, policy=(1, 70)),
    ])
    new = disks.segment(2, settings, 8, taken)
    same(broker.content()[32 * 512 : 32 * 512 + len(new)] == new, True)


@case()
def what_cannot_be_migrated_is_refused_and_stays_as_it_is(broker):
    def refuses(why):
        before = broker.content()
        same(broker.migrate(), (1, f"refused: {why}\n"))
        assert broker.content() == before, "the disk was changed"

    refuses("not an old version")
    for words in (), (broker.disk, "x"), (broker.disk, "--force"):
        same((words, broker.said("migrate", *words)[0]), (words, 2))
    same(broker.said("migrate", broker.disk + "x"), (1, "refused: no such file\n"))
    become(broker, bytes(64 * 512))
    refuses("not formatted")
    become(broker, old_disk())
    broker.put(512 + 7, b"\0")
    refuses("damaged at sector 1")
    broker.put(512 + 7, b"\3")
    refuses("newer version")


@case()
def a_disk_that_is_too_small_for_version_2_is_refused_and_stays_as_it_is(broker):
    old = old_disk(Settings(events=300, payload=16, response=16), 134)
    become(broker, old)
    same(broker.migrate(), (1, "refused: too small, least 140\n"))
    assert broker.content() == old, "the disk was changed"


@case()
def a_worn_disk_is_not_migrated(broker):
    settings = Settings()
    become(broker, disks.disk(64, disks.segment(1, settings, 1 << 62, disks.snapshot(1, settings))))
    before = broker.content()
    same(broker.migrate(), (1, "refused: worn out\n"))
    assert broker.content() == before, "the disk was changed"


@case()
def disks_that_the_older_program_wrote_are_migrated_with_what_it_told(broker):
    with open(os.path.join(HERE, "old_disks", "audits.txt")) as audits:
        for name, told in (line.split(" ", 1) for line in audits):
            numbers, events = ast.literal_eval(told)[:2]
            generation, number = matches("generation ([0-9]+) number ([0-9]+)", numbers)
            shutil.copy(os.path.join(HERE, "old_disks", name), broker.disk)
            same(broker.said("audit", broker.disk), (1, "refused: old version\n"))
            next_one = f"generation {int(generation) + 1} number {number}"
            same(broker.migrate(), (0, f"migrated {next_one}\n"))
            same(broker.audit(), [next_one, events, "older agrees"])


# Where a stop may come. The opening makes the first flushes. The segment is written, then its gate, each with a flush behind it.
STOPS = (
    {"kill_flush": 1}, {"kill_flush": OPENING}, {"kill_write": 1}, {"kill_write": 1, "torn": 512}, {"kill_write": 1, "torn": 1000},
    {"kill_flush": OPENING + 1}, {"kill_write": 2}, {"kill_write": 2, "torn": 1}, {"kill_flush": OPENING + 2}, {"kill_print": 1},
)


@case()
def a_migration_that_is_killed_is_done_by_the_next_one(broker):
    watch = broker.watches_disk()
    for words in STOPS:
        for loses in False, True:
            become(broker, old_disk())
            watch.clear()
            watch.keep = 1
            for word, value in words.items():
                setattr(watch, word, value)
            same((words, broker.migrate()), (words, (-9, "")))
            if loses and watch.flushed:
                broker.lose_what_was_not_flushed()
            watch.clear()
            told = broker.migrate()
            assert told in ((0, "migrated generation 2 number 1\n"), (1, "refused: not an old version\n")), (words, told)
            same(broker.audit(), ["generation 2 number 1", HELD, "older agrees"])


@case()
def a_migration_whose_device_fails_is_done_by_the_next_one(broker):
    watch = broker.watches_disk()
    flushes = [("fail_flush", number) for number in range(1, OPENING + 3)]
    for word, number in *flushes, ("fail_write", 1), ("fail_write", 2), ("fail_read", 1):
        become(broker, old_disk())
        watch.clear()
        setattr(watch, word, number)
        same((word, number, broker.migrate()), (word, number, (3, "device fault\n")))
        watch.clear()
        told = broker.migrate()
        assert told in ((0, "migrated generation 2 number 1\n"), (1, "refused: not an old version\n")), (word, number, told)
        same(broker.audit(), ["generation 2 number 1", HELD, "older agrees"])
