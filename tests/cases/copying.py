"""Copying a disk to a new one: every event comes along, the old disk stays as it is, and what is refused changes nothing."""
import contextlib
import os
import subprocess

from harness import Skipped, case, same, until

STOPPED = (202, 0, "")


def content_of(path):
    with open(path, "rb") as file:
        return file.read()


def put(path, content):
    with open(path, "wb") as file:
        file.write(content)


def copy(broker, new, *words, under=()):
    """What copying its disk prints, and its status."""
    return broker.said("copy", broker.disk, new, *words, under=under)


def told(broker, disk, ids=()):
    """What an audit tells of a disk, but for its segments, and of each of these events."""
    numbers = broker.command("audit", disk, "--in-force").stdout.splitlines()
    events = [broker.command("audit", disk, "--event", event).stdout.splitlines()[-1] for event in ids]
    records = broker.command("audit", disk, "--records").stdout
    return numbers[0].split(" number ")[1], numbers[1], numbers[3], events, records


def holds_much(broker):
    """Its disk holds an event that has ended with an answer, one that is due again, and two that wait, each under a policy of its own;
    one more was collected."""
    broker.serve()
    ended = broker.live('"first"', b"\0an answer\xff")
    same(broker.delete(broker.live('"second"', "2")).status, 204)
    failed = broker.live('"third"', "no", path="error")
    waits = broker.invoke('"fourth"').id
    same(broker.stop(), STOPPED)
    same(broker.configure("--retries", 0, "--age", 70)[0], 0)
    broker.serve()
    last = broker.invoke('"fifth"').id
    same(broker.stop(), STOPPED)
    return ended, failed, waits, last


@case({"timeout": 900})
def every_event_comes_along_to_a_larger_disk(broker):
    events = holds_much(broker)
    before = content_of(broker.disk)
    new = broker.disk + ".new"
    status, line = copy(broker, new, "--sectors", 8192, "--events", 100)
    assert content_of(broker.disk) == before, "the old disk was changed"
    held = told(broker, broker.disk)[1].split()[1]
    same((status, line), (0, f"copied {held} events to 8192 sectors\n"))
    same((os.path.getsize(new), os.stat(new).st_mode & 0o777), (8192 * 512, 0o600))
    same(told(broker, new, events), told(broker, broker.disk, events))
    same(broker.command("audit", new).stdout.splitlines()[::2], ["generation 1 number " + told(broker, new)[0], "older none"])


def rows(broker, disk):
    """The events of a disk by their ids, as the operator's port shows them."""
    broker.disk = disk
    broker.serve()
    told = broker.look("/events").json["events"]
    same(broker.stop(), STOPPED)
    return {row["id"]: row for row in told}


@case({"timeout": 900, "age": 60})
def with_an_age_what_has_not_ended_has_it_where_its_own_is_shorter(broker):
    old, new, third = broker.disk, f"{broker.disk}.new", f"{broker.disk}.third"
    ended, failed, waits, last = holds_much(broker)
    before, number = rows(broker, old), told(broker, old)[0]
    same([before[event]["age"] for event in (ended, failed, waits, last)], [60, 60, 60, 70])
    same(copy(broker, new, "--age", 3600), (0, "copied 4 events to 4096 sectors\n"))
    # A Configure stands before each command, and one at the end.
    same(told(broker, new)[0], str(2 * int(number) + 1))
    same(told(broker, new, (ended,))[1:], told(broker, old, (ended,))[1:])
    same(rows(broker, new), {event: {**row, "age": row["age"] if event == ended else 3600} for event, row in before.items()})
    same(copy(broker, third, "--age", 3599)[0], 0)
    same(rows(broker, third), rows(broker, new))


@case({"age": 60, "retries": 1})
def what_would_be_given_up_runs_in_a_copy_with_a_longer_age(broker):
    watch = broker.watches_disk()
    broker.serve()
    events = [broker.invoke(f"{n}").id for n in range(2)]
    same(broker.next().id, events[0])
    same(broker.respond(events[0], '{"errorMessage":"no"}', path="error").status, 202)
    same(broker.next().id, events[1])
    broker.kill()
    watch.ahead = 600_000
    new = f"{broker.disk}.new"
    same(copy(broker, new, "--age", 900)[0], 0)
    broker.serve()
    until("their end", lambda: broker.number('events{standing="event_age_exceeded"}') == 2)
    broker.kill()
    broker.disk = new
    broker.serve()
    given = []
    for _ in events:
        given.append(broker.next().id)
        same(broker.respond(given[-1], "1").status, 202)
    same(sorted(given), sorted(events))
    for _ in events:
        context = broker.record().json["requestContext"]
        # Its first attempt counts, whichever way it ended.
        same(context["approximateInvokeCount"], 2)
        same(broker.delete(context["requestId"]).status, 204)


@case({"sectors": 8194, "events": 1024, "payload": 64, "response": 64, "age": 600})
def a_full_table_comes_along_with_an_age_to_a_disk_with_a_sector_for_a_claim(broker):
    broker.serve()
    same({broker.invoke(f"{n}").status for n in range(1024)}, {202})
    same(broker.stop(), STOPPED)
    new = f"{broker.disk}.new"
    same(copy(broker, new, "--age", 3600, "--sectors", 8193), (0, "copied 1024 events to 8193 sectors\n"))
    # The operator's port lists 100 by itself.
    same({row["age"] for row in rows(broker, new).values()}, {3600})
    same(broker.held(), 1024)


@case({"sectors": 64, "events": 8, "payload": 64, "response": 64})
def copies_with_an_age_of_copies_end_in_a_refusal_that_leaves_nothing(broker):
    broker.serve()
    same(broker.invoke("{}").status, 202)
    same(broker.stop(), STOPPED)
    for n in range(61):
        new = f"{broker.disk}.{n}"
        same(copy(broker, new, "--age", 60), (0, "copied 1 events to 64 sectors\n"))
        same(told(broker, new)[0], str(2 ** (n + 2) - 1))
        broker.disk = new
    # The next number would be 2^63 - 1, and they end at 2^62.
    same(copy(broker, f"{new}.more", "--age", 60), (1, "refused: bad table\n"))
    same((os.path.exists(f"{new}.more"), broker.held()), (False, 1))


@case()
def an_age_that_no_event_has_is_refused(broker):
    new, before = f"{broker.disk}.new", content_of(broker.disk)
    for age in 0, 59, 21601, 2**32 - 1:
        same(copy(broker, new, "--age", age), (1, "refused: bad settings: age\n"))
    for words in (["--age", "x"], ["--age", -60], ["--age", 2**32], ["--age"]):
        same(copy(broker, new, *words)[0], 2)
    same((os.path.exists(new), content_of(broker.disk) == before), (False, True))
    same([copy(broker, f"{new}{age}", "--age", age)[0] for age in (60, 21600)], [0, 0])


@case({"events": 2, "payload": 16, "response": 16})
def a_copy_is_served_with_its_larger_limits(broker):
    broker.serve()
    same([broker.invoke(f"{n}").status for n in range(3)], [202, 202, 429])
    same(broker.stop(), STOPPED)
    new = broker.disk + ".new"
    same(copy(broker, new, "--events", 3, "--payload", 1024, "--name", "other", "--arn", "arn:other"),
         (0, "copied 2 events to 4096 sectors\n"))
    broker.disk = new
    broker.serve()
    path = "/2015-03-31/functions/other/invocations"
    same(broker.ask("POST", path, '"' + 100 * "x" + '"', {"X-Amz-Invocation-Type": "Event"}).status, 202)
    same(broker.ask("POST", path, "{}", {"X-Amz-Invocation-Type": "Event"}).status, 429)
    same(broker.next().body, b"0")
    broker.kill()
    broker.serve()
    same(broker.stop(), STOPPED)
    same(broker.held(), 3)


def is_refused(broker, new, line, *words):
    """The copy is refused with this line; old and new disk stay as they are."""
    old, made = content_of(broker.disk), content_of(new) if os.path.exists(new) else None
    same((words, copy(broker, new, *words)), (words, (1, f"refused: {line}\n")))
    same(content_of(broker.disk) == old, True)
    same((content_of(new) if os.path.exists(new) else None) == made, True)


@case({"events": 4, "payload": 1024, "response": 1024})
def what_a_copy_may_not_have_is_named_before_anything_is_touched(broker):
    new = broker.disk + ".new"
    is_refused(broker, new, "smaller limit: events", "--events", 3)
    is_refused(broker, new, "smaller limit: payload", "--payload", 1023)
    is_refused(broker, new, "smaller limit: response", "--response", 2, "--payload", 2048)
    is_refused(broker, new, "bad settings: events", "--events", 1025)
    is_refused(broker, new, "bad settings: name", "--name", "a b")
    is_refused(broker, new, "bad settings: environments", "--environments", 17)
    is_refused(broker, new, "too small, least 44", "--sectors", 43)
    same(broker.command("copy", broker.disk).returncode, 2)
    same(broker.command("copy", broker.disk, new, "--timeout", 5).returncode, 2)
    is_refused(broker, broker.disk + "/new", "no such file")


@case()
def a_disk_is_not_copied_to_itself_nor_over_what_is_needed(broker):
    broker.serve()
    same(broker.invoke("{}").status, 202)
    new = broker.disk + ".new"
    same(copy(broker, new), (1, "refused: in use by another program\n"))
    same(os.path.exists(new), False)
    same(broker.stop(), STOPPED)
    is_refused(broker, broker.disk, "OLD and NEW are one disk", "--force")
    os.symlink(broker.disk, broker.disk + ".link")
    is_refused(broker, broker.disk + ".link", "in use by another program", "--force")
    put(new, b"a letter")
    is_refused(broker, new, "not empty")
    same(copy(broker, new, "--force"), (0, "copied 1 events to 4096 sectors\n"))
    is_refused(broker, new, "holds 1 events")


@case()
def a_disk_that_cannot_be_opened_is_not_copied(broker):
    broker.serve()
    same(broker.invoke("{}").status, 202)
    same(broker.stop(), STOPPED)
    new = broker.disk + ".new"
    content = content_of(broker.disk)
    for at, line in (512, "damaged at sector 1"), (0, "not formatted"):
        put(broker.disk, content[:at] + b"\7" + content[at + 1:])
        is_refused(broker, new, line)
        same(os.path.exists(new), False)


@contextlib.contextmanager
def small_room(folder):
    """A file system of 1 MiB."""
    os.mkdir(folder)
    if subprocess.run(["mount", "-t", "tmpfs", "-o", "size=1m", "none", folder], stderr=subprocess.DEVNULL).returncode:
        raise Skipped("nothing can be mounted here")
    try:
        yield folder
    finally:
        subprocess.run(["umount", folder], check=True)


@case()
def a_copy_that_finds_no_room_leaves_nothing_behind(broker):
    with small_room(os.path.join(broker.folder, "room")) as room:
        new = os.path.join(room, "new")
        same(copy(broker, new, "--allocate"), (1, "refused: no room for so many sectors\n"))
        same(os.listdir(room), [])
        put(new, bytes(512))
        same(copy(broker, new), (1, "refused: no room for so many sectors\n"))
        same(content_of(new), bytes(512))


def is_none_or_whole_at_each_stop(broker, *words):
    """Killed in each write, of which a part was done, and before each flush: the new disk is not formatted or is that of a copy with
    these words, byte for byte, and the old one stays as it is."""
    broker.serve()
    for n in range(5):
        same(broker.invoke(f"{n}").status, 202)
    same(broker.stop(), STOPPED)
    new, before = broker.disk + ".new", content_of(broker.disk)
    same(copy(broker, new, *words)[0], 0)
    whole, watch, seen = content_of(new), broker.watches_disk(), []
    for word, torn in ("kill_write", 0), ("kill_write", 1), ("kill_write", 700), ("kill_flush", 0):
        for number in range(1, 50):
            put(new, b"")
            watch.clear()
            watch.torn, done = torn, setattr(watch, word, number) or broker.command("copy", broker.disk, new, *words, env={"WATCH_DISK": new})
            watch.clear()
            assert content_of(broker.disk) == before, "the old disk was changed"
            if done.returncode == 0:
                break
            status, line = broker.said("audit", new)
            seen.append(line if status else "whole")
            same(status != 0 or content_of(new) == whole, True)
        same(content_of(new) == whole, True)
    same(sorted(set(seen)), ["refused: not formatted\n", "whole"])
    assert len(seen) > 10, f"only {len(seen)} stops were made"


@case({"sectors": 64, "events": 8, "payload": 64, "response": 64})
def a_stop_within_a_copy_leaves_no_disk_or_the_whole(broker):
    is_none_or_whole_at_each_stop(broker)


@case({"sectors": 64, "events": 8, "payload": 64, "response": 64, "age": 60})
def a_stop_within_a_copy_with_an_age_leaves_no_disk_or_the_whole(broker):
    is_none_or_whole_at_each_stop(broker, "--age", 3600)
