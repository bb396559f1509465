"""Files and flushes: what is written and flushed before anything is told, and what a device does that fails or is slow."""
import errno
import os
import re
import shutil
import time

from harness import OPENING, case, same, statuses, until


@case()
def a_format_flushes_the_file_its_folder_and_each_step(broker):
    watch = broker.watches_disk()
    watch.clear()
    made = broker.disk + "1"
    watch.env["WATCH_DISK"] = made
    same(broker.format(made, 64, events=4, payload=1024, response=1024), (0, "formatted 64 sectors\n"))
    # The zeros; closed gates, the segment and its gate, each with a flush behind it.
    same((watch.flushed, watch.folder_flushes), (4, 1))
    same(watch.written, 5)


@case()
def an_invoke_makes_two_flushes_and_two_writes_and_what_is_read_none(broker):
    watch = broker.watches_disk()
    broker.serve()
    same((watch.flushed, watch.written), (OPENING, 0))
    for n in range(1, 4):
        same(broker.invoke("{}").status, 202)
        same((watch.flushed, watch.written), (OPENING + 2 * n, 2 * n))
    same((broker.record().status, broker.ask("GET", "/x").status, broker.look("/events").status), (204, 404, 200))
    same((watch.flushed, watch.written), (OPENING + 6, 6))
    same(broker.number("written_bytes_total"), 3 * 3 * 512)
    same(broker.stop(), (202, 0, ""))
    same((watch.flushed, watch.written), (OPENING + 6, 6))


@case()
def an_audit_writes_and_flushes_nothing_but_its_opening(broker):
    watch = broker.watches_disk()
    broker.audit()
    same((watch.flushes, watch.writes), (OPENING, 0))


@case()
def nothing_is_told_before_its_flush(broker):
    watch = broker.watches_disk()
    # The opening's flushes come first. An invoke makes one behind the frame's body, and one behind its gate.
    watch.hold_flush = OPENING + 1
    broker.serve()
    invoke = broker.send_invoke("{}")
    until("a flush", lambda: watch.flushes == OPENING + 1)
    events, record, numbers = broker.send_look("/events"), broker.send("GET", "/broker/destinations/success"), broker.send_look("/metrics")
    broker.until_read()
    broker.until_looked()
    asked = [invoke, events, record, numbers]
    same([one.is_answered() for one in asked], 4 * [False])
    watch.release = OPENING + 1
    until("the next flush", lambda: watch.flushes == OPENING + 2)
    broker.until_read()
    broker.until_looked()
    same([one.is_answered() for one in asked], 4 * [False])
    watch.let_go()
    same(statuses(asked), [202, 200, 204, 200])
    same([event["id"] for event in events.done().json["events"]], [invoke.done().id])
    same(broker.stop(), (202, 0, ""))


@case()
def requests_are_answered_while_the_disk_makes_a_flush(broker):
    watch = broker.watches_disk()
    watch.hold_flush = OPENING + 1
    broker.serve()
    first, second = broker.send_invoke("{}"), broker.send_invoke("{}")
    until("a flush", lambda: watch.flushes == OPENING + 1)
    oldest = broker.send("GET", "/broker/destinations/success")
    for environment in 0, 1:
        same(broker.ask("GET", "/x", environment=environment).status, 404)
    same([one.is_answered() for one in (first, second, oldest)], 3 * [False])
    watch.let_go()
    same([one.done().status for one in (first, second, oldest)], [202, 202, 204])
    same(broker.stop(), (202, 0, ""))


@case()
def what_comes_during_a_flush_shares_the_next_commit(broker):
    watch = broker.watches_disk()
    watch.hold_flush = OPENING + 1
    broker.serve()
    first = broker.send_invoke("{}")
    until("a flush", lambda: watch.flushes == OPENING + 1)
    others = [broker.send_invoke("{}") for _ in range(8)]
    broker.until_read()
    watch.let_go()
    same([invoke.done().status for invoke in (first, *others)], 9 * [202])
    same(broker.stop(), (202, 0, ""))
    # Behind the opening's two, one takes the first invoke, one opens it and takes the other eight, and one opens these.
    same(watch.flushed, OPENING + 3)


@case({"events": 400, "sectors": 8192})
def the_257th_command_that_is_not_durable_is_refused(broker):
    watch = broker.watches_disk()
    watch.hold_flush = OPENING + 1
    broker.serve()
    first = [broker.send_invoke("{}")]
    until("a flush", lambda: watch.flushes == OPENING + 1)
    first += [broker.send_invoke("{}") for _ in range(255)]
    broker.until_read()
    refused = broker.invoke("{}")
    same((refused.status, refused.type), (503, "Unavailable"))
    watch.let_go()
    same({invoke.done().status for invoke in first}, {202})
    same(broker.invoke("{}").status, 202)
    same(broker.number("events_accepted_total"), 257)


@case()
def those_who_wait_for_a_flush_take_no_processor(broker):
    watch = broker.watches_disk()
    broker.serve()
    parked = broker.send_next()
    broker.until_parked(1)
    watch.hold_flush = watch.flushes + 1
    invokes = [broker.send_invoke("{}") for _ in range(2)]
    until("a flush", lambda: watch.flushes == watch.hold_flush)
    broker.until_read()
    looks = [broker.send_look(path) for path in ("/events", "/metrics", "/events")]
    broker.until_looked()
    before = broker.processor_seconds()
    # Who is woken for nothing takes a processor all the time, or its share of a busy one.
    time.sleep(4)
    took = broker.processor_seconds() - before
    assert took < 0.3, f"it took {took} s of a processor"
    same([one.is_answered() for one in (*invokes, *looks, parked)], 6 * [False])
    watch.let_go()
    same([one.done().status for one in (*invokes, *looks, parked)], [202, 202, 200, 200, 200, 200])
    # What they looked at is what was there when they asked.
    for look in looks[0], looks[2]:
        same({event["id"] for event in look.done().json["events"]}, {invoke.done().id for invoke in invokes})


@case()
def a_stop_waits_for_what_is_not_durable(broker):
    watch = broker.watches_disk()
    watch.hold_flush = OPENING + 1
    broker.serve()
    invoke = broker.send_invoke("{}")
    until("a flush", lambda: watch.flushes == OPENING + 1)
    broker.until_read()
    stop, late = broker.send("POST", "/broker/stop"), None
    broker.until_read()
    late = broker.invoke("{}")
    same((late.status, late.type), (503, "Unavailable"))
    same([invoke.is_answered(), stop.is_answered(), broker.served.poll()], [False, False, None])
    watch.let_go()
    same(statuses([invoke, stop]), [202, 202])
    same(broker.ended(), (0, ""))
    same(broker.audit()[:2], ["generation 1 number 1", "held 1 waiting 1 running 0 success 0 failure 0"])


@case()
def a_stop_answers_all_who_wait_though_a_flush_is_held(broker):
    watch = broker.watches_disk()
    broker.serve()
    runs = broker.live("1", "1")
    parked = broker.send_next()
    broker.until_parked(1)
    watch.hold_flush = watch.flushes + 1
    delete = broker.send("DELETE", f"/broker/destinations/{runs}")
    until("a flush", lambda: watch.flushes == watch.hold_flush)
    looks = [broker.send_look("/events") for _ in range(2)]
    broker.until_looked()
    stop = broker.send("POST", "/broker/stop")
    broker.until_read()
    asked = (delete, stop, parked, *looks)
    same([one.is_answered() for one in asked], 5 * [False])
    watch.let_go()
    same(statuses(asked), [204, 202, 500, 200, 200])
    same(broker.ended(), (0, ""))
    same(broker.held(), 0)


# A device that fails

def fails(broker, **words):
    """From this flush, write or read on each fails."""
    watch = broker.watches_disk()
    for word, number in words.items():
        setattr(watch, word, number)
    return broker


def works_again(broker):
    broker.watch.clear()
    return broker


@case()
def a_device_fault_ends_the_program_though_an_extension_has_gone(broker):
    # A first invoke makes two flushes behind the opening's.
    fails(broker, fail_flush=OPENING + 3).serve()
    accepted = broker.invoke("{}")
    same(accepted.status, 202)
    broker.park_and_leave(broker.send_extension_next, broker.extension())
    same(broker.invoke("{}").status, 503)
    same(broker.ended(), (3, "device fault\n"))
    works_again(broker).serve()
    same(broker.next().id, accepted.id)


@case()
def a_device_fault_ends_the_program_though_a_runtime_has_gone(broker):
    fails(broker, fail_flush=OPENING + 1).serve()
    broker.park_and_leave(broker.send_next)
    same(broker.invoke("{}").status, 503)
    same(broker.ended(), (3, "device fault\n"))


@case()
def a_device_fault_ends_the_program_though_a_caller_has_gone(broker):
    watch = fails(broker, fail_flush=OPENING + 1, hold_flush=OPENING + 1).watch
    broker.serve()
    broker.until_all_serve()
    without = until("a number of open files that stays", broker.rests)
    invoke = broker.send_invoke("{}")
    until("a flush", lambda: watch.flushes == OPENING + 1)
    invoke.leave()
    until("the end of the connection", lambda: broker.open_files() == without)
    watch.let_go()
    same(broker.ended(), (3, "device fault\n"))


def ends_though_it_goes(broker, waiting):
    """The device fails at its next flush, which is held. Who waits goes once a caller was told so, and reads nothing."""
    invoke = broker.send_invoke("{}")
    until("a flush", lambda: broker.watch.flushes == OPENING + 1)
    for environment in 0, 1:
        broker.until_read(environment)
    same((invoke.is_answered(), waiting.is_answered()), (False, False))
    broker.watch.let_go()
    same(invoke.done().status, 503)
    waiting.leave()
    same(broker.ended(), (3, "device fault\n"))


@case()
def a_device_fault_ends_the_program_though_a_caller_goes_behind_it(broker):
    fails(broker, fail_flush=OPENING + 1, hold_flush=OPENING + 1).serve()
    ends_though_it_goes(broker, broker.send_invoke("{}"))


@case()
def a_device_fault_ends_the_program_though_a_runtime_goes_behind_it(broker):
    fails(broker, fail_flush=OPENING + 1, hold_flush=OPENING + 1).serve()
    parked = broker.send_next()
    broker.until_parked(1)
    ends_though_it_goes(broker, parked)


@case()
def a_device_fault_ends_the_program_though_an_extension_goes_behind_it(broker):
    fails(broker, fail_flush=OPENING + 1, hold_flush=OPENING + 1).serve()
    parked = broker.send_extension_next(broker.extension())
    broker.until_parked(1)
    ends_though_it_goes(broker, parked)


@case()
def a_device_fault_is_told_to_those_who_wait(broker):
    watch = fails(broker, fail_flush=OPENING + 1, hold_flush=OPENING + 1).watch
    broker.serve()
    extension = broker.send_extension_next(broker.extension())
    runtime = broker.send_next()
    broker.until_parked(2)
    invokes = [broker.send_invoke("{}") for _ in range(2)]
    until("a flush", lambda: watch.flushes == OPENING + 1)
    looks = [broker.send_look(path) for path in ("/events", "/metrics", "/healthz?deep")]
    broker.until_looked()
    broker.until_read()
    watch.let_go()
    asked = (*invokes, runtime, extension, *looks)
    same(statuses(asked), 7 * [503])
    same([look.done().body for look in looks], 3 * [b"device fault\n"])
    same(broker.ended(), (3, "device fault\n"))


@case()
def what_was_accepted_before_a_device_fault_is_there_behind_it(broker):
    places = ({"fail_write": 3}, 1), ({"fail_write": 4}, 1), ({"fail_flush": OPENING + 3}, 1), ({"fail_flush": OPENING + 4}, 2)
    for number, (words, held) in enumerate(places):
        disk = f"{broker.disk}.{number}"
        shutil.copy(broker.disk, disk)
        kept, broker.disk = broker.disk, disk
        fails(broker, **words).serve()
        same([broker.invoke("{}").status for _ in range(2)], [202, 503])
        same(broker.ended(), (3, "device fault\n"))
        # The second event may be there: nobody was told that it is not.
        told = works_again(broker).held()
        assert told in (1, held), (words, told)
        broker.disk = kept


@case()
def a_device_that_fails_is_told_by_each_command(broker):
    event = "00000000-0000-4000-8000-000000000001"
    for words in (["fail_read", 1], ["fail_flush", 1]):
        fails(broker, **{words[0]: words[1]})
        for command in (["audit"], ["audit", "--json"], ["audit", "--records"], ["audit", "--event", event], ["configure"], ["migrate"]):
            same((words, command, broker.said(command[0], broker.disk, *command[1:])), (words, command, (3, "device fault\n")))
            broker.watch.reads = broker.watch.flushes = 0
        same(broker.said("serve", broker.disk, "--port", 20000), (3, "device fault\n"))
    for word, most in ("fail_write", 2), ("fail_flush", OPENING + 2):
        for number in range(1, most + 1):
            fails(broker, **{word: number})
            same((word, number, broker.said("configure", broker.disk)), (word, number, (3, "device fault\n")))
    made = broker.disk + "1"
    for word, most in ("fail_write", 5), ("fail_flush", 4):
        for number in range(1, most + 1):
            fails(broker, **{word: number}).watch.env["WATCH_DISK"] = made
            told = broker.format(made, 64, events=4, payload=1024, response=1024)
            same((word, number, told), (word, number, (3, "device fault\n")))


CALLS = {"fail_read": "reading", "fail_write": "writing", "fail_flush": "flushing"}


def names_fault(line, word, disk):
    """A line on standard error says which call failed, with which error, of which file, and where, if it is of a place."""
    has_place = word == "fail_flush" or re.search(r"(sector|byte|offset) *[0-9]+|[0-9]+ *(sectors?|bytes?)", line)
    return disk in line and has_place and re.search(CALLS[word], line) and re.search(rf"{os.strerror(5)}|EIO|error 5\b", line)


def one_names_fault(told, word, disk):
    """Just one of these lines does."""
    same((word, [bool(names_fault(line, word, disk)) for line in told.splitlines()].count(True)), (word, 1))


@case()
def a_device_that_fails_is_named_on_standard_error(broker):
    watch = broker.watches_disk()
    for word, commands in (
        ("fail_read", (["audit"], ["audit", "--json"], ["configure"], ["migrate"], ["serve", "--port", 20000])),
        ("fail_flush", (["audit"], ["configure"], ["serve", "--port", 20000])),
        ("fail_write", (["configure"],)),
    ):
        for words in commands:
            watch.clear()
            setattr(watch, word, 1)
            done = broker.command(words[0], broker.disk, *words[1:])
            same((word, words, done.returncode, done.stdout), (word, words, 3, "device fault\n"))
            one_names_fault(done.stderr, word, broker.disk)


@case()
def a_device_that_fails_while_it_is_served_is_named_on_standard_error(broker):
    # Each invoke makes two writes and two flushes.
    for word, number in ("fail_write", 1), ("fail_write", 2), ("fail_flush", OPENING + 1), ("fail_flush", OPENING + 2):
        fails(broker, **{word: number}).serve()
        same(broker.invoke("{}").status, 503)
        same((word, number, broker.ended()), (word, number, (3, "device fault\n")))
        one_names_fault(broker.stderr(), word, broker.disk)
        works_again(broker)


@case()
def a_format_whose_device_fails_names_it_on_standard_error(broker):
    watch = broker.watches_disk()
    os.remove(broker.disk)
    for word, number in ("fail_write", 2), ("fail_flush", 2), ("fail_flush", 4):
        with open(broker.disk, "wb"):
            pass
        watch.clear()
        setattr(watch, word, number)
        words = ["--sectors", 64, "--name", "f", "--handler", "h", "--arn", "a", "--events", 4, "--payload", 16, "--response", 16]
        done = broker.command("format", broker.disk, *words)
        same((word, number, done.returncode, done.stdout), (word, number, 3, "device fault\n"))
        one_names_fault(done.stderr, word, broker.disk)


@case()
def a_first_flush_that_finds_no_room_is_a_fault_of_the_device(broker):
    watch, before, new = broker.watches_disk(), broker.content(), broker.disk + ".new"
    commands = (
        ("serve", broker.disk, "--port", 20000), ("configure", broker.disk), ("migrate", broker.disk), ("copy", broker.disk, new),
        ("audit", broker.disk))
    for words in commands:
        for error in errno.ENOSPC, errno.EDQUOT:
            watch.clear()
            watch.fail_with, watch.fail_flush = error, 1
            done = broker.command(*words)
            same((words[0], done.returncode, done.stdout), (words[0], 3, "device fault\n"))
            assert done.stderr.startswith(f"device fault: flushing {broker.disk}: "), done.stderr
    same((broker.content() == before, os.path.exists(new)), (True, False))
