"""Groups of changes that follow each other: each flush opens one and writes the next. What it makes durable, and what a kill, a power
failure or a fault at any write or flush leaves."""
import random

import torn_groups
from harness import OPENING, case, same, statuses, until

GROUPS = 5
# The first flush opens no group, and the last one writes none.
FLUSHES, WRITES = GROUPS + 1, 2 * GROUPS


def is_over(broker):
    """It has come to the write or flush at which it is killed or fails, or has ended."""
    watch = broker.watch
    reached = [(watch.kill_flush, watch.flushes), (watch.kill_write, watch.writes), (watch.fail_flush, watch.flushes), (watch.fail_write, watch.writes)]
    return any(at and come >= at for at, come in reached) or broker.served.poll() is not None


def follow(broker):
    """Invokes, each but the first sent while the flush is held that the one before needs. No more are sent once it is over."""
    watch = broker.watch
    watch.hold_flush = OPENING + 1
    broker.serve()
    asked = [broker.send_invoke("{}")]
    for number in range(1, GROUPS):
        until("a flush", lambda: watch.flushes >= OPENING + number or is_over(broker))
        if is_over(broker):
            break
        asked.append(broker.send_invoke("{}"))
        broker.until_read()
        watch.release = OPENING + number
    watch.let_go()
    return asked


def holds_what_was_told(broker, asked, told):
    """Opened again, its disk holds each event that was told 202, and none that was not asked for."""
    told = [one.done().id for one, status in zip(asked, told) if status == 202]
    broker.watch.clear()
    broker.serve()
    held = [event["id"] for event in broker.look("/events").json["events"]]
    same(held[:len(told)], told)
    assert len(held) <= len(asked), held
    broker.kill()


@case()
def each_flush_opens_a_group_and_takes_the_next(broker):
    watch = broker.watches_disk()
    watch.hold_flush = OPENING + 1
    broker.serve()
    asked = [broker.send_invoke("{}")]
    for number in range(1, GROUPS):
        until("a flush", lambda: watch.flushes == OPENING + number)
        asked.append(broker.send_invoke("{}"))
        broker.until_read()
        # What one flush writes, the next one opens: then its caller is told.
        told = max(0, number - 2)
        same([one.is_answered() for one in asked], told * [True] + (number + 1 - told) * [False])
        watch.release = OPENING + number
        until("the next flush", lambda: watch.flushes == OPENING + number + 1)
        same([asked[at].done().status for at in range(number - 1)], (number - 1) * [202])
    same([one.is_answered() for one in asked], (GROUPS - 2) * [True] + 2 * [False])
    watch.let_go()
    same(statuses(asked), GROUPS * [202])
    same((watch.flushed, watch.written), (OPENING + FLUSHES, WRITES))
    same(broker.stop(), (202, 0, ""))
    same((watch.flushed, watch.written), (OPENING + FLUSHES, WRITES))
    same(broker.held(), GROUPS)


@case(slow=True)
def a_kill_at_each_write_and_flush_keeps_what_was_told(broker):
    moments = [("kill_flush", OPENING + n, 0, loses) for n in range(1, FLUSHES + 1) for loses in (False, True)]
    moments += [("kill_write", n, torn, False) for n in range(1, WRITES + 1) for torn in (0, 1, 700)]
    moments += [("kill_write", n, 0, True) for n in range(1, WRITES + 1)]
    for word, number, torn, loses in moments:
        other = type(broker)()
        watch = other.watches_disk()
        watch.keep, watch.torn = 1, torn
        setattr(watch, word, number)
        asked = follow(other)
        told = statuses(asked)
        same(other.ended()[0], -9)
        if loses:
            other.lose_what_was_not_flushed()
        holds_what_was_told(other, asked, told)
        other.close()


@case(slow=True)
def a_fault_at_each_write_and_flush_keeps_what_was_told(broker):
    moments = [("fail_flush", OPENING + n) for n in range(1, FLUSHES + 1)] + [("fail_write", n) for n in range(1, WRITES + 1)]
    for word, number in moments:
        other = type(broker)()
        setattr(other.watches_disk(), word, number)
        asked = follow(other)
        told = statuses(asked)
        same([status for status in told if status not in (202, 503)], [])
        same(other.ended(), (3, "device fault\n"))
        holds_what_was_told(other, asked, told)
        other.close()


@case()
def no_image_that_a_stop_leaves_of_many_groups_is_wrong(broker):
    # The second disk is so small that segments are switched.
    for sectors in 16384, 200:
        before, calls = torn_groups.serve_many(sectors)
        same(torn_groups.judge(before, calls, 4000, random.Random(sectors)), [])


@case()
def an_image_is_seen_to_be_wrong_where_a_body_was_not_flushed(broker):
    before, calls = torn_groups.serve_many(16384)
    flushes = [at for at, call in enumerate(calls) if call is None]
    # Where no group came meanwhile, each other flush behind those of the opening is that of a body alone.
    without = [call for at, call in enumerate(calls) if at not in set(flushes[OPENING::2])]
    assert torn_groups.judge(before, without, 4000, random.Random(1)), "no image was wrong"
