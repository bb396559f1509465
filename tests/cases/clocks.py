"""Clocks that are set: what a broker with a grace gives up, what an opening and an audit tell, and what is due when."""
import re
import time

from harness import OPENING, Beside, case, matches, same, until

FAILURE = '{"errorMessage":"no","errorType":"Failed"}'
HOUR = 3_600_000
YEAR = 365 * 24 * HOUR


def waiting(broker):
    """How many events wait."""
    return broker.number('events{standing="waiting"}')


def given_up(broker):
    """How many were given up for their age."""
    return broker.number('events{standing="event_age_exceeded"}')


@case({"age": 3600})
def a_clock_that_is_a_year_ahead_for_seconds_gives_nothing_up(broker):
    watch = broker.watches_disk()
    broker.serve("--clock-grace", "60")
    for _ in range(3):
        broker.invoke("{}")
    watch.ahead = YEAR
    until("a step", lambda: broker.number("clock_steps_total") == 1)
    event = broker.invoke("{}").id
    time.sleep(3)
    same((waiting(broker), given_up(broker)), (4, 0))
    watch.ahead = 0
    until("a step back", lambda: broker.number("clock_steps_total") == 2)
    same((waiting(broker), given_up(broker)), (4, 0))
    # What was accepted meanwhile is no older than it is.
    broker.kill()
    broker.serve()
    same((waiting(broker), given_up(broker)), (4, 0))
    given = []
    for _ in range(4):
        given.append(broker.next().id)
        same(broker.respond(given[-1], "1").status, 202)
    same(event in given, True)


@case({"age": 3600})
def a_clock_that_is_set_while_the_disk_is_opened_is_noticed(broker):
    watch = broker.watches_disk()
    watch.hold_flush = OPENING
    serving = Beside(broker.serve)
    until("a flush", lambda: watch.flushes == OPENING)
    watch.ahead = 2 * HOUR
    watch.let_go()
    serving.done()
    until("a step", lambda: broker.number("clock_steps_total") == 1)
    same(broker.stop(), (202, 0, ""))


@case({"age": 3600, "retries": 2})
def a_retry_that_falls_into_a_jump_is_due_in_its_minute(broker):
    watch = broker.watches_disk()
    broker.serve("--clock-grace", "60")
    event = broker.invoke("{}").id
    same(broker.next().id, event)
    watch.ahead = YEAR
    until("a step", lambda: broker.number("clock_steps_total") == 1)
    same(broker.respond(event, FAILURE, path="error").status, 202)
    watch.ahead = 0
    until("a step back", lambda: broker.number("clock_steps_total") == 2)
    told = broker.look("/events").json["events"]
    same([row["id"] for row in told], [event])
    assert told[0]["moment"] - time.time() * 1000 < 61_000, told


@case({"age": 3600})
def a_clock_that_stays_ahead_is_believed_behind_its_grace(broker):
    watch = broker.watches_disk()
    broker.serve("--clock-grace", "4")
    for _ in range(3):
        broker.invoke("{}")
    began = time.monotonic()
    watch.ahead = 2 * HOUR
    until("their end", lambda: given_up(broker) == 3)
    same(4 <= time.monotonic() - began, True)
    matches(r"the clock was set ahead by (7199|7200) s: waits, ages and timeouts go by it in 4 s[.] If it is right, a restart believes it at once", broker.stderr().splitlines()[-1])


@case({"age": 3600})
def a_start_believes_the_clock_at_once(broker):
    watch = broker.watches_disk()
    broker.serve("--clock-grace", "600")
    for _ in range(3):
        broker.invoke("{}")
    watch.ahead = 2 * HOUR
    until("a step", lambda: broker.number("clock_steps_total") == 1)
    time.sleep(2)
    same((waiting(broker), given_up(broker)), (3, 0))
    same(broker.stop(), (202, 0, ""))
    broker.serve("--clock-grace", "600")
    until("their end", lambda: given_up(broker) == 3)


@case({"age": 600})
def a_clock_that_is_less_than_an_hour_ahead_is_believed_at_once(broker):
    watch = broker.watches_disk()
    broker.serve("--clock-grace", "60")
    broker.invoke("{}")
    began = time.monotonic()
    watch.ahead = HOUR - 60_000
    until("its end", lambda: given_up(broker) == 1)
    same(time.monotonic() - began < 30, True)


def warned_of(broker, wanted):
    """What an audit and then an opening warn of at the clock as it is set."""
    told = broker.command("audit", broker.disk)
    same(told.returncode, 0)
    matches(wanted, told.stderr.strip())
    broker.serve()
    matches(wanted, *[line for line in broker.stderr().splitlines() if line.startswith("warning: ") and "not proved" not in line])


@case({"age": 3600})
def an_audit_and_an_opening_tell_what_is_given_up(broker):
    watch = broker.watches_disk()
    broker.serve()
    for _ in range(2):
        broker.invoke("{}")
    broker.kill()
    same(broker.command("audit", broker.disk).stderr, "")
    watch.ahead = 2 * HOUR
    disk = re.escape(broker.disk)
    warned_of(broker, rf"warning: 2 events of {disk} are past their age, the oldest was accepted 72[0-9][0-9] s ago: serving gives them up")
    until("their end", lambda: given_up(broker) == 2)


@case()
def an_audit_and_an_opening_tell_of_a_clock_that_is_behind(broker):
    watch = broker.watches_disk()
    watch.ahead = 2 * HOUR
    broker.serve()
    broker.invoke("{}")
    broker.kill()
    watch.ahead = 0
    disk = re.escape(broker.disk)
    warned_of(
        broker, rf"warning: the last moment of {disk} lies 7[12][0-9][0-9] s ahead of the clock: until then waits, ages and timeouts stand still"
    )
