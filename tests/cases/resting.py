"""A broker at rest, and what comes due while it rests.

A busy machine runs its threads late: so each case looks again until the broker was seen to be quiet, or on time.
"""
import glob
import re
import statistics
import time

from harness import DEADLINE, OPENING, case, same, until

# For how many seconds a broker at rest is watched, and how often its threads may run meanwhile, a second: its ticker does once.
WATCHED, MOST = 5, 4

# How late moves may be that come due a tenth of a second after each other, in milliseconds: half of them are no later. A ticker that
# always slept for a second would make half of them 350 late or more.
LATE = 250


def switches(broker):
    """How often its threads were given a processor."""
    count = 0
    for task in glob.glob(f"/proc/{broker.served.pid}/task/*/status"):
        with open(task) as told:
            count += sum(map(int, re.findall(r"ctxt_switches:\t([0-9]+)", told.read())))
    return count


def is_at_rest(broker):
    before = switches(broker)
    time.sleep(WATCHED)
    return switches(broker) - before <= MOST * WATCHED


def are_on_time(lateness):
    """Whether these moves were made on time, and none before it."""
    assert min(lateness) >= 0, lateness
    return statistics.median(lateness) <= LATE


def in_turn(steps):
    """Makes these steps a tenth of a second after each other: what they answer."""
    answers = []
    for step in steps:
        answers.append(step())
        time.sleep(0.1)
    return answers


def told(broker, event):
    return broker.look(f"/events/{event}").json


@case({"environments": 2}, slow=True)
def a_broker_at_rest_sleeps(broker):
    broker.serve()
    broker.until_all_serve()
    until("rest", lambda: is_at_rest(broker))
    # Beside an attempt, events that wait for an environment, and a poll of an extension.
    extension = broker.extension(environment=2)
    parked = broker.send_extension_next(extension, environment=2)
    polled = broker.send_next()
    broker.until_parked(2)
    for _ in range(4):
        same(broker.invoke("{}").status, 202)
    same(polled.done().status, 200)
    until("rest beside events", lambda: is_at_rest(broker))
    assert not parked.is_answered()


@case({"environments": 8, "timeout": 1, "retries": 0, "events": 256}, slow=True)
def attempts_time_out_on_time_though_nobody_asks(broker):
    broker.serve()

    def time_out():
        polls = [broker.send_next(environment) for environment in range(1, 9)]
        broker.until_parked(8)
        # Their deadlines come a tenth of a second after each other, and the first after the last of them is accepted.
        in_turn([lambda: same(broker.invoke("{}").status, 202)] * 8)
        deadlines = {given.id: int(given.headers["Lambda-Runtime-Deadline-Ms"]) for given in (poll.done() for poll in polls)}
        broker.until_number('events{standing="running"}', 0)
        return are_on_time([told(broker, event)["moment"] - deadline for event, deadline in deadlines.items()])

    until("attempts that time out on time", time_out, 2 * DEADLINE)


@case({"environments": 8, "timeout": 100}, slow=True)
def failed_attempts_are_made_again_on_time_though_nobody_asks(broker):
    broker.serve()
    events = in_turn([lambda number=number: broker.live("{}", '{"errorMessage":"x"}', number, "error") for number in range(1, 9)])
    polls = [broker.send_next(number) for number in range(1, 9)]
    due = {event: told(broker, event)["moment"] for event in events}
    given = [poll.done(60 + DEADLINE) for poll in polls]
    started = {one.id: int(one.headers["Lambda-Runtime-Deadline-Ms"]) - 100_000 for one in given}
    same(set(started), set(due))
    assert are_on_time([started[event] - due[event] for event in events]), (started, due)


@case({"age": 60}, slow=True)
def events_are_given_up_on_time_though_nobody_asks(broker):
    broker.serve()
    events = in_turn([lambda: broker.invoke("{}").id] * 8)
    too_old = {event: told(broker, event)["accepted"] + 60_000 for event in events}
    until("the end", lambda: broker.number('events{standing="waiting"}') == 0, 60 + DEADLINE)
    assert are_on_time([told(broker, event)["moment"] - moment for event, moment in too_old.items()]), too_old


@case({"age": 60, "environments": 8, "timeout": 100}, slow=True)
def events_that_fail_at_the_end_of_their_age_are_given_up_on_time(broker):
    broker.serve()
    runs = {}
    for number in range(1, 9):
        polled = broker.send_next(number)
        broker.until_parked(1)
        event = broker.invoke("{}").id
        same(polled.done().id, event)
        runs[event] = (number, told(broker, event)["accepted"] + 60_000)
        time.sleep(0.7)
    lateness = []
    for event, (number, too_old) in runs.items():
        # A tenth of a second before, when the ticker may have gone to sleep for a second.
        time.sleep(max(0, too_old / 1000 - 0.1 - time.time()))
        same(broker.respond(event, '{"errorMessage":"x"}', number, "error").status, 202)
        answered = int(1000 * time.time())
        broker.until_number('events{standing="due_again"}', 0)
        lateness.append(told(broker, event)["moment"] - max(too_old, answered))
    assert statistics.median(lateness) <= LATE, lateness


@case({"events": 400, "environments": 2, "sectors": 8192})
def a_move_that_found_no_room_is_made_though_nobody_asks(broker):
    watch = broker.watches_disk()
    watch.hold_flush = OPENING + 1
    broker.serve()
    invokes = [broker.send_invoke("{}")]
    until("a flush", lambda: watch.flushes == OPENING + 1)
    invokes += [broker.send_invoke("{}") for _ in range(254)]
    broker.until_read()
    # One start is the 256th command that is pending, and the other one is refused.
    polls = []
    for environment in 1, 2:
        polls.append(broker.send_next(environment))
        broker.until_read(environment)
    watch.let_go()
    same({invoke.done().status for invoke in invokes}, {202})
    same([poll.done().status for poll in polls], [200, 200])
