"""The gauges of the operator's port: each stands at what there is now, and none moves that has not changed."""
import re
import time

import disks
from harness import OPENING, RUNTIME, case, same, statuses, until

# What each commit changes, or the machine does.
ALWAYS = (
    "segment_free_bytes", "process_resident_memory_bytes", "oldest_wait_age_seconds", "oldest_record_age_seconds", "open_connections",
    "environment_phase", "environment_phase_seconds",
)


def standing(name):
    return f'events{{standing="{name}"}}'


def phase(name):
    return f'environments{{phase="{name}"}}'


def read(text):
    """The gauges in the text of a scrape, but for the verdict's and those that always change."""
    kinds = dict(re.findall(r"^# TYPE lambda_broker_(\S+) (\S+)$", text, re.M))
    numbers = re.findall(r"^lambda_broker_(([^\s{]+)\S*) (\S+)$", text, re.M)
    return {name: float(value) for name, family, value in numbers if kinds.get(family) == "gauge" and family not in (*ALWAYS, "problem")}


def gauges(broker):
    return read(broker.look("/metrics").body.decode())


def changed(before, after):
    return {name: after[name] - before[name] for name in after if after[name] != before[name]}


class Steps:
    """A broker of which each step is seen to change just the gauges that it is told to."""

    def __init__(self, broker):
        self.broker, self.seen = broker, gauges(broker)

    def change(self, what, **moved):
        wanted = {NAMES[name]: by for name, by in moved.items()}
        until(f"the end of {what}", lambda: changed(self.seen, gauges(self.broker)) == wanted)
        self.seen = gauges(self.broker)


NAMES = {name: standing(name) for name in ("waiting", "due_again", "running", "success", "retries_exhausted", "event_age_exceeded")}
NAMES |= {name: phase(name) for name in ("init", "ready", "busy", "closing")} | {"open": "open_slots", "parked": "parked_polls"}


@case({"retries": 0, "environments": 2})
def an_event_stands_where_it_is_counted(broker):
    broker.serve()
    steps = Steps(broker)
    for answer, end in ("response", "success"), ("error", "retries_exhausted"):
        event = broker.invoke("{}").id
        steps.change("an acceptance", waiting=1)
        same(broker.next().id, event)
        steps.change("a start", waiting=-1, running=1, **({"init": -1, "busy": 1} if answer == "response" else {}))
        same(broker.respond(event, "1", path=answer).status, 202)
        steps.change("an end", running=-1, **{end: 1})
        same(broker.delete(event).status, 204)
        steps.change("a collection", **{end: -1})


@case()
def a_failure_is_counted_among_what_is_due_again(broker):
    broker.serve()
    steps = Steps(broker)
    broker.live("{}", "1", path="error")
    steps.change("a failure", due_again=1, init=-1, busy=1)


@case({"environments": 3})
def polls_and_phases_are_counted(broker):
    broker.serve()
    steps = Steps(broker)
    polls = []
    for environment in 1, 2:
        polls.append(broker.send_next(environment))
        steps.change("a poll", open=1, parked=1, init=-1, ready=1)
    extension = broker.extension(environment=3)
    steps.change("a registration")
    polls.append(broker.send_extension_next(extension, 3))
    steps.change("a poll of an extension", open=1, parked=1)
    same(broker.ask("POST", f"{RUNTIME}/init/error", "{}", environment=3).status, 202)
    same(polls.pop().done().status, 500)
    steps.change("a reset", open=-1, parked=-1)
    event = broker.invoke("{}").id
    given = until("an event", lambda: [poll for poll in polls if poll.is_answered()])[0]
    same(given.done().id, event)
    steps.change("a start", open=-1, parked=-1, ready=-1, busy=1, running=1)
    environment = 1 + polls.index(given)
    same(broker.respond(event, "1", environment).status, 202)
    steps.change("an answer", running=-1, success=1)
    polls[environment - 1] = broker.send_next(environment)
    steps.change("a poll behind an answer", open=1, parked=1, ready=1, busy=-1)


@case({"environments": 2})
def open_connections_are_counted_by_port(broker):
    broker.serve()
    ports, clients = ("callers", "environments", "operator"), []

    def told():
        numbers = broker.numbers()
        return [numbers[f'open_connections{{port="{port}"}}'] for port in ports]

    # Who looks has one.
    until("none but that", lambda: told() == [0, 0, 1])
    for port, counts in (0, [1, 0, 1]), (0, [2, 0, 1]), (1, [2, 1, 1]), (2, [2, 2, 1]), (3, [2, 2, 2]):
        clients.append(broker.socket(port))
        until(f"{counts} connections", lambda: told() == counts)
    for counts in [1, 2, 2], [0, 2, 2], [0, 1, 2], [0, 0, 2], [0, 0, 1]:
        clients.pop(0).close()
        until(f"{counts} connections", lambda: told() == counts)


@case({"environments": 2})
def a_broker_that_stops_says_so_and_closes_its_environments(broker):
    watch = broker.watches_disk()
    broker.serve()
    before = gauges(broker)
    watch.hold_flush = OPENING + 1
    invoke = broker.send_invoke("{}")
    until("a flush", lambda: watch.flushes == OPENING + 1)
    stop = broker.send("POST", "/broker/stop")
    broker.until_read()
    scrape = broker.send_look("/metrics")
    broker.until_looked()
    watch.let_go()
    told = changed(before, read(scrape.done().body.decode()))
    wanted = {"stopping": 1, phase("init"): -2, phase("closing"): 2, standing("waiting"): 1}
    same({name: told.get(name) for name in wanted}, wanted)
    same([invoke.done().status, stop.done().status], [202, 202])
    same(broker.ended(), (0, ""))


@case()
def what_is_issued_and_not_yet_durable_is_pending(broker):
    watch = broker.watches_disk()
    broker.serve()
    watch.hold_flush = OPENING + 1
    invokes = [broker.send_invoke(f"{n}") for n in range(8)]
    until("a flush", lambda: watch.flushes == OPENING + 1)
    broker.until_read()
    # It is of the moment at which it was asked for, and told once all that was issued then is durable.
    scrape = broker.send_look("/metrics")
    broker.until_looked()
    watch.let_go()
    told, names = read(scrape.done().body.decode()), ("pending_commands", "open_slots", standing("waiting"))
    same([told[name] for name in names], [8, 8, 8])
    same(statuses(invokes), 8 * [202])
    told = gauges(broker)
    same([told[name] for name in names], [0, 0, 8])


@case()
def the_oldest_wait_and_the_oldest_record_have_their_age(broker):
    settings, now = disks.Settings(events=8, timeout=900), int(time.time())
    # Of two that wait and of two that ended, the second ones are the younger.
    waits = [disks.Row(disks.id_of(n), 1000 * at, n, n, disks.WAITING, 1000 * at, b"1") for n, at in ((1, now - 500), (2, now - 400))]
    ends = [
        disks.Row(disks.id_of(n), 1000 * (now - 600), n, n + 2, disks.ENDED, 1000 * at, b"1", outcome=disks.SUCCESS, starts=1, answer=(1, b"1"))
        for n, at in ((3, now - 300), (4, now - 200))
    ]
    with open(broker.disk, "wb") as disk:
        taken = disks.snapshot(2, settings, 6, 1000 * (now - 200), waits + ends)
        disk.write(disks.disk(4096, disks.segment(2, settings, 1, taken)))
    broker.serve()

    def has_age(name, then):
        """Its age is that of this moment, seconds ago at first."""
        before, told, after = time.time() - now, broker.number(name), time.time() - now
        assert then + before - 1 <= told <= then + after + 1, (name, told, before, after)

    has_age("oldest_wait_age_seconds", 500)
    for event, age in (3, 300), (4, 200):
        has_age("oldest_record_age_seconds", age)
        same(broker.delete(disks.id_of(event)).status, 204)
    same((broker.number("oldest_record_age_seconds"), broker.number(standing("waiting"))), (0, 2))
