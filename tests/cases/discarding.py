"""Records that nobody wants, which the broker collects itself."""
import threading
import time

from harness import DEADLINE, Beside, case, same, until


def run_all(broker, count, path="response", environments=1):
    """Runtimes answer so many events in all, one in each environment."""
    left, lock = [count], threading.Lock()

    def run(environment):
        while True:
            with lock:
                if not left[0]:
                    return
                left[0] -= 1
            event = broker.next(environment).id
            same(broker.respond(event, "1", environment, path).status, 202)

    return [Beside(run, environment) for environment in range(1, environments + 1)]


def invoke_all(broker, count):
    """So many events, each sent again while the table is full: the ids of those that were accepted."""
    ids = []
    while len(ids) < count:
        told = broker.invoke("{}")
        if told.status == 202:
            ids.append(told.id)
        else:
            same(told.status, 429)
    return ids


def held(broker):
    return sum(count for name, count in broker.numbers().items() if name.startswith("events{"))


def waiting(broker):
    numbers = broker.numbers()
    return sum(numbers[f'events{{standing="{standing}"}}'] for standing in ("waiting", "due_again"))


def collected(broker, count):
    broker.until_number("records_collected_total", count)
    same(broker.number("open_slots"), 0)


@case({"events": 8})
def a_full_table_is_never_full_of_records(broker):
    broker.serve("--discard", "success")
    runtimes = run_all(broker, 300)
    invoke_all(broker, 300)
    for runtime in runtimes:
        runtime.done()
    collected(broker, 300)
    same(broker.record().status, 204)
    same(broker.stop(), (202, 0, ""))
    same(broker.held(), 0)


@case({"events": 64, "environments": 16, "concurrency": 16})
def sixteen_environments_leave_no_record(broker):
    broker.serve("--discard", "both")
    runtimes = run_all(broker, 320, environments=16)
    callers = [Beside(invoke_all, broker, 80) for _ in range(4)]
    for one in runtimes + callers:
        one.done(4 * DEADLINE)
    collected(broker, 320)
    same(broker.stop(), (202, 0, ""))
    same(broker.held(), 0)


@case({"environments": 3, "timeout": 900})
def what_ends_behind_a_look_that_waits_for_a_commit_is_collected_by_that(broker):
    """While the collecting of one record is flushed, the collector looks, and then another event ends."""
    watch = broker.watches_disk()
    broker.serve("--discard", "success")
    first, second = (broker.invoke("{}").id, broker.invoke("{}").id)
    same({broker.next(1).id, broker.next(2).id}, {first, second})
    runs = broker.send_next(3)
    # Two flushes make the end of the first durable. The next one is that of its collecting.
    watch.hold_flush = watch.flushes + 3
    one = Beside(broker.respond, first, "1", 1)
    until("a flush", lambda: watch.flushes == watch.hold_flush)
    third = broker.send_invoke("{}")
    time.sleep(0.5)  # the collector looks again each 0.1 s, and no number tells that it did
    two = Beside(broker.respond, second, "1", 2)
    time.sleep(0.2)
    watch.let_go()
    same((one.done().status, two.done().status, third.done().status), (202, 202, 202))
    collected(broker, 2)
    same((broker.respond(runs.done().id, "1", 3).status, broker.record().status), (202, 204))


@case({"retries": 0})
def one_side_is_collected_and_the_other_stays(broker):
    for unwanted, path, wanted, other in ("success", "response", "failure", "error"), ("failure", "error", "success", "response"):
        broker.serve("--discard", unwanted)
        kept = broker.live("{}", "1", path=other)
        broker.live("{}", "1", path=path)
        collected(broker, 1)
        same(broker.record(unwanted).status, 204)
        same((broker.record(wanted).json["requestContext"]["requestId"], broker.delete(kept).status), (kept, 204))
        same(broker.stop(), (202, 0, ""))
    same(broker.held(), 0)


@case({"retries": 0, "timeout": 1})
def what_ends_by_a_timeout_is_collected(broker):
    broker.serve("--discard", "failure")
    broker.invoke("{}")
    same(broker.next().status, 200)
    collected(broker, 1)


@case({"age": 60}, slow=True)
def what_ends_by_its_age_is_collected(broker):
    broker.serve("--discard", "failure")
    broker.invoke("{}")
    until("its end", lambda: broker.number("records_collected_total") == 1, seconds=180)
    same(held(broker), 0)


@case({"events": 300})
def records_from_before_are_collected_by_the_next_serve(broker):
    broker.serve()
    runtimes = run_all(broker, 290)
    invoke_all(broker, 290)
    for runtime in runtimes:
        runtime.done()
    waiting = [broker.invoke("{}").id for _ in range(5)]
    same(held(broker), 295)
    broker.kill()
    broker.serve("--discard", "both")
    collected(broker, 290)
    # Nothing else is touched.
    same(broker.next().id, waiting[0])
    same(held(broker), 5)


@case({"events": 16})
def a_kill_in_the_midst_loses_no_event_that_has_not_ended(broker):
    accepted, sent, answered = set(), set(), set()
    for _ in range(5):
        broker.serve("--discard", "both")

        def run():
            while True:
                event = broker.next().id
                sent.add(event)
                if broker.respond(event, "1").status == 202:
                    answered.add(event)

        runtime = Beside(run)
        for _ in range(40):
            told = broker.invoke("{}")
            if told.status == 202:
                accepted.add(told.id)
        broker.kill()
        runtime.join(60)
    broker.serve("--discard", "both")
    # An answer whose 202 a kill cut off may count, or its event comes again.
    unsure = sent - answered
    while accepted - answered - unsure or waiting(broker):
        event = broker.next()
        same(event.status, 200)
        assert event.id not in answered, event.id
        same(broker.respond(event.id, "1").status, 202)
        answered.add(event.id)
    until("an empty table", lambda: held(broker) == 0)


@case()
def a_record_is_discarded_beside_who_collects_it(broker):
    broker.serve("--discard", "success")
    for _ in range(40):
        assert broker.delete(broker.live("{}", "1")).status in (204, 404)
    until("an empty table", lambda: held(broker) == 0)
    collected(broker, 40)


@case()
def other_sides_are_usage_faults(broker):
    for words in ("--discard",), ("--discard", "all"), ("--discard", ""):
        same((words, broker.command("serve", broker.disk, "--port", 9000, *words).returncode), (words, 2))
