"""The counters of the operator's port: each moves by exactly what was done, and no other one moves with it."""
import re
import socket
import time

from cases.collecting import told as told_of_list
from cases.limits import INVOKES, statuses_in, told_to_the_end
from disks import SECTOR, sectors_of
from harness import DEADLINE, EXTENSION, INVOKE, OPENING, REQUEST, RUNTIME, case, same, statuses, until

# The head of a frame's body, and that of a command in it, in bytes.
FRAME, COMMAND = 32, 31

ACCEPTED, STARTED, COLLECTED = "events_accepted_total", "attempts_started_total", "records_collected_total"
FAILED, THROTTLED, INTERRUPTED = "attempts_failed_total", "attempts_throttled_total", "attempts_interrupted_total"
ISSUED, DURABLE, COMMITS = "commands_issued_total", "commands_durable_total", "commit_seconds_count"
WRITTEN, SWITCHES, LIVES = "written_bytes_total", "switches_total", "event_seconds_count"


def ended(outcome):
    return f'events_ended_total{{outcome="{outcome}"}}'


def refused(reason):
    return f'refused_total{{reason="{reason}"}}'


OUTCOMES = [ended(outcome) for outcome in ("success", "retries_exhausted", "event_age_exceeded")]
SUCCESS, EXHAUSTED, TOO_OLD = OUTCOMES
REFUSED = [refused(reason) for reason in ("bad_request", "not_found", "conflict", "too_large", "too_many", "unavailable", "other")]
UNREAD = [refused(reason) for reason in ("bad_head", "head_too_large", "head_cut_off", "head_late", "body_cut_off", "body_late", "forbidden")]

# The reason of each status that has one.
REASON = {400: "bad_request", 404: "not_found", 409: "conflict", 413: "too_large", 429: "too_many", 503: "unavailable"}

UNKNOWN = "00000000-0000-4000-8000-000000000009"

# What is noticed beside the table: verdicts.py sets the clock, and logs.py reads no line.
NOTICED = ["clock_steps_total", "lines_dropped_total"]

# All counters that there are. Some case of this file moves each of the others.
ALL = {
    ACCEPTED, STARTED, COLLECTED, FAILED, THROTTLED, INTERRUPTED, ISSUED, DURABLE, COMMITS, LIVES, WRITTEN, SWITCHES, *OUTCOMES, *REFUSED,
    *UNREAD, *NOTICED,
}


def counters(broker):
    """The counters of a broker, and how many times two of its histograms have, by name and labels."""
    told = broker.look("/metrics").body.decode()
    kinds = dict(re.findall(r"^# TYPE lambda_broker_(\S+) (\S+)$", told, re.M))
    numbers = re.findall(r"^lambda_broker_(([^\s{]+)\S*) (\S+)$", told, re.M)
    return {name: int(value) for name, family, value in numbers if name in (COMMITS, LIVES) or kinds.get(family) == "counter"}


def moved_by(broker, act):
    """By how much an act moves the counters that it moves."""
    before = counters(broker)
    act()
    after = counters(broker)
    same(list(after), list(before))
    return {name: after[name] - before[name] for name in after if after[name] != before[name]}


def committed(*contents):
    """What one commit moves that appends commands with contents of so many bytes."""
    body = sectors_of(FRAME + sum(COMMAND + content for content in contents))
    # The body with a closed gate behind it, and its own gate.
    return {ISSUED: len(contents), DURABLE: len(contents), COMMITS: 1, WRITTEN: (body + 2) * SECTOR}


def ends(outcome):
    """What an end moves."""
    return {outcome: 1, LIVES: 1}


def together(*moved):
    """What acts move that are done one after another."""
    return {name: sum(one.get(name, 0) for one in moved) for name in {name for one in moved for name in one}}


@case()
def these_are_all_counters(broker):
    broker.serve()
    same(counters(broker), dict.fromkeys(counters(broker), 0))
    same(set(counters(broker)), ALL)


@case({"retries": 0})
def each_step_of_an_event_moves_its_counters_alone(broker):
    broker.serve()
    events = []
    for path, ending in ("response", ends(SUCCESS)), ("error", {FAILED: 1} | ends(EXHAUSTED)):
        for name, act, size, moved in (
            ("accept", lambda: events.append(broker.invoke("{}").id), 2, {ACCEPTED: 1}),
            ("start", lambda: same(broker.next().id, events[-1]), 0, {STARTED: 1}),
            ("end", lambda: same(broker.respond(events[-1], "1", path=path).status, 202), 1, ending),
            ("collect", lambda: same(broker.delete(events[-1]).status, 204), 0, {COLLECTED: 1}),
        ):
            same((name, moved_by(broker, act)), (name, committed(size) | moved))


@case({"payload": 2048, "response": 2048})
def what_is_written_follows_the_size_of_what_is_kept(broker):
    broker.serve()
    # The frame of a payload of 449 bytes fills a sector.
    for size in 2, 448, 449, 450, 2048:
        payload = f'"{(size - 2) * "x"}"'
        same((size, moved_by(broker, lambda: broker.invoke(payload))), (size, committed(size) | {ACCEPTED: 1}))
        event = broker.next().id
        same((size, moved_by(broker, lambda: broker.respond(event, payload))), (size, committed(size) | ends(SUCCESS)))


@case({"retries": 1})
def a_failure_that_is_tried_again_ends_nothing(broker):
    broker.serve()
    event = broker.invoke("{}").id
    same(broker.next().id, event)
    same(moved_by(broker, lambda: broker.respond(event, "{}", path="error")), committed(3) | {FAILED: 1})


@case({"retries": 0, "timeout": 1})
def an_attempt_that_times_out_is_one_that_failed(broker):
    broker.serve()
    broker.invoke("{}")

    def attempt():
        same(broker.next().status, 200)
        broker.until_number('events{standing="retries_exhausted"}', 1)

    same(moved_by(broker, attempt), together(committed(0), committed(1), {STARTED: 1, FAILED: 1}, ends(EXHAUSTED)))


@case({"retries": 0})
def an_attempt_whose_extension_ends_is_one_that_failed(broker):
    broker.serve()
    extension = broker.extension()
    polls = [broker.send_extension_next(extension), broker.send_next()]
    broker.until_parked(2)
    broker.invoke("{}")
    same(statuses(polls), [200, 200])
    gone = {**extension, "Lambda-Extension-Function-Error-Type": "Gone"}

    def exit():
        same(broker.ask("POST", f"{EXTENSION}/exit/error", "{}", gone, environment=1).status, 202)
        broker.until_number('events{standing="retries_exhausted"}', 1)

    same(moved_by(broker, exit), committed(1) | {FAILED: 1} | ends(EXHAUSTED))


@case({"environments": 2, "concurrency": 1})
def an_event_is_throttled_as_often_as_it_is_put_back(broker):
    broker.serve()
    polls = [broker.send_next(n) for n in (1, 2)]
    broker.until_parked(2)
    first, second = broker.invoke("1").id, broker.invoke("2").id

    def put_back():
        return broker.look(f"/events/{second}").json["pushbacks"]

    def between_two():
        before, pushbacks, after = broker.number(THROTTLED), put_back(), broker.number(THROTTLED)
        return before == after and (pushbacks, after)

    same(polls[0].done().id, first)
    until("a throttle", put_back)
    pushbacks, throttled = until("a moment between two", between_two)
    same(throttled, pushbacks)
    told = counters(broker)
    # Two accepted and one started: each other command is a throttle.
    same((told[ACCEPTED], told[STARTED], told[ISSUED]), (2, 1, 3 + told[THROTTLED]))
    same((broker.respond(first, "1").status, polls[1].done().id), (202, second))
    told = counters(broker)
    same((told[STARTED], told[SUCCESS], told[ISSUED]), (2, 1, 5 + told[THROTTLED]))


@case({"age": 60}, slow=True)
def an_event_that_becomes_too_old_ends_for_that(broker):
    broker.serve()
    broker.invoke("{}")

    def wait():
        until("its end", lambda: broker.number('events{standing="event_age_exceeded"}') == 1, 60 + DEADLINE)

    same(moved_by(broker, wait), committed(0) | ends(TOO_OLD))


@case()
def a_broker_that_is_served_anew_counts_anew_but_for_its_commands(broker):
    for end in broker.kill, broker.stop:
        broker.serve()
        broker.invoke("{}")
        same(broker.next().status, 200)
        before = counters(broker)
        end()
        broker.serve()
        # Before it serves, what the end cut off was put back by one command.
        wanted = committed(0) | {name: before[name] + 1 for name in (ISSUED, DURABLE)} | {INTERRUPTED: 1}
        same(counters(broker), dict.fromkeys(ALL, 0) | wanted)
        broker.end()


@case({"environments": 2, "sectors": 520})
def a_switch_that_an_opening_makes_is_counted(broker):
    broker.serve()
    running = broker.invoke("{}").id
    same(broker.next().id, running)

    def lives():
        """Lives of other events, a commit at a time."""
        while True:
            event = broker.invoke("{}").id
            yield
            same(broker.next(2).id, event)
            yield
            same(broker.respond(event, "1", 2).status, 202)
            yield
            same(broker.delete(event).status, 204)
            yield

    commits = lives()
    # A frame of one sector wants a gate in front of it and one behind.
    while broker.number("segment_free_bytes") >= 3 * SECTOR:
        next(commits)
    same(broker.number(SWITCHES), 0)
    generation = broker.number("generation")
    broker.kill()
    broker.serve()
    same((broker.number(SWITCHES), broker.number("generation")), (1, generation + 1))


@case({"environments": 2})
def what_changes_no_event_moves_no_counter(broker):
    broker.serve("--acts")
    ended, waits = broker.live("{}", "1"), broker.invoke("{}").id
    paths = ["/", "/metrics", "/history", "/healthz", "/events", f"/events/{waits}", f"/events/{ended}", "/records/success"]
    polls = []

    def ask():
        same([broker.look(path).status for path in paths], len(paths) * [200])
        same([broker.record(side).status for side in ("success", "failure")], [200, 204])
        same(broker.ask("POST", f"{RUNTIME}/init/error", "{}", environment=2).status, 202)
        polls.append(broker.send_extension_next(broker.extension(environment=2), 2))
        broker.until_parked(1)

    same(moved_by(broker, ask), {})
    same(broker.next().id, waits)


@case()
def a_list_that_is_collected_moves_what_was_collected_alone(broker):
    broker.serve("--acts")
    ended, waits = broker.live("{}", "1"), broker.invoke("{}").id
    same(moved_by(broker, lambda: same(told_of_list(broker, [waits, "x", UNKNOWN])[0], 200)), {})
    same(moved_by(broker, lambda: same(told_of_list(broker, [ended])[0], 200)), committed(0) | {COLLECTED: 1})


def each_refusal_is_counted(broker, *words):
    """Each type of refusal moves the reason of its status, but for those of a drawn id and of a broker that is not available."""
    broker.serve(*words)
    extension = broker.extension(environment=2)
    resets = [broker.send_extension_next(extension, 2), broker.send_next()]
    broker.until_parked(2)
    for _ in range(9):
        same(broker.register(environment=2).status, 200)
    events, stranger = [], {"Lambda-Extension-Identifier": UNKNOWN}

    def replaced():
        newer = broker.send_next()
        told = resets[1].done()
        events.extend((broker.invoke("1").id, broker.invoke("2").id))
        same(newer.done().id, events[0])
        return told

    def reset():
        same(broker.ask("POST", f"{RUNTIME}/init/error", "{}", environment=2).status, 202)
        return resets[0].done()

    first = moved_by(broker, replaced)
    same({name: first.get(name, 0) for name in REFUSED}, dict.fromkeys(REFUSED, 0) | {refused("conflict"): 1})
    runs, waits = events
    for status, what, ask in (
        (400, "no type", lambda: broker.ask("POST", INVOKE, "{}")),
        (400, "no JSON", lambda: broker.invoke("{")),
        (400, "an answer for an event that does not run", lambda: broker.respond(waits, "1")),
        (400, "no extension", lambda: broker.ask("GET", f"{EXTENSION}/event/next", environment=2)),
        (400, "a subscription to what is none", lambda: broker.register(["X"], environment=2)),
        (403, "an extension that is not registered", lambda: broker.ask("GET", f"{EXTENSION}/event/next", None, stranger, 2)),
        (403, "a registration after the first poll", lambda: broker.register(environment=1)),
        (403, "an extension too many", lambda: broker.register(environment=2)),
        (403, "a poll before the answer", broker.next),
        (404, "a path that is none", lambda: broker.ask("GET", "/x")),
        (404, "the same in an environment", lambda: broker.ask("GET", "/x", environment=1)),
        (404, "an event that is not held", lambda: broker.delete(UNKNOWN)),
        (405, "a method that is none", lambda: broker.ask("PUT", INVOKE)),
        (409, "an event that has not ended", lambda: broker.delete(waits)),
        (413, "a payload that is too large", lambda: broker.invoke(2000 * "1")),
        (429, "a full table", lambda: broker.invoke("3")),
        (500, "a poll of an environment that is reset", reset),
    ):
        moved = moved_by(broker, lambda: same((what, ask().status), (what, status)))
        same((what, moved), (what, {refused(REASON.get(status, "other")): 1}))
    same(broker.respond(runs, "1").status, 202)


@case({"environments": 2, "events": 2})
def each_refusal_moves_its_reason_alone(broker):
    each_refusal_is_counted(broker)


@case({"environments": 2, "events": 2})
def each_refusal_in_the_words_of_aws_moves_its_reason_alone(broker):
    each_refusal_is_counted(broker, "--dialect", "aws")


@case({"events": 300, "payload": 16, "response": 16})
def who_is_told_503_is_counted_and_nothing_of_his(broker):
    watch = broker.watches_disk()
    broker.serve()

    def crowd():
        watch.hold_flush = OPENING + 1
        asked = [broker.send_invoke("{}")]
        until("a flush", lambda: watch.flushes == OPENING + 1)
        asked += [broker.send_invoke("{}") for _ in range(259)]
        until("the refusals", lambda: sum(one.is_answered() for one in asked) == 4)
        watch.let_go()
        same(sorted(statuses(asked)), 256 * [202] + 4 * [503])

    # The first command has a commit of its own, and all others have one together.
    commits = together(committed(2), committed(*255 * [2]))
    same(moved_by(broker, crowd), commits | {ACCEPTED: 256, refused("unavailable"): 4})


def unread_by(broker, reason, act):
    """What an act moves of which this reason is counted once its connection has ended."""
    before = broker.number(refused(reason))

    def ended():
        act()
        broker.until_number(refused(reason), before + 1)

    return moved_by(broker, ended)


@case()
def what_does_not_come_to_the_table_moves_its_reason_alone(broker):
    broker.serve("--acts")
    for reason, status, head in (
        ("bad_head", [400], b"GET\r\n\r\n"),
        ("head_too_large", [414], b"GET /" + 70000 * b"x" + b" HTTP/1.1\r\nhost: h\r\n\r\n"),
        ("head_too_large", [431], b"GET / HTTP/1.1\r\nhost: h\r\n" + 200 * b"x: y\r\n" + b"\r\n"),
        ("head_cut_off", [], b"GET / HT"),
        ("body_cut_off", [400], f"{INVOKES}content-length: 9\r\n\r\n{{}}".encode()),
        ("forbidden", [403], b"GET / HTTP/1.1\r\nhost: site.example\r\n\r\n"),
        ("forbidden", [403], b"GET / HTTP/1.1\r\nhost: h\r\norigin: null\r\n\r\n"),
    ):

        def ask(environment):
            with broker.socket(environment) as client:
                client.sendall(head)
                client.shutdown(socket.SHUT_WR)
                same((reason, statuses_in(told_to_the_end(client))), (reason, status))

        for environment in 0, 1:
            same((reason, unread_by(broker, reason, lambda: ask(environment))), (reason, {refused(reason): 1}))

    def leave():
        with broker.socket() as client:
            client.sendall(b"GET / HT")

    same(unread_by(broker, "head_cut_off", leave), {refused("head_cut_off"): 1})


@case()
def who_sends_nothing_and_who_asks_the_operator_move_no_counter(broker):
    broker.serve("--acts")

    def nothing():
        with broker.socket() as client:
            client.shutdown(socket.SHUT_WR)
            same(told_to_the_end(client), b"")

    def operator():
        for status, method, path in (400, "GET", "/events/x"), (403, "POST", "/records/collect"), (404, "GET", "/x"), (405, "PUT", "/metrics"):
            same((path, broker.look(path, method).status), (path, status))

    for act in nothing, operator:
        same(moved_by(broker, act), {})


@case(slow=True)
def what_comes_too_late_moves_its_reason_alone(broker):
    broker.serve()
    for reason, status, sent in (
        ("head_late", [], b"GET / HT"),
        ("body_late", [408], f"{INVOKES}content-length: 9\r\n\r\n{{}}".encode()),
    ):

        def ask():
            with broker.socket() as client:
                client.sendall(sent)
                same((reason, statuses_in(told_to_the_end(client, REQUEST + DEADLINE))), (reason, status))

        same((reason, unread_by(broker, reason, ask)), (reason, {refused(reason): 1}))


# What is counted of times.


def spread(broker, family, kind=None):
    """A histogram: how many took at most so many seconds, and how long all of them took."""
    label, of = (f'kind="{kind}",', f'{{kind="{kind}"}}') if kind else ("", "")
    told, start = broker.numbers(), f'{family}_bucket{{{label}le="'
    found = {float(name[len(start):-2]): value for name, value in told.items() if name.startswith(start)}
    same((len(found), found[float("inf")]), (9, told[f"{family}_count{of}"]))
    return found, told[f"{family}_sum{of}"]


KINDS = "call", "report", "poll"


@case()
def a_request_is_counted_with_its_time_under_its_kind(broker):
    watch = broker.watches_disk()
    broker.serve()

    def held(send, least):
        """What is answered once a commit was held for so long."""
        watch.release = 0
        watch.hold_flush = watch.flushes + 1
        asked = send()
        until("a flush", lambda: watch.flushes == watch.hold_flush)
        begun = time.monotonic()
        until("a time", lambda: time.monotonic() - begun > least)
        watch.let_go()
        return asked.done()

    def took(kind, act):
        """By how much an act moves the counts of its kind alone, and how long that took."""
        before, begun = {kind: spread(broker, "request_seconds", kind) for kind in KINDS}, time.monotonic()
        act()
        most, after = time.monotonic() - begun, {kind: spread(broker, "request_seconds", kind) for kind in KINDS}
        same({other: after[other] for other in KINDS if other != kind}, {other: before[other] for other in KINDS if other != kind})
        moved = {bound: after[kind][0][bound] - before[kind][0][bound] for bound in before[kind][0]}
        return moved, after[kind][1] - before[kind][1], most

    def is_told(kind, least, act):
        moved, spent, most = took(kind, act)
        assert least <= spent <= most, (kind, least, spent, most)
        same({bound: by for bound, by in moved.items() if bound < least or bound > most},
             {bound: int(bound > most) for bound in moved if bound < least or bound > most})
        same((len(moved), list(moved.values()), set(moved.values())), (9, sorted(moved.values()), {0, 1}))

    for least in 0.03, 0.11, 0.6, 2.6:
        is_told("call", least, lambda: same(held(lambda: broker.send_invoke("{}"), least).status, 202))
    events = []
    is_told("poll", 0.03, lambda: events.append(held(broker.send_next, 0.03).id))
    answer = f"{RUNTIME}/invocation/{events[0]}/response"
    is_told("report", 0.11, lambda: same(held(lambda: broker.send("POST", answer, "1", environment=1), 0.11).status, 202))
    # A request that is refused is answered too.
    moved, _, _ = took("call", lambda: same(broker.ask("GET", "/x").status, 404))
    same(moved[float("inf")], 1)


@case({"retries": 0})
def an_event_that_ends_is_counted_with_its_life_in_each_bucket_that_holds_it(broker):
    broker.serve()
    for path, least in ("response", 0), ("error", 0.02), ("response", 0.15), ("error", 1.1):
        event = broker.invoke("{}").id
        same(broker.next().id, event)
        begun = time.monotonic()
        until("a time", lambda: time.monotonic() - begun > least)
        before, sum_before = spread(broker, "event_seconds")
        same(broker.respond(event, "1", path=path).status, 202)
        row = broker.look(f"/events/{event}").json
        took = row["moment"] - row["accepted"]
        assert took >= 1000 * least, (took, least)
        after, sum_after = spread(broker, "event_seconds")
        same({bound: after[bound] - before[bound] for bound in after}, {bound: int(took <= 1000 * bound) for bound in after})
        same(round(1000 * (sum_after - sum_before)), took)


@case()
def a_commit_is_counted_with_its_time_in_each_bucket_that_holds_it(broker):
    watch = broker.watches_disk()
    broker.serve()
    for least in 0.03, 0.11, 0.6, 2.6:
        (before, sum_before), began = spread(broker, "commit_seconds"), time.monotonic()
        watch.release = 0
        watch.hold_flush = watch.flushes + 1
        invoke = broker.send_invoke("{}")
        until("a flush", lambda: watch.flushes == watch.hold_flush)
        held = time.monotonic()
        until("a time", lambda: time.monotonic() - held > least)
        least = time.monotonic() - held
        watch.let_go()
        same(invoke.done().status, 202)
        (after, sum_after), most = spread(broker, "commit_seconds"), time.monotonic() - began
        moved = {bound: after[bound] - before[bound] for bound in after}
        same({bound: by for bound, by in moved.items() if bound < least}, {bound: 0 for bound in after if bound < least})
        same({bound: by for bound, by in moved.items() if bound > most}, {bound: 1 for bound in after if bound > most})
        same((list(moved.values()), set(moved.values())), (sorted(moved.values()), {0, 1}))
        assert least <= sum_after - sum_before <= most, (least, sum_after - sum_before, most)


@case()
def a_command_is_durable_behind_its_commit_and_not_before(broker):
    watch = broker.watches_disk()
    broker.serve()
    watch.hold_flush = OPENING + 1
    invokes = [broker.send_invoke("1") for _ in range(3)]
    until("a flush", lambda: watch.flushes == OPENING + 1)
    broker.until_read()
    # It is of the moment at which it was asked for, and told once all that was issued then is durable.
    scrape = broker.send_look("/metrics")
    broker.until_looked()
    same([one.is_answered() for one in (*invokes, scrape)], 4 * [False])
    watch.let_go()
    told = dict(re.findall(r"^lambda_broker_(\S+) (\S+)$", scrape.done().body.decode(), re.M))
    same([int(told[name]) for name in (ISSUED, ACCEPTED, DURABLE)], [3, 3, 0])
    same(statuses(invokes), 3 * [202])
    same([counters(broker)[name] for name in (ISSUED, ACCEPTED, DURABLE)], [3, 3, 3])


@case({"sectors": 64, "events": 2, "payload": 64, "response": 64})
def each_switch_is_counted_with_what_it_writes(broker):
    broker.serve()
    # Half of the disk, without its gate, its header, and the one sector of a snapshot.
    room = 32 - 3
    free, switched, events = room, 0, []

    def accept():
        events.append(broker.invoke("{}").id)

    for _ in range(8):
        for name, act, size, moved in (
            ("accept", accept, 2, {ACCEPTED: 1}),
            ("start", lambda: same(broker.next().id, events[-1]), 0, {STARTED: 1}),
            ("end", lambda: same(broker.respond(events[-1], "1").status, 202), 1, ends(SUCCESS)),
            ("collect", lambda: same(broker.delete(events[-1]).status, 204), 0, {COLLECTED: 1}),
        ):
            wanted = committed(size) | moved
            if free < 3:
                # The other segment's gate, which the first switch finds closed; header, snapshot and the gate behind it; its gate.
                wanted |= {SWITCHES: 1, WRITTEN: ((switched > 0) + 3 + 1) * SECTOR}
                switched, free = switched + 1, room
            else:
                free -= 2
            same((name, switched, moved_by(broker, act)), (name, switched, wanted))
            numbers = broker.numbers()
            same([numbers[name] for name in ("segment_free_bytes", "generation")], [free * SECTOR, 1 + switched])
    same(switched, 2)
