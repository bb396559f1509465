"""Failed records that are tried again at the operator's port, where he may act."""
import random
import re
import time

from harness import Asked, case, same, statuses, until

ACT = {"lambda-broker-act": "1"}
ERROR = '{"errorMessage":"no"}'
UNKNOWN = "00000000-0000-4000-8000-000000000003"
UNAVAILABLE = b"the broker is not available: the failed record is left, and may be accepted anew too\n"
LEFT = "the broker is not available: the failed record may be held too, and nothing is lost"
# Of how many flushes and writes a record that is tried again is made: a commit of the Invoke, and one of the DELETE.
CALLS = 4


def send(broker, event, headers=ACT, method="POST"):
    return Asked(broker.admin, method, f"/records/{event}/retry", None, headers)


def told(*words, **more):
    """Status and body of the reply."""
    answer = send(*words, **more).done()
    return answer.status, answer.body


def again(broker, event):
    """The record is tried again: the id of the new event."""
    status, body = told(broker, event)
    same(status, 200)
    new, collected = body.decode().splitlines()
    same(collected, f"{event} collected")
    return new.removesuffix(" accepted")


def failed(broker, payload="{}"):
    """An event that has failed."""
    return broker.live(payload, ERROR, path="error")


def held(broker, *standings):
    """The payloads of all events that are held and stand so, by their ids."""
    ids, after = [], ""
    while True:
        page = broker.look(f"/events?limit=1000{after}").json
        ids += [event["id"] for event in page["events"] if not standings or event["standing"].split()[0] in standings]
        if page["next"] is None:
            return {id: broker.look(f"/events/{id}").json["payload"] for id in ids}
        after = f"&after={page['next']}"


@case({"retries": 0})
def a_failed_record_is_accepted_anew_and_then_collected(broker):
    broker.serve("--acts")
    event = failed(broker, '{"a":1}')
    answer = send(broker, event).done()
    same((answer.status, answer.headers["Content-Type"]), (200, "text/plain; charset=utf-8"))
    same(answer.headers["Cache-Control"], "no-store")
    new, = re.fullmatch(rf"([0-9a-f-]{{36}}) accepted\n{event} collected\n", answer.body.decode()).groups()
    assert new != event
    given = broker.next()
    same((given.id, given.body), (new, b'{"a":1}'))
    same(broker.respond(new, "1").status, 202)
    record = broker.record().json
    same((record["requestContext"]["requestId"], record["requestPayload"], record["responsePayload"]), (new, {"a": 1}, 1))
    numbers = broker.numbers()
    same([numbers[name] for name in ("events_accepted_total", "records_collected_total", "open_slots")], [2, 1, 0])
    same(list(held(broker)), [new])
    same(told(broker, event), (404, b"no event of this id is held\n"))
    same(broker.stop(), (202, 0, ""))
    same(broker.held(), 1)


@case({"retries": 0})
def an_id_is_read_in_either_spelling(broker):
    broker.serve("--acts")
    for spell in str.upper, lambda id: id.replace("-", ""):
        event = failed(broker)
        status, body = told(broker, spell(event))
        same((status, body.decode().splitlines()[1]), (200, f"{event} collected"))
        new = body.decode().split()[0]
        same(broker.next().id, new)
        same(broker.respond(new, ERROR, path="error").status, 202)


@case({"retries": 0})
def what_a_poll_waits_for_is_given_at_once(broker):
    broker.serve("--acts")
    event = failed(broker, "7")
    poll = broker.send_next()
    broker.until_parked(1)
    new = again(broker, event)
    given = poll.done()
    same((given.id, given.body), (new, b"7"))


@case({"retries": 1, "environments": 2})
def only_a_failed_record_is_tried_again(broker):
    broker.serve("--acts")
    done = broker.live("{}", "1")
    due = failed(broker)
    runs = broker.invoke("1").id
    same(broker.next().id, runs)
    waits = broker.invoke("2").id
    before = held(broker)
    not_ended = 409, b"the event has not ended: only a failed record is tried again\n"
    for event, wanted in (
        (done, (409, b"the event succeeded: only a failed record is tried again\n")),
        (due, not_ended), (runs, not_ended), (waits, not_ended),
        (UNKNOWN, (404, b"no event of this id is held\n")),
        ("x", (400, b"the path names no event: its id is no UUID\n")),
        ("", (400, b"the path names no event: its id is no UUID\n")),
    ):
        same(told(broker, event), wanted)
    same(held(broker), before)
    same(broker.number("open_slots"), 0)


@case({"retries": 0})
def a_form_or_a_page_has_nothing_tried_again(broker):
    broker.serve("--acts")
    event = failed(broker)
    for kind in "text/plain", "application/x-www-form-urlencoded", "multipart/form-data; boundary=x":
        same(told(broker, event, headers={"Content-Type": kind}), (403, b"an act needs the header lambda-broker-act\n"))
    for headers in {"Origin": "null"}, {"Origin": f"http://127.0.0.1:{broker.admin}"}, {"Sec-Fetch-Site": "cross-site"}:
        same(send(broker, event, {**ACT, **headers}).done().json["errorType"], "CrossOrigin")
    same(send(broker, event, {**ACT, "Host": "site.example"}).done().json["errorType"], "UnknownHost")
    same(told(broker, event, headers={**ACT, "Host": "broker"})[0], 403)
    same(list(held(broker)), [event])


@case({"retries": 0})
def without_acts_and_by_other_requests_nothing_is_tried_again(broker):
    broker.serve()
    event = failed(broker)
    get_only, nothing = (405, b"only GET is understood\n"), (404, b"nothing is at this path\n")
    for id in event, "x", "":
        same({told(broker, id, headers=headers) for headers in ({}, ACT)}, {get_only})
    same(broker.stop(), (202, 0, ""))
    broker.serve("--acts")
    get_only = (405, b"only GET is understood, and POST at /records/collect and /records/ID/retry\n")
    same([told(broker, event, method=method) for method in ("GET", "PUT")], [nothing, get_only])
    for path in f"{event}/retry?", f"{event}/retry/", f"{event}", "retry":
        answer = Asked(broker.admin, "POST", f"/records/{path}", None, ACT).done()
        same((answer.status, answer.body), get_only)
    same(list(held(broker)), [event])


@case({"retries": 0, "events": 2})
def a_full_table_leaves_the_record(broker):
    broker.serve("--acts")
    event = failed(broker, "1")
    other = broker.invoke("2").id
    same(told(broker, event), (429, b"the table is full: nothing was accepted, and the failed record is left\n"))
    same(held(broker), {event: "1", other: "2"})
    same(broker.next().id, other)
    same(broker.respond(other, "1").status, 202)
    same(broker.delete(other).status, 204)
    new = again(broker, event)
    same(held(broker), {new: "1"})


@case({"retries": 0})
def a_record_is_collected_only_once_its_event_is_durable(broker):
    watch = broker.watches_disk()
    broker.serve("--acts")
    event = failed(broker, "1")
    watch.keep, before, written = 1, watch.flushes, watch.writes
    watch.hold_flush = before + 1
    asked = send(broker, event)
    for number in range(1, CALLS + 1):
        until("a flush", lambda: watch.flushes == before + number)
        broker.until_looked()
        same((asked.is_answered(), watch.writes), (False, written + number))
        if number > 2:
            # What a loss of power would leave, of which nothing of the DELETE was flushed.
            status, audit = broker.said("audit", watch.flushed_copy)
            same((status, audit.splitlines()[1].split()[:2]), (0, ["held", "2"]))
        watch.release = before + number
    new = asked.done().body.decode().split()[0]
    same((held(broker), watch.flushes, watch.writes), ({new: "1"}, before + CALLS, written + CALLS))


def is_left_by(broker, event, payload, number):
    """What a stop leaves of a record that was tried again: it, its new event, or both. No stop before the event is durable takes it."""
    left = held(broker)
    assert left and set(left.values()) == {payload}, left
    assert len(left) <= 2 and (event in left or number > 2), (number, left)
    same(set(held(broker, "ended")) - {event}, set())


def clears(broker, payload):
    """What is held of a payload is run to its end: each as often as it is held."""
    for event in held(broker, "ended"):
        same(broker.delete(event).status, 204)
    for event in held(broker):
        given = broker.next()
        same((given.id, given.body.decode()), (event, payload))
        same(broker.respond(event, "1").status, 202)
        same(broker.delete(event).status, 204)


@case({"retries": 0})
def a_kill_at_any_flush_or_write_loses_nothing(broker):
    watch = broker.watches_disk()
    broker.serve("--acts")
    for power in False, True:
        for word in "kill_flush", "kill_write":
            for number in range(1, CALLS + 1):
                payload, watch.keep = f'"{power} {word} {number}"', 1
                event = failed(broker, payload)
                setattr(watch, word, (watch.flushes if word == "kill_flush" else watch.writes) + number)
                asked = send(broker, event)
                assert statuses([asked]) != [200], "it was told"
                broker.ended()
                if power:
                    broker.lose_what_was_not_flushed()
                watch.clear()
                broker.serve("--acts")
                is_left_by(broker, event, payload, number)
                clears(broker, payload)
                same(held(broker), {})


@case({"retries": 0})
def a_device_that_fails_loses_nothing(broker):
    watch = broker.watches_disk()
    for number in range(1, CALLS + 1):
        broker.serve("--acts")
        event = failed(broker, str(number))
        watch.fail_flush = watch.flushes + number
        status, body = told(broker, event)
        same(status, 503)
        if number > 2:
            new, left = body.decode().splitlines()
            same(left, LEFT)
        else:
            same(body, UNAVAILABLE)
        same(broker.ended()[0], 3)
        watch.clear()
        broker.serve("--acts")
        is_left_by(broker, event, str(number), number)
        if number > 2:
            assert new.removesuffix(" accepted") in held(broker), (new, held(broker))
        clears(broker, str(number))
        same(broker.stop(), (202, 0, ""))
        watch.clear()


def is_asked_at_a_flush(broker, watch, event):
    """Has this event's record tried again, up to a flush that does not end before it is let go: the request."""
    watch.hold_flush = watch.flushes + 1
    asked = send(broker, event)
    until("a flush", lambda: watch.flushes == watch.hold_flush)
    return asked


@case({"retries": 0})
def a_client_that_goes_away_leaves_both_and_nothing_open(broker):
    watch = broker.watches_disk()
    broker.serve("--acts")
    event = failed(broker, "1")
    asked = is_asked_at_a_flush(broker, watch, event)
    without = broker.open_files()
    asked.leave()
    until("the end of the connection", lambda: broker.open_files() < without)
    watch.let_go()
    broker.until_number("events_accepted_total", 2)
    broker.until_open(0)
    left = held(broker)
    same((set(left.values()), len(left), event in left), ({"1"}, 2, True))
    new = again(broker, event)
    assert event not in held(broker) and new in held(broker)


@case({"retries": 0})
def a_record_that_was_collected_meanwhile_is_told(broker):
    watch = broker.watches_disk()
    broker.serve("--acts")
    event = failed(broker, "1")
    asked = is_asked_at_a_flush(broker, watch, event)
    delete = broker.send("DELETE", f"/broker/destinations/{event}")
    broker.until_read()
    watch.let_go()
    same(delete.done().status, 204)
    answer = asked.done()
    new, record = answer.body.decode().splitlines()
    same((answer.status, record), (200, f"{event} unknown"))
    same(held(broker), {new.removesuffix(" accepted"): "1"})


def run_kills(broker, kills, seed):
    """So many kills at any moment, while failed records are tried again: what was seen of them. None of their payloads is lost."""
    moments, tally = random.Random(seed), {"kills": 0, "asked": 0, "told": 0, "twice": 0}
    # Within how many seconds a kill comes: less where all was told before it, else more, so that it comes at any step of the way.
    payloads, number, most = {}, 0, 0.2
    for _ in range(kills):
        broker.serve("--acts")
        while len(payloads) < 4:
            number += 1
            payload = f'"{number}"'
            payloads[payload] = failed(broker, payload)
        asked = [send(broker, event) for event in payloads.values()]
        tally["asked"] += len(asked)
        time.sleep(moments.uniform(0, most))
        broker.kill()
        told_all = statuses(asked).count(200)
        most *= 0.9 if told_all == len(asked) else 1.05
        tally["kills"] += 1
        tally["told"] += told_all
        broker.serve("--acts")
        left = held(broker)
        lost = set(payloads) - set(left.values())
        assert not lost, f"lost after {tally['kills']} kills: {lost}"
        tally["twice"] += len(left) - len(set(left.values()))
        # All that waits runs, and fails once more, so that each payload is a failed record again; of two, one is collected.
        for event in held(broker, "waiting"):
            same(broker.next().id, event)
            same(broker.respond(event, ERROR, path="error").status, 202)
        payloads = {}
        for event, payload in held(broker).items():
            if payload in payloads:
                same(broker.delete(event).status, 204)
            payloads.setdefault(payload, event)
        broker.kill()
    return tally


@case({"retries": 0, "events": 64})
def kills_at_any_moment_lose_nothing(broker):
    tally = run_kills(broker, 20, 1)
    same(tally["kills"], 20)
