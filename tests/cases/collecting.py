"""Lists of records that are collected at the operator's port, where he may act."""
from harness import EVENT, INVOKE, Asked, Beside, case, same, statuses, until

ACT = {"lambda-broker-act": "1"}
LIST = "/records/collect"
LINES, BYTES = 1000, 48000
UNAVAILABLE = b"the broker is not available; of the list, some records may be collected\n"


def send(broker, lines, headers=ACT, path=LIST):
    body = lines if isinstance(lines, bytes) else "".join(f"{line}\n" for line in lines).encode()
    return Asked(broker.admin, "POST", path, body, headers)


def told(*words, **more):
    """Status and body of the reply to a list."""
    answer = send(*words, **more).done()
    return answer.status, answer.body


def records(broker, count):
    """So many events that have succeeded."""
    return [broker.live("{}", "1") for _ in range(count)]


def held(broker):
    """The ids of all records of successes, in their order."""
    ids, after = [], ""
    while True:
        page = broker.look(f"/events?standing=success&limit=1000{after}").json
        ids += [event["id"] for event in page["events"]]
        if page["next"] is None:
            return ids
        after = f"&after={page['next']}"


def lines(ids, what="collected"):
    return "".join(f"{id} {what}\n" for id in ids).encode()


@case({"environments": 2, "retries": 0})
def each_line_is_told_what_became_of_it(broker):
    broker.serve("--acts")
    first, second = records(broker, 2)
    failed = broker.live("{}", '{"errorMessage":"no"}', path="error")
    runs, waits = broker.invoke("1").id, broker.invoke("2").id
    same(broker.next().id, runs)
    unknown = "00000000-0000-4000-8000-000000000003"
    asked = [first, unknown, first, waits, "", "x", runs, second.upper(), second.replace("-", ""), failed, f"{first} "]
    wanted = (
        f"{first} collected", f"{unknown} unknown", f"{first} unknown", f"{waits} not ended", "bad", "bad", f"{runs} not ended",
        f"{second} collected", f"{second} unknown", f"{failed} collected", "bad",
    )
    same(told(broker, asked), (200, "".join(f"{line}\n" for line in wanted).encode()))
    answer = send(broker, f"{first}\r\n{second}".encode()).done()
    same((answer.status, answer.body), (200, lines([first, second], "unknown")))
    same((answer.headers["Content-Type"], answer.headers["Cache-Control"]), ("text/plain; charset=utf-8", "no-store"))
    same(told(broker, []), (200, b""))
    numbers = broker.numbers()
    same([numbers[name] for name in ("records_collected_total", "open_slots", 'events{standing="waiting"}')], [3, 0, 1])
    same(broker.respond(runs, "1").status, 202)
    same(told(broker, [runs]), (200, lines([runs])))
    same(broker.stop(), (202, 0, ""))
    same(broker.held(), 1)


@case({"events": 300})
def a_long_list_is_collected_turn_by_turn(broker):
    watch = broker.watches_disk()
    broker.serve("--acts")
    ids = records(broker, 260)
    before = watch.flushed
    same(told(broker, ids), (200, lines(ids)))
    # Each turn of 64 is one commit of two flushes, where no tick comes between.
    assert watch.flushed - before < 2 * 4 * 5, watch.flushed - before
    same((held(broker), broker.number("open_slots")), ([], 0))
    same(broker.stop(), (202, 0, ""))
    same(broker.held(), 0)


@case()
def without_acts_the_port_answers_as_to_any_other_post(broker):
    broker.serve()
    event, = records(broker, 1)
    for body in lines([event], ""), BYTES * b"x", b"":
        answers = [send(broker, body, headers, path).done() for headers in ({}, ACT) for path in (LIST, "/x", "/")]
        same({(answer.status, answer.body) for answer in answers}, {(405, b"only GET is understood\n")})
    same(held(broker), [event])


@case()
def with_acts_other_requests_are_answered_as_without(broker):
    asked = [(method, path) for method in ("GET", "POST", "PUT") for path in ("/x", LIST, f"{LIST}?x", f"{LIST}/", "/events/x", "/healthz")]
    seen = []
    for words in (), ("--acts",):
        broker.serve(*words)
        seen.append([(ask, broker.look(ask[1], method=ask[0])) for ask in asked if ask != ("POST", LIST)])
        same(broker.stop(), (202, 0, ""))
    without, with_acts = ([(ask, answer.status, answer.body) for ask, answer in one] for one in seen)
    # But for the methods that are named.
    get_only, acts = b"only GET is understood", b"only GET is understood, and POST at /records/collect and /records/ID/retry"
    same(with_acts, [(ask, status, body.replace(get_only, acts)) for ask, status, body in without])
    same([status for (method, _), status, _ in with_acts if method == "PUT"], 6 * [405])


@case()
def a_form_or_a_page_collects_nothing(broker):
    broker.serve("--acts")
    event, = records(broker, 1)
    for kind in "text/plain", "application/x-www-form-urlencoded", "multipart/form-data; boundary=x":
        same(told(broker, [event], headers={"Content-Type": kind}), (403, b"an act needs the header lambda-broker-act\n"))
    for headers in {"Origin": "null"}, {"Origin": f"http://127.0.0.1:{broker.admin}"}, {"Sec-Fetch-Site": "cross-site"}:
        same(send(broker, [event], {**ACT, **headers}).done().json["errorType"], "CrossOrigin")
    same(send(broker, [event], {**ACT, "Host": "site.example"}).done().json["errorType"], "UnknownHost")
    same(told(broker, [event], headers={**ACT, "Host": "broker"})[0], 403)
    same(held(broker), [event])


@case({"events": 16})
def a_list_that_is_too_long_is_refused_whole(broker):
    broker.serve("--acts")
    ids = records(broker, 4)
    for body, status, why in (
        (lines(ids, "").replace(b" ", b"") + (LINES - 3) * b"\n", 413, b"a list has 1000 lines at most\n"),
        (lines(ids, "") + BYTES * b"\n", 413, b"a list has 48000 bytes at most\n"),
        ("".join(f"{id}\n" for id in ids).encode() + b"\xff", 400, b"the list is no text\n"),
    ):
        same(told(broker, body), (status, why))
        same(held(broker), ids)
    most = ids + (LINES - len(ids)) * ["x"]
    same(told(broker, most), (200, lines(ids) + (LINES - len(ids)) * b"bad\n"))
    same(held(broker), [])


@case()
def a_list_is_told_once_it_is_flushed(broker):
    watch = broker.watches_disk()
    broker.serve("--acts")
    ids = records(broker, 3)
    watch.hold_flush = watch.flushes + 1
    collecting = send(broker, ids)
    until("a flush", lambda: watch.flushes == watch.hold_flush)
    broker.until_looked()
    same(collecting.is_answered(), False)
    watch.release = watch.hold_flush
    until("the next flush", lambda: watch.flushes == watch.hold_flush + 1)
    broker.until_looked()
    same(collecting.is_answered(), False)
    watch.let_go()
    same(collecting.done().body, lines(ids))


@case()
def a_client_that_goes_away_leaves_nothing_open(broker):
    watch = broker.watches_disk()
    broker.serve("--acts")
    ids = records(broker, 3)
    watch.hold_flush = watch.flushes + 1
    collecting = send(broker, ids)
    until("a flush", lambda: watch.flushes == watch.hold_flush)
    collecting.leave()
    watch.let_go()
    broker.until_number("records_collected_total", 3)
    broker.until_open(0)
    same(held(broker), [])


def is_left_by(before, ids, left):
    """What is left of the records is what was, without the first of the list."""
    gone = len(before) - len(left)
    same(left, [id for id in before if id not in ids[:gone]])


@case({"events": 300})
def a_kill_at_any_flush_takes_the_first_of_a_list_alone(broker):
    watch = broker.watches_disk()
    broker.serve("--acts")
    for word in "kill_flush", "kill_write":
        for number in 1, 2, 3, 4:
            records(broker, 70)
            before = held(broker)
            # In another order, without the first, and with others between.
            ids = before[:0:-1]
            setattr(watch, word, (watch.flushes if word == "kill_flush" else watch.writes) + number)
            asked = send(broker, [line for id in ids for line in (id, "x")])
            assert statuses([asked]) != [200], "it was told"
            broker.ended()
            watch.clear()
            broker.serve("--acts")
            left = held(broker)
            is_left_by(before, ids, left)
            same(told(broker, ids), (200, b"".join(lines([id], "collected" if id in left else "unknown") for id in ids)))
            same(held(broker), before[:1])
            same(told(broker, before[:1])[0], 200)


@case({"events": 300})
def a_device_that_fails_leaves_what_is_not_told(broker):
    watch = broker.watches_disk()
    broker.serve("--acts")
    ids = records(broker, 100)
    watch.fail_flush = watch.flushes + 4
    same(told(broker, ids), (503, UNAVAILABLE))
    same(broker.ended()[0], 3)
    watch.clear()
    broker.serve("--acts")
    left = held(broker)
    is_left_by(ids, ids, left)
    same(told(broker, ids)[0], 200)
    same(held(broker), [])


@case()
def a_broker_that_stops_collects_nothing_more(broker):
    watch = broker.watches_disk()
    broker.serve("--acts")
    ids = records(broker, 2)
    watch.hold_flush = watch.flushes + 1
    invoke = broker.send("POST", INVOKE, "{}", EVENT)
    until("a flush", lambda: watch.flushes == watch.hold_flush)
    stop = broker.send("POST", "/broker/stop")
    broker.until_read()
    collecting = Beside(told, broker, ids)
    same(collecting.done(), (503, UNAVAILABLE))
    watch.let_go()
    same((invoke.done().status, stop.done().status, broker.ended()), (202, 202, (0, "")))
    same(broker.held(), 3)
