"""The operator's port: what it shows, to whom, and that it changes nothing."""
import json
import socket
import threading
import time

from harness import DEADLINE, EVENT, INVOKE, OPENING, RUNTIME, case, same, until


def all_of(broker, path, key="id"):
    """A list, page by page: the ids in it."""
    ids, after = [], ""
    while True:
        page = broker.look(f"{path}{after}").json
        ids += [event[key] for event in page["events"]]
        if page["next"] is None:
            return ids
        after = f"&after={page['next']}"


@case({"retries": 0})
def an_operator_is_shown_what_becomes_of_events(broker):
    broker.serve()
    same((broker.look("/healthz").status, broker.look("/healthz").body), (200, b"ok\n"))
    same(broker.look("/events").body, b'{"events":[],"next":null}')
    good, bad, waits = (broker.invoke(body).id for body in ('{"a":1}', '{\n"a":\r\n2}', "3"))
    same(all_of(broker, "/events?limit=2"), [good, bad, waits])
    same(broker.next().id, good)
    same(all_of(broker, "/events?standing=running"), [good])
    same(broker.respond(good, '"fine"').status, 202)
    same(broker.next().id, bad)
    same(broker.respond(bad, '{"errorMessage":"no"}', path="error").status, 202)
    for side, id in (("success", good), ("failure", bad)):
        lines = broker.look(f"/records/{side}").body.decode().splitlines()
        same([json.loads(line)["requestContext"]["requestId"] for line in lines], [id])
        same(json.loads(lines[0]), broker.record(side).json)
        same(broker.look(f"/events/{id}").json["record"], json.loads(lines[0]))
        same(all_of(broker, f"/events?standing={side}"), [id])
    same(all_of(broker, "/events?standing=waiting"), [waits])
    same([broker.look(f"/events/{waits}").json[name] for name in ("payload", "record")], ["3", None])
    assert b'\nlambda_broker_events{standing="waiting"} 1\n' in broker.look("/metrics").body
    told = broker.numbers()
    wanted = {
        'events{standing="waiting"}': 1,
        'events{standing="success"}': 1,
        'events{standing="retries_exhausted"}': 1,
        "events_accepted_total": 3,
        'events_ended_total{outcome="success"}': 1,
        'events_ended_total{outcome="retries_exhausted"}': 1,
        "attempts_started_total": 2,
        "records_collected_total": 0,
        "commands_issued_total": 7,
        "commands_durable_total": 7,
        "generation": 1,
        "disk_bytes": 4096 * 512,
        "switches_total": 0,
        'refused_total{reason="not_found"}': 0,
    }
    same({name: told[name] for name in wanted}, wanted)
    same(told["commit_seconds_count"] > 0, True)
    same(told["written_bytes_total"] % 512, 0)
    same(told["process_resident_memory_bytes"] > 1 << 20, True)
    same(broker.delete(good).status, 204)
    same(broker.delete(good).status, 404)
    told = broker.numbers()
    same(told['events_ended_total{outcome="success"}'], 1)
    same(told["records_collected_total"], 1)
    same(told['refused_total{reason="not_found"}'], 1)
    same(broker.look(f"/events/{good}").status, 404)
    same(broker.stop(), (202, 0, ""))


@case({"environments": 2})
def the_numbers_of_a_broker_that_was_just_served_are_these(broker):
    broker.serve()
    told = broker.numbers()
    same(told.pop("process_resident_memory_bytes") > 1 << 20, True)
    same(told.pop("process_start_time_seconds") > 1 << 30, True)
    # The segment has half of the sectors, of which gate, header and the empty snapshot take one each.
    nonzero = {'environments{phase="init"}': 2, "generation": 1, "disk_bytes": 4096 * 512, "segment_free_bytes": (2048 - 3) * 512}
    nonzero |= {"table_limit": 16, "attempts_limit": 10, "timeout_seconds": 900, "retries_limit": 2, "age_limit_seconds": 21600}
    nonzero |= {"payload_limit_bytes": 1024, "response_limit_bytes": 1024, 'problem{reason="nobody_polls"}': 1}
    nonzero |= {'open_connections{port="operator"}': 1} | {f'environment_phase{{environment="{n}",phase="init"}}': 1 for n in (1, 2)}
    settings = [name for name in told if name.startswith(("settings_info{", "build_info{"))]
    same([told.pop(name) for name in settings], [1, 1])
    same({name: value for name, value in told.items() if value}, nonzero)
    same(len(told), 136)


@case({"events": 2})
def each_refusal_is_counted_once_under_its_reason(broker):
    broker.serve()
    for ask, reason in (
        (lambda: broker.ask("POST", INVOKE, "{}"), "bad_request"),
        (lambda: broker.ask("GET", "/x"), "not_found"),
        (lambda: broker.ask("GET", "/x", environment=1), "not_found"),
        (lambda: broker.delete(broker.invoke("{}").id), "conflict"),
        (lambda: broker.invoke(2000 * "1"), "too_large"),
        (lambda: [broker.invoke("{}") for _ in range(2)][1], "too_many"),
        (lambda: broker.ask("PUT", INVOKE), "other"),
    ):
        before = broker.numbers()
        assert ask().status >= 400
        after = broker.numbers()
        counted = {name: after[name] - before[name] for name in after if name.startswith("refused_total")}
        same({name: value for name, value in counted.items() if value}, {f'refused_total{{reason="{reason}"}}': 1})


@case()
def the_times_of_commits_are_counted_in_their_buckets(broker):
    broker.serve()
    for _ in range(3):
        broker.invoke("{}")
    told = broker.numbers()
    bounds = ["0.001", "0.0025", "0.005", "0.01", "0.025", "0.1", "0.5", "2.5", "+Inf"]
    buckets = [told[f'commit_seconds_bucket{{le="{bound}"}}'] for bound in bounds]
    same((buckets, buckets[-1], told["commit_seconds_count"]), (sorted(buckets), 3, 3))
    assert 0 < told["commit_seconds_sum"] < 3 * DEADLINE, told["commit_seconds_sum"]


@case()
def each_reply_to_an_operator_says_of_what_kind_it_is(broker):
    broker.serve()
    event = broker.live("{}", "1")
    for path, status, kind in (
        ("/", 200, "text/html; charset=utf-8"),
        ("/healthz", 200, "text/plain; charset=utf-8"),
        ("/metrics", 200, "text/plain; version=0.0.4; charset=utf-8"),
        ("/history", 200, "text/plain; charset=utf-8"),
        ("/events", 200, "application/json"),
        ("/events?standing=success&limit=1", 200, "application/json"),
        (f"/events/{event}", 200, "application/json"),
        ("/records/success", 200, "application/x-ndjson"),
        ("/records/failure", 200, "application/x-ndjson"),
        ("/x", 404, "text/plain; charset=utf-8"),
        ("/events/x", 400, "text/plain; charset=utf-8"),
    ):
        told = broker.look(path)
        same((path, told.status, told.headers["Content-Type"]), (path, status, kind))
        same(told.headers["Cache-Control"], "no-store")
        assert (told.headers["Content-Type"] == "text/html; charset=utf-8") == told.body.startswith(b"<!doctype html>"), path


SAMPLED = "at,accepted,started,succeeded,failed,ended,collected,waiting,refused_full,refused_busy,commits,commit_microseconds,written_bytes"


def samples(broker):
    """The samples that a broker keeps, each as its numbers by name."""
    names, *lines = broker.look("/history").body.decode().splitlines()
    same(names, SAMPLED)
    return [dict(zip(names.split(","), map(int, line.split(",")))) for line in lines]


@case({"retries": 0, "events": 3})
def the_broker_keeps_samples_of_its_numbers(broker):
    before = 1000 * time.time()
    broker.serve()
    first = until("the first sample", lambda: samples(broker))[0]
    same([first[name] for name in SAMPLED.split(",")[1:11]], 10 * [0])
    assert before - 1 <= first["at"] <= 1000 * time.time(), first
    collected = broker.live("{}", "1")
    same(broker.delete(collected).status, 204)
    broker.live("{}", "1")
    broker.live("{}", "1", path="error")
    same([broker.invoke("{}").status for _ in range(3)], [202, 429, 429])
    last = until("a sample of that", lambda: (last := samples(broker)[-1])["refused_full"] == 2 and last)
    numbers = broker.numbers()
    wanted = {
        "accepted": 4, "started": 3, "succeeded": 2, "failed": 1, "ended": 3, "collected": 1, "waiting": 1, "refused_full": 2, "refused_busy": 0,
        "commits": numbers["commit_seconds_count"], "commit_microseconds": round(1e6 * numbers["commit_seconds_sum"]),
        "written_bytes": numbers["written_bytes_total"],
    }
    same({name: last[name] for name in wanted}, wanted)
    kept = until("two samples more", lambda: len(kept := samples(broker)) > 3 and kept)
    same(kept[0], first)
    assert all(5000 <= later["at"] - one["at"] for one, later in zip(kept, kept[1:])), kept


@case()
def an_event_is_shown_with_what_it_is_judged_by(broker):
    broker.serve()
    before = int(1000 * time.time())
    event = broker.invoke('{"a":"' + 1000 * "x" + '"}').id
    told = broker.look(f"/events/{event}").json
    assert before <= told["accepted"] <= 1000 * time.time(), told
    same([told[name] for name in ("id", "standing", "starts", "failures", "pushbacks")], [event, "waiting", 0, 0, 0])
    same(len(told["payload"]), 1008)


@case({"retries": 0, "events": 16})
def lists_go_on_where_they_were_cut_off(broker):
    broker.serve()
    ended = [broker.live(f"{n}", f"{n}") for n in range(5)]
    waiting = [broker.invoke("{}").id for _ in range(4)]
    for limit in 1, 2, 3, 9, 1000:
        same(all_of(broker, f"/events?limit={limit}"), ended + waiting)
        same(all_of(broker, f"/events?standing=waiting&limit={limit}"), waiting)
        told, after = [], ""
        while after is not None:
            page = broker.look(f"/records/success?limit={limit}{after}")
            told += [json.loads(line)["requestContext"]["requestId"] for line in page.body.decode().splitlines()]
            after = f"&after={page.headers['Next-After']}" if page.headers["Next-After"] else None
        same(told, ended)


@case()
def what_an_operator_may_not_ask_is_refused_by_name(broker):
    broker.serve()
    unknown = "00000000-0000-4000-8000-000000000009"
    wanted = {
        "/x": 404,
        f"{RUNTIME}/invocation/next": 404,
        "/events/": 400,
        "/events/x": 400,
        f"/events/{unknown}": 404,
        f"/events?after={unknown}": 404,
        f"/records/success?after={unknown}": 404,
        "/events?limit=0": 400,
        "/events?limit=1001": 400,
        "/events?limit=-1": 400,
        "/events?limit=x": 400,
        "/events?limit=1&limit=2": 400,
        "/events?standing=dead": 400,
        "/events?after=x": 400,
        "/events?a=b": 400,
        "/metrics?a=b": 400,
        "/history?a=b": 400,
        "/records/success?standing=all": 400,
        "/records": 404,
        "/records/other": 404,
    }
    told = {path: broker.look(path) for path in wanted}
    same({path: reply.status for path, reply in told.items()}, wanted)
    same(all(reply.body.strip() for reply in told.values()), True)
    for method in ("POST", "PUT", "DELETE", "HEAD"):
        same(broker.look("/events", method).status, 405)
    same(broker.look(INVOKE, "POST", EVENT).status, 405)
    same((broker.look("/events").json["events"], broker.look("/healthz").body), ([], b"ok\n"))
    same(broker.number("commands_issued_total"), 0)
    same(broker.invoke("{}").status, 202)
    same(broker.stop(), (202, 0, ""))


@case()
def an_operator_is_shown_nothing_by_another_host(broker):
    broker.serve()
    local = [f"127.0.0.1:{broker.admin}", "127.0.0.1", "localhost", "localhost:1", "[::1]", "[::1]:9"]
    others = ["127.0.0.1.elsewhere", "elsewhere", "localhost.elsewhere:80", "127.0.0.2", "[::2]"]
    for host, status in [(host, 200) for host in local] + [(host, 403) for host in others]:
        same((host, broker.look("/events", headers={"Host": host}).status), (host, status))
    # Its port is on the loopback address, whatever the others are on.
    broker.stop()
    broker.serve("--address", "0.0.0.0")
    with socket.socket() as probe:
        probe.connect(("127.0.0.2", broker.port))
    with socket.socket() as probe:
        same(probe.connect_ex(("127.0.0.2", broker.admin)) != 0, True)


@case()
def there_is_no_operators_port_where_none_is_asked_for(broker):
    broker.serve(admin=False)
    same(broker.invoke("{}").status, 202)
    with socket.socket() as probe:
        same(probe.connect_ex(("127.0.0.1", broker.admin)) != 0, True)
    same(broker.stop(), (202, 0, ""))


@case()
def a_health_check_tells_that_it_ends(broker):
    watch = broker.watches_disk()
    broker.serve()
    watch.hold_flush = OPENING + 1
    invoke = broker.send_invoke("{}")
    until("a flush", lambda: watch.flushes == OPENING + 1)
    stop = broker.send("POST", "/broker/stop")
    broker.until_read()
    # It waits for nothing.
    health = broker.look("/healthz")
    same((health.status, health.body), (503, b"stopping\n"))
    same([invoke.is_answered(), stop.is_answered()], [False, False])
    watch.let_go()
    same([invoke.done().status, stop.done().status], [202, 202])
    same(broker.ended(), (0, ""))


@case({"events": 64})
def lists_and_scrapes_go_on_while_events_come_and_go(broker):
    broker.serve()
    over, failed, scrapes = threading.Event(), [], []

    def go_on(what, *words):
        try:
            while not over.is_set():
                what(*words)
        except Exception as why:
            failed.append(repr(why))

    def come():
        same(broker.invoke('{"a":1}').status in (202, 429), True)

    def go():
        poll = broker.send_next()
        until("an event, or the end", lambda: poll.is_answered() or over.is_set())
        if poll.is_answered():
            id = poll.done().id
            same(broker.respond(id, "1").status, 202)
            same(broker.delete(id).status, 204)

    def read():
        listed = broker.look("/events?limit=3")
        same(listed.status, 200)
        ids = [event["id"] for event in listed.json["events"]]
        same(len(ids), len(set(ids)))
        if ids:
            same(broker.look(f"/events?limit=3&after={ids[-1]}").status in (200, 404), True)

    def scrape():
        scrapes.append(broker.look("/metrics").status)

    threads = [threading.Thread(target=go_on, args=(what,)) for what in (come, come, go, read, read, *(10 * [scrape]))]
    for thread in threads:
        thread.start()
    until("300 scrapes", lambda: len(scrapes) >= 300 or failed, 4 * DEADLINE)
    over.set()
    for thread in threads:
        thread.join(2 * DEADLINE)
    same((failed, set(scrapes)), ([], {200}))
    same(broker.look("/healthz").status, 200)
    same(broker.stop(), (202, 0, ""))


@case()
def an_address_that_others_reach_is_warned_of(broker):
    broker.serve("--address", "0.0.0.0")
    same(broker.invoke("{}").status, 202)
    told = broker.stderr()
    same(broker.stop(), (202, 0, ""))
    wanted = "whoever reaches 0.0.0.0 can invoke the function, answer for it, read its payloads and records, and stop the broker"
    same(told.splitlines().count(f"warning: {wanted}"), 1)
    broker.serve()
    same((broker.stop(), "warning: whoever" in broker.stderr()), ((202, 0, ""), False))
