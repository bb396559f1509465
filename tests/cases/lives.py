"""The lives of events: accepted, given, answered, tried again, ended and collected, also over stops."""
import json
import re
import socket
import threading
import time

from harness import ARN, DEADLINE, EVENT, EXTENSION, INVOKE, OK, OPENING, RUNTIME, case, same, until


@case()
def a_whole_life_and_a_stop(broker):
    broker.serve()
    accepted = broker.invoke('{"a":1}')
    same((accepted.status, accepted.body), (202, b""))
    event = broker.next()
    same((event.status, event.body, event.id), (200, b'{"a":1}', accepted.id))
    same(event.headers["Lambda-Runtime-Invoked-Function-Arn"], ARN)
    same(event.headers["Lambda-Runtime-Trace-Id"], "Root=1-00000000-000000000000000000000000;Sampled=0")
    answered = broker.respond(event.id, "ok")
    same((answered.status, answered.body), (202, OK))
    parked = broker.send_next()
    record = broker.record()
    same((record.status, record.headers["Content-Type"]), (200, "application/json"))
    same(record.json["requestContext"]["requestId"], accepted.id)
    same(record.json["responsePayload"], "ok")
    broker.until_parked(1)
    same(broker.stop(), (202, 0, ""))
    same((parked.done().status, parked.done().type), (500, "EnvironmentReset"))


@case()
def the_record_of_a_success_is_spelled_so(broker):
    broker.serve()
    event = broker.live('{"a": 1}', "ok")
    told = broker.record().body.decode()
    timestamp = re.search('"timestamp":"([^"]*)"', told)[1]
    assert re.fullmatch(r"[0-9]{4}-[0-9]{2}-[0-9]{2}T[0-9]{2}:[0-9]{2}:[0-9]{2}\.[0-9]{3}Z", timestamp), timestamp
    same(told, (
        '{"version":"1.0","timestamp":"' + timestamp + '","requestContext":{"requestId":"' + event + '","functionArn":"'
        + ARN + ':$LATEST","condition":"Success","approximateInvokeCount":1},"requestPayload":{"a": 1},'
        '"responseContext":{"statusCode":200,"executedVersion":"$LATEST"},"responsePayload":"ok"}'))


@case({"retries": 0})
def an_empty_body_is_an_empty_object_and_an_empty_answer_an_empty_text(broker):
    broker.serve()
    accepted = broker.invoke("")
    same(broker.next().body, b"{}")
    same(broker.respond(accepted.id, "").status, 202)
    assert broker.record().body.endswith(b'"responsePayload":""}')
    failed = broker.live("1", b"\xff", path="error")
    record = broker.record("failure").json
    same((record["requestContext"]["requestId"], record["responsePayload"]), (failed, "\ufffd"))
    same(record["responseContext"]["functionError"], "Unhandled")


@case()
def an_extension_is_told_of_the_same_event(broker):
    broker.serve()
    extension = broker.send_extension_next(broker.extension())
    runtime = broker.send_next()
    broker.until_parked(2)
    accepted = broker.invoke("{}")
    given = runtime.done()
    same(given.id, accepted.id)
    told = extension.done().json
    same((told["eventType"], told["requestId"], told["invokedFunctionArn"]), ("INVOKE", accepted.id, ARN))
    same(str(told["deadlineMs"]), given.headers["Lambda-Runtime-Deadline-Ms"])
    same(broker.stop(), (202, 0, ""))


@case()
def an_environment_is_ready_again_once_all_who_were_given_the_event_ask_again(broker):
    broker.serve()
    extension = broker.extension()
    polls = [broker.send_extension_next(extension), broker.send_next()]
    broker.until_parked(2)
    first, second = broker.invoke("1").id, broker.invoke("2").id
    same([poll.done().status for poll in polls], [200, 200])
    same(broker.respond(first, "1").status, 202)
    runtime = broker.send_next()
    broker.until_parked(1)
    same((broker.number('environments{phase="busy"}'), runtime.is_answered()), (1, False))
    again = broker.send_extension_next(extension)
    same((runtime.done().id, again.done().json["requestId"]), (second, second))


@case()
def an_extension_that_subscribed_is_told_of_the_end(broker):
    broker.serve()
    polls = [broker.send_extension_next(broker.extension(events)) for events in (["SHUTDOWN"], ["INVOKE"])]
    runtime = broker.send_next()
    broker.until_parked(3)
    same(broker.stop(), (202, 0, ""))
    told = polls[0].done().json
    same((polls[0].done().status, told["eventType"], told["shutdownReason"]), (200, "SHUTDOWN", "SPINDOWN"))
    assert abs(told["deadlineMs"] - 2000 - 1000 * time.time()) < 1000 * DEADLINE, told
    same([(poll.done().status, poll.done().type) for poll in (polls[1], runtime)], 2 * [(500, "EnvironmentReset")])


@case()
def an_extension_that_exits_fails_the_attempt(broker):
    broker.serve()
    invoked, ends = broker.extension(["INVOKE"]), broker.extension(["SHUTDOWN"])
    waits = broker.send_extension_next(ends)
    polls = [broker.send_extension_next(invoked), broker.send_next()]
    broker.until_parked(3)
    event = broker.invoke("{}").id
    same([poll.done().status for poll in polls], [200, 200])
    exits = broker.ask("POST", f"{EXTENSION}/exit/error", "{}", invoked, 1)
    same((exits.status, exits.body), (202, OK))
    same(waits.done().json["shutdownReason"], "FAILURE")
    told = broker.look(f"/events/{event}").json
    same((told["standing"], told["starts"], told["failures"], told["pushbacks"]), ("due again", 1, 1, 0))
    same(broker.number('environments{phase="init"}'), 1)
    same(broker.respond(event, "late").type, "InvalidRequestID")


@case()
def an_error_in_init_lets_extensions_register_anew(broker):
    broker.serve()
    for n in range(10):
        same(broker.register(name=f"x{n}").status, 200)
    same((broker.register().status, broker.register().type), (403, "TooManyExtensions"))
    same(broker.ask("POST", f"{RUNTIME}/init/error", "{}", environment=1).status, 202)
    registered = broker.register()
    same((registered.status, registered.json), (
        200, {"functionName": "my-function", "functionVersion": "$LATEST", "handler": "app.main"}))


@case()
def a_second_serve_gives_the_same_record(broker):
    broker.serve()
    broker.live('{"a":1}', "ok")
    first = broker.record()
    same((first.status, broker.stop()), (200, (202, 0, "")))
    broker.serve()
    same(broker.record().body, first.body)
    same(broker.stop(), (202, 0, ""))


@case()
def records_come_in_the_order_of_their_ends_and_go_when_they_are_collected(broker):
    broker.serve()
    events = [broker.live(f"{n}", "1") for n in range(3)]
    for event in events:
        same(broker.record().json["requestContext"]["requestId"], event)
        same(broker.delete(event).status, 204)
        gone = broker.delete(event)
        same((gone.status, gone.type), (404, "UnknownEvent"))
    same((broker.record().status, broker.record().body), (204, b""))


@case()
def an_event_that_has_not_ended_is_not_collected(broker):
    broker.serve()
    event = broker.invoke("{}").id
    for _ in range(2):
        refused = broker.delete(event)
        same((refused.status, refused.type), (409, "NotEnded"))
        broker.send_next().done()
    same((broker.delete("x").status, broker.delete("x").type), (404, "UnknownEvent"))


@case()
def an_event_outlives_a_kill_in_its_attempt(broker):
    broker.serve()
    accepted = broker.invoke('{"a":1}')
    same(broker.next().id, accepted.id)
    broker.kill()
    broker.serve()
    same(broker.number("attempts_interrupted_total"), 1)
    again = broker.next()
    same((again.id, again.body), (accepted.id, b'{"a":1}'))
    same(broker.respond(again.id, "ok").status, 202)
    same(broker.record().json["requestContext"]["approximateInvokeCount"], 2)
    same(broker.delete(accepted.id).status, 204)
    same(broker.record().status, 204)


@case()
def what_is_accepted_outlives_a_kill(broker):
    broker.serve()
    ids = {broker.invoke("{}").id for _ in range(10)}
    broker.kill()
    broker.serve()
    seen = set()
    for _ in range(10):
        event = broker.next()
        seen.add(event.id)
        same(broker.respond(event.id, "ok").status, 202)
    same(seen, ids)


@case({"sectors": 64, "events": 4})
def what_was_answered_outlives_a_power_failure_that_loses_each_write_behind_the_last_flush(broker):
    watch = broker.watches_disk()
    watch.keep = 1
    broker.serve()
    waits, runs, ends = (broker.invoke(text).id for text in "123")
    for event in waits, runs:
        same(broker.next().id, event)
        same(broker.respond(event, "1").status, 202)
        broker.kill()
        broker.lose_what_was_not_flushed()
        broker.serve()
        same(broker.record().json["requestContext"]["requestId"], event)
        same(broker.delete(event).status, 204)
        broker.kill()
        broker.lose_what_was_not_flushed()
        broker.serve()
        same(broker.record().status, 204)
    same(broker.next().id, ends)


@case()
def half_a_body_is_no_event(broker):
    watch = broker.watches_disk()
    broker.serve()
    body = f"POST {INVOKE} HTTP/1.1\r\nhost: h\r\nx-amz-invocation-type: Event\r\ncontent-length: 9\r\n\r\n{{}}"
    head = f"POST {INVOKE} HTTP/1.1\r\nhost: h\r\nx-amz-inv"
    for half in body, head:
        with broker.socket() as client:
            client.sendall(half.encode())
            broker.until_read()
    with broker.socket() as client:
        client.sendall(head.encode())
        client.shutdown(socket.SHUT_WR)
        said = client.recv(4096)
        assert b" 202 " not in said, said
    broker.until_read()
    # The opening makes one flush, and each commit two.
    same((broker.record().status, broker.number("commands_issued_total"), watch.flushes), (204, 0, OPENING))
    event = broker.live("{}", "ok")
    parked = broker.send_next()
    broker.until_parked(1)
    same((broker.number("events_accepted_total"), parked.is_answered()), (1, False))
    same(broker.record().json["requestContext"]["requestId"], event)
    same(broker.stop(), (202, 0, ""))


@case()
def a_parked_poll_whose_client_has_gone_stays_parked(broker):
    broker.serve()
    broker.park_and_leave(broker.send_next)
    same(broker.number("parked_polls"), 1)
    accepted = broker.invoke("{}")
    broker.until_number('events{standing="running"}', 1)
    late = broker.respond(accepted.id, "ok")
    same((late.status, late.body), (202, OK))
    same(broker.record().json["requestContext"]["requestId"], accepted.id)
    same(broker.stop(), (202, 0, ""))


@case()
def a_newer_poll_replaces_the_older(broker):
    broker.serve()
    older = broker.send_next()
    broker.until_parked(1)
    newer = broker.send_next()
    same((older.done().status, older.done().type), (409, "Replaced"))
    accepted = broker.invoke("{}")
    same(newer.done().id, accepted.id)


@case()
def a_poll_before_the_answer_is_refused(broker):
    broker.serve()
    broker.invoke("{}")
    same(broker.next().status, 200)
    refused = broker.next()
    same((refused.status, refused.type), (403, "WrongPhase"))


@case({"environments": 3})
def each_environment_has_its_port(broker):
    broker.serve()
    polls = [broker.send_next(n) for n in (1, 2, 3)]
    broker.until_parked(3)
    ids = {broker.invoke("{}").id for _ in range(3)}
    same({poll.done().id for poll in polls}, ids)


@case({"environments": 16})
def sixteen_environments_have_their_ports(broker):
    broker.serve()
    polls = [broker.send_next(n) for n in range(1, 17)]
    broker.until_parked(16)
    ids = [broker.invoke("{}").id for _ in range(10)]
    given = {until("a poll", lambda: [p for p in polls if p.is_answered() and p.answer is None])[0].done().id for _ in ids}
    same(given, set(ids))


@case({"environments": 2, "concurrency": 1})
def an_event_above_the_concurrency_is_throttled(broker):
    broker.serve()
    polls = [broker.send_next(n) for n in (1, 2)]
    broker.until_parked(2)
    first, second = broker.invoke("1").id, broker.invoke("2").id
    same(polls[0].done().id, first)
    until("a throttle", lambda: broker.look(f"/events/{second}").json["pushbacks"] > 0)
    same((broker.number('events{standing="running"}'), polls[1].is_answered()), (1, False))
    same(broker.respond(first, "1").status, 202)
    same(polls[1].done().id, second)
    assert broker.number("attempts_throttled_total") >= 1


@case({"timeout": 1, "retries": 0})
def an_attempt_times_out_by_the_ticker_alone(broker):
    broker.serve()
    event = broker.invoke("{}").id
    same(broker.next().id, event)
    # No request here makes a move.
    record = until("the end", lambda: broker.record("failure").body)
    told = json.loads(record)
    same((told["requestContext"]["requestId"], told["requestContext"]["condition"]), (event, "RetriesExhausted"))
    assert "responsePayload" not in told, told
    late = broker.respond(event, "late")
    same((late.status, late.type), (400, "InvalidRequestID"))
    same(broker.number('environments{phase="init"}'), 1)


@case(slow=True)
def a_failed_attempt_is_made_again_after_a_minute_by_the_ticker_alone(broker):
    broker.serve()
    event = broker.live("{}", '{"errorMessage":"x"}', path="error")
    parked = broker.send_next()
    told = broker.look(f"/events/{event}").json
    same((told["standing"], told["failures"]), ("due again", 1))
    again = parked.done(60 + DEADLINE)
    assert 1000 * time.time() >= told["moment"], told
    same(again.id, event)
    same(broker.respond(event, "1").status, 202)
    same(broker.record().json["requestContext"]["approximateInvokeCount"], 2)


@case({"age": 60}, slow=True)
def an_event_that_is_too_old_is_given_up_by_the_ticker_alone(broker):
    broker.serve()
    began = time.time()
    event = broker.invoke("{}").id
    record = until("the end", lambda: broker.record("failure").body, 60 + DEADLINE)
    assert time.time() - began >= 60
    told = json.loads(record)["requestContext"]
    same((told["requestId"], told["condition"], told["approximateInvokeCount"]), (event, "EventAgeExceeded", 0))


@case({"events": 2})
def a_full_table_refuses_until_a_record_is_collected(broker):
    broker.serve()
    same([broker.invoke("{}").status for _ in range(3)], [202, 202, 429])
    same(broker.invoke("{}").type, "TooManyEvents")
    event = broker.next().id
    same(broker.respond(event, "1").status, 202)
    same(broker.invoke("{}").status, 429)
    same(broker.delete(event).status, 204)
    same(broker.invoke("{}").status, 202)


@case()
def what_ran_at_a_stop_is_tried_again_by_the_next_serve(broker):
    broker.serve()
    event = broker.invoke("{}").id
    same(broker.next().status, 200)
    same(broker.stop(), (202, 0, ""))
    broker.serve()
    same(broker.next().id, event)


@case()
def the_function_is_named_by_its_name_or_its_arn(broker):
    broker.serve()
    for name in "my-function", "my-function:$LATEST", "my-function%3A%24LATEST", ARN, ARN + ":$LATEST":
        same(broker.ask("POST", f"/2015-03-31/functions/{name}/invocations?Qualifier=$LATEST", "{}", EVENT).status, 202)
    for path in "/2015-03-31/functions/other/invocations", INVOKE + "?Qualifier=1", INVOKE + "/x", "/":
        refused = broker.ask("POST", path, "{}", EVENT)
        same((refused.status, refused.type), (404, "NotFound"))
    same(broker.ask("POST", INVOKE, "{}", EVENT, environment=1).status, 404)


@case()
def what_is_asked_wrongly_is_refused_by_name(broker):
    broker.serve()
    extension, unknown = {"Lambda-Extension-Name": "x"}, "00000000-0000-4000-8000-000000000009"
    for words, status, type in (
        (("POST", INVOKE, "{}"), 400, "UnsupportedInvocationType"),
        (("POST", INVOKE, "{}", {"X-Amz-Invocation-Type": "RequestResponse"}), 400, "UnsupportedInvocationType"),
        (("POST", INVOKE, "{", EVENT), 400, "InvalidRequestContent"),
        (("POST", INVOKE, 128 * "[" + 128 * "]", EVENT), 400, "InvalidRequestContent"),
        (("GET", INVOKE), 405, "MethodNotAllowed"),
        (("POST", f"{RUNTIME}/invocation/{unknown}/response", "1", {}, 1), 400, "InvalidRequestID"),
        (("POST", f"{RUNTIME}/invocation/x/error", "1", {}, 1), 400, "InvalidRequestID"),
        (("POST", f"{EXTENSION}/register", "{}", {}, 1), 400, "InvalidExtensionHeader"),
        (("POST", f"{EXTENSION}/register", '{"events":["x"]}', extension, 1), 400, "BadSubscription"),
        (("GET", f"{EXTENSION}/event/next", None, {"Lambda-Extension-Identifier": "x"}, 1), 400, "InvalidExtensionHeader"),
        (("GET", f"{EXTENSION}/event/next", None, {"Lambda-Extension-Identifier": unknown}, 1), 403, "UnknownExtension"),
    ):
        told = broker.ask(*words)
        same((words[:2], told.status, told.type), (words[:2], status, type))
    same(broker.ask("POST", INVOKE, 127 * "[" + 127 * "]", EVENT).status, 202)
    same(broker.next().status, 200)
    refused = broker.register()
    same((refused.status, refused.type), (403, "RegistrationClosed"))
    same(broker.ask("POST", f"{RUNTIME}/init/error", "{}", environment=1).type, "WrongPhase")


@case({"events": 64, "environments": 4})
def many_callers_and_runtimes_lose_and_double_nothing(broker):
    broker.serve()
    accepted, answered, failed = [], [], []

    def call():
        for n in range(15):
            accepted.append(broker.invoke(f"{n}").id)

    def run(environment):
        while len(answered) < 60 and not failed:
            poll = broker.send_next(environment)
            until("an event, or the end", lambda: poll.is_answered() or len(answered) >= 60)
            if poll.is_answered():
                event = poll.done().id
                if broker.respond(event, "1", environment).status == 202:
                    answered.append(event)

    def go(what, *words):
        try:
            what(*words)
        except Exception as why:
            failed.append(repr(why))

    threads = [threading.Thread(target=go, args=(call,)) for _ in range(4)]
    threads += [threading.Thread(target=go, args=(run, n)) for n in range(1, 5)]
    for thread in threads:
        thread.start()
    for thread in threads:
        thread.join(4 * DEADLINE)
    same((failed, len(accepted), sorted(answered)), ([], 60, sorted(accepted)))
    same(broker.number("events_accepted_total"), 60)
    same(broker.stop(), (202, 0, ""))
    same(broker.audit()[1], "held 60 waiting 0 running 0 success 60 failure 0")
