"""`deploy/supervise` between runtimes and the broker: what their deaths cost, and that nothing else differs."""
import contextlib
import json
import os
import re
import select
import signal
import socket
import subprocess
import time

from harness import DEADLINE, EXAMPLES, EXTENSION, HERE, RUNTIME, Apart, Asked, Kept, case, line_of, needs, same, sends_much, until

SUPERVISE = os.path.join(HERE, "..", "deploy", "supervise")
FUNCTION = os.path.join(EXAMPLES, "function.py")
# It says which event it has, and then ends or waits to be ended, or answers.
HANDLER = """
import os, time
def main(event, context):
    print("has", context.aws_request_id, flush=True)
    if "exit" in event:
        os._exit(event["exit"])
    if "waits" in event:
        time.sleep(event["waits"])
    return {"process": os.getpid()}
"""
TWENTY = 20


class Supervised:
    """A runtime under the supervisor."""

    def __init__(self, broker, command=(FUNCTION,), listen=0, environment=1, by=(SUPERVISE,), options=(), env=None, **more):
        with open(os.path.join(broker.folder, "app.py"), "w") as file:
            file.write(HANDLER)
        words = [*by, "--broker", f"127.0.0.1:{broker.port + environment}", "--listen", str(listen), *options, "--", *command]
        self.told = os.path.join(broker.folder, f"supervise.{time.monotonic_ns()}")
        env = {**os.environ, "LAMBDA_TASK_ROOT": broker.folder, "_HANDLER": "app.main", **(env or {})}
        with open(self.told, "w") as stderr:
            self.program = subprocess.Popen(words, stdout=subprocess.PIPE, stderr=stderr, bufsize=0, env=env, **more)

    def process(self):
        """The runtime's process, or None between two."""
        with open(f"/proc/{self.program.pid}/task/{self.program.pid}/children") as children:
            return next(map(int, children.read().split()), None)

    def kill(self, number=signal.SIGKILL):
        """Ends the runtime's process, and waits until the supervisor has seen that."""
        process = until("a process", self.process)
        os.kill(process, number)
        until("its end", lambda: self.process() != process)

    def next(self):
        """Waits until the runtime has an event: which."""
        has, event = line_of(self.program).split()
        same(has, "has")
        return event

    def has(self, event):
        """Waits until the runtime has this event."""
        same(self.next(), event)

    def lines(self):
        with open(self.told) as told:
            return told.read().splitlines()

    def end(self, number=signal.SIGTERM):
        """Ends it: its status."""
        self.program.send_signal(number)
        try:
            return self.program.wait(DEADLINE)
        finally:
            self.program.kill()
            self.program.wait()
            self.program.stdout.close()


@contextlib.contextmanager
def supervised(broker, *words, **more):
    """Runtimes that are supervised until the case is over, and what the supervisor said, where the case fails."""
    one = Supervised(broker, *words, **more)
    try:
        yield one
    except Exception as why:
        raise AssertionError(f"{why!r}; {one.lines()[-10:]}") from why
    finally:
        one.end(signal.SIGKILL)


def event_of(broker, event):
    return broker.look(f"/events/{event}").json


def ended(broker, event, side="success"):
    """The record of an event, for which it waits, and which it collects."""
    record = until("a record", lambda: broker.record(side).status == 200 and broker.record(side).json)
    same((record["requestContext"]["requestId"], broker.delete(event).status), (event, 204))
    return record


def answered_at_once(broker, event):
    """An event is answered by its first attempt."""
    record = ended(broker, event)
    same((record["requestContext"]["approximateInvokeCount"], record["responseContext"]["statusCode"]), (1, 200))
    return record["responsePayload"]["process"]


def connections(process):
    """The rows of the system's table for the open connections of a process."""
    with open(f"/proc/{process}/net/tcp") as table:
        rows = [row.split() for row in table]
    sockets = set()
    for name in os.listdir(f"/proc/{process}/fd"):
        with contextlib.suppress(FileNotFoundError):
            sockets.add(os.readlink(f"/proc/{process}/fd/{name}"))
    return [row for row in rows if row[3] == "01" and f"socket:[{row[9]}]" in sockets]


def unread(process):
    """Whether bytes lie at a process that it has not read."""
    return any(not row[4].endswith(":00000000") for row in connections(process))


def is_receiving(process):
    """Whether it waits for what a connection of its brings, by the number of its system call."""
    with open(f"/proc/{process}/syscall") as call:
        return call.read().split()[0] == {"x86_64": "45", "aarch64": "207"}[os.uname().machine]


def has_stopped(process):
    with open(f"/proc/{process}/stat") as stat:
        return stat.read().rpartition(")")[2].split()[0] == "T"


def until_polled(broker, runtime):
    """Waits until the broker has a poll of this runtime, whatever it had before."""
    until("a poll", lambda: runtime.process() and connections(runtime.process()))
    until("the supervisor's", lambda: any(row[2].endswith(f":{broker.port + 1:04X}") for row in connections(runtime.program.pid)))
    broker.until_read(1)


def most_within(seconds, took):
    """Half of these at least took so long at most: a busy machine may be late once."""
    assert sorted(took)[len(took) // 2] < seconds, took


# Deaths


@case({"events": 32}, slow=True)
def a_death_in_an_event_costs_one_attempt_and_no_timeout(broker):
    broker.serve()
    with supervised(broker) as runtime:
        deaths, took = {broker.invoke('{"waits":900}').id: 0 for _ in range(TWENTY)}, []
        # A slow machine may come to a second attempt of one before the first of another.
        for _ in range(2 * TWENTY):
            event = runtime.next()
            failures = deaths[event] = deaths[event] + 1
            began = time.time()
            runtime.kill()
            told = until("the failure", lambda: (lambda told: told["failures"] == failures and told)(event_of(broker, event)))
            took.append(time.time() - began)
            same((told["standing"], told["starts"], told["pushbacks"]), ("due again", failures, 0))
            # A minute behind the first failure, and two behind the second.
            assert 0 <= told["moment"] - 60000 * failures - int(1000 * began) < 1000 * DEADLINE, (told, began)
        same({*deaths.values()}, {2})
        most_within(2, took)
        same(broker.number('events{standing="due_again"}'), TWENTY)


@case({"retries": 0})
def each_end_is_told_in_the_words_of_aws(broker):
    broker.serve()
    ends = [("exit", n, f"with error: exit status {n}") for n in (1, 3, 255)] + [("exit", 0, "without providing a reason")]
    ends += [("signal", signal.SIGSEGV, "with error: signal: segmentation fault"), ("signal", signal.SIGKILL, "with error: signal: killed")]
    with supervised(broker) as runtime:
        for kind, number, words in ends:
            event = broker.invoke(json.dumps({"exit": number} if kind == "exit" else {"waits": 900})).id
            runtime.has(event)
            if kind == "signal":
                runtime.kill(number)
            record = ended(broker, event, "failure")
            told = {"errorType": "Runtime.ExitError", "errorMessage": f"RequestId: {event} Error: Runtime exited {words}"}
            same(record["responsePayload"], told)
            same(record["responseContext"]["functionError"], "Unhandled")
        answered_at_once(broker, broker.invoke("{}").id)


@case({"retries": 0, "response": 16})
def a_death_is_told_where_an_answer_has_no_room_for_its_words(broker):
    broker.serve()
    with supervised(broker):
        event = broker.invoke('{"exit":1}').id
        same(ended(broker, event, "failure")["responsePayload"], {})


@case({"events": 32}, slow=True)
def a_death_while_idle_costs_nothing(broker):
    broker.serve()
    with supervised(broker) as runtime:
        broker.until_parked(1)
        processes = set()
        for _ in range(TWENTY):
            runtime.kill()
            event = broker.invoke("{}").id
            processes.add(answered_at_once(broker, event))
            broker.until_parked(1)
        same(len(processes), TWENTY)
        same((broker.number("attempts_started_total"), broker.number("attempts_interrupted_total")), (TWENTY, 0))


@case()
def an_event_that_was_not_read_goes_to_the_next_process(broker):
    broker.serve()
    with supervised(broker) as runtime:
        for _ in range(5):
            broker.until_parked(1)
            process = until("a process", runtime.process)
            until("a process that waits for an event", lambda: connections(process) and is_receiving(process))
            os.kill(process, signal.SIGSTOP)
            until("a process that has stopped", lambda: has_stopped(process))
            event = broker.invoke(json.dumps({"a": 500 * "b"})).id
            broker.until_number('events{standing="running"}', 1)
            # Until the event lies at the process that has stopped.
            until("bytes that are not read", lambda: unread(process))
            runtime.kill()
            assert answered_at_once(broker, event) != process


# A runtime that sends a part of its answer to an event, by a connection of its own, and ends at once.
ENDS = """
import http.client, os, socket
broker = http.client.HTTPConnection(os.environ["AWS_LAMBDA_RUNTIME_API"])
broker.request("GET", "/2018-06-01/runtime/invocation/next")
given = broker.getresponse()
part = int(given.read())
event = given.headers["Lambda-Runtime-Aws-Request-Id"]
answer = socket.create_connection((broker.host, broker.port))
head = f"POST /2018-06-01/runtime/invocation/{event}/response HTTP/1.1\\r\\nHost: 127.0.0.1\\r\\nContent-Length: 6\\r\\n\\r\\n"
answer.sendall(head.encode() + b'"done"'[:part])
os._exit(7)
"""


@case({"retries": 0})
def an_answer_counts_where_it_was_sent_to_its_end_before_the_death(broker):
    broker.serve()
    with supervised(broker, ["python3", "-c", ENDS]):
        for n in range(6):
            part = 6 if n % 2 else 5
            event = broker.invoke(str(part)).id
            record = ended(broker, event, "success" if part == 6 else "failure")
            wanted = "done" if part == 6 else f"RequestId: {event} Error: Runtime exited with error: exit status 7"
            same(record["responsePayload"] if part == 6 else record["responsePayload"]["errorMessage"], wanted)


@case()
def who_dies_before_it_polls_is_started_ever_more_rarely(broker):
    broker.serve()
    with supervised(broker, ["false"]) as runtime:
        said = until("four lives", lambda: len(runtime.lines()) > 3 and runtime.lines())
        same([int(re.search("again in ([0-9]+) s", line)[1]) for line in said[:4]], [1, 2, 4, 8])


@case({"retries": 0})
def its_own_end_by_a_signal_is_in_order(broker):
    broker.serve()
    with supervised(broker) as runtime:
        broker.until_parked(1)
        event = broker.invoke('{"waits":900}').id
        runtime.has(event)
        process = runtime.process()
        same(runtime.end(), 0)
        told = ended(broker, event, "failure")["responsePayload"]
        same(told["errorMessage"], f"RequestId: {event} Error: Runtime exited with error: signal: terminated")
        same(os.path.exists(f"/proc/{process}"), False)
    # What it was given while no process was there to read it.
    with supervised(broker, ["sh", "-c", f"[ -e {broker.folder}/x ] || {{ touch {broker.folder}/x; exec {FUNCTION}; }}; sleep 900"]) as runtime:
        broker.until_parked(1)
        runtime.kill()
        until("another process", runtime.process)
        event = broker.invoke("{}").id
        broker.until_number('events{standing="running"}', 1)
        same(runtime.end(), 0)
        same(ended(broker, event, "failure")["responsePayload"]["errorType"], "Runtime.ExitError")


@case({"timeout": 3})
def its_own_death_is_over_by_the_timeout(broker):
    broker.serve()
    with supervised(broker) as runtime:
        broker.until_parked(1)
        runtime.end(signal.SIGKILL)
    # Its poll is parked until a new one takes its place.
    with supervised(broker) as runtime:
        until_polled(broker, runtime)
        event = broker.invoke('{"waits":900}').id
        runtime.has(event)
        runtime.end(signal.SIGKILL)
        same(event_of(broker, event)["standing"], "running")
        told = until("the timeout", lambda: (lambda told: told["failures"] and told)(event_of(broker, event)))
        same((told["standing"], told["starts"], told["answerBytes"]), ("due again", 1, 0))


# The broker goes, and comes again


@case({"events": 32}, slow=True)
def a_broker_that_goes_and_comes_again_is_served(broker):
    broker.serve()
    ports = broker.ports = Kept(broker.ports)
    try:
        with supervised(broker) as runtime:
            for n in range(6):
                broker.until_parked(1)
                if n % 2:
                    same(broker.stop(), (202, 0, ""))
                else:
                    broker.kill()
                if n > 3:
                    # It goes in the pause, or while the runtime's next process looks for it.
                    time.sleep(n - 3)
                broker.serve(ports=ports)
                event = broker.invoke("{}").id
                answered_at_once(broker, event)
                runtime.has(event)
            # In an event: it is put back, and the answer of before counts for nothing.
            event = broker.invoke('{"waits":3}').id
            runtime.has(event)
            broker.kill()
            broker.serve(ports=ports)
            record = ended(broker, event)["requestContext"]
            same((record["condition"], record["approximateInvokeCount"]), ("Success", 2))
            same(broker.number("attempts_started_total"), 1)
    finally:
        broker.end()
        ports.ports.close()


# Nothing else differs


def raw(port, request):
    """What is answered to these bytes until the connection's end, without its dates."""
    with socket.create_connection(("127.0.0.1", port), timeout=DEADLINE) as client:
        told = b""
        if b"100-continue" in request:
            head, _, request = request.partition(b"\r\n\r\n")
            client.sendall(head + b"\r\n\r\n")
            while not told.endswith(b"\r\n\r\n") and (piece := client.recv(1)):
                told += piece
        for at in range(0, len(request), 1 << 16):
            if select.select([client], [], [], 0)[0]:
                break
            client.sendall(request[at : at + (1 << 16)])
        while piece := client.recv(1 << 16):
            told += piece
    return re.sub(rb"(?i)\r\ndate: [^\r]*", b"", told)


def replied(port, request):
    """The same, once there is a reply: a head that takes 30 seconds, on a busy machine, has none."""
    return until("a reply", lambda: sends_much(raw, port, request), 4 * DEADLINE)


def request(method, path, *fields, body=b"", version="1.1"):
    lines = "".join(f"{field}\r\n" for field in (f"{method} {path} HTTP/{version}", "Host: 127.0.0.1:1", *fields))
    return lines.encode() + b"\r\n" + body


ID = "00000000-0000-4000-8000-000000000009"
CLOSE = "Connection: close"
RESPONSE, ERROR = f"{RUNTIME}/invocation/{ID}/response", f"{RUNTIME}/invocation/{ID}/error"


def requests():
    """Requests to an environment's port of whose replies each byte is known to the broker alone, and parts of the reply."""
    yield request("GET", "/x", CLOSE), b"404 Not Found"
    yield request("GET", "/x") + request("PUT", RESPONSE, "Content-Length: 2", body=b"ab") + request("GET", "/y", CLOSE), b"405 Method"
    yield request("POST", RESPONSE, CLOSE, "Content-Length: 3", body=b'"a"'), b"InvalidRequestID"
    yield request("POST", RESPONSE, "Content-Length: 3", body=b'"a"', version="1.0"), b"HTTP/1.0 400"
    chunks = b"3;x=y\r\n\"a\"\r\n" + b"1000\r\n" + 4096 * b" " + b"\r\n0\r\nLambda-Runtime-Function-Error-Type: x\r\n\r\n"
    yield request("POST", RESPONSE, CLOSE, "Transfer-Encoding: chunked", "Trailer: x", body=chunks), b"InvalidRequestID"
    cause = f"Lambda-Runtime-Function-XRay-Error-Cause: {1000000 * 'x'}"
    yield request("POST", ERROR, CLOSE, cause, "Content-Length: 2", body=b"{}"), b"InvalidRequestID"
    yield request("POST", ERROR, CLOSE, f"X: {70000 * 'x'}", "Content-Length: 2", body=b"{}"), b"431 Request"
    yield request("POST", ERROR, CLOSE, f"X: {5000000 * 'x'}", "Content-Length: 2", body=b"{}"), b"431 Request"
    for size in 262145, 6 << 20:
        yield request("POST", RESPONSE, f"Content-Length: {size}", CLOSE, body=size * b" "), b"413 Payload"
    yield request("POST", RESPONSE, f"Content-Length: {20 << 20}", CLOSE, body=size * b" "), b"413 Payload"
    yield request("POST", RESPONSE, "Expect: 100-continue", "Content-Length: 2", CLOSE, body=b"{}"), b"100 Continue\r\n\r\nHTTP/1.1 400"
    yield request("POST", RESPONSE, "Expect: 100-continue", f"Content-Length: {20 << 20}", CLOSE), b"413 Payload"
    for path in f"{RUNTIME}/invocation/next", RESPONSE:
        yield request("GET", path, "Origin: http://a.example", CLOSE), b"CrossOrigin"
        yield request("GET", path, CLOSE).replace(b"127.0.0.1:1", b"a.example"), b"UnknownHost"
    yield request("POST", RESPONSE, "Content-Length: x", CLOSE, body=b"{}"), b"400 Bad Request"
    yield b"GET\r\n\r\n", b"400 Bad Request"
    yield request("GET", f"{EXTENSION}/event/next", f"Lambda-Extension-Identifier: {ID}", CLOSE), b"UnknownExtension"


@case({"response": 262144, "sectors": 20000})
def each_reply_is_the_brokers_byte_for_byte(broker):
    broker.serve()
    port = broker.port + 19
    with supervised(broker, ["sleep", "900"], listen=port) as runtime:
        until("the supervisor", runtime.process)
        for what, part in requests():
            wanted, found = (replied(asked, what) for asked in (broker.port + 1, port))
            assert part in wanted, (what[:200], wanted)
            same((what[:200], found), (what[:200], wanted))


@case({"payload": 1048576, "response": 262144, "sectors": 90000, "retries": 0})
def large_events_and_answers_pass_as_they_are(broker):
    broker.serve()
    port = broker.port + 19
    with supervised(broker, ["sleep", "900"], listen=port) as runtime:
        until("the supervisor", runtime.process)
        payload, answer = json.dumps(1048574 * "p"), json.dumps(262142 * "a")
        for path, side in ("response", "success"), ("error", "failure"):
            told = []
            for asked in broker.port + 1, port:
                poll = Asked(asked, "GET", f"{RUNTIME}/invocation/next")
                broker.until_parked(1)
                event = broker.invoke(payload).id
                given = poll.done()
                same((given.id, given.body), (event, payload.encode()))
                headers = {"Content-Type": "application/vnd.aws.lambda.error+json", "Lambda-Runtime-Function-Error-Type": "x"}
                taken = Asked(asked, "POST", f"{RUNTIME}/invocation/{event}/{path}", answer, headers).done()
                record = ended(broker, event, side)
                same(record["responsePayload"], answer[1:-1])
                told.append((sorted(given.headers.keys()), taken.status, taken.body, sorted(taken.headers.keys())))
            same(told[0], told[1])
        same(runtime.lines(), [])


@case()
def an_answer_in_chunks_reaches_its_event(broker):
    broker.serve()
    port = broker.port + 19
    with supervised(broker, ["sleep", "900"], listen=port) as runtime:
        until("the supervisor", runtime.process)
        chunks = b'4\r\n"chu\r\n', b'4;x="y"\r\nnks"\r\n', b"0\r\nX-Trailer: x\r\n", b"\r\n"
        event = broker.invoke("{}").id
        same(Asked(port, "GET", f"{RUNTIME}/invocation/next").done().id, event)
        with socket.create_connection(("127.0.0.1", port), timeout=DEADLINE) as client:
            client.sendall(request("POST", f"{RUNTIME}/invocation/{event}/response", "Transfer-Encoding: chunked", "Trailer: X-Trailer"))
            for chunk in chunks:
                time.sleep(0.05)
                client.sendall(chunk)
            same(client.recv(1 << 16).split(b"\r\n")[0], b"HTTP/1.1 202 Accepted")
        same(ended(broker, event)["responsePayload"], "chunks")


@case()
def another_user_is_refused(broker):
    if os.getuid():
        raise Apart("this is not root")
    broker.serve()
    port = broker.port + 19
    needs("curl")
    with supervised(broker, ["sleep", "900"], listen=port) as runtime:
        until("the supervisor", runtime.process)
        words = ["curl", "-s", f"http://127.0.0.1:{port}{RUNTIME}/invocation/next"]
        done = subprocess.run(words, user=65534, capture_output=True, timeout=DEADLINE, cwd="/")
        # No reply, or a connection that was reset.
        assert done.returncode in (52, 56) and not done.stdout, done
        same((broker.number("parked_polls"), "user 65534" in runtime.lines()[0]), (0, True))


@case({"retries": 0})
def extensions_of_its_process_group_begin_anew_with_it(broker):
    broker.serve("--extensions", "1")
    script = f"{os.path.join(EXAMPLES, 'extension.py')} > {broker.folder}/told & exec {FUNCTION}"
    with supervised(broker, ["sh", "-c", script]) as runtime:
        for n in range(4):
            broker.until_parked(2)
            if n % 2:
                runtime.kill()
                until("a reset", lambda: broker.stderr().count("an extension ended") == 1 + n)
            else:
                event = broker.invoke('{"exit":1}').id
                same(ended(broker, event, "failure")["responsePayload"]["errorType"], "Runtime.ExitError")
                runtime.has(event)
            broker.until_parked(2)
            event = broker.invoke("{}").id
            answered_at_once(broker, event)
            runtime.has(event)
            with open(os.path.join(broker.folder, "told")) as told:
                until("the extension's event", lambda: told.seek(0) or event in told.read())
