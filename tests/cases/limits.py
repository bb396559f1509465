"""The limits of ports: how large heads and bodies may be, how long a client may take, and how many there may be."""
import contextlib
import email.utils
import http.client
import os
import re
import resource
import subprocess
import time

from harness import (
    CONNECTIONS, DEADLINE, EVENT, FEW_FILES, IDLE, INVOKE, LINGER, REQUEST, RUNTIME, Asked, Ports, Skipped, case, crowd, needs, same,
    sends_much, until
)

# The lines of an invoke before those on its body, and a request that ends its connection.
INVOKES = f"POST {INVOKE} HTTP/1.1\r\nhost: h\r\nx-amz-invocation-type: Event\r\n"
LAST = "GET /x HTTP/1.1\r\nhost: h\r\nconnection: close\r\n\r\n"


def told_to_the_end(client, seconds=DEADLINE):
    """What a client is told up to the end of its connection."""
    client.settimeout(seconds)
    told = b""
    while more := client.recv(4096):
        told += more
    return told


def told_until(client, end):
    """What a client is told, up to this."""
    client.settimeout(DEADLINE)
    told = b""
    while end not in told:
        more = client.recv(4096)
        assert more, f"the connection ended behind {told!r}"
        told += more
    return told


def statuses_in(told):
    """The statuses of the replies of a connection."""
    return [int(status) for status in re.findall(rb"HTTP/1\.1 ([0-9]+) ", told)]


def is_last(told, status):
    """Just one reply is told. It has this status and a date, and says that its connection ends."""
    same((statuses_in(told), told[:5]), ([status], b"HTTP/"))
    head = told.lower().split(b"\r\n\r\n")[0].split(b"\r\n")
    assert b"connection: close" in head and any(line.startswith(b"date: ") for line in head), told


@case()
def bodies_that_are_too_large_are_refused_by_size(broker):
    broker.serve()
    same(broker.invoke('"' + 1022 * "x" + '"').status, 202)
    for size in (1025, 100000, 3000000):
        answer = sends_much(broker.invoke, size * "1")
        same((answer.status, answer.type), (413, "TooLarge"))
    answer = sends_much(broker.ask, "POST", INVOKE, 100000 * "1")
    same((answer.status, answer.type), (400, "UnsupportedInvocationType"))
    same(sends_much(broker.ask, "POST", "/x", 100000 * "1").status, 404)
    same(sends_much(broker.ask, "PUT", INVOKE, 100000 * "1").status, 405)


@case()
def an_answer_that_is_too_large_leaves_the_attempt_running(broker):
    broker.serve()
    event = broker.invoke("{}").id
    same(broker.next().id, event)
    refused = broker.respond(event, 1025 * "1")
    same((refused.status, refused.type), (413, "TooLarge"))
    same(broker.number('events{standing="running"}'), 1)
    same(broker.respond(event, 1024 * "1").status, 202)


@case({"payload": 1048576, "events": 2, "sectors": 20000})
def a_payload_of_1_mib_lives_to_its_record(broker):
    broker.serve()
    payload = '"' + 1048574 * "x" + '"'
    event = broker.invoke(payload).id
    over = broker.invoke(payload + " ")
    same((over.status, over.type), (413, "TooLarge"))
    broker.kill()
    broker.serve()
    given = broker.next()
    same((given.id, given.body.decode() == payload), (event, True))
    same(broker.respond(event, "{}").status, 202)
    record = broker.record().json
    same((record["requestContext"]["requestId"], len(record["requestPayload"])), (event, 1048574))
    same(broker.delete(event).status, 204)
    same(broker.stop(), (202, 0, ""))


@case({"payload": 262144, "sectors": 20000})
def a_body_in_too_many_chunks_is_refused_by_size(broker):
    broker.serve()
    began = time.monotonic()
    with broker.socket() as client:
        client.sendall(f"{INVOKES}transfer-encoding: chunked\r\n\r\n".encode())
        with contextlib.suppress(OSError):
            for _ in range(700):
                client.sendall(b"1\r\n1\r\n" * 100)
        said = client.recv(4096)
    # The limit of time comes first where the machine is so busy that so many chunks are not read within it.
    assert b" 413 " in said or time.monotonic() > began + REQUEST and b" 202 " not in said, said
    same(broker.number("events_accepted_total"), 0)


@case()
def heads_that_are_no_request_are_refused(broker):
    broker.serve()
    for head, status in (
        (b"GET\r\n\r\n", b" 400 "),
        (b"GET / HTTP/1.1\r\n\r\n", b" 400 "),
        (b"GET / HTTP/1.1\r\nhost: h\r\n" + b"x: y\r\n" * 200 + b"\r\n", b" 431 "),
        (b"GET / HTTP/1.1\r\nhost: h\r\nx: " + b"y" * 70000 + b"\r\n\r\n", b" 431 "),
    ):
        with broker.socket() as client:
            client.sendall(head)
            said = client.recv(4096)
            assert status in said, (head[:40], said)
    same(broker.invoke("{}").status, 202)


@case()
def a_connection_serves_many_requests(broker):
    broker.serve()
    connection = http.client.HTTPConnection("127.0.0.1", broker.port, timeout=DEADLINE)
    ids = set()
    for _ in range(8):
        connection.request("POST", INVOKE, "{}", EVENT)
        reply = connection.getresponse()
        same((reply.status, reply.read()), (202, b""))
        ids.add(reply.headers["X-Amzn-RequestId"])
    same(len(ids), 8)


@case()
def requests_that_are_sent_at_once_are_answered_in_turn(broker):
    broker.serve()
    with broker.socket() as client:
        oldest = "GET /broker/destinations/success HTTP/1.1\r\nhost: h\r\n\r\n"
        client.sendall(f"{INVOKES}content-length: 2\r\n\r\n{{}}{oldest}{LAST}".encode())
        same(statuses_in(told_to_the_end(client)), [202, 204, 404])
    same(broker.stop(), (202, 0, ""))


@case()
def a_silent_client_does_not_hold_the_end(broker):
    broker.serve()
    with broker.socket() as half, broker.socket():
        half.sendall(f"POST {INVOKE} HTTP/1.1\r\nhost: h\r\ncontent-length: 9\r\n\r\n{{}}".encode())
        broker.until_read()
        same(broker.stop(), (202, 0, ""))


@case()
def a_body_is_asked_for_where_its_length_is_not_refused(broker):
    broker.serve()
    head = f"{INVOKES}expect: 100-continue\r\ncontent-length: "
    with broker.socket() as client:
        client.sendall(f"{head}1048576\r\n\r\n".encode())
        is_last(told_to_the_end(client), 413)
    with broker.socket() as client:
        client.sendall(f"{head}2\r\n\r\n".encode())
        same(told_until(client, b"\r\n\r\n"), b"HTTP/1.1 100 Continue\r\n\r\n")
        client.sendall(b"{}")
        assert told_until(client, b"\r\n\r\n").startswith(b"HTTP/1.1 202 ")


@case()
def a_reply_before_a_body_was_read_to_its_end_is_the_last(broker):
    broker.serve()
    chunks = 2 * f"1000\r\n{4096 * '1'}\r\n" + "0\r\n\r\n"
    for sent in (
        # All of it comes, and a good request behind it;
        f"{INVOKES}transfer-encoding: chunked\r\n\r\n{chunks}{INVOKES}content-length: 2\r\n\r\n{{}}",
        # and of this no more comes, which is given up long before an idle connection is.
        f"{INVOKES}content-length: 100000\r\n\r\n{{}}",
    ):
        with broker.socket() as client:
            client.sendall(sent.encode())
            is_last(told_to_the_end(client), 413)
    same(broker.number("commands_issued_total"), 0)
    same(broker.stop(), (202, 0, ""))


@case()
def each_reply_has_a_date(broker):
    broker.serve()
    began = int(time.time())
    accepted, event = broker.invoke("{}"), broker.next()
    replies = [accepted, event, broker.respond(event.id, "ok"), broker.record(), broker.delete(event.id), broker.record()]
    replies += [broker.ask("GET", "/x"), broker.invoke("x"), sends_much(broker.invoke, 3000000 * "1"), broker.ask("PUT", INVOKE)]
    same([reply.status for reply in replies], [202, 200, 202, 200, 204, 204, 404, 400, 413, 405])
    for reply in replies:
        dated = email.utils.parsedate_to_datetime(reply.headers["Date"]).timestamp()
        assert began <= dated <= time.time(), reply.headers["Date"]


# The header in which a runtime tells the cause of an error.
CAUSE = "Lambda-Runtime-Function-XRay-Error-Cause"


@case({"retries": 0})
def an_error_with_a_long_cause_is_reported(broker):
    broker.serve()
    runtime = http.client.HTTPConnection("127.0.0.1", broker.port + 1, timeout=DEADLINE)
    # The first answer comes in chunks, in which the cause of no head stands, and the last in a head that is too long.
    chunks = [b'"\r\n', f"{CAUSE}: x\r\n".encode(), b'\r\n"']
    for body, cause, path, status in (
        (iter(chunks), "", "response", 202), (b"1", 900000 * "y", "error", 202), (b"2", 1100000 * "z", "error", 431)
    ):
        accepted = broker.invoke("{}").id
        same(broker.next().id, accepted)
        runtime.request("POST", f"{RUNTIME}/invocation/{accepted}/{path}", body, {CAUSE: cause})
        reply = runtime.getresponse()
        reply.read()
        same(reply.status, status)
    same(broker.record().json["responsePayload"], b"".join(chunks).decode())
    failed = broker.record("failure").json
    same((failed["requestContext"]["condition"], failed["responsePayload"]), ("RetriesExhausted", 1))


@case()
def a_cause_in_a_body_is_no_part_of_a_head(broker):
    broker.serve()
    events = [broker.invoke("{}").id for _ in range(2)]
    # A body begins and ends as what is left out of a head does, and behind the chunk of one a trailer stands.
    body = f"\r\n{CAUSE}: x\r"
    length = f"content-length: {len(body)}\r\n\r\n{body}"
    chunk = f"transfer-encoding: chunked\r\n\r\n{len(body):x}\r\n{body}\r\n0\r\n{CAUSE}: x\r\n\r\n"
    sent = ""
    for event, rest in zip(events, (length, chunk)):
        sent += f"GET {RUNTIME}/invocation/next HTTP/1.1\r\nhost: h\r\n\r\n"
        sent += f"POST {RUNTIME}/invocation/{event}/response HTTP/1.1\r\nhost: h\r\n{CAUSE}: {900000 * 'y'}\r\n{rest}"
    with broker.socket(1) as client:
        client.sendall(f"{sent}{LAST}".encode())
        same(statuses_in(told_to_the_end(client)), [200, 202, 200, 202, 404])
    for event in events:
        record = broker.record().json
        same((record["requestContext"]["requestId"], record["responsePayload"]), (event, body))
        same(broker.delete(event).status, 204)


@case()
def a_head_that_is_too_long_is_told_so(broker):
    broker.serve()
    for environment, name, size in (
        (0, "x", 70000), (0, "x", 5000000), (1, "x", 70000), (1, "x", 5000000), (1, CAUSE, 1200000)
    ):
        answer = sends_much(broker.ask, "GET", "/x", None, {name: size * "y"}, environment)
        same((answer.status, answer.headers["Connection"]), (431, "close"))
    same(sends_much(broker.ask, "GET", "/x", None, {CAUSE: 70000 * "y"}).status, 431)
    same(broker.ask("GET", "/x", None, {CAUSE: 70000 * "y"}, 1).status, 404)


@case()
def what_fills_a_target_does_not_change_how_it_is_judged(broker):
    broker.serve()
    for part in ("/", "/a", "%61", "/%61", "a&", ":"):
        target = "/a" + 60000 // len(part) * part
        same([(part, broker.ask("GET", target, environment=environment).status) for environment in (0, 1)], 2 * [(part, 404)])
    for part in ("&", "a&", "%61&", "Qualifier=$LATEST&"):
        many = 60000 // len(part) * part
        same((part, broker.ask("POST", f"{INVOKE}?{many}", "{}", EVENT).status), (part, 202))
        same((part, broker.ask("POST", f"{INVOKE}?{many}Qualifier=1", "{}", EVENT).status), (part, 404))
        same((part, broker.ask("GET", f"{RUNTIME}/invocation/none?{many}", environment=1).status), (part, 404))


@case()
def an_early_refusal_behind_a_large_body_arrives(broker):
    broker.serve()
    for environment, path in (0, "/x"), (1, "/x"), (1, f"{RUNTIME}/invocation/x/response"):
        for size in (1 << 20, 7 << 20):
            status = 404 if path == "/x" else 413
            answer = sends_much(broker.ask, "POST", path, size * b"1", environment=environment)
            same((answer.status, answer.headers["Connection"]), (status, "close"))


# Clients that go on after a large body

# How large the bodies are that are larger than the limit, in MiB, and how often each is sent, with a good one behind it.
LARGE, TURNS = (1, 3, 7), 10


def nothing_is_lost(broker, ask):
    """Each large body is told 413, and each good one behind it on the same client is accepted and held."""
    broker.serve()
    for mebibytes in LARGE:
        told = ask(mebibytes << 20)
        same([status for status, _ in told[1::2]], TURNS * [202])
        # A connection may break where the machine is so busy that a port reads no longer on.
        same([told for told in told[::2] if told[0] != 413 and told[1] < LINGER], [])
        same(len(told), 2 * TURNS)
    same(broker.stop(), (202, 0, ""))
    same(broker.held(), len(LARGE) * TURNS)


def told_by_program(words):
    """The statuses that a program prints, or what came in the place of one, and how many seconds each took, in a line of its own."""
    needs(words[0])
    done = subprocess.run(words, capture_output=True, text=True, timeout=8 * DEADLINE)
    lines = [line.rsplit(" ", 1) for line in done.stdout.splitlines()]
    return [(int(status) if status.isdigit() else status, float(seconds)) for status, seconds in lines]


@case({"events": 64})
def a_client_that_goes_on_after_a_large_body_loses_nothing(broker):
    def ask(size):
        client, told = http.client.HTTPConnection("127.0.0.1", broker.port, timeout=DEADLINE), []
        for body in TURNS * (size * b"1", b"{}"):
            began = time.monotonic()
            try:
                client.request("POST", INVOKE, body, EVENT)
                reply = client.getresponse()
                reply.read()
                status = reply.status
                same(reply.headers["Connection"], "close" if len(body) == size else None)
            except (OSError, http.client.HTTPException) as why:
                client.close()
                status = repr(why)
            told.append((status, time.monotonic() - began))
        client.close()
        return told

    nothing_is_lost(broker, ask)


@case({"events": 64})
def curl_that_goes_on_after_a_large_body_loses_nothing(broker):
    def ask(size):
        large = os.path.join(broker.folder, "large")
        with open(large, "wb") as body:
            body.write(size * b"1")
        url = f"http://127.0.0.1:{broker.port}{INVOKE}"
        each = ["-s", "-o", "/dev/null", "-w", "%{http_code} %{time_total}\\n", "-H", "X-Amz-Invocation-Type: Event", url]
        words = []
        for body in TURNS * (f"@{large}", "{}"):
            words += ["--next", *each, "--data-binary", body]
        return told_by_program(["curl", *words[1:]])

    nothing_is_lost(broker, ask)


# Asks by turns with a body of so many bytes and with a good one, on one agent, and prints each status and how long it took.
BY_NODE = """
const http = require("http");
const [port, path, size, turns] = process.argv.slice(1);
const agent = new http.Agent({ keepAlive: true, maxSockets: 1 });
const headers = { "X-Amz-Invocation-Type": "Event" };
function ask(body, then) {
  const began = Date.now();
  let isTold = false;
  function tell(what) {
    if (isTold) return;
    isTold = true;
    console.log(what, (Date.now() - began) / 1000);
    then();
  }
  const request = http.request({ agent, port, path, method: "POST", host: "127.0.0.1", headers }, (reply) => {
    reply.resume();
    reply.on("end", () => tell(reply.statusCode));
  });
  request.on("error", (why) => tell(why.code));
  request.end(body);
}
function turn(left) {
  if (left > 0) ask(Buffer.alloc(Number(size), "1"), () => ask("{}", () => turn(left - 1)));
  else agent.destroy();
}
turn(Number(turns));
"""


@case({"events": 64})
def node_that_goes_on_after_a_large_body_loses_nothing(broker):
    nothing_is_lost(
        broker, lambda size: told_by_program(["node", "-e", BY_NODE, "--", str(broker.port), INVOKE, str(size), str(TURNS)])
    )


# The same by the client of Java.
BY_JAVA = """
import java.net.URI;
import java.net.http.HttpClient;
import java.net.http.HttpRequest;
import java.net.http.HttpResponse;
import java.util.Arrays;

public class Ask {
  public static void main(String[] words) throws Exception {
    HttpClient client = HttpClient.newBuilder().version(HttpClient.Version.HTTP_1_1).build();
    URI uri = URI.create("http://127.0.0.1:" + words[0] + words[1]);
    byte[] large = new byte[Integer.parseInt(words[2])];
    Arrays.fill(large, (byte) '1');
    for (int turn = 0; turn < Integer.parseInt(words[3]); turn++) {
      for (byte[] body : new byte[][] {large, "{}".getBytes()}) {
        HttpRequest request = HttpRequest.newBuilder(uri)
            .header("X-Amz-Invocation-Type", "Event")
            .POST(HttpRequest.BodyPublishers.ofByteArray(body))
            .build();
        long began = System.nanoTime();
        String told;
        try {
          told = "" + client.send(request, HttpResponse.BodyHandlers.discarding()).statusCode();
        } catch (java.io.IOException why) {
          told = why.toString();
        }
        System.out.println(told + " " + (System.nanoTime() - began) / 1e9);
      }
    }
  }
}
"""


@case({"events": 64})
def java_that_goes_on_after_a_large_body_loses_nothing(broker):
    program = os.path.join(broker.folder, "Ask.java")
    with open(program, "w") as source:
        source.write(BY_JAVA)
    needs("java")
    # A runtime alone has no compiler, and then runs no source.
    found = subprocess.run(["java", "--list-modules"], capture_output=True, text=True, timeout=DEADLINE).stdout
    if "jdk.compiler" not in found:
        raise Skipped("there is no java with a compiler")
    nothing_is_lost(
        broker, lambda size: told_by_program(["java", program, str(broker.port), INVOKE, str(size), str(TURNS)])
    )


# Limits of time, and of open files

def ends_at(client, began, limit, fewer=1):
    """What a client is told up to the end of its connection, which comes when this limit has passed since then, and no longer one."""
    told = told_to_the_end(client, limit + DEADLINE)
    took = time.monotonic() - began
    assert took > limit - fewer, f"it took {took:.1f} s"
    return told


@case(slow=True)
def a_head_that_is_cut_off_ends_its_connection(broker):
    broker.serve()
    began = time.monotonic()
    with broker.socket() as client:
        client.sendall(b"GET / HTTP/1.1\r\nho")
        same(ends_at(client, began, REQUEST), b"")


@case(slow=True)
def a_head_that_trickles_in_ends_its_connection(broker):
    broker.serve()
    began = time.monotonic()
    with broker.socket() as client:
        client.sendall(b"GET / HTTP/1.1\r\nhost: ")
        for _ in range(10):
            # This is what trickles: no condition is waited for.
            time.sleep(2)
            client.sendall(b"h")
        same(ends_at(client, began, REQUEST), b"")


@case(slow=True)
def a_body_that_is_cut_off_is_answered_408(broker):
    broker.serve()
    began = time.monotonic()
    with broker.socket() as client:
        client.sendall(f"{INVOKES}content-length: 9\r\n\r\n{{}}".encode())
        is_last(ends_at(client, began, REQUEST), 408)
    same(broker.stop(), (202, 0, ""))


@case(slow=True)
def an_idle_connection_is_closed(broker):
    broker.serve()
    began = time.monotonic()
    with broker.socket() as new, broker.socket() as used:
        used.sendall(b"GET /x HTTP/1.1\r\nhost: h\r\n\r\n")
        told = told_until(used, b"}")
        assert told.startswith(b"HTTP/1.1 404 ") and b"\r\nconnection: " not in told.lower(), told
        same(ends_at(new, began, REQUEST), b"")
        same(ends_at(used, began, IDLE), b"")


@case(slow=True)
def a_parked_poll_outlives_all_limits(broker):
    broker.serve()
    parked = broker.send_next()
    broker.until_parked(1)
    # Longer than each limit, and than two of them behind each other: that it does not end is what is waited for.
    time.sleep(IDLE + 2 * REQUEST)
    accepted = broker.invoke("{}")
    same(parked.done().id, accepted.id)


@case()
def who_comes_when_all_connections_are_taken_waits_for_the_end_of_one(broker):
    if resource.getrlimit(resource.RLIMIT_NOFILE)[0] < 3 * CONNECTIONS:
        raise Skipped(f"fewer than {3 * CONNECTIONS} files may be open")
    broker.serve()

    def ask(client):
        client.sendall(b"GET /x HTTP/1.1\r\nhost: h\r\n\r\n")
        return client

    def hear(client):
        same(statuses_in(told_until(client, b"}")), [404])
        return client

    with contextlib.ExitStack() as open_ones:
        # All ask before one is heard: else a busy machine takes longer than a connection may be idle.
        asked = [ask(open_ones.enter_context(broker.socket())) for _ in range(CONNECTIONS)]
        first, second, *_ = [hear(client) for client in asked]
        late = Asked(broker.port, "GET", "/x")
        for _ in range(2):
            # Behind its reply the port's thread has seen who came before.
            hear(ask(first))
        same(late.is_answered(), False)
        second.close()
        same(late.done().status, 404)
    same(broker.stop(), (202, 0, ""))


@case({"events": 64})
def an_open_file_limit_does_not_end_it(broker):
    broker.serve(under=FEW_FILES)
    # Where a crowd takes the last files before each port has its own, the program ends at its start.
    broker.until_all_serve()
    with crowd(broker.port, 200):
        # It has as many open files as it may have, and does not go on accepting.
        until("all open files", lambda: len(os.listdir(f"/proc/{broker.served.pid}/fd")) >= 99)
    same(broker.invoke("{}").status, 202)


@case()
def too_few_open_files_to_begin_with_are_refused_in_words_of_the_system(broker):
    ports = Ports()
    few = ["bash", "-c", 'ulimit -n 9; exec "$@"', "bash"]
    status, told = broker.said("serve", broker.disk, "--port", ports.first, under=few)
    ports.close()
    same((status, told.splitlines()[-1]), (1, "refused: Too many open files (os error 24)"))


@case({"events": 64}, slow=True)
def idle_connections_at_the_limit_of_open_files_make_room(broker):
    broker.serve(under=FEW_FILES)
    # Where a crowd takes the last files before each port has its own, the program ends at its start.
    broker.until_all_serve()
    # The files are enough for some 85 of them, so that the caller comes behind three times as many at most.
    with crowd(broker.port, 300):
        same(served_at_last(broker, 5 * REQUEST + 2 * DEADLINE), 202)


def served_at_last(broker, seconds):
    """The status of a caller who comes again until it is served, for so long. What the system drops from a full queue is not told."""
    end = time.monotonic() + seconds
    while time.monotonic() < end:
        try:
            return broker.send_invoke("{}").done(1.5 * REQUEST).status
        except (OSError, http.client.HTTPException):
            time.sleep(1)
    return None
