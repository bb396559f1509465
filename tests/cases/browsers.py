"""Requests that a browser makes for a web page, and requests for hosts that are none of this machine."""
from harness import INVOKE, RUNTIME, case, same

PAGE = {"errorMessage": "requests of web pages are refused", "errorType": "CrossOrigin"}
HOST = {"errorMessage": "this host is not served here, see serve --host", "errorType": "UnknownHost"}

NEXT = f"{RUNTIME}/invocation/next"

# Hosts that may be those of a page whose name was made to lead here.
FOREIGN = [
    "site.example",
    "site.example:80",
    "SITE.Example.",
    "127.0.0.1.site.example",
    "127.0.0.1x.",
    "localhost.site.example:9",
    "x.localhost.site.example",
    "notlocalhost.example",
    "site.notlocalhost",
    "1.2.3.4a",
]

# Hosts that are none of a page.
OURS = [
    "localhost",
    "LOCALHOST:1",
    "localhost.",
    "foo.localhost",
    "a.b.LocalHost.:9000",
    "127.0.0.1",
    "127.0.0.1:9000",
    "10.0.0.7",
    "[::1]",
    "[::1]:9000",
    "[::ffff:127.0.0.1]:9000",
    "broker",
    "broker:9000",
    "BROKER.",
    "site",
]


def is_refused(answer, wanted):
    """It was refused by its head alone, in words, and its connection ends."""
    same((answer.status, answer.json), (403, wanted))
    same((answer.headers["Content-Type"], answer.headers["Connection"]), ("application/json", "close"))


def told(broker, *lines, environment=0, body=""):
    """What a port tells to a head of these lines until it ends the connection."""
    with broker.socket(environment) as to:
        to.sendall("".join(f"{line}\r\n" for line in (*lines, "")).encode() + body.encode())
        reply = b""
        while more := to.recv(65536):
            reply += more
    return reply.decode()


@case()
def no_page_stops_the_broker(broker):
    broker.serve()
    for origin in ("https://site.example", "null", "", f"http://127.0.0.1:{broker.port}"):
        is_refused(broker.ask("POST", "/broker/stop", headers={"Origin": origin}), PAGE)
    is_refused(broker.ask("POST", "/broker/stop", headers={"Sec-Fetch-Site": "cross-site"}), PAGE)
    is_refused(broker.ask("POST", INVOKE, "{}", {"X-Amz-Invocation-Type": "Event", "Origin": "null"}), PAGE)
    is_refused(broker.ask("OPTIONS", "/broker/stop", headers={"Origin": "https://site.example"}), PAGE)
    same((broker.look("/healthz").status, broker.number("events_accepted_total")), (200, 0))
    same(broker.invoke("{}").status, 202)
    same(broker.stop(), (202, 0, ""))


@case({"environments": 2})
def no_page_takes_an_event(broker):
    broker.serve()
    for site in ("cross-site", "same-site", "SAME-ORIGIN", "", "none, cross-site"):
        is_refused(broker.ask("GET", NEXT, headers={"Sec-Fetch-Site": site}, environment=1), PAGE)
    same(told(broker, f"GET {NEXT} HTTP/1.1", "Host: h", "Sec-Fetch-Site: none", "Sec-Fetch-Site: cross-site", environment=1)[:12], "HTTP/1.1 403")
    is_refused(broker.ask("POST", f"{RUNTIME}/init/error", "{}", {"Origin": "null"}, 1), PAGE)
    numbers = broker.numbers()
    same([numbers[name] for name in ("parked_polls", "open_slots", 'environments{phase="init"}')], [0, 0, 2])
    polls = [
        broker.send("GET", NEXT, None, {"Sec-Fetch-Site": site}, environment)
        for environment, site in ((1, "none"), (2, "same-origin"))
    ]
    broker.until_parked(2)
    events = {broker.invoke("{}").id for _ in polls}
    same({poll.done().id for poll in polls}, events)
    same(broker.stop(), (202, 0, ""))


@case()
def no_page_is_shown_what_an_operator_is(broker):
    broker.serve()
    for headers in ({"Origin": "https://site.example"}, {"Sec-Fetch-Site": "cross-site"}, {"Sec-Fetch-Site": "same-site"}):
        is_refused(broker.look("/events", headers=headers), PAGE)
    for site in ("none", "same-origin"):
        same(broker.look("/events", headers={"Sec-Fetch-Site": site}).status, 200)


@case()
def a_port_answers_to_no_host_of_another_site(broker):
    for words in ((), ("--dialect", "aws")):
        broker.serve(*words)
        for host in FOREIGN:
            for environment in 0, 1:
                is_refused(broker.ask("GET", "/x", headers={"Host": host}, environment=environment), HOST)
            is_refused(broker.look("/healthz", headers={"Host": host}), HOST)
        for host in OURS:
            asked = [broker.ask("GET", "/x", headers={"Host": host}, environment=environment).status for environment in (0, 1)]
            same((host, asked), (host, [404, 404]))
        for host in "localhost", "127.0.0.1:1":
            same(broker.look("/healthz", headers={"Host": host}).status, 200)
        # The operator's port has a list of its own.
        same(broker.look("/healthz", headers={"Host": "broker"}).headers["Content-Type"], "text/plain; charset=utf-8")
        same(broker.stop(), (202, 0, ""))


@case()
def a_request_may_name_no_host(broker):
    broker.serve()
    for environment in 0, 1:
        same(told(broker, "GET /x HTTP/1.0", environment=environment)[:12], "HTTP/1.0 404")
        same(told(broker, "GET /x HTTP/1.1", "Host:", "Connection: close", environment=environment)[:12], "HTTP/1.1 404")
    # HTTP/1.1 wants one, and no version two.
    hosts = [(), ("localhost", "site.example"), ("site.example", "localhost")]
    for lines in ([f"Host: {host}" for host in named] for named in hosts):
        same(told(broker, "GET /x HTTP/1.1", *lines, "Connection: close")[:12], "HTTP/1.1 400")


@case()
def a_port_answers_to_the_host_that_it_was_given(broker):
    broker.serve("--host", "Broker.example")
    for environment in 0, 1:
        for host in ("broker.example", "BROKER.EXAMPLE:9000", "broker.example.", "localhost", "127.0.0.1", "broker"):
            same((host, broker.ask("GET", "/x", headers={"Host": host}, environment=environment).status), (host, 404))
        for host in ("x.broker.example", "broker.example.org", "roker.example", "site.example"):
            is_refused(broker.ask("GET", "/x", headers={"Host": host}, environment=environment), HOST)
    is_refused(broker.ask("GET", "/x", headers={"Host": "broker.example", "Origin": "https://broker.example"}), PAGE)
    # What the operator's port itself refuses is a line of text.
    same(broker.look("/healthz", headers={"Host": "broker.example"}).headers["Content-Type"], "text/plain; charset=utf-8")
    is_refused(broker.look("/healthz", headers={"Host": "site.example"}), HOST)
    same(broker.stop(), (202, 0, ""))
    broker.serve("--host", "broker.example.:80")
    same(broker.ask("GET", "/x", headers={"Host": "broker.example:9000"}).status, 404)
    same(broker.stop(), (202, 0, ""))


@case()
def a_port_that_others_reach_answers_to_all_hosts(broker):
    broker.serve("--address", "0.0.0.0")
    for host in FOREIGN + OURS:
        for environment in 0, 1:
            same((host, broker.ask("GET", "/x", headers={"Host": host}, environment=environment).status), (host, 404))
    for host in FOREIGN:
        is_refused(broker.look("/healthz", headers={"Host": host}), HOST)
    is_refused(broker.ask("POST", "/broker/stop", headers={"Host": "site.example", "Origin": "http://site.example"}), PAGE)
    same(broker.stop(), (202, 0, ""))


@case()
def the_body_of_a_page_is_not_asked_for(broker):
    broker.serve()
    head = ["POST /broker/stop HTTP/1.1", "Host: localhost", "Origin: null", "Content-Length: 100"]
    reply = told(broker, *head, "Expect: 100-continue")
    same((reply[:12], "100 Continue" in reply, "CrossOrigin" in reply), ("HTTP/1.1 403", False, True))
    # What comes behind it is read by nobody, another request neither.
    reply = told(broker, *head, body=100 * "x" + "POST /broker/stop HTTP/1.1\r\nHost: localhost\r\n\r\n")
    same((reply[:12], reply.count("HTTP/1.1")), ("HTTP/1.1 403", 1))
    same(broker.invoke("{}").status, 202)
    same(broker.stop(), (202, 0, ""))
