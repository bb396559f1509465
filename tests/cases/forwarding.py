"""`deploy/lambda_forward` to a URL: a record is collected once that has taken it, and not before."""
import http.client
import http.server
import os
import subprocess
import threading

from harness import HERE, Beside, case, same, until

FORWARD = os.path.join(HERE, "..", "deploy", "lambda_forward")

LOGIN = b"<html>please log in</html>"


class Server(http.server.ThreadingHTTPServer):
    """A server on a port of its own, which answers until it is closed."""

    daemon_threads = True

    def __init__(self, handler):
        super().__init__(("127.0.0.1", 0), handler)
        self.asked, self.over = [], threading.Event()
        Beside(self.serve_forever, 0.02)

    def close(self):
        self.over.set()
        self.shutdown()
        self.server_close()

    def handle_error(self, *words):
        """A client that goes away is no fault."""


class Hook(Server):
    """Does to what is posted to it what it is told, for one post after another, and the last of it for all behind."""

    def __init__(self, *answers):
        self.answers, self.posted = answers, []
        super().__init__(Handler)

    @property
    def url(self):
        return f"http://127.0.0.1:{self.server_port}/hook"


class Handler(http.server.BaseHTTPRequestHandler):
    def do_POST(self):
        body = self.rfile.read(int(self.headers["Content-Length"]))
        self.server.asked.append(("POST", self.path))
        if self.path == "/hook":
            self.server.posted.append(body)
            answer = self.server.answers[min(len(self.server.posted), len(self.server.answers)) - 1]
            answer(self)
        else:
            tell(200, LOGIN)(self)

    def do_GET(self):
        self.server.asked.append(("GET", self.path))
        tell(200, LOGIN)(self)

    do_HEAD = do_PUT = do_GET

    def log_message(self, *words):
        pass


def tell(status, body=b"", **headers):
    """Answers so."""

    def answer(handler):
        handler.send_response(status)
        for name, value in headers.items():
            handler.send_header(name, value)
        if status != 204:
            handler.send_header("Content-Length", str(len(body)))
        handler.end_headers()
        handler.wfile.write(body)

    return answer


def hang(handler):
    """Says nothing."""
    handler.server.over.wait()


def drip(handler):
    """Begins an answer and says it byte by byte, so that each one comes in time and the whole never."""
    handler.wfile.write(b"HTTP/1.1 200 OK\r\nContent-Length: 1000000\r\n\r\n")
    while not handler.server.over.wait(0.1):
        handler.wfile.write(b" ")


def drip_head(handler):
    """The same, in the head."""
    handler.wfile.write(b"HTTP/1.1 200 OK\r\nX: ")
    while not handler.server.over.wait(0.1):
        handler.wfile.write(b" ")


def die_in(said):
    """Says this, and closes the connection."""

    def answer(handler):
        handler.wfile.write(said)
        handler.close_connection = True

    return answer


class Forwarder:
    """The forwarder of the successes of a broker, to this URL."""

    def __init__(self, broker, url, *words, port=None, env=None):
        self.told = open(os.path.join(broker.folder, "forwarded"), "w+")
        words = [FORWARD, port or broker.port, "success", url, *words]
        self.process = subprocess.Popen(list(map(str, words)), stderr=self.told, env={**os.environ, **(env or {})})

    def until_told(self, text):
        """Waits until it has said this on standard error: all that it has said."""

        def look():
            assert self.process.poll() is None, f"the forwarder ended: {self.said()}"
            return text in self.said()

        until(f"{text!r} of the forwarder", look)
        return self.said()

    def said(self):
        with open(self.told.name) as told:
            return told.read()

    def close(self):
        self.process.kill()
        self.process.wait()
        self.told.close()


def ended(broker):
    """An event that has succeeded, in a broker that is served."""
    broker.serve()
    return broker.live('{"a":1}', "ok")


def leaves(broker, event, answer, told):
    """A hook that answers so has not taken the record: it is told, the record stays, and nothing else is asked. Once the hook
    answers 200 the record is collected.
    """
    hook = Hook(answer, tell(200))
    forwarder = Forwarder(broker, hook.url)
    try:
        said = forwarder.until_told(told)
        assert event in said, said
        until("a second post", lambda: len(hook.posted) > 1)
        until("the collection", lambda: broker.record().status == 204)
        same((len(hook.posted), {path for _, path in hook.asked}), (2, {"/hook"}))
        same(hook.posted[0], hook.posted[1])
    finally:
        forwarder.close()
        hook.close()


def stays(broker, event, answer, told, *words):
    """A hook that always answers so is asked again and again, and the record stays."""
    hook = Hook(answer)
    forwarder = Forwarder(broker, hook.url, *words)
    try:
        forwarder.until_told(told)
        until("a second post", lambda: len(hook.posted) > 1)
        same(broker.record().json["requestContext"]["requestId"], event)
        same({path for _, path in hook.asked}, {"/hook"})
    finally:
        forwarder.close()
        hook.close()


@case()
def a_redirect_is_not_followed_and_leaves_the_record(broker):
    event = ended(broker)
    for status in 301, 302, 303, 307, 308:
        stays(broker, event, tell(status, Location="/other"), f"posting {event}: {status}, a redirect, which is not followed")
    for place in {"Location": "https://127.0.0.1:1/"}, {"Location": "//elsewhere.invalid/"}, {"Location": "nonsense:"}, {}:
        stays(broker, event, tell(302, **place), f"posting {event}: 302, a redirect, which is not followed")


@case()
def a_login_page_behind_a_redirect_takes_no_record(broker):
    event = ended(broker)
    login = Hook(tell(200, LOGIN))
    try:
        for status in 302, 303, 307:
            stays(broker, event, tell(status, LOGIN, Location=f"http://127.0.0.1:{login.server_port}/login"), f": {status}, a redirect")
        same(login.asked, [])
    finally:
        login.close()


@case()
def what_is_no_success_leaves_the_record_until_there_is_one(broker):
    broker.serve()
    for status in 400, 404, 413, 500, 503:
        leaves(broker, broker.live(f"{status}", "ok"), tell(status, b"no such\r\nhook"), f": {status}: no such hook: again in 1 s\n")


@case()
def each_success_collects_the_record(broker):
    broker.serve()
    for status in 200, 201, 202, 204, 299:
        event = broker.live(f"{status}", "ok")
        hook = Hook(tell(status, b"" if status == 204 else b"thanks"))
        forwarder = Forwarder(broker, hook.url)
        try:
            until("the collection", lambda: broker.record().status == 204)
            same((status, len(hook.posted), forwarder.said()), (status, 1, ""))
            same((broker.delete(event).status, event.encode() in hook.posted[0]), (404, True))
        finally:
            forwarder.close()
            hook.close()


@case()
def a_hook_that_hangs_is_left_after_the_timeout(broker):
    event = ended(broker)
    for answer in hang, drip, drip_head:
        stays(broker, event, answer, f"posting {event}: no answer: ", "--timeout", 0.5)


@case()
def a_hook_that_dies_in_its_answer_leaves_the_record(broker):
    event = ended(broker)
    for said in (
        b"", b"HTTP/1.1 2", b"HTTP/1.1 200 OK\r\nContent-Le", b"HTTP/1.1 200 OK\r\nContent-Length: 10\r\n\r\n", b"not HTTP at all\r\n\r\n",
        b"HTTP/1.1 200 OK\r\nContent-Length: 100000\r\n\r\n" + 70000 * b"x",
        b"HTTP/1.1 200 OK\r\nTransfer-Encoding: chunked\r\n\r\n5\r\nabcde\r\n", b"HTTP/1.1 200 OK\r\nTransfer-Encoding: chunked\r\n\r\n5\r\nab",
    ):
        stays(broker, event, die_in(said), f"posting {event}: no answer: ")


@case()
def a_proxy_of_the_environment_changes_nothing(broker):
    event = ended(broker)
    dead = {name: "http://127.0.0.1:1" for name in ("http_proxy", "HTTP_PROXY", "https_proxy", "HTTPS_PROXY", "all_proxy", "ALL_PROXY")}
    hook = Hook(tell(200))
    forwarder = Forwarder(broker, hook.url, "--admin", broker.admin, env={**dead, "no_proxy": "", "NO_PROXY": ""})
    try:
        until("the collection", lambda: broker.record().status == 204)
        same((len(hook.posted), forwarder.said(), event.encode() in hook.posted[0]), (1, "", True))
    finally:
        forwarder.close()
        hook.close()


@case()
def what_the_hook_does_not_take_is_in_no_list(broker):
    broker.serve("--acts")
    taken = [broker.live(f"{n}", "ok") for n in range(3)]
    left = broker.live("3", "ok")
    hook = Hook(tell(200), tell(200), tell(200), tell(500), tell(500), tell(200))
    forwarder = Forwarder(broker, hook.url, "--admin", broker.admin)
    try:
        said = forwarder.until_told(f"posting {left}: 500")
        until("the collection of the others", lambda: broker.number("records_collected_total") == 3)
        same(broker.record().json["requestContext"]["requestId"], left)
        until("the collection", lambda: broker.record().status == 204)
        same((len(hook.posted), [event for event in taken if event in said]), (6, []))
    finally:
        forwarder.close()
        hook.close()


class ProxyHandler(Handler):
    def do_POST(self):
        self.rfile.read(int(self.headers["Content-Length"]))
        self.server.asked.append(("POST", self.path, self.headers["Host"]))
        tell(204)(self)

    def do_CONNECT(self):
        self.server.asked.append(("CONNECT", self.path, None))
        tell(403)(self)


@case()
def a_proxy_that_is_told_is_for_the_hook_alone(broker):
    event = ended(broker)
    proxy = Server(ProxyHandler)
    told = ["--proxy", f"http://127.0.0.1:{proxy.server_port}"]
    forwarder = Forwarder(broker, "https://hook.invalid/in?a=b", *told)
    try:
        # What the proxy of a URL of TLS refuses is no answer of that URL.
        forwarder.until_told(f"posting {event}: no answer: ")
        same((proxy.asked[0], broker.record().status), (("CONNECT", "hook.invalid:443", None), 200))
        forwarder.close()
        proxy.asked.clear()
        forwarder = Forwarder(broker, "http://hook.invalid/in?a=b", *told)
        until("the collection", lambda: broker.record().status == 204)
        same(proxy.asked, [("POST", "http://hook.invalid/in?a=b", "hook.invalid")])
    finally:
        forwarder.close()
        proxy.close()


class Front(Server):
    """Stands before a broker's port, and answers the first deletions with these statuses."""

    def __init__(self, port, *statuses):
        self.port, self.statuses, self.deletes = port, list(statuses), []
        super().__init__(FrontHandler)


class FrontHandler(Handler):
    def do_GET(self):
        self.pass_on()

    def do_DELETE(self):
        self.server.deletes.append(self.path)
        if self.server.statuses:
            tell(self.server.statuses.pop(0), b"not now")(self)
        else:
            self.pass_on()

    def pass_on(self):
        asked = http.client.HTTPConnection("127.0.0.1", self.server.port)
        asked.request(self.command, self.path)
        reply = asked.getresponse()
        tell(reply.status, reply.read())(self)
        asked.close()


@case()
def a_collecting_that_fails_is_told_and_tried_again(broker):
    event = ended(broker)
    front, hook = Front(broker.port, 503, 302, 200), Hook(tell(200))
    forwarder = Forwarder(broker, hook.url, port=front.server_port)
    try:
        for status in "503", "302, a redirect, which is not followed", "200":
            forwarder.until_told(f"collecting {event}, which was taken: {status}: not now: again in ")
        until("the collection", lambda: broker.record().status == 204)
        same((len(hook.posted), front.deletes), (1, 4 * [f"/broker/destinations/{event}"]))
    finally:
        forwarder.close()
        front.close()
        hook.close()


@case()
def a_record_that_somebody_else_has_collected_is_told(broker):
    event = ended(broker)

    def collect(handler):
        same(broker.delete(event).status, 204)
        tell(200)(handler)

    hook = Hook(collect)
    forwarder = Forwarder(broker, hook.url)
    try:
        forwarder.until_told(f"collecting {event}, which was taken: it was there no more")
        same(len(hook.posted), 1)
    finally:
        forwarder.close()
        hook.close()


@case()
def words_that_the_forwarder_does_not_understand_are_usage_faults(broker):
    url = "http://127.0.0.1:1/"
    for words in (
        (), (1, "success"), (1, "success", "file:///etc/passwd"), (1, "success", "ftp://h/"), (1, "success", "/x"), (1, "success", "http://"),
        (1, "success", "http://a:b@h/"), (1, "success", "http://h:x/"), (1, "success", url, "--timeout", 0), (1, "success", url, "--timeout", -1),
        (1, "success", url, "--proxy", "h"), (1, "success", url, "--proxy", "https://h:1"), (1, "success", url, "--proxy", "http://h"),
        (1, "success", url, "--jobs", 0), (1, "success", url, "--jobs", 2),
    ):
        done = subprocess.run([FORWARD, *map(str, words)], capture_output=True, text=True, timeout=60)
        same((words, done.returncode, "usage:" in done.stderr), (words, 2, True))
