"""nginx before a broker, as `deploy/nginx.conf` and `deploy/nginx_operators.conf` set it up: but for ports, and where functions and
passwords stand, it is those files.
"""
import base64
import contextlib
import os
import re
import shutil
import socket
import subprocess
import tempfile
from urllib.parse import quote

from cases.dialect import by_boto3, called, in_dialect
from cases.limits import CAUSE
from harness import ARN, DEADLINE, EVENT, HERE, INVOKE, RUNTIME, Apart, Asked, Beside, Ports, case, same, until

# What stands around the file: one process, which writes below its own folder alone.
AROUND = """daemon off; master_process off; pid nginx.pid; error_log stderr; events {} http { access_log off;
client_body_temp_path body; proxy_temp_path proxy; fastcgi_temp_path fastcgi; uwsgi_temp_path uwsgi; scgi_temp_path scgi;
"""

# The functions, as lambda-broker-ctl writes them.
FUNCTIONS = """map $function $broker {{ default ""; "~^my-function$" broker-{0}; "~^send-mail$" broker-{1}; }}
map $function $operator {{ default ""; "~^my-function$" 127.0.0.1:{2}; "~^send-mail$" 127.0.0.1:{3}; }}
upstream broker-{0} {{ server 127.0.0.1:{0}; keepalive 64; }}
upstream broker-{1} {{ server 127.0.0.1:{1}; keepalive 64; }}
"""


class Proxy:
    """The proxy of a broker that is served, and of a second one, which is down unless it is given. It is asked by one more host, if one is."""

    def __init__(self, broker, folder, host="", second=None):
        self.ports = Ports()
        self.port, self.runtimes, self.operators, self.down, self.prometheus = range(self.ports.first, self.ports.first + 5)
        places = {"8080": self.port, "8081": self.runtimes, "8082": self.operators, "20001": broker.port + 1, "9090": self.prometheus}
        text = ""
        for name in "nginx.conf", "nginx_operators.conf":
            with open(os.path.join(HERE, "..", "deploy", name)) as file:
                text += re.sub("(127[.]0[.]0[.]1):([0-9]+)", lambda found: f"{found[1]}:{places[found[2]]}", file.read())
        text = text.replace("server_name localhost", f"server_name {host} localhost")
        passwords = os.path.join(folder, "passwords")
        with open(passwords, "w") as file:
            file.write("me:{PLAIN}secret\n")
        text = text.replace("/etc/nginx/lambda_broker.passwords", passwords)
        functions = os.path.join(folder, "functions.conf")
        of_second = (second.port, second.admin) if second else 2 * (self.down,)
        with open(functions, "w") as file:
            file.write(FUNCTIONS.format(broker.port, *of_second[:1], broker.admin, *of_second[1:]))
        with open(os.path.join(folder, "nginx.conf"), "w") as file:
            file.write(AROUND + text.replace("/etc/lambda_broker/nginx.conf", functions) + "}\n")
        self.told = os.path.join(folder, "stderr")
        with open(self.told, "wb") as stderr:
            self.nginx = subprocess.Popen(["nginx", "-p", folder, "-c", "nginx.conf", "-e", "stderr"], stderr=stderr)

    def listens(self):
        if self.nginx.poll() is not None:
            with open(self.told) as told:
                raise AssertionError(f"nginx ended: {told.read()}")
        with socket.socket() as probe:
            return probe.connect_ex(("127.0.0.1", self.port)) == 0

    def invoke(self, name):
        return Asked(self.port, "POST", f"/2015-03-31/functions/{name}/invocations", "{}", EVENT).done()

    def close(self):
        self.nginx.kill()
        self.nginx.wait()
        self.ports.close()


@contextlib.contextmanager
def before(broker, *words, **more):
    """The proxy of this broker."""
    if not shutil.which("nginx"):
        raise Apart("there is no nginx")
    with tempfile.TemporaryDirectory(prefix="lambda_broker.") as folder, contextlib.closing(Proxy(broker, folder, *words, **more)) as proxy:
        until("nginx", proxy.listens)
        yield proxy


def refusal(told):
    return told.status, told.headers["X-Amzn-ErrorType"], told.headers["Content-Type"], told.json


@case({"events": 64})
def nginx_leads_each_name_of_a_function_to_its_broker(broker):
    names = "my-function", "function:my-function", "123456789012:my-function", "123456789012:function:my-function", ARN
    with before(in_dialect(broker)) as proxy:
        for n, name in enumerate([name + end for name in names for end in ("", ":$LATEST")]):
            told = [proxy.invoke(spelling) for spelling in (name, quote(name, safe=""))]
            same((name, [reply.status for reply in told]), (name, [202, 202]))
            same(broker.number("events_accepted_total"), 2 * (n + 1))
        # Of a broker that is there each unknown name is told alike, by it or by nginx, which does not know its ARN.
        *wanted, words = refusal(broker.ask("POST", "/x"))
        for name in "other", "my-function:prod", "123456789013:my-function", ARN.replace("east", "west"), "function:", "a%2Fb":
            *told, found = refusal(proxy.invoke(name))
            same((name, told, [*found]), (name, wanted, [*words]))
            same((name, words["message"].startswith(found["message"])), (name, True))
        same(proxy.invoke("send-mail").status, 502)
        client = by_boto3(proxy)
        same([called(client, name=name) for name in names], 5 * [202])
        same(called(client, name="other"), ("ResourceNotFoundException", 404, "no such path or function"))
        same(called(client, name="send-mail"), ("ServiceException", 502, "broker is not available"))


@case({"retries": 0})
def a_runtime_behind_nginx_tells_a_long_cause_of_an_error(broker):
    with before(broker.serve()) as proxy:
        # A short one, and the longest that a broker reads over.
        for size in 9000, 1034464:
            poll = Asked(proxy.runtimes, "GET", f"{RUNTIME}/invocation/next")
            broker.until_parked(1)
            event = broker.invoke("{}").id
            same(poll.done().id, event)
            told = Asked(proxy.runtimes, "POST", f"{RUNTIME}/invocation/{event}/error", "1", {CAUSE: size * "y"}).done()
            same((size, told.status, broker.record("failure").json["responsePayload"]), (size, 202, 1))
            same(broker.delete(event).status, 204)
        broker.kill()
        told = Asked(proxy.runtimes, "GET", f"{RUNTIME}/invocation/next").done()
        same(refusal(told)[:3], (502, "ServiceException", "application/json"))


@case({"events": 64})
def operators_reach_each_page_behind_nginx_by_a_password(broker):
    with before(broker.serve()) as proxy:

        def look(path, method="GET", word="me:secret", **more):
            headers = {"Authorization": f"Basic {base64.b64encode(word.encode()).decode()}"} if word else {}
            return Asked(proxy.operators, method, path, None, {**headers, **more}).done()

        page, link = "/brokers/my-function/", {"Sec-Fetch-Site": "same-origin"}
        same([look(page, word=word).status for word in ("", "me:other", "you:secret")], 3 * [401])
        same(look(page, **link).body, broker.look("/").body)
        event = broker.invoke("{}").id
        same(look(f"{page}events?limit=1", **link).json["events"][0]["id"], event)
        same(look(f"{page}events/{event}").json["id"], event)
        same(look(f"{page}healthz").status, 200)
        # Only pages of functions that are here, and of brokers that are not down.
        same([look(path).status for path in ("/brokers/other/", "/brokers/send-mail/", "/metrics", "/api/v1/query")], [404, 502, 404, 404])
        same([look(page, method).status for method in ("POST", "DELETE")], [403, 403])
        # Prometheus, which is down here, stands behind /consoles/ alone, where a first look is led to.
        same((look("/consoles/x").status, look("/consoles/x", word="").status), (502, 401))
        told = look("/")
        same((told.status, told.headers["Location"].endswith("/consoles/lambda_broker.html")), (302, True))


NEXT = "GET", f"{RUNTIME}/invocation/next", None
# Hosts of this machine: two names and three addresses.
OWN = "localhost", "a.localhost:8080", "127.0.0.1:8080", "10.1.2.3", "[::1]:8080"


@case({"events": 64})
def a_foreign_host_reaches_nothing_behind_nginx(broker):
    with before(broker.serve()) as proxy:
        event = broker.invoke("{}").id
        wanted = refusal(broker.ask("POST", INVOKE, "{}", {**EVENT, "Host": "evil.example"}))
        same(wanted[0], 403)
        # As a browser sends it that a page has led to this machine by a name of its own: there is no Origin.
        for host in "evil.example", f"evil.example:{proxy.runtimes}", "localhost.evil.example", "127.0.0.1.evil.example", "127.0.0.1a":
            asks = (proxy.port, "POST", INVOKE, "{}", {**EVENT}), (proxy.runtimes, *NEXT, {}), (proxy.operators, "GET", "/", None, {})
            told = [Asked(port, *words, {**headers, "Host": host}).done() for port, *words, headers in asks]
            same((host, [refusal(each) for each in told]), (host, 3 * [wanted]))
        same([broker.number(f'events{{standing="{standing}"}}') for standing in ("waiting", "running")], [1, 0])
        # By a host of its own the same is answered, and its event is given.
        for host in OWN:
            poll = Asked(proxy.runtimes, *NEXT, {"Host": host})
            same((host, poll.done().id, broker.respond(event, "1").status), (host, event, 202))
            event = Asked(proxy.port, "POST", INVOKE, "{}", {**EVENT, "Host": host}).done().id
        same(broker.number('events{standing="waiting"}'), 1)


@case({"events": 64})
def a_name_is_given_to_nginx_and_to_the_broker(broker):
    by_name = {**EVENT, "Host": "broker.example"}
    for words, status in ((), 403), (("--host", "broker.example"), 202):
        with before(broker.serve(*words), "broker.example") as proxy:
            told = Asked(proxy.port, "POST", INVOKE, "{}", by_name).done()
            same((words, told.status), (words, status))
            same(broker.ask("POST", INVOKE, "{}", by_name).body, told.body)
            same(proxy.invoke("my-function").status, 202)
            broker.kill()


class Taken:
    """What one request was, byte for byte, in the place of a broker that is down."""

    def __init__(self, port):
        self.listener = socket.create_server(("127.0.0.1", port))
        self.listener.settimeout(DEADLINE)

    def close(self):
        self.listener.close()

    def head(self):
        """The first line of the next request, and its headers."""
        connection, _ = self.listener.accept()
        connection.settimeout(DEADLINE)
        with connection:
            text = b""
            while b"\r\n\r\n" not in text:
                text += connection.recv(65536)
            connection.sendall(b"HTTP/1.1 202 Accepted\r\nContent-Length: 0\r\nConnection: close\r\n\r\n")
        return lines_of(text)


def lines_of(head):
    first, *lines = head.split(b"\r\n\r\n")[0].decode().split("\r\n")
    return first, {*lines}


def told_to(port, head):
    """The status that a request is told of which each byte is given."""
    with socket.create_connection(("127.0.0.1", port), DEADLINE) as connection:
        connection.sendall(head)
        return int(connection.recv(65536).split()[1])


# A signature is of method, path, query, Host and further headers: none of them may change.
SIGNED = """Host: localhost:{}
User-Agent: Boto3/1.43 (a b; c)
X-Amz-Date: 20261130T090000Z
X-Amz-Invocation-Type: Event
x_odd.name: 1
Authorization: AWS4-HMAC-SHA256 Credential=a/20261130/us-east-2/lambda/aws4_request, SignedHeaders=host;x-amz-date, Signature=0
Content-Length: 0
"""
SENT = """send-mail 123456789012:send-mail 123456789012%3Asend-mail 123456789012%3asend-mail:%24LATEST function:send-mail
%73end%2dmail arn:aws:lambda:us-east-2:123456789012:function:send-mail arn%3Aaws%3Alambda%3Aus-east-2%3A123456789012%3Afunction%3Asend-mail
""".split()
# Paths of which nginx makes one of these.
OTHERS = """/2015-03-31//functions/send-mail/invocations /2015-03-31/functions/./send-mail/invocations
/2015-03-31/functions/a/../send-mail/invocations /broker/destinations/..%2F..%2F2015-03-31%2Ffunctions%2Fsend-mail%2Finvocations
/broker/stop/../../2015-03-31/functions/send-mail/invocations""".split()


@case()
def nginx_hands_on_what_a_client_signed(broker):
    with before(broker.serve()) as proxy, contextlib.closing(Taken(proxy.down)) as taken:
        headers = SIGNED.format(proxy.port).replace("\n", "\r\n")
        for path in [f"/2015-03-31/functions/{name}/invocations{query}" for name in SENT for query in ("", "?Qualifier=%24LATEST&a=b%2fc+d")]:
            head = f"POST {path} HTTP/1.1\r\n{headers}\r\n".encode()
            told = Beside(told_to, proxy.port, head)
            same(taken.head(), lines_of(head))
            same((path, told.done()), (path, 202))
        for path in OTHERS:
            same((path, told_to(proxy.port, f"POST {path} HTTP/1.1\r\n{headers}\r\n".encode())), (path, 404))
