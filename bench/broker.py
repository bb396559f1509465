"""What the benches share: a broker of their own, at ports that were free, which is known to serve, and how it is asked.

A bench measures what answers at a port. So none has a port that is written down: a broker gets some that nobody has, and its bench
ends with what it said where its first line is not `serving on` its own port.
"""
import atexit
import concurrent.futures
import ctypes
import http.client
import json
import os
import selectors
import shutil
import signal
import socket
import subprocess
import sys
import tempfile

# Those that the system does not give away by itself, as a rule, and that no service has.
LEAST, GREATEST = 20000, 32000
# How long a broker may take until it serves, and until it has ended.
SECONDS = 60
INVOKE = "/2015-03-31/functions/my-function/invocations"
RUNTIME = "/2018-06-01/runtime/invocation"
ASYNCHRONOUS = {"X-Amz-Invocation-Type": "Event"}
# 100 bytes of JSON.
BODY = json.dumps({"text": 88 * "x"}).encode()
# An invocation as it is sent, for clients that spare themselves HTTP's library.
REQUEST = (
    f"POST {INVOKE} HTTP/1.1\r\nhost: localhost\r\nx-amz-invocation-type: Event\r\n"
    f"content-length: {len(BODY)}\r\n\r\n"
).encode() + BODY


# A bench that is told to end takes its broker along, as one that ends by itself does.
signal.signal(signal.SIGTERM, lambda number, _: sys.exit(128 + number))


def end(text):
    """Ends the bench, whose figures would be of nothing."""
    sys.exit(f"{os.path.basename(sys.argv[0])}: {text}")


LIBC = ctypes.CDLL(None)
PR_SET_PDEATHSIG = 1


def end_with_bench():
    """Has what begins now be killed once its bench is gone, however that ended."""
    LIBC.prctl(PR_SET_PDEATHSIG, signal.SIGKILL, 0, 0, 0)


def is_free(port):
    try:
        socket.create_server(("127.0.0.1", port)).close()
        return True
    except OSError:
        return False


def free_ports(count):
    """The first of so many ports in a row that are free."""
    tried = range(LEAST + os.getpid() % 500 * 20, GREATEST - count), range(LEAST, GREATEST - count)
    for port in (port for ports in tried for port in ports[::count]):
        if all(map(is_free, range(port, port + count))):
            return port
    return end(f"no {count} ports in a row are free from {LEAST} on")


def first_line(process):
    """The first line that a process prints, or nothing where none comes in time."""
    with selectors.DefaultSelector() as ready:
        ready.register(process.stdout, selectors.EVENT_READ)
        return process.stdout.readline().decode(errors="replace").strip() if ready.select(SECONDS) else ""


class Server:
    """A process that serves at a port of its own, below a folder of its own, which both go with it.

    `commands(port)` are its words. Where another one was quicker to take a port, it is begun once more at other ones."""

    TRIES = 5

    def __init__(self, folder, ports, env=None):
        self.folder = tempfile.mkdtemp(dir=folder)
        atexit.register(self.close)
        self.prepare()
        line = None
        for _ in range(self.TRIES):
            self.port = free_ports(ports)
            line = self.begin(env or {})
            if line == f"serving on 127.0.0.1:{self.port}":
                self.address = f"127.0.0.1:{self.port}"
                return
            self.kill()
            if line != "refused: port in use":
                break
        with open(self.said, encoding="utf-8", errors="replace") as said:
            end(f"what was to be measured does not serve: it printed {line!r}, and on standard error {said.read().strip()!r}")

    served = None

    def prepare(self):
        pass

    def begin(self, env):
        self.said = os.path.join(self.folder, "said")
        with open(self.said, "wb") as said:
            words, env = list(map(str, self.commands())), {**os.environ, **env}
            self.served = subprocess.Popen(
                words, stdout=subprocess.PIPE, stderr=said, env=env, start_new_session=True, preexec_fn=end_with_bench
            )
        return first_line(self.served)

    def status(self):
        with open(f"/proc/{self.served.pid}/status", encoding="ascii") as file:
            return file.read()

    def spent(self):
        """Processor seconds of all its threads, its start among them."""
        with open(f"/proc/{self.served.pid}/stat", encoding="ascii") as file:
            fields = file.read().rsplit(")", 1)[1].split()
        return (int(fields[11]) + int(fields[12])) / os.sysconf("SC_CLK_TCK")

    def kill(self):
        if self.served and self.served.poll() is None:
            os.killpg(self.served.pid, signal.SIGKILL)
        if self.served:
            self.served.wait()
            self.served.stdout.close()

    def close(self):
        self.kill()
        shutil.rmtree(self.folder, ignore_errors=True)


class Broker(Server):
    """The program on a new disk, formatted with these settings, for which `served_by` has the words of `serve`.

    Callers have `port`, environment N has the one N behind it, and operators `admin`, where they are asked for."""

    SETTINGS = {"events": 1024, "payload": 1024, "response": 1024, "environments": 1}

    def __init__(self, program, folder, sectors=65536, has_admin=False, under=(), words=(), env=None, **settings):
        self.program, self.sectors, self.has_admin = os.path.abspath(program), sectors, has_admin
        self.under, self.words, self.settings = under, words, {**self.SETTINGS, **settings}
        super().__init__(folder, 1 + self.settings["environments"] + 1, env)

    @property
    def admin(self):
        return self.port + self.settings["environments"] + 1

    def prepare(self):
        self.disk = os.path.join(self.folder, "disk")
        words = ["format", self.disk, "--sectors", self.sectors, "--name", "my-function", "--handler", "app.main", "--arn", "arn"]
        for name, value in self.settings.items():
            words += [f"--{name}", value]
        made = subprocess.run([self.program, *map(str, words)], stdin=subprocess.DEVNULL, capture_output=True, text=True)
        if made.returncode != 0:
            end(f"`lambda_broker format` ended with {made.returncode}: {(made.stdout + made.stderr).strip()}")

    def commands(self):
        admin = ["--admin", self.admin] if self.has_admin else []
        return [*self.under, self.program, "serve", self.disk, "--port", self.port, *admin, *self.words]

    def connection(self, environment=0, timeout=SECONDS):
        return http.client.HTTPConnection("127.0.0.1", self.port + environment, timeout=timeout)

    def operators(self):
        return http.client.HTTPConnection("127.0.0.1", self.admin, timeout=SECONDS)

    def stop(self):
        """Has it end in order."""
        connection = self.connection()
        status, _, body = ask(connection, "POST", "/broker/stop")
        connection.close()
        if status != 202 or self.served.wait(SECONDS) != 0:
            end(f"the broker answered {status} {body[:100]!r} to a stop, and ended with {self.served.poll()}")

    def finish(self):
        self.stop()
        self.close()


def together(*calls):
    """Makes each call in a thread of its own: what they gave. What one of them raises, or ends, ends the bench."""
    with concurrent.futures.ThreadPoolExecutor(len(calls)) as pool:
        return [each.result() for each in [pool.submit(*call) for call in calls]]


def ask(connection, method, path, body=None, headers=None):
    """Status, headers and body of a reply."""
    connection.request(method, path, body, headers or {})
    reply = connection.getresponse()
    return reply.status, reply.headers, reply.read()


def has(status, *words):
    """Headers and body of a reply that has to have this status."""
    found, headers, body = ask(*words)
    if found != status:
        end(f"{words[1]} {words[2]}: {found} {body[:100]!r}, and not {status}")
    return headers, body
