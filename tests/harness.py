"""What the cases share: a broker on a disk and ports of its own, requests whose replies may come later, and a watch on the disk.

A case waits for what it needs (a line, a reply, a number that the operator's port shows, a flush that began) and never for a
time. Whatever has to come gets `DEADLINE` seconds, so that a busy machine fails no case; nothing has to come sooner.
"""
import contextlib
import fcntl
import http.client
import json
import mmap
import os
import random
import re
import resource
import select
import shutil
import signal
import socket
import struct
import subprocess
import tempfile
import threading
import time

HERE = os.path.dirname(os.path.abspath(__file__))
EXAMPLES = os.path.join(HERE, "..", "examples")
ARN = "arn:aws:lambda:us-east-2:123456789012:function:my-function"
INVOKE = "/2015-03-31/functions/my-function/invocations"
EVENT = {"X-Amz-Invocation-Type": "Event"}
RUNTIME = "/2018-06-01/runtime"
EXTENSION = "/2020-01-01/extension"
OK = b'{"status":"OK"}'

# How long anything may take that has to come.
DEADLINE = 60

# The limits of a port, in seconds: for a head and for a body, and for an idle connection; and how many connections it has open.
REQUEST, IDLE, CONNECTIONS = 30, 120, 1100

# How many flushes an opening makes: one before it drops what the machine kept of the disk, and one before it reads.
OPENING = 2

# How long a port reads on behind a refusal, in seconds. Who sends the rest later sees a connection that breaks.
LINGER = 2

# Runs the command behind it with so few open files.
FEW_FILES = ["bash", "-c", 'ulimit -n 100; exec "$@"', "bash"]


class Built:
    """What the runner made and was told: the program, and the libraries that are preloaded into it."""

    program = None
    watch_disk = None
    refuse_memory = None
    few_threads = None


class Skipped(Exception):
    """A case that cannot be run on this machine."""


class Apart(Skipped):
    """The same, for want of what no machine has to have."""


class Late(AssertionError):
    """What was waited for did not come in the time that a case gives it."""


def build(folder, name):
    """Builds a library that is preloaded into the program."""
    made = os.path.join(folder, f"{name}.so")
    words = ["cc", "-O1", "-Wall", "-Werror", "-shared", "-fPIC", "-o", made, os.path.join(HERE, f"{name}.c"), "-ldl"]
    subprocess.run(words, check=True)
    return made


def same(found, wanted):
    assert found == wanted, f"{found!r}, not {wanted!r}"


def matches(pattern, text):
    """What the groups of a pattern are in a text that is wholly of it."""
    found = re.fullmatch(pattern, text)
    assert found, f"{text!r} is not {pattern!r}"
    return found.groups()


def until(what, look, seconds=DEADLINE):
    """Looks again and again until there is something: that."""
    end = time.monotonic() + seconds
    while True:
        found = look()
        if found:
            return found
        if time.monotonic() >= end:
            raise Late(f"{what} did not come")
        time.sleep(0.02)


def stat_of(path):
    """What the system tells of a process or a thread behind its name: first its state, R where it runs or waits for a processor."""
    with open(path) as told:
        return told.read().rsplit(")", 1)[1].split()


def needs(*words):
    """A case that runs these commands is skipped where one is missing."""
    for word in words:
        if not shutil.which(word):
            raise Skipped(f"there is no {word}")


CASES = []


def case(settings=None, slow=False):
    """A case, which is given a broker with these settings. One that waits for a limit of the program is slow: it begins first."""

    def note(run):
        CASES.append((run, settings or {}, slow))
        return run

    return note


class Ports:
    """Twenty ports in a row, below those that the system gives away, which no other case and no other run of these tests has."""

    COUNT = 20

    def __init__(self):
        with open("/proc/sys/net/ipv4/ip_local_port_range") as told:
            end = min(int(told.read().split()[0]), 65500)
        self.folder = f"/tmp/lambda_broker_ports.{os.getuid()}"
        os.makedirs(self.folder, exist_ok=True)
        places = list(range(10000 if end > 12000 else 2000, end - self.COUNT, self.COUNT))
        random.shuffle(places)
        for self.first in places:
            self.lock = open(os.path.join(self.folder, str(self.first)), "w")
            if self.is_locked() and self.are_free():
                return
            self.lock.close()
        raise AssertionError("no free ports")

    def is_locked(self):
        try:
            fcntl.flock(self.lock, fcntl.LOCK_EX | fcntl.LOCK_NB)
            return True
        except OSError:
            return False

    def are_free(self):
        for n in range(self.COUNT):
            with socket.socket() as probe:
                probe.setsockopt(socket.SOL_SOCKET, socket.SO_REUSEADDR, 1)
                try:
                    probe.bind(("", self.first + n))
                except OSError:
                    return False
        return True

    def close(self):
        self.lock.close()


class Kept:
    """Ports that stay this case's while nothing is served on them."""

    def __init__(self, ports):
        self.first, self.ports = ports.first, ports

    def close(self):
        pass


class Watch:
    """What a preloaded library counts of a disk's flushes and writes, and what it is told to do to them; see `watch_disk.c`."""

    WORDS = (
        "flushes flushed writes written folder_flushes prints hold_flush release fail_flush fail_write kill_flush kill_write "
        "torn kill_print keep reads fail_read record ahead back fail_with drops drop_at drop_size hold_write"
    ).split()

    def __init__(self, folder, disk):
        path = os.path.join(folder, "watch")
        with open(path, "wb") as file:
            file.write(bytes(4096))
        with open(path, "r+b") as file:
            super().__setattr__("words", mmap.mmap(file.fileno(), 4096))
        super().__setattr__("env", {"LD_PRELOAD": Built.watch_disk, "WATCH_DISK": disk, "WATCH_SHARE": path})
        super().__setattr__("flushed_copy", f"{disk}.flushed")

    def __getattr__(self, name):
        return struct.unpack_from("Q", self.words, 8 * self.WORDS.index(name))[0]

    def __setattr__(self, name, value):
        struct.pack_into("Q", self.words, 8 * self.WORDS.index(name), value)

    def clear(self):
        """Nothing was counted, and nothing is done."""
        self.words[:] = bytes(4096)

    def let_go(self):
        """Holds no flush any more."""
        self.release = 1 << 63


class Answer:
    def __init__(self, status, headers, body):
        self.status, self.headers, self.body = status, headers, body

    @property
    def id(self):
        return self.headers["X-Amzn-RequestId"] or self.headers["Lambda-Runtime-Aws-Request-Id"]

    @property
    def json(self):
        return json.loads(self.body)

    @property
    def type(self):
        return self.json["errorType"]


class Asked:
    """A request that was sent. Its reply may come later."""

    def __init__(self, port, method, path, body=None, headers=None):
        self.connection = http.client.HTTPConnection("127.0.0.1", port, timeout=DEADLINE)
        self.connection.request(method, path, body, headers or {})
        self.answer = None

    def is_answered(self):
        if self.answer is None and self.connection.sock is not None:
            poll = select.poll()
            poll.register(self.connection.sock, select.POLLIN)
            return bool(poll.poll(0))
        return self.answer is not None

    def done(self, seconds=DEADLINE):
        """Its reply, for which it waits."""
        if self.answer is None:
            self.connection.sock.settimeout(seconds)
            reply = self.connection.getresponse()
            self.answer = Answer(reply.status, reply.headers, reply.read())
            self.connection.close()
        return self.answer

    def leave(self):
        """Its client goes away."""
        self.connection.close()


def statuses(asked):
    """The statuses of the replies to these requests, for which it waits, or what came in the place of one."""
    told = []
    for one in asked:
        try:
            told.append(one.done().status)
        except (OSError, http.client.HTTPException) as why:
            told.append(type(why).__name__)
    return told


def sends_much(ask, *words, **more):
    """What a request with a large head or body is told. It is made again where the machine is so busy that its refusal came before
    the rest was sent, and a port reads no longer on.
    """
    for _ in range(DEADLINE):
        began = time.monotonic()
        try:
            return ask(*words, **more)
        except (OSError, http.client.HTTPException) as why:
            assert time.monotonic() >= began + LINGER, f"the connection broke at once: {why!r}"
    raise Late("the rest was never sent in time")


class Beside(threading.Thread):
    """A call in a thread of its own."""

    def __init__(self, call, *words, **more):
        super().__init__(daemon=True)
        self.call, self.words, self.more, self.told, self.why = call, words, more, None, None
        self.start()

    def run(self):
        try:
            self.told = self.call(*self.words, **self.more)
        except Exception as why:
            self.why = why

    def done(self, seconds=DEADLINE):
        """What it told, for which it waits."""
        self.join(seconds)
        if self.is_alive():
            raise Late("the call did not end")
        if self.why:
            raise self.why
        return self.told


def line_of(program, seconds=DEADLINE):
    """The next line that a program prints, or what it had printed when it ended."""
    poll, told, end = select.poll(), b"", time.monotonic() + seconds
    poll.register(program.stdout, select.POLLIN)
    while not told.endswith(b"\n"):
        assert poll.poll(max(0, int(1000 * (end - time.monotonic())))), f"no line was printed, only {told!r}"
        more = os.read(program.stdout.fileno(), 1)
        if not more:
            break
        told += more
    return told.decode()


class Broker:
    """The program on a disk of its own, formatted with these settings."""

    def __init__(self, sectors=4096, **settings):
        self.folder = tempfile.mkdtemp(prefix="lambda_broker.")
        self.disk = os.path.join(self.folder, "disk")
        self.environments = settings.get("environments", 1)
        self.served, self.ports, self.watch = None, None, None
        # What serve is told beside its ports.
        self.words = []
        # An attempt lasts long: no machine is so busy that an answer comes late.
        defaults = {"events": 16, "payload": 1024, "response": 1024, "environments": 1, "timeout": 900}
        same(self.format(self.disk, sectors, **{**defaults, **settings}), (0, f"formatted {sectors} sectors\n"))

    # Its commands

    def command(self, *words, under=(), env=None):
        """Runs the program with these words, as the command that the words `under` are told to run."""
        watch = self.watch.env if self.watch else {}
        return subprocess.run(
            [*under, Built.program, *map(str, words)],
            capture_output=True, text=True, timeout=4 * DEADLINE, env={**os.environ, **watch, **(env or {})},
        )

    def said(self, *words, **more):
        """The status of a command, and what it printed."""
        done = self.command(*words, **more)
        return done.returncode, done.stdout

    def format(self, disk, sectors, name="my-function", handler="app.main", arn=ARN, **settings):
        words = [disk, "--sectors", sectors, "--name", name, "--handler", handler, "--arn", arn]
        for setting, value in settings.items():
            words += [f"--{setting}", value]
        return self.said("format", *words)

    def audit(self, *words):
        """What an audit of its disk prints, line by line."""
        status, told = self.said("audit", self.disk, *words)
        same(status, 0)
        return told.splitlines()

    def configure(self, *words):
        return self.said("configure", self.disk, *words)

    def migrate(self):
        return self.said("migrate", self.disk)

    def in_force(self):
        """The retries and the age that are in force on its disk."""
        retries, age = matches("in force retries ([0-9]+) age ([0-9]+)", self.audit("--in-force")[3])
        return int(retries), int(age)

    def held(self):
        """How many events its disk holds."""
        return int(matches("held ([0-9]+) .*", self.audit()[1])[0])

    def content(self):
        with open(self.disk, "rb") as disk:
            return disk.read()

    def put(self, at, content):
        """Changes its disk from this byte on."""
        with open(self.disk, "r+b") as disk:
            disk.seek(at)
            disk.write(content)

    # Its disk

    def watches_disk(self):
        """From now on its commands run with a watch on its disk."""
        self.watch = Watch(self.folder, self.disk)
        return self.watch

    def lose_what_was_not_flushed(self):
        """Its disk is as the last flush left it, as after a power failure that lost each write behind that."""
        shutil.copy(self.watch.flushed_copy, self.disk)

    # Its serving

    def serve(self, *words, admin=True, under=(), ports=None):
        """Serves its disk, with an operator's port unless that is not wanted, and at these ports, if any are named."""
        watch = self.watch.env if self.watch else {}
        for _ in range(20):
            self.ports = ports or Ports()
            self.port, self.admin = self.ports.first, self.ports.first + self.environments + 1
            told = [*under, Built.program, "serve", self.disk, "--port", str(self.port), *self.words, *words]
            told += ["--admin", str(self.admin)] if admin else []
            with open(os.path.join(self.folder, "stderr"), "wb") as stderr:
                self.served = subprocess.Popen(
                    told, stdout=subprocess.PIPE, stderr=stderr, bufsize=0, env={**os.environ, **watch}
                )
            line = line_of(self.served)
            if line != "refused: port in use\n":
                break
            self.end()
        matches(f"serving on [0-9.]+:{self.port}\n", line)
        if admin:
            same(line_of(self.served), f"showing on 127.0.0.1:{self.admin}\n")
        return self

    def end(self):
        """Kills what is served, where it is."""
        if self.served:
            if self.served.poll() is None:
                self.served.send_signal(signal.SIGKILL)
            self.served.stdout.close()
            self.served.wait(timeout=DEADLINE)
            self.ports.close()
            self.served = None

    kill = end

    def ended(self):
        """Waits until it ends by itself: its status, and what it printed since it was served."""
        out, _ = self.served.communicate(timeout=2 * DEADLINE)
        told = self.served.returncode, out.decode()
        self.end()
        return told

    def stop(self):
        """Asks it to stop: the status of that, its own, and what it printed."""
        return self.ask("POST", "/broker/stop").status, *self.ended()

    def stderr(self):
        with open(os.path.join(self.folder, "stderr"), errors="replace") as told:
            return told.read()

    def processor_seconds(self):
        """How much time of a processor it has taken."""
        fields = stat_of(f"/proc/{self.served.pid}/stat")
        return (int(fields[11]) + int(fields[12])) / os.sysconf("SC_CLK_TCK")

    def close(self):
        self.end()
        shutil.rmtree(self.folder, ignore_errors=True)

    # What is asked of it

    def socket(self, environment=0):
        return socket.create_connection(("127.0.0.1", self.port + environment), timeout=DEADLINE)

    def send(self, method, path, body=None, headers=None, environment=0):
        return Asked(self.port + environment, method, path, body, headers)

    def ask(self, *words, **more):
        return self.send(*words, **more).done()

    def send_invoke(self, payload):
        return self.send("POST", INVOKE, payload, EVENT)

    def invoke(self, payload):
        return self.send_invoke(payload).done()

    def send_next(self, environment=1):
        return self.send("GET", f"{RUNTIME}/invocation/next", environment=environment)

    def next(self, environment=1):
        return self.send_next(environment).done()

    def respond(self, event, body, environment=1, path="response"):
        return self.ask("POST", f"{RUNTIME}/invocation/{event}/{path}", body, environment=environment)

    def live(self, payload, answer, environment=1, path="response"):
        """An event is accepted, given and answered: its id."""
        event = self.invoke(payload).id
        same(self.next(environment).id, event)
        same(self.respond(event, answer, environment, path).status, 202)
        return event

    def record(self, side="success"):
        return self.ask("GET", f"/broker/destinations/{side}")

    def delete(self, event):
        return self.ask("DELETE", f"/broker/destinations/{event}")

    def register(self, events=("INVOKE",), name="x", environment=1, **more):
        headers = {"Lambda-Extension-Name": name, **more}
        told = json.dumps({"events": list(events)})
        return self.ask("POST", f"{EXTENSION}/register", told, headers, environment)

    def extension(self, events=("INVOKE",), environment=1):
        """Registers an extension: the header that names it."""
        registered = self.register(events, environment=environment)
        same(registered.status, 200)
        return {"Lambda-Extension-Identifier": registered.headers["Lambda-Extension-Identifier"]}

    def send_extension_next(self, extension, environment=1):
        return self.send("GET", f"{EXTENSION}/event/next", None, extension, environment)

    # What its operator sees

    def send_look(self, path, method="GET", headers=None):
        return Asked(self.admin, method, path, None, headers)

    def look(self, *words, **more):
        return self.send_look(*words, **more).done()

    def numbers(self):
        """The numbers that a monitor collects, by name and labels."""
        told = self.look("/metrics").body.decode()
        return {name: float(value) for name, value in re.findall(r"^lambda_broker_(\S+) (\S+)$", told, re.M)}

    def number(self, name):
        return self.numbers()[name]

    def until_number(self, name, wanted):
        until(f"{name} of {wanted}", lambda: self.number(name) == wanted)

    def until_parked(self, count):
        """Waits until so many polls are parked."""
        self.until_number("parked_polls", count)

    def until_open(self, count):
        """Waits until so many requests wait for their replies."""
        self.until_number("open_slots", count)

    def open_files(self):
        """How many files and connections it has open."""
        return len(os.listdir(f"/proc/{self.served.pid}/fd"))

    def park_and_leave(self, send, *words):
        """Sends a poll, waits until it is parked, and lets its client go, which the broker is seen to notice."""
        self.until_all_serve()
        without = until("a number of open files that stays", self.rests)
        poll = send(*words)
        self.until_parked(1)
        poll.leave()
        until("the end of the connection", lambda: self.open_files() == without)

    def rests(self):
        """How many files it has open, where that is the same for a while."""
        counts = set()
        for _ in range(5):
            counts.add(self.open_files())
            time.sleep(0.05)
        return counts.pop() if len(counts) == 1 else None

    def until_read(self, environment=0):
        """Waits until what was sent to a port before was read: two requests behind it were answered, and then no thread of the broker,
        of which callers have several, has something to do."""
        for _ in range(2):
            same(self.ask("GET", "/x", environment=environment).status, 404)
        tasks = f"/proc/{self.served.pid}/task"
        until("its threads to sleep", lambda: all(stat_of(f"{tasks}/{task}/stat")[0] != "R" for task in os.listdir(tasks)))

    def until_all_serve(self):
        """Waits until each port has what it needs: the first line is printed before."""
        for environment in range(self.environments + 1):
            self.until_read(environment)
        self.until_looked()

    def until_looked(self):
        """The same of the operator's port."""
        for _ in range(2):
            same(self.look("/x").status, 404)


@contextlib.contextmanager
def crowd(port, count):
    """So many clients, who connect, or try to, and send nothing."""
    clients = []
    for _ in range(count):
        client = socket.socket()
        client.setblocking(False)
        client.connect_ex(("127.0.0.1", port))
        clients.append(client)
    try:
        yield
    finally:
        for client in clients:
            client.close()


def raise_open_files():
    """As many open files as the system lets this process have."""
    _, most = resource.getrlimit(resource.RLIMIT_NOFILE)
    resource.setrlimit(resource.RLIMIT_NOFILE, (most, most))
