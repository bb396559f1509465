"""A broker on a machine, and a caller beside it that keeps the ids of the events that were acknowledged."""
import contextlib
import os
import subprocess
import sys
import threading
import time

from machines import DEADLINE

PROGRAM = os.path.abspath(sys.argv[1]) if len(sys.argv) > 1 else ""
PORT, SECTORS = 9000, 8193
INVOKE = "/2015-03-31/functions/my-function/invocations"
FORMAT = "--name my-function --handler app.main --arn arn:aws:lambda:us-east-2:123456789012:function:my-function".split()
LIMITS = f"--sectors {SECTORS} --events 1024 --payload 64 --response 64".split()
# Posts events over one connection, and prints the id of each that was acknowledged.
POSTER = """import http.client, sys
port, target, most = int(sys.argv[1]), sys.argv[2], int(sys.argv[3])
broker = http.client.HTTPConnection("127.0.0.1", port, timeout=60)
for _ in range(most):
    broker.request("POST", target, "{}", {"X-Amz-Invocation-Type": "Event"})
    reply = broker.getresponse()
    reply.read()
    if reply.status != 202:
        break
    print(reply.headers["X-Amzn-RequestId"], flush=True)
"""
# Prints the ids, of those that it reads, which an operator does not see.
SEEKER = """import http.client, sys
broker = http.client.HTTPConnection("127.0.0.1", int(sys.argv[1]), timeout=60)
for event in sys.stdin.read().split():
    broker.request("GET", f"/events/{event}")
    reply = broker.getresponse()
    reply.read()
    if reply.status != 200:
        print(event)
"""


class Broker:
    """A broker on a machine, which serves or was refused, and what its caller was told. It waits for the lock, which a volume may hold a
    moment longer than who had it."""

    def __init__(self, machine, disk, *words):
        self.machine, self.disk, self.acknowledged, self.poster, self.fence_took = machine, disk, [], None, None
        line = [PROGRAM, "serve", disk, "--standby", "--port", PORT, "--admin", PORT + 50, *words]
        self.served = machine.start(*line, stdout=subprocess.PIPE, stderr=subprocess.DEVNULL, text=True)
        self.lines = []
        patience = threading.Timer(DEADLINE, self.served.kill)
        patience.start()
        for line in self.served.stdout:
            self.lines.append(line.strip())
            if line.startswith(("showing on", "refused", "device")):
                break
        patience.cancel()
        self.since = time.monotonic()

    def serves(self):
        return self.told().startswith("showing on")

    def told(self):
        """The line by which it was refused, or is served."""
        return self.lines[-1] if self.lines else "no line"

    def load(self, most=900):
        """Posts events until so many were acknowledged, or one was not."""
        if not self.serves():
            raise RuntimeError(f"no broker serves: {self.told()}")
        words = sys.executable, "-S", "-c", POSTER, PORT, INVOKE, most
        self.poster = self.machine.start(*words, stdout=subprocess.PIPE, stderr=subprocess.DEVNULL, text=True)
        self.acknowledged += self.poster.stdout.readline().split()

    def rest(self):
        """The caller hears no more of its broker, which was killed or cut off."""
        if not self.poster:
            return
        try:
            told, _ = self.poster.communicate(timeout=5)
        except subprocess.TimeoutExpired:
            self.poster.kill()
            told, _ = self.poster.communicate()
        self.acknowledged += told.split()
        self.poster = None

    def gone(self, events):
        """Those of these events that it does not have. A disk that two have written may be damaged: then all of it is gone."""
        if not self.serves():
            return events
        words = self.machine.words(sys.executable, "-S", "-c", SEEKER, PORT + 50)
        done = subprocess.run(words, input=" ".join(events), stdout=subprocess.PIPE, text=True, check=True, timeout=DEADLINE)
        return done.stdout.split()

    def ended(self, seconds):
        """The status with which it ends by itself, and how long that took; no status where it does not."""
        began = time.monotonic()
        with contextlib.suppress(subprocess.TimeoutExpired):
            self.served.wait(seconds)
        return self.served.poll(), time.monotonic() - began

    def kill(self):
        self.served.kill()
        self.served.wait()


def formatted(volume, machine, *limits, sectors=SECTORS):
    """A new disk, on a machine that its volume is attached to."""
    disk = volume.renew(machine, sectors)
    machine.run(PROGRAM, "format", disk, "--force", *(limits or LIMITS), *FORMAT)
    return disk
