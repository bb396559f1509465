"""Spells disks byte by byte, as docs/FORMATS.md says them, and takes nothing from the program: what it reads and writes is judged by
these.
"""
import uuid

SECTOR = 512

# Kinds of commands, standings and outcomes.
ACCEPT, START, SUCCEED, FAIL, THROTTLE, INTERRUPT, EXPIRE, COLLECT, CONFIGURE = range(1, 10)
WAITING, DUE_AGAIN, RUNNING, ENDED = range(1, 5)
NONE, SUCCESS, RETRIES_EXHAUSTED, EVENT_AGE_EXCEEDED = range(4)


def id_of(number):
    """The id of event N in the worked cases."""
    return f"00000000-0000-4000-8000-{number:012x}"


def number(value, size):
    return value.to_bytes(size, "big")


def padded(content):
    """Whole sectors."""
    return content + bytes(-len(content) % SECTOR)


def sectors_of(size):
    """How many sectors so many bytes take."""
    return -(-size // SECTOR)


class Settings:
    """Those that a disk is formatted with: `row` are those of the worked cases."""

    def __init__(self, retries=2, age=21600, timeout=3, concurrency=10, environments=1, events=4, payload=1024, response=1024,
                 name="my-function", handler="app.main", arn="arn:aws:lambda:us-east-2:123456789012:function:my-function"):
        self.retries, self.age, self.timeout, self.concurrency = retries, age, timeout, concurrency
        self.environments, self.events, self.payload, self.response = environments, events, payload, response
        self.texts = name, handler, arn

    def spelled(self):
        numbers = [
            (self.retries, 1), (self.age, 4), (self.timeout, 2), (self.concurrency, 1), (self.environments, 1), (self.events, 2),
            (self.payload, 4), (self.response, 4)
        ]
        return b"".join(number(*pair) for pair in numbers) + b"".join(number(len(t), 1) + t.encode() for t in self.texts)

    def least_segment(self, version=2):
        """How many sectors a segment has at least."""
        fixed, row = (25, 78) if version == 2 else (20, 73)
        return 2 + sectors_of(fixed + self.events * (row + self.payload + self.response)) + 3


def command(kind, event=None, time=0, content=b"", environment=0):
    id = uuid.UUID(event).bytes if event else bytes(16)
    return number(kind, 1) + id + number(environment, 2) + number(time, 8) + number(len(content), 4) + content


class Row:
    """An event of a snapshot."""

    def __init__(self, event, accepted, first, last, standing, moment, payload, outcome=NONE, starts=0, failures=0, answer=None,
                 environment=0, policy=(2, 21600), pushbacks=0):
        self.before = uuid.UUID(event).bytes + number(accepted, 8) + number(first, 8) + number(last, 8) + number(standing, 1)
        self.before += number(outcome, 1) + number(environment, 2) + number(moment, 8)
        self.before += number(starts, 4) + number(failures, 4) + number(pushbacks, 4)
        self.policy, self.payload, self.kind, self.answer = policy, payload, *(answer or (0, b""))

    def spelled(self, version):
        policy = number(self.policy[0], 1) + number(self.policy[1], 4) if version == 2 else b""
        lengths = number(len(self.payload), 4) + number(len(self.answer), 4)
        return self.before + number(self.kind, 1) + policy + lengths + self.payload + self.answer


def snapshot(version, settings, commands=0, last=0, rows=()):
    policy = number(settings.retries, 1) + number(settings.age, 4) if version == 2 else b""
    content = number(commands, 8) + number(last, 8) + policy + number(len(rows), 4)
    return content + b"".join(row.spelled(version) for row in rows)


def header(version, settings, generation, taken):
    """The sector of the header before a snapshot."""
    told = settings.spelled()
    content = b"AINVOKE" + number(version, 1) + number(generation, 8) + number(len(taken), 8) + number(len(told), 4) + told
    return padded(content)


def body(generation, first, commands):
    """What stands behind the gate of a frame."""
    head = number(generation, 8) + number(first, 8) + number(len(commands), 4) + number(sum(map(len, commands)), 4) + bytes(8)
    return padded(head + b"".join(commands))


def segment(version, settings, generation, taken, frames=()):
    """A segment from its gate on, which is open: header, snapshot, and frames, each as its first number and its commands."""
    content = padded(b"\1") + header(version, settings, generation, taken) + padded(taken)
    for first, commands in frames:
        content += padded(b"\1") + body(generation, first, commands)
    return content


def disk(sectors, a=b"", b=b""):
    """A disk of so many sectors, with these segments."""
    half = sectors // 2 * SECTOR
    return a + bytes(half - len(a)) + b + bytes(sectors * SECTOR - half - len(b))
