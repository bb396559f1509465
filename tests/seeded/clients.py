"""Who is outside a broker: callers, runtimes, collectors, an operator and whoever stops it. Each acts at turns, by the seed."""
from __future__ import annotations

import json
from random import Random

from machine import MILLIS, NEVER, SECONDS
from rules import LATE, Attempt, Event, Report, Rules, hold
from wire import Connection, Reply, request

INVOKE = "/2015-03-31/functions/f/invocations"
RUNTIME = "/2018-06-01/runtime/invocation"


class Scene:
    """What clients share: the seed's draws, the rules, and what the time is."""

    def __init__(self, draws: Random, rules: Rules, folder: str, port: int) -> None:
        self.draws, self.rules, self.folder, self.port = draws, rules, folder, port
        self.now, self.ahead, self.held_up = 0, 0, 0
        self.is_quiet, self.set_back = False, 0
        self.trace: list[str] = []

    @property
    def clock(self) -> int:
        """The system's clock, in milliseconds."""
        return self.now // MILLIS + self.ahead

    def note(self, words: str) -> None:
        """A line of what happened."""
        self.trace.append(f"{self.now / SECONDS:.6f} {words}")

    def chance(self, one_of: int) -> bool:
        """Whether the seed takes something, never once all is to be quiet."""
        return not self.is_quiet and self.draws.randrange(one_of) == 0

    def soon(self) -> int:
        """A moment that comes soon, or later."""
        most = MILLIS if self.is_quiet else self.draws.choice([1, MILLIS, 50 * MILLIS, SECONDS, 10 * SECONDS])
        return self.now + self.draws.randrange(most) + 1


class Client:
    """A client, which asks for one thing at a time."""

    waits_long = False
    stays = False

    def __init__(self, scene: Scene, name: str, port: int) -> None:
        self.scene, self.name, self.port = scene, name, port
        self.connection: Connection | None = None
        self.wake, self.leave, self.sent_at, self.sent, self.is_waiting = scene.soon(), NEVER, 0, 0, False

    def act(self) -> None:
        """Does what comes next."""

    def told(self, reply: Reply) -> None:
        """Takes a reply."""

    def cut(self) -> None:
        """There will be no reply."""

    def turn(self) -> None:
        """Looks for a reply, or does what comes next."""
        scene = self.scene
        if not self.is_waiting:
            if self.wake <= scene.now:
                self.act()
            return
        assert self.connection
        reply = self.connection.look()
        if reply:
            self.is_waiting = False
            scene.note(f"{self.name} is told {reply.status} {reply.body[:60]!r}")
            self.told(reply)
        elif self.connection.is_gone:
            self.drop("is cut off")
        elif self.leave <= scene.now:
            self.connection.close()
            self.drop("leaves")
        elif scene.now - max(self.sent_at, scene.held_up) >= LATE:
            hold(self.waits_long, f"{self.name} asked at {self.sent_at / SECONDS:.6f} and was told nothing")
            scene.rules.overdue()

    def drop(self, what: str) -> None:
        """There will be no reply."""
        self.is_waiting = False
        self.scene.note(f"{self.name} {what}")
        self.wake = self.scene.soon()
        self.cut()

    def next_wake(self) -> int:
        """When it wants a turn, whatever comes."""
        if not self.is_waiting:
            return self.wake
        late = max(self.sent_at, self.scene.held_up) + LATE
        return min(self.leave, late if late > self.scene.now else NEVER)

    def ask(self, data: bytes, what: str, leaves: int = 0) -> bool:
        """Sends a request, and may leave before its reply: whether somebody listens."""
        scene = self.scene
        if self.connection is None or self.connection.is_gone or scene.chance(3):
            if self.connection:
                self.connection.close()
            self.connection = Connection(scene.folder, self.port)
        self.connection.send(data)
        if self.connection.is_gone:
            self.wake = scene.now + 20 * MILLIS
            return False
        scene.note(f"{self.name} asks {what}")
        self.is_waiting, self.sent_at, self.sent = True, scene.now, scene.clock
        self.leave = scene.soon() if leaves and not self.stays and scene.chance(leaves) else NEVER
        return True

    def life_ended(self, asked: int) -> None:
        """The program has ended. What was asked before that moment was to be answered."""
        if self.connection:
            reply = self.connection.look() if self.is_waiting else None
            if reply:
                self.is_waiting = False
                self.scene.note(f"{self.name} was told {reply.status}")
                self.told(reply)
            self.connection.close()
        if self.is_waiting:
            was_there = self.sent_at < asked
            hold(not was_there, f"{self.name} asked at {self.sent_at / SECONDS:.6f}, and the program ended without an answer")
            self.drop("is cut off by the end")


class Caller(Client):
    """Invokes with payloads that nobody else has."""

    def __init__(self, scene: Scene, name: str, port: int, count: int) -> None:
        super().__init__(scene, name, port)
        self.left, self.event = count, Event(b"", 0)

    def act(self) -> None:
        if self.left == 0:
            self.wake = NEVER
            return
        payload = f'{{"n":"{self.name}.{self.left}"}}'.encode()
        words = request("POST", INVOKE, payload, {"X-Amz-Invocation-Type": "Event"})
        if self.ask(words, payload.decode(), leaves=10):
            self.left -= 1
            self.event = self.scene.rules.invokes(payload, self.scene.clock)

    def told(self, reply: Reply) -> None:
        self.wake = self.scene.soon()
        self.scene.rules.invoked(self.event, reply.status, reply.headers.get("x-amzn-requestid"), self.scene.clock)


class Runtime(Client):
    """Asks for events, and answers them, or does not."""

    def __init__(self, scene: Scene, name: str, port: int, environment: int) -> None:
        super().__init__(scene, name, port)
        self.environment = environment
        self.event: Event | None = None
        self.attempt: Attempt | None = None
        self.report: Report | None = None
        self.given = 0

    def act(self) -> None:
        if self.attempt and self.event:
            self.answer(self.event, self.attempt)
        else:
            self.waits_long = True
            if self.ask(request("GET", f"{RUNTIME}/next"), "for an event", leaves=6):
                self.scene.rules.poll_came(self.environment)

    def answer(self, event: Event, attempt: Attempt) -> None:
        """Answers the event that it has, or dies."""
        scene = self.scene
        if self.report is None and scene.chance(12):
            scene.note(f"{self.name} dies")
            self.attempt, self.wake = None, scene.soon()
            return
        kind = "error" if scene.chance(4) else "response"
        self.given += 1
        body = f'{{"a":"{self.name}.{self.given}"}}'.encode()
        self.waits_long = False
        if self.ask(request("POST", f"{RUNTIME}/{event.id}/{kind}", body), f"{kind} of {event.id}", leaves=25):
            self.report = scene.rules.reports(attempt, kind, body, scene.clock)

    def told(self, reply: Reply) -> None:
        scene, report = self.scene, self.report
        self.wake = scene.soon()
        if report and self.event and self.attempt:
            scene.rules.reported(self.event, self.attempt, report, reply.status, scene.clock)
            if not scene.chance(20):
                self.attempt, self.report = None, None
        elif reply.status == 200:
            name = reply.headers["lambda-runtime-aws-request-id"]
            deadline = int(reply.headers["lambda-runtime-deadline-ms"])
            self.attempt = scene.rules.given(self.environment, name, reply.body, deadline, self.sent, scene.clock)
            self.event = scene.rules.by_id[name]
        elif reply.status == 403:
            scene.rules.next_refused(self.environment, scene.clock)
            self.wake = scene.now + 500 * MILLIS
        elif reply.status not in (409, 500):
            scene.rules.refused(reply.status, "a runtime")

    def cut(self) -> None:
        if self.report:
            self.attempt, self.report = None, None
        elif self.attempt is None:
            self.scene.rules.poll_left(self.environment)

    def life_ended(self, asked: int) -> None:
        super().life_ended(asked)
        self.attempt, self.report = None, None


class Collector(Client):
    """Reads records and deletes them."""

    def __init__(self, scene: Scene, name: str, port: int) -> None:
        super().__init__(scene, name, port)
        self.side, self.record, self.pause = "success", "", SECONDS // 2

    def act(self) -> None:
        if self.record:
            event = self.scene.rules.by_id[self.record]
            if self.ask(request("DELETE", f"/broker/destinations/{self.record}"), f"to delete {self.record}", leaves=15):
                event.delete_sent = True
            return
        self.side = "failure" if self.side == "success" else "success"
        self.ask(request("GET", f"/broker/destinations/{self.side}"), f"for a record of {self.side}", leaves=15)

    def told(self, reply: Reply) -> None:
        scene = self.scene
        is_idle = not self.record and reply.status != 200
        self.pause = min(2 * self.pause, 20 * SECONDS) if is_idle else SECONDS // 2
        self.wake = scene.now + self.pause if is_idle else scene.soon()
        if self.record:
            scene.rules.deleted(self.record, reply.status)
            self.record = ""
        elif reply.status == 200:
            self.record = scene.rules.recorded(self.side, reply.body, scene.clock)
        elif reply.status == 204:
            scene.rules.nothing_recorded(self.side, self.sent_at)
        else:
            scene.rules.refused(reply.status, "a collector")

    def cut(self) -> None:
        self.record = ""


class Operator(Client):
    """Looks at all events."""

    def act(self) -> None:
        self.ask(request("GET", "/events?limit=1000"), "for all events", leaves=10)

    def told(self, reply: Reply) -> None:
        self.wake = self.scene.soon() + (30 * SECONDS if self.scene.is_quiet else SECONDS)
        if reply.status == 200:
            self.scene.rules.listed(json.loads(reply.body)["events"], self.sent_at)
        elif not self.scene.rules.was_slow:
            self.scene.rules.refused(reply.status, "an operator")


class Stopper(Client):
    """Asks the broker to end, once it is told to."""

    def __init__(self, scene: Scene, name: str, port: int) -> None:
        super().__init__(scene, name, port)
        self.wake = NEVER

    def act(self) -> None:
        if self.ask(request("POST", "/broker/stop"), "to stop"):
            self.scene.rules.is_stopping = True

    def told(self, reply: Reply) -> None:
        self.wake = NEVER
        hold(reply.status == 202 or self.scene.rules.is_faulty, f"a stop was told {reply.status}")
