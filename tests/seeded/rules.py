"""The rules that a broker keeps, as callers, runtimes, operators and collectors can see them: of what was promised to each, what may
come later. They are those of docs/FORMATS.md and of the worked cases (`wait failure N`), and know nothing of the code.

All clocks here are the system's, in milliseconds, as the machine makes it up. A moment is of a clock that nobody sets, in nanoseconds.
"""
from __future__ import annotations

import json
from dataclasses import dataclass, field


class Broken(Exception):
    """Something was seen that no broker may show."""


def hold(is_so: bool, what: str) -> None:
    """A rule."""
    if not is_so:
        raise Broken(what)


NEVER = (1 << 64) - 1
SECOND = 1_000_000_000

# How long a reply or a move may take that nothing holds up, as a moment and as a time of the clock; and how long it may take until it
# is noticed that a newer poll took the place of one that was left.
LATE, ON_TIME, NOTICED = 10 * SECOND, 3000, 2 * SECOND

# How long an event waits behind its failure N, in milliseconds.
WAITS = {1: 60_000, 2: 120_000}


@dataclass
class Report:
    """A response or an error of a runtime for an attempt."""

    kind: str
    body: bytes
    sent: int
    status: int | None = None
    replied: int | None = None


@dataclass
class Attempt:
    """An attempt that a runtime was given."""

    environment: int
    life: int
    began: int
    deadline: int
    reports: list[Report] = field(default_factory=list)

    def told(self, kind: str) -> Report | None:
        """The report of this kind that was taken."""
        return next((report for report in self.reports if report.kind == kind and report.status == 202), None)

    def is_over(self, now: int, life: int) -> bool:
        """Whether the event may run elsewhere by now."""
        return self.life != life or now >= self.deadline or bool(self.reports)


@dataclass
class Event:
    """What is known of one invocation, which its payload tells from others."""

    payload: bytes
    sent: int
    life: int = 0
    id: str | None = None
    accepted: int | None = None
    accepted_moment: int = 0
    attempts: list[Attempt] = field(default_factory=list)
    ended: str | None = None
    ended_moment: int = 0
    delete_sent: bool = False
    is_collected: bool = False
    collected_moment: int = 0

    @property
    def is_done(self) -> bool:
        """Whether nothing is left of what was promised: it was not told 202, or its record was deleted, as far as is known."""
        return self.accepted is None or self.is_collected or self.delete_sent

    def failures(self) -> list[Report]:
        """The errors that were taken."""
        return [report for attempt in self.attempts if (report := attempt.told("error"))]

    def response(self) -> Report | None:
        """The response that was taken."""
        return next((report for attempt in self.attempts if (report := attempt.told("response"))), None)


@dataclass
class Settings:
    """What the disk was formatted with."""

    retries: int
    age: int
    timeout: int
    events: int
    environments: int


class Rules:
    """What was seen so far, and whether what comes now may be seen."""

    def __init__(self, settings: Settings) -> None:
        self.settings = settings
        self.events: dict[bytes, Event] = {}
        self.by_id: dict[str, Event] = {}
        self.life, self.lost_polls, self.latest, self.moment = 0, 0, 0, 0
        self.is_faulty, self.is_stopping, self.was_set, self.was_slow = False, False, False, False
        self.absent: dict[int, int] = {}

    # What nobody told.

    def is_plain(self, event: Event) -> bool:
        """Whether nothing happened to an event that is not seen here: no poll was left, the program did not end and no clock was set."""
        return event.life == self.life and self.lost_polls == 0 and not self.was_set

    def poll_left(self, environment: int) -> None:
        """A runtime left its poll, which may yet be given an event, until there is a newer one."""
        self.absent[environment] = NEVER
        if any(event.ended is None for event in self.events.values()):
            self.lost_polls += 1

    def poll_came(self, environment: int) -> None:
        """A runtime asks for an event. For a while the poll that was left may still be given one."""
        if self.absent.get(environment) == NEVER:
            self.absent[environment] = self.moment + NOTICED

    def ends(self, event: Event, side: str) -> None:
        """An event is known to have ended."""
        if event.ended is None:
            event.ended, event.ended_moment = side, self.moment

    def new_life(self) -> None:
        """The program has ended, and is started again."""
        self.life, self.lost_polls = self.life + 1, 0
        self.is_faulty, self.is_stopping, self.was_slow = False, False, False
        self.absent.clear()

    # Callers.

    def invokes(self, payload: bytes, now: int) -> Event:
        """A caller is about to invoke."""
        if any(self.moment < until for until in self.absent.values()):
            self.lost_polls += 1
        event = self.events[payload] = Event(payload, now, self.life)
        return event

    def names(self, event: Event, name: str) -> None:
        """An event is told to have this id."""
        hold(self.by_id.setdefault(name, event) is event, f"{name} is the id of two events")
        hold(event.id in (None, name), f"one invocation is two events: {event.id} and {name}")
        event.id = name

    def invoked(self, event: Event, status: int, name: str | None, now: int) -> None:
        """A caller was told something."""
        if status == 202:
            hold(name is not None, "202 without an id")
            event.accepted, event.accepted_moment = now, self.moment
            self.names(event, name or "")
        elif status == 429:
            hold(self.held_at_most() >= self.settings.events, f"429 where at most {self.held_at_most()} events are held")
        else:
            self.refused(status, "an invocation")

    def refused(self, status: int, what: str) -> None:
        """Whoever asked was told that the broker is not available."""
        hold(status == 503 and (self.is_faulty or self.is_stopping), f"{what} was told {status}")

    def held_at_most(self) -> int:
        """How many events may be held."""
        return sum(not event.is_collected for event in self.events.values())

    # Runtimes.

    def given(self, environment: int, name: str, payload: bytes, deadline: int, asked: int, now: int) -> Attempt:
        """A runtime was given an event for which it asked then."""
        hold(payload in self.events, f"an event was given that nobody sent: {payload!r}")
        event = self.events[payload]
        self.names(event, name)
        hold(event.ended is None, f"{name} was given after it had ended as {event.ended}")
        hold(not event.delete_sent, f"{name} was given after its record was deleted")
        began = deadline - 1000 * self.settings.timeout
        hold(began <= max(now, self.latest), f"{name} was started at {began}, which is ahead of {now}")
        hold(self.was_set or began >= max(asked, event.sent), f"{name} was started at {began}, before anybody asked")
        for before in event.attempts:
            hold(before.is_over(max(now, self.latest), self.life), f"{name} runs in {before.environment} and was given to {environment}")
        self.check_wait(event, name, began)
        self.check_on_time(event, name, began, asked)
        attempt = Attempt(environment, self.life, began, deadline)
        event.attempts.append(attempt)
        return attempt

    def check_wait(self, event: Event, name: str, began: int) -> None:
        """An event waits behind its failures, and is not tried more often than its retries."""
        failures = event.failures()
        hold(len(failures) <= self.settings.retries, f"{name} was tried again after {len(failures)} failures")
        hold(event.response() is None, f"{name} was tried again after its response was taken")
        if failures and not self.was_set:
            least = failures[-1].sent + WAITS[len(failures)]
            hold(began >= least, f"{name} was tried again at {began}, {least - began} ms too soon")

    def check_on_time(self, event: Event, name: str, began: int, asked: int) -> None:
        """Whoever asks is given an event as soon as it is due."""
        failures = event.failures()
        if not self.is_plain(event) or self.was_slow or self.is_faulty or event.accepted is None or len(failures) < len(event.attempts):
            return
        due = (failures[-1].replied or 0) + WAITS[len(failures)] if failures else event.accepted
        hold(began <= max(due, asked) + ON_TIME, f"{name} was due at {due}, and was started at {began}")

    def overdue(self) -> None:
        """A runtime has waited for long: no event waits that was never given."""
        for event in self.events.values():
            is_due = not self.was_slow and event.accepted is not None and not event.attempts and event.ended is None
            is_late = is_due and self.is_plain(event) and event.accepted_moment + LATE < self.moment
            hold(not is_late, f"{event.id} waits, and so does a runtime")

    def next_refused(self, environment: int, now: int) -> None:
        """A runtime may not ask: an event was not answered there."""
        attempts = [attempt for event in self.events.values() for attempt in event.attempts if attempt.life == self.life]
        mine = [attempt for attempt in attempts if attempt.environment == environment and attempt.deadline + ON_TIME > now]
        is_told = self.is_stopping or self.is_faulty or bool(mine) or self.lost_polls > 0 or self.was_set
        hold(is_told, f"a runtime of environment {environment} may not ask, and was given nothing")

    def reports(self, attempt: Attempt, kind: str, body: bytes, now: int) -> Report:
        """A runtime is about to report."""
        report = Report(kind, body, now)
        attempt.reports.append(report)
        return report

    def reported(self, event: Event, attempt: Attempt, report: Report, status: int, now: int) -> None:
        """A runtime was told what became of its report."""
        report.status, report.replied = status, now
        earlier = [other for other in attempt.reports if other is not report and other.status == 202]
        if status == 202:
            hold(not earlier, f"two reports for one attempt of {event.id} were taken")
            hold(self.was_set or report.sent < attempt.deadline, f"a report for {event.id} was taken after its deadline")
            if report.kind == "response":
                self.ends(event, "success")
        elif status in (400, 403):
            was_first = not earlier and len(attempt.reports) == 1
            in_time = max(now, self.latest) < attempt.deadline and attempt.life == self.life
            hold(not (was_first and in_time), f"the report for {event.id} was refused with {status}")
        else:
            self.refused(status, "a report")

    # Collectors and operators.

    def recorded(self, side: str, record: bytes, now: int) -> str:
        """A record was shown: the id of its event."""
        told = json.loads(record)
        name, condition = told["requestContext"]["requestId"], told["requestContext"]["condition"]
        payload = json.dumps(told["requestPayload"], separators=(",", ":")).encode()
        hold(payload in self.events, f"a record of an event that nobody sent: {record!r}")
        event = self.events[payload]
        self.names(event, name)
        hold(not event.is_collected, f"the record of {name} was shown after it was deleted")
        hold((condition == "Success") == (side == "success"), f"{name} is in {side} as {condition}")
        hold(event.ended in (None, side), f"{name} ended as {event.ended} and is recorded as {condition}")
        self.ends(event, side)
        count = told["requestContext"]["approximateInvokeCount"]
        self.check_record(event, condition, count, told)
        return str(name)

    def check_record(self, event: Event, condition: str, count: int, told: dict[str, object]) -> None:
        """A record says how the event ended."""
        hold(count >= len(event.attempts), f"{event.id} was given {len(event.attempts)} times, and its record says {count}")
        if self.is_plain(event):
            hold(count == len(event.attempts), f"{event.id} was given {len(event.attempts)} times, and its record says {count}")
        if condition == "Success":
            sent = [report.body for attempt in event.attempts for report in attempt.reports if report.kind == "response"]
            answer = json.dumps(told["responsePayload"], separators=(",", ":")).encode()
            hold(answer in sent, f"the record of {event.id} has {answer!r}, which no runtime sent")
        else:
            hold(event.response() is None, f"{event.id} failed as {condition} after its response was taken")
        if condition == "RetriesExhausted":
            hold(count > self.settings.retries, f"{event.id} has no more retries after {count} attempts")
        if condition == "EventAgeExceeded" and not self.was_set:
            hold(self.latest >= event.sent + 1000 * self.settings.age, f"{event.id} is too old too soon")

    def nothing_recorded(self, side: str, asked: int) -> None:
        """No record was shown to who asked at this moment: each that had been made was deleted."""
        for event in self.events.values():
            is_there = event.ended == side and event.ended_moment < asked and not event.delete_sent
            hold(not is_there, f"{event.id} ended as {side}, and there is no record")

    def deleted(self, name: str, status: int) -> None:
        """A collector was told what became of a record."""
        event = self.by_id[name]
        if status in (204, 404):
            hold(status == 204 or event.delete_sent, f"the record of {name} is unknown, and nobody deleted it")
            event.is_collected, event.collected_moment = True, self.moment
        else:
            self.refused(status, "a collector")

    def listed(self, rows: list[dict[str, object]], asked: int) -> None:
        """An operator who asked at this moment was shown all events, which are durable."""
        shown = {str(row["id"]): str(row["standing"]) for row in rows}
        for event in self.events.values():
            standing = shown.get(event.id or "")
            if event.is_collected and event.collected_moment < asked:
                hold(standing is None, f"{event.id} is listed after its record was deleted")
            elif event.accepted is not None and event.accepted_moment < asked and not event.delete_sent:
                hold(standing is not None, f"{event.id} was told 202 and is not listed")
            if standing and event.ended and event.ended_moment < asked:
                hold(standing.startswith("ended"), f"{event.id} has ended, and is listed as {standing}")
            if standing and standing.startswith("ended"):
                self.ends(event, "success" if standing == "ended Success" else "failure")

    def all_is_done(self) -> None:
        """At the end, with all time that was needed: each event that was told 202 has ended, and its record was deleted."""
        for event in self.events.values():
            hold(event.is_done, f"{event.id} was told 202 and is gone, or has not ended")
