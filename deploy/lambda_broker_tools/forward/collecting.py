"""What is read at the broker, and collected there."""
from __future__ import annotations

import json
import math
import time
from typing import NamedTuple

from .asking import MOST_PAUSE, PAUSE, Request, ask, say, until
from .records import Record, records_of
from .words import Words

ACT = {"lambda-broker-act": "1"}


def oldest(words: Words) -> list[Record]:
    """The oldest record, if there is one."""
    reply = until("reading a record", lambda status: status in (200, 204), Request(f"{words.callers}/{words.side}"))
    return [] if reply.status == 204 else [Record(reply.body, json.loads(reply.body))]


class Left(NamedTuple):
    """A record that was left: the moment from which it is tried again, its pause, and the places that have taken it."""

    moment: float
    pause: float
    takers: set[object]


class Aside:
    """What a job has left at the broker since it is too large."""

    def __init__(self) -> None:
        self.events: dict[str, Left] = {}
        # The last of the records with which the list begins that are never tried again: a page is read from there on.
        self.behind: str | None = None

    def is_left(self, record: Record) -> bool:
        return record.event in self.events and self.events[record.event].moment > time.monotonic()

    def leave(self, record: Record, is_tried_again: bool) -> float:
        """For how long a record is left."""
        before = self.events[record.event].pause if record.event in self.events else 0
        pause = min(max(1, 2 * before), MOST_PAUSE) if is_tried_again else math.inf
        self.events[record.event] = Left(time.monotonic() + pause, pause, record.takers)
        return pause

    def has_more(self) -> bool:
        """Whether one is tried again."""
        return any(left.pause < math.inf for left in self.events.values())

    def keep(self, events: set[str]) -> None:
        """Forgets those that somebody has collected: these are all that there are."""
        self.events = {event: told for event, told in self.events.items() if event in events}

    def share_of(self, records: list[Record]) -> list[Record]:
        """Those of its job's records that are to be forwarded now."""
        share: list[Record] = []
        for record in records:
            left = self.events.get(record.event)
            record.takers = left.takers if left else record.takers
            if not self.is_left(record):
                share.append(record)
            elif left and left.pause == math.inf and not share:
                self.behind = record.event
        return share


def page(words: Words, aside: Aside, job: int) -> list[Record]:
    """This job's share of the first page that has some of it."""
    url = f"http://127.0.0.1:{words.admin}/records/{words.side}?limit=1000"
    begin = f"{url}&after={aside.behind}" if aside.behind else url
    seen: set[str] = set()
    reply = until("reading records", lambda status: status == 200 or status == 404 and bool(aside.behind), Request(begin))
    while reply.status == 200:
        own = [record for record in records_of(reply.body) if int(record.event[:8], 16) % words.jobs == job]
        share, after = aside.share_of(own), reply.headers.get("Next-After")
        seen.update(record.event for record in own)
        if begin == url and not after:
            aside.keep(seen)
        if share or not after:
            return share
        reply = ask(Request(f"{url}&after={after}"))
    # Somebody has collected that one meanwhile: from the beginning.
    aside.behind = None
    return []


def note_gone(event: str) -> None:
    say(f"collecting {event}, which was taken: it was there no more")


def collect(words: Words, event: str) -> None:
    """Collects a record that was taken."""
    # 404 says that it was collected already: by an earlier try whose answer was lost.
    what = f"collecting {event}, which was taken"
    reply = until(what, lambda status: status in (204, 404), Request(f"{words.callers}/{event}", "DELETE"))
    if reply.status == 404:
        note_gone(event)
        time.sleep(PAUSE)


def takes_lists(words: Words) -> bool:
    """Whether the admin port collects records by lists."""
    return bool(words.admin) and ask(Request(words.lists, "POST", b"", ACT)).status == 200


def collect_list(words: Words, events: list[str]) -> None:
    """Collects records that were taken."""
    what = f"collecting {len(events)} records, which were taken"
    reply = until(what, lambda status: status == 200, Request(words.lists, "POST", "\n".join(events), ACT))
    for line in reply.body.decode().splitlines():
        if line.endswith(" unknown"):
            note_gone(line.split()[0])
