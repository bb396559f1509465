"""Records are sent until they are taken."""
from __future__ import annotations

import dataclasses
import os
import time
import traceback
from collections.abc import Callable, Iterator
from typing import NamedTuple

from .asking import MOST_PAUSE, PAUSE, say
from .collecting import Aside, collect, collect_list, oldest, page, takes_lists
from .hooks import Place, Post, TooLarge
from .records import MOST_MESSAGE, Record
from .services import BATCH_BYTES
from .words import Words

MOST_AT_ONCE = 100


class Refused(NamedTuple):
    """A place that has not taken a record, and why."""

    place: Place
    why: str

    def is_large(self) -> bool:
        return isinstance(self.why, TooLarge)

    def of(self, what: str) -> str:
        """How it is told of a record, or of several."""
        return f"{self.place.verb.format(what, self.place.url)}: {self.why}"


@dataclasses.dataclass
class Job:
    """One of those who share out the records by their ids."""

    number: int
    words: Words
    places: list[Place]
    too_large: Post | None
    aside: Aside = dataclasses.field(default_factory=Aside)

    def batches(self, share: list[Record]) -> Iterator[list[Record]]:
        """A share, cut into what is sent at once: one record, or a batch, of no more bytes than each service takes."""
        most = min(place.most for place in self.places) if self.words.jobs > 1 else 1
        batch: list[Record] = []
        size = 0
        for record in share:
            length = len(record.content) + 2 * MOST_MESSAGE
            if batch and (len(batch) == most or size + length > BATCH_BYTES):
                yield batch
                batch, size = [], 0
            batch.append(record)
            size += length
        if batch:
            yield batch

    def send(self, records: list[Record]) -> dict[Record, Refused]:
        """Sends records to each place that has not taken them: of each that one has not taken, that place and why."""
        refused: dict[Record, Refused] = {}
        for place in self.places:
            wanted = [record for record in records if place not in record.takers and (record not in refused or refused[record].is_large())]
            for record, why in zip(wanted, place.send(wanted) if wanted else ()):
                if why is None:
                    record.takers.add(place)
                else:
                    refused[record] = Refused(place, why)
        return refused

    def is_taken_as_too_large(self, record: Record, refused: Refused) -> bool:
        """Whether somebody has taken a record that is too large for a place. Else it is left where it is, and told."""
        is_told, told = record.event in self.aside.events, refused.of(record.event)
        if not self.too_large:
            self.aside.leave(record, False)
            if not is_told:
                say(f"{told}: it is too large, and stays; --too-large URL|FILE takes such records")
            return False
        if not is_told:
            say(f"{told}: it is too large, and goes to {self.too_large.url}")
        why = self.too_large.post(record.content)
        if why is None:
            self.aside.events.pop(record.event, None)
            return True
        pause = self.aside.leave(record, True)
        say(f"putting {record.event}, which is too large, to {self.too_large.url}: {why}: again in {pause} s")
        return False

    def deliver(self, batch: list[Record], taken: list[str], before_a_pause: Callable[[], None]) -> None:
        """Sends a batch until each record of it is taken, and noted, or left aside."""
        pause = 1
        while batch:
            refused = self.send(batch)
            taken += [record.event for record in batch if record not in refused]
            large = [record for record, each in refused.items() if each.is_large()]
            taken += [record.event for record in large if self.is_taken_as_too_large(record, refused.pop(record))]
            batch = [*refused]
            if batch:
                tell_refused(refused, pause)
                before_a_pause()
                time.sleep(pause)
                pause = min(2 * pause, MOST_PAUSE)

    def forward(self, share: list[Record]) -> None:
        """Sends these records, each until it is taken. What was taken is collected, by lists where that may be, and at once where the
        next is not taken."""
        taken: list[str] = []
        at_once = takes_lists(self.words)

        def collect_taken() -> None:
            if at_once and taken:
                collect_list(self.words, taken)
            else:
                for event in taken:
                    collect(self.words, event)
            taken.clear()

        for batch in self.batches(share):
            self.deliver(batch, taken, collect_taken)
            if len(taken) >= (MOST_AT_ONCE if at_once else 1):
                collect_taken()
        collect_taken()

    def work(self) -> None:
        """Forwards this job's records. Should it fail, the program ends, and its supervisor starts it again."""
        try:
            while True:
                share = page(self.words, self.aside, self.number) if self.words.admin else oldest(self.words)
                if share:
                    self.forward(share)
                else:
                    time.sleep(1 if self.aside.has_more() else PAUSE)
        except Exception:
            traceback.print_exc()
            os._exit(1)


def tell_refused(refused: dict[Record, Refused], pause: int) -> None:
    """Tells what is sent again, and why: once of all that a place has refused in the same words."""
    told: dict[tuple[Place, str], list[str]] = {}
    for record, (place, why) in refused.items():
        told.setdefault((place, str(why)), []).append(record.event)
    for (place, why), (event, *others) in told.items():
        what = f"{event} and {len(others)} more" if others else event
        say(f"{Refused(place, why).of(what)}: again in {pause} s")
