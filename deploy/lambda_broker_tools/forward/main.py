"""Reads the words, and forwards."""
from __future__ import annotations

import threading

from .forwarding import Job
from .places import places_of, too_large_of
from .words import Words, check, reader


def main(doc: str | None) -> None:
    options = reader(doc)
    words = Words(**vars(options.parse_intermixed_args()))
    check(words, options.error)
    too_large, places = too_large_of(words, options.error), places_of(words)
    first, *others = [Job(number, words, places, too_large) for number in range(words.jobs)]
    for job in others:
        threading.Thread(target=job.work, daemon=True).start()
    first.work()
