"""Which places take the records, by the words."""
from __future__ import annotations

import re

from .hooks import File, Hook, Place, Post
from .services import SERVICES, AttemptSeconds, Messages
from .words import Refuse, Words, url_of


def places_of(words: Words) -> list[Place]:
    """Each place that has to take a record before it is collected."""
    seconds = AttemptSeconds(words)
    places: list[Place] = [Messages(words.dead_letter, words, seconds, True)] if words.dead_letter else []
    places += [Hook(words.url, words)] if words.url else []
    return places + ([SERVICES[words.to.split(":")[2]](words.to, words, seconds)] if words.to else [])


def too_large_of(words: Words, refuse: Refuse) -> Post | None:
    """Who takes what is too large, if somebody does."""
    if not words.too_large or not re.match("[a-z]+://", words.too_large):
        return File(words.too_large) if words.too_large else None
    try:
        return Hook(url_of(words.too_large), words)
    except ValueError:
        refuse("--too-large is a URL of HTTP or the path of a file")
