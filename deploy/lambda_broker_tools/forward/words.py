"""The words that it is called with."""
from __future__ import annotations

import argparse
import dataclasses
import re
import urllib.parse
from collections.abc import Callable
from typing import NoReturn

from ..arns import ARN, RESOURCES
from .asking import KINDS

Refuse = Callable[[str], NoReturn]


@dataclasses.dataclass
class Words:
    """What it was called with."""

    port: int
    side: str
    url: str | None
    to: str | None
    dead_letter: str | None
    endpoint_url: str | None
    region: str | None
    too_large: str | None
    admin: int | None
    jobs: int
    timeout: float
    proxy: str | None

    @property
    def callers(self) -> str:
        """Where single records are read and collected."""
        return f"http://127.0.0.1:{self.port}/broker/destinations"

    @property
    def lists(self) -> str:
        """Where many are collected at once."""
        return f"http://127.0.0.1:{self.admin}/records/collect"


def url_of(text: str) -> str:
    """A URL of HTTP."""
    parts = urllib.parse.urlsplit(text)
    if parts.scheme not in KINDS or not parts.hostname or "@" in parts.netloc or parts.port == 0:
        raise ValueError
    return text


def proxy_of(text: str) -> str:
    """Host and port of a proxy, which is told as http://HOST:PORT."""
    parts = urllib.parse.urlsplit(url_of(text))
    if parts.scheme != "http" or not parts.port or parts.path.strip("/"):
        raise ValueError
    return parts.netloc


def arn_of(*kinds: str) -> Callable[[str], str]:
    """An ARN of one of these services, of what can take records there."""

    def read(text: str) -> str:
        kind = (text.split(":") + ["", "", ""])[2]
        if kind not in kinds or not re.fullmatch(ARN.format(kind, RESOURCES[kind]), text):
            raise ValueError
        return text

    read.__name__ = f"ARN of {', '.join(kinds)}"
    return read


def region_of(text: str) -> str:
    if not re.fullmatch("[a-z0-9-]+", text):
        raise ValueError
    return text


def reader(doc: str | None) -> argparse.ArgumentParser:
    made = argparse.ArgumentParser(description=doc, formatter_class=argparse.RawDescriptionHelpFormatter)
    made.add_argument("port", type=int)
    made.add_argument("side", choices=["success", "failure"])
    made.add_argument("url", type=url_of, nargs="?")
    made.add_argument("--to", type=arn_of(*RESOURCES), metavar="ARN")
    made.add_argument("--dead-letter", type=arn_of("sqs", "sns"), metavar="ARN")
    made.add_argument("--endpoint-url", type=url_of, metavar="URL")
    made.add_argument("--region", type=region_of)
    made.add_argument("--too-large", metavar="URL|FILE")
    made.add_argument("--admin", type=int)
    made.add_argument("--jobs", type=int, default=1)
    made.add_argument("--timeout", type=float, default=60)
    made.add_argument("--proxy", type=proxy_of)
    return made


def check(words: Words, refuse: Refuse) -> None:
    """Refuses words that do not go together."""
    is_by_arn = words.to or words.dead_letter
    if bool(words.url) + bool(words.to) > 1 or not (words.url or is_by_arn):
        refuse("a URL or --to ARN is wanted, and for failures --dead-letter ARN beside it or alone")
    if is_by_arn and not words.admin:
        refuse("--to and --dead-letter are for the records of the operator's port: --admin PORT")
    if words.dead_letter and words.side != "failure":
        refuse("--dead-letter is for failures")
    if not is_by_arn and (words.endpoint_url or words.region or words.too_large):
        refuse("--endpoint-url, --region and --too-large are for --to and --dead-letter")
    if words.jobs < 1 or words.jobs > 1 and not words.admin:
        refuse("--jobs is 1 or more, and more than 1 with --admin alone")
    if not 0 < words.timeout <= 3600:
        refuse("--timeout is more than 0 and at most 3600 seconds")
