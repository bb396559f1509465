"""The words that it is called with."""
from __future__ import annotations

import argparse
import dataclasses
import re

from .lines import Address


@dataclasses.dataclass
class Words:
    """What it was called with: the broker's port, where it listens itself, the function, and what it runs."""

    broker: Address
    listen: int
    arn: str
    keeps_hung: bool
    command: list[str]


def reader(doc: str) -> argparse.ArgumentParser:
    """What reads the words before the command."""
    usage = re.findall("Usage: (.*)", doc)[0]
    words = argparse.ArgumentParser(usage=usage, description=doc.split("\n")[0])
    words.add_argument("--broker", required=True, metavar="HOST:PORT", help="the broker's port of the environment")
    words.add_argument("--arn", default="", metavar="ARN", help="of the function, whose variables the runtime has then")
    words.add_argument("--listen", type=int, default=0, metavar="PORT", help="where the runtime asks, of 127.0.0.1")
    words.add_argument("--keep-hung", action="store_true", help="leave a runtime that has its event for too long")
    return words


def words_of(doc: str, arguments: list[str]) -> Words:
    """What it was called with, or its end with status 2."""
    at = arguments.index("--") if "--" in arguments else len(arguments)
    words = reader(doc)
    told, command = words.parse_args(arguments[1:at]), arguments[at + 1:]
    address = re.fullmatch(r"\[?([^\]]+)\]?:([0-9]+)", told.broker)
    if not command or not address:
        words.error("a broker as HOST:PORT and a command are wanted")
    return Words((address[1], int(address[2])), told.listen, told.arn, told.keep_hung, command)
