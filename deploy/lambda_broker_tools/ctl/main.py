"""Reads the words, and does what they say."""
from __future__ import annotations

import http.client
import os
import sys

from .adding import add
from .changing import change
from .checks import check
from .options import reader
from .removing import remove
from .renewing import renew
from .showing import show, show_status
from .telling import Failed
from .units import run_step
from .words import Words

COMMANDS = {
    "add": lambda words: change(words, add),
    "remove": lambda words: change(words, remove),
    "list": show,
    "status": show_status,
    "reload": renew,
    "unit": run_step,
}


def main(doc: str | None) -> None:
    options = reader(doc)
    words = options.parse_args(namespace=Words())
    # nginx and Prometheus read what is not 0600, whoever adds.
    os.umask(0o022)
    words.root = words.root and os.path.abspath(words.root)
    if any(not word.isprintable() for word in sys.argv):
        options.error("a word has a line break, or another character that cannot be printed")
    if words.command == "add":
        check(words, options.error)
    try:
        COMMANDS[words.command](words)
    except (Failed, OSError, http.client.HTTPException) as why:
        sys.exit(f"lambda-broker-ctl: {why}")
    except KeyboardInterrupt:
        sys.exit("lambda-broker-ctl: ended by SIGINT")
