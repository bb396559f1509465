"""What is told of a disk that stayed."""
from __future__ import annotations

import dataclasses
import json
import shlex

from .disk import Settings
from .places import USER
from .telling import Failed, run, say
from .words import FORMAT, Words


def remedy(disk: str, option: str, asked: int | str, found: int | str) -> str:
    """How a disk comes to have a setting."""
    words = f"--{option} {shlex.quote(str(asked))}"
    if option in ("timeout", "concurrency"):
        return "no command changes it, only a new disk has another"
    if option in ("retries", "age"):
        return f"with the broker stopped, lambda_broker configure {disk} {words} changes it"
    if option in ("environments", "events", "payload", "response") and int(asked) < int(found):
        return "a copy can only raise it"
    return f"with the broker stopped, runuser -u {USER} -- lambda_broker copy {disk} NEW {words} makes a disk that has it"


def in_force(words: Words, disk: str, settings: Settings) -> dict[str, int | str]:
    """What is in force on a disk. Retries and age may not be what it was formatted with, but in an older format they are."""
    formatted = dataclasses.asdict(settings)
    try:
        told = json.loads(run(words.program, "audit", disk, "--json"))
        return {**formatted, "retries": told["retries"], "age": told["age"]}
    except Failed as why:
        known = "refused: old version" in str(why)
        return {option: value for option, value in formatted.items() if known or option not in ("retries", "age")}


def tell_kept(words: Words, disk: str, settings: Settings) -> None:
    """What is in force on a disk that stayed, and what was asked for and is not."""
    now = in_force(words, disk, settings)
    say(f"kept {disk}, as it was formatted")
    say(f"in force: {' '.join(f'{option} {now[option]}' for option in FORMAT if option in now)}")
    for option in (*FORMAT, "handler", "arn"):
        asked, found = getattr(words, option), now.get(option)
        if found is not None and asked not in (None, found):
            say(f"not in force: --{option} {asked}. It is {found}: {remedy(disk, option, asked, found)}")
