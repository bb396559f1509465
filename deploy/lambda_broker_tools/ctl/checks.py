"""Words of an add that do not go together."""
from __future__ import annotations

from collections.abc import Callable
from typing import NoReturn

from .drop_ins import EVENTS
from .ports import MOST_ENVIRONMENTS
from .takers import takers_of
from .words import SIDES, Words

Refuse = Callable[[str], NoReturn]


def check_sides(words: Words, refuse: Refuse) -> None:
    """Each side's records have somebody who collects them, or it is said that they are kept."""
    for side in SIDES:
        takers = [f"--{option.replace('_', '-')}" for option in takers_of(words, side)]
        if takers and words.discard in (side, "both"):
            refuse(f"{takers[0]} is for records that are not discarded")
        if f"--forward-{side}" in takers and f"--on-{side}" in takers:
            refuse(f"--forward-{side} and --on-{side} are one or the other")
    kept = [side for side in SIDES if not takers_of(words, side) and words.discard not in (side, "both")]
    if words.keep_records and not kept:
        refuse("--keep-records is for records that are neither sent nor discarded")
    if kept and not words.keep_records:
        refuse(uncollected(words, kept))


def uncollected(words: Words, kept: list[str]) -> str:
    """What is told where nobody collects the records of these sides."""
    posts = " and ".join(f"--forward-{side} URL or --on-{side} ARN" for side in kept)
    discards = kept[0] if len(kept) == 1 and not words.discard else "both"
    told = f"nobody collects the records of {' and '.join(kept)}. To send them say {posts}, to throw them away --discard {discards}, "
    told += f"to keep them until you collect them --keep-records. Each takes one of {words.events or EVENTS} places (--events). "
    return told + "Once all are taken, invocations are answered 429, until you collect some"


def check(words: Words, refuse: Refuse) -> None:
    """Refuses words of an add that do not go together."""
    if (words.runtime_extension or words.task_root) and not words.runtime:
        refuse("--runtime-extension and --task-root are for a --runtime")
    if not 1 <= (words.environments or 1) <= MOST_ENVIRONMENTS:
        refuse(f"--environments is 1 to {MOST_ENVIRONMENTS}")
    if words.watch and words.sectors is not None and words.sectors % 8 != 1:
        refuse(f"--watch wants a disk of 8 n + 1 sectors, which --sectors {words.sectors} is not")
    check_sides(words, refuse)
