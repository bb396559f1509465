"""Who takes the records of each side."""
from __future__ import annotations

from .ports import BLOCK
from .words import Words

# Who takes the records of each side, and who may do so at once.
TAKERS = {"success": ("forward_success", "on_success"), "failure": ("forward_failure", "on_failure", "dead_letter")}


def takers_of(words: Words, side: str) -> dict[str, str]:
    """Who takes the records of a side, each with its option."""
    return {option: getattr(words, option) for option in TAKERS[side] if getattr(words, option)}


def forwarder(words: Words, side: str, first: int) -> list[str]:
    """The lines of a forwarder's environment file."""
    takers, more = takers_of(words, side), [f"--admin {first + BLOCK - 1}"]
    more += [f"--to {takers[f'on_{side}']}"] if f"on_{side}" in takers else []
    more += [f"--dead-letter {takers['dead_letter']}"] if "dead_letter" in takers else []
    url = takers.get(f"forward_{side}")
    return [f"PORT={first}", f"SIDE={side}", *([f"URL={url}"] if url else []), f"WORDS={' '.join(more)}"]
