"""What it says, what it refuses with, and the commands that it runs."""
from __future__ import annotations

import contextlib
import shlex
import subprocess
import sys
from typing import Any


class Failed(Exception):
    """A step that could not be done, and why."""


def say(text: str) -> None:
    """Nobody has to read it."""
    with contextlib.suppress(OSError):
        print(text, flush=True)


def run(*words: object, warns: bool = False, **more: Any) -> str:
    """What a command prints, where it is done, and what it warns of, where that is for the operator."""
    try:
        done = subprocess.run([*map(str, words)], stdout=subprocess.PIPE, stderr=subprocess.PIPE, text=True, **more)
    except OSError as why:
        raise Failed(f"{words[0]}: {why.strerror}") from None
    if done.returncode:
        raise Failed(f"{shlex.join(map(str, words))}: {(done.stdout + done.stderr).strip() or f'status {done.returncode}'}")
    if warns:
        sys.stderr.write(done.stderr)
    return str(done.stdout)
