"""What it says on standard error."""
import contextlib
import sys


def say(text: str) -> None:
    with contextlib.suppress(OSError):
        print(f"supervise: {text}", file=sys.stderr, flush=True)
