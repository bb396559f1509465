"""The ports of functions, and which of them are free."""
from __future__ import annotations

import errno
import socket

from .telling import Failed

# A function has twenty ports in a row: the callers' is the first, environment n's the n-th behind it, the operator's the last.
BLOCK = 20
MOST_ENVIRONMENTS = 16
# Where blocks begin, and where else they may, if the system itself gives away the ports from there on.
FIRST, LEAST = 20000, 2000


def ephemeral() -> int:
    """The first port that the system gives away by itself."""
    with open("/proc/sys/net/ipv4/ip_local_port_range", encoding="ascii") as told:
        return int(told.read().split()[0])


def taken(first: int) -> int | None:
    """A port of this block at which somebody listens, if there is one."""
    for port in range(first, first + BLOCK):
        with socket.socket() as probe:
            probe.setsockopt(socket.SOL_SOCKET, socket.SO_REUSEADDR, 1)
            try:
                probe.bind(("", port))
            except OSError as why:
                if why.errno == errno.EADDRINUSE:
                    return port
    return None


def choose(ports: dict[str, int], wanted: int | None, end: int) -> int:
    """The first port of a block that no function has and at which nobody listens, below the ports that the system gives away."""
    if wanted:
        refuse_block(ports, wanted, end)
        return wanted
    blocks: list[int] = [*range(FIRST, end - BLOCK + 1, BLOCK), *range(LEAST, min(FIRST, end) - BLOCK + 1, BLOCK)]
    for first in blocks:
        if all(abs(first - other) >= BLOCK for other in ports.values()) and not taken(first):
            return first
    raise Failed(f"no {BLOCK} ports in a row are free below {end}, from where on the system gives ports away")


def refuse_block(ports: dict[str, int], wanted: int, end: int) -> None:
    """Refuses a block that was asked for, where another function has some of it, or another program, or the system."""
    other = next((name for name, first in ports.items() if abs(first - wanted) < BLOCK), None)
    if wanted < 1024 or wanted + BLOCK > end:
        told = f"ports {wanted} to {wanted + BLOCK - 1} do not lie between 1024 and {end}"
        raise Failed(f"{told}, from where on the system gives ports away")
    if other:
        raise Failed(f"ports {wanted} to {wanted + BLOCK - 1}: {other} has ports from {ports[other]} on")
    if taken(wanted):
        raise Failed(f"ports {wanted} to {wanted + BLOCK - 1}: another program listens on {taken(wanted)}")
