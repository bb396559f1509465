"""What the unit of a broker has beside its template."""
from __future__ import annotations

import os
import re
import stat

from .disk import SECTOR, Settings
from .includes import WRITTEN
from .places import disk_of
from .words import Words

# The settings that `format` has by default, of those that are reckoned with here, how many MiB of bodies `serve` has under way by
# itself, and what the unit has for MemoryMax.
EVENTS, SIZE, BODIES, MEMORY = 64, 262144, 32, 512


def volume_of(root: str, name: str, disk: str) -> str | None:
    """The folder of a disk that is a file and not in its function's own folder, as a unit has it, or None."""
    folder = os.path.dirname(os.path.realpath(disk))
    own = os.path.join(os.path.realpath(root + os.path.dirname(os.path.dirname(disk_of(name)))), name)
    escaped = re.sub(r'(["\\])', r"\\\1", folder.replace("%", "%%"))
    return None if folder == own or stat.S_ISBLK(os.stat(disk).st_mode) else f'"{escaped}"'


def memory_of(words: Words, settings: Settings) -> int:
    """How many MiB a broker may take."""
    most = settings.events * (settings.payload + settings.response)
    bodies = BODIES if words.body_memory is None else words.body_memory
    opening, serving = 2 * SECTOR * settings.sectors, 5 * bodies + 150 << 20
    return (3 * most + max(opening, serving) >> 20) + 101


def order_of(units: list[str], volume: str | None) -> dict[str, list[str]]:
    """What a broker's unit has to do with these, of its runtimes and forwarders."""
    # Runtimes wait for the broker by themselves, and end behind it: what they have then is put back, and does not count as failed.
    runtimes = [unit for unit in units if unit.startswith("lambda_runtime@")]
    order = {"Wants": units, "After": runtimes, "Before": [unit for unit in units if unit not in runtimes], "PropagatesStopTo": units}
    return {**order, "RequiresMountsFor": [volume] if volume else []}


def drop_in(words: Words, disk: str, settings: Settings, units: list[str]) -> str:
    """What the broker's unit has beside its template, or nothing."""
    memory, volume = memory_of(words, settings), volume_of(words.root, words.name, disk)
    service = [f"MemoryMax={memory}M"] if memory > MEMORY else []
    service += [f"ReadWritePaths={volume}"] if volume else []
    if words.address != "127.0.0.1":
        service += ["IPAddressAllow=any", *(["RestrictAddressFamilies=AF_INET6"] if ":" in words.address else [])]
    text = "".join(f"{key}={' '.join(of)}\n" for key, of in order_of(units, volume).items() if of)
    text = (f"[Unit]\n{text}" if text else "") + ("[Service]\n" + "\n".join(service) + "\n" if service else "")
    return text and f"{WRITTEN}# What you change belongs into another file of this folder.\n{text}"
