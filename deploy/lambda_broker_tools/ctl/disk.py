"""What a disk tells of itself."""
from __future__ import annotations

import dataclasses
import os
import struct

from .telling import Failed, run
from .words import Words

# The settings in the header of a segment, from where they begin there: their numbers, in the order of `Settings`, then their texts.
# So each version of the format has them that is known here.
NUMBERS, BEGIN = struct.Struct(">BIHBBHII"), 28
NEWEST = 2
SECTOR = 512
# What a disk that cannot be read so raises.
UNREADABLE = (ValueError, IndexError, struct.error)


@dataclasses.dataclass(frozen=True)
class Settings:
    """What a disk was formatted with."""

    sectors: int
    retries: int
    age: int
    timeout: int
    concurrency: int
    environments: int
    events: int
    payload: int
    response: int
    name: str
    handler: str
    arn: str


def header_of(path: str) -> tuple[int, bytes]:
    """The version of the format that a disk is written in, by the newer of its open segments, and the sector behind its gate."""
    with open(path, "rb", buffering=0) as disk:
        # No more is read than is asked for: who serves it looks at its last sector.
        os.posix_fadvise(disk.fileno(), 0, 0, os.POSIX_FADV_RANDOM)
        half = disk.seek(0, os.SEEK_END) // (2 * SECTOR) * SECTOR
        found = []
        for at in 0, half:
            disk.seek(at)
            segment = disk.read(2 * SECTOR)
            if segment[:1] == b"\1" and segment[512:519] == b"AINVOKE":
                found.append((segment[520:528], segment[519], segment[SECTOR:]))
    _, version, header = max(found)
    return version, header


def format_version(path: str) -> int:
    return header_of(path)[0]


def size_of(path: str) -> int:
    """The bytes of a file or a block device."""
    with open(path, "rb", buffering=0) as disk:
        return disk.seek(0, os.SEEK_END)


def texts_of(header: bytes) -> list[str]:
    """The texts of the settings: name, handler and ARN."""
    at, found = BEGIN + NUMBERS.size, []
    for _ in range(3):
        end = at + 1 + header[at]
        found.append(header[at + 1:end].decode("ascii"))
        at = end
    return found


def settings_of(path: str) -> Settings:
    """What a disk was formatted with."""
    version, header = header_of(path)
    if version > NEWEST:
        raise ValueError(f"a disk of format {version}")
    return Settings(size_of(path) // SECTOR, *NUMBERS.unpack_from(header, BEGIN), *texts_of(header))


def disk_in(words: Words, path: str) -> Settings:
    """What the disk at a path was formatted with, which has to be one of the function's."""
    try:
        found = settings_of(path)
    except UNREADABLE:
        run(words.program, "audit", path)
        raise Failed(f"{path} has another form than this program reads") from None
    if found.name != words.name:
        raise Failed(f"the disk is of function {found.name}: {path}. Is the wrong volume mounted?")
    return found
