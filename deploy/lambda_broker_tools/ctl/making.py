"""The disk of a function: found, or made."""
from __future__ import annotations

import contextlib
import os
import pwd
import re
import shlex
import subprocess
from typing import Any

from .disk import SECTOR, Settings, disk_in
from .drop_ins import SIZE
from .places import PORTS, REMOVED, disk_of, env_of, place_of, removed_of
from .steps import Steps
from .telling import Failed, run, say
from .words import Words


def as_user(owner: pwd.struct_passwd | None) -> dict[str, Any]:
    """How a program is run as the units' user."""
    return {"user": owner.pw_uid, "group": owner.pw_gid, "extra_groups": []} if owner else {}


def trace_of(steps: Steps, name: str, ports: dict[str, int]) -> str | None:
    """What tells that this machine has had a function, or None."""
    paths = [path for path in (env_of(name), os.path.dirname(disk_of(name))) if os.path.lexists(steps.at(path))]
    paths += [PORTS] if name in ports else []
    paths += [REMOVED] if name in removed_of(steps.root) else []
    return steps.at(paths[0]) if paths else None


def found_disk(words: Words, disk: str) -> Settings:
    """What a disk that is there was formatted with, which has to go with the words."""
    if words.new_disk:
        raise Failed(f"{disk} is there, and --new-disk is for a disk that is gone. Leave that out, or move the disk away")
    found = disk_in(words, disk)
    if words.watch and found.sectors % 8 != 1:
        raise Failed(f"{disk} has {found.sectors} sectors, and --watch wants 8 n + 1: copy it by --sectors, or leave out --watch")
    return found


def find_disk(words: Words, steps: Steps, ports: dict[str, int], old: str | None) -> tuple[str, Settings | None]:
    """The path of a function's disk, and what it was formatted with, or None where it has to be made."""
    name, usual, trace = words.name, steps.at(disk_of(words.name)), trace_of(steps, words.name, ports)
    disk = usual if words.new_disk and old is None else place_of(words.root, name)
    if os.path.exists(disk):
        return disk, found_disk(words, disk)
    if trace and not words.new_disk:
        told = f"its disk is gone: is the volume mounted? There is {trace}, and no {disk}"
        raise Failed(f"{told}. Where a new one is wanted, --new-disk makes it")
    if disk != usual or os.path.lexists(disk):
        raise Failed(f"--new-disk makes {usual}, and {name} has {disk}, by {steps.at(env_of(name))} or by a link: make that yourself")
    return disk, None


def sectors_for(words: Words, told: list[object], owner: pwd.struct_passwd | None) -> int:
    """How many sectors a disk gets that is made by these words, where that was not said."""
    # The least size, and room for a hundred commits of a usual size, here of 64 KiB, between two switches.
    done = subprocess.run([*map(str, told), "--sectors", "1"], capture_output=True, text=True, **as_user(owner))
    least = re.search("too small, least ([0-9]+)", done.stdout)
    if not least:
        raise Failed(f"{shlex.join(map(str, told))}: {(done.stdout + done.stderr).strip()}")
    sectors = int(least[1]) + 200 * (2 + min(words.payload or SIZE, 65536) // SECTOR)
    # A disk that is watched has 8 n + 1.
    return sectors + ((1 - sectors) % 8 if words.watch else 0)


def remove_empty(program: str, disk: str) -> None:
    """Removes a disk that was just made, unless it has come to hold something."""
    try:
        held = run(program, "audit", disk).splitlines()[1]
    except Failed as why:
        # Its format was cut off, or never began.
        if os.path.lexists(disk) and "refused: not formatted" not in str(why):
            raise
        held = "held 0 "
    if not held.startswith("held 0 "):
        raise Failed(f"{held}: it stays")
    with contextlib.suppress(FileNotFoundError):
        os.remove(disk)


def make_disk(steps: Steps, words: Words, owner: pwd.struct_passwd | None) -> None:
    """Makes the disk."""
    disk, folder = steps.at(disk_of(words.name)), os.path.dirname(disk_of(words.name))
    steps.folder(folder, 0o700, owner)
    steps.give(folder, owner)
    told: list[object] = [words.program, "format", disk, "--name", words.name, "--handler", words.handler, "--arn", words.arn]
    told += [word for option, value in words.format_options().items() for word in (f"--{option}", value)]
    told += ["--allocate"] if words.allocate else []
    sectors = words.sectors or sectors_for(words, told, owner)
    steps.will(f"formatted {disk}", lambda: remove_empty(words.program, disk))
    run(*told, "--sectors", sectors, warns=True, umask=0o077, **as_user(owner))
    say(f"formatted {disk} with {sectors} sectors")
