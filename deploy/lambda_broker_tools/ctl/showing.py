"""The functions, and whether their brokers serve."""
from __future__ import annotations

import os
import subprocess
import sys
import tempfile

from .disk import UNREADABLE, format_version, settings_of
from .looking import state_of
from .places import USER, all_served, broker_of, parts_of, ports_of
from .telling import run
from .walls import has_walls
from .words import Words


def own_version(program: str) -> int:
    """The version that the program writes."""
    with tempfile.TemporaryDirectory() as folder:
        disk = os.path.join(folder, "disk")
        words = "--sectors 64 --name x --handler x --arn x --events 1 --payload 2 --response 2".split()
        run(program, "format", disk, *words)
        return format_version(disk)


def shown(name: str, disk: str, own: int, program: str) -> str:
    """What there is to tell of a function's disk."""
    try:
        version = format_version(disk)
        if version > own:
            return f" of format {version}, which this program does not read: install the newer one again"
        if settings_of(disk).name != name:
            return f" of function {settings_of(disk).name}: is the wrong volume mounted?"
        if version < own:
            return f" of format {version}, to be migrated to {own}: stop it, runuser -u {USER} -- {program} migrate {disk}"
    except FileNotFoundError:
        return ", which is gone: is the volume mounted?"
    except OSError as why:
        return f" ({why.strerror})"
    except UNREADABLE:
        return " (not formatted)"
    return ""


def show(words: Words) -> None:
    own = own_version(words.program)
    for name, told in all_served(words.root, ports_of(words.root)):
        disk = told.disk
        print(f"{name}: callers {told.port}, operator {told.admin}, disk {disk}{shown(name, disk, own, words.program)}")


def are_active(units: list[str]) -> bool:
    """Whether all of these are, and which are not."""
    well = True
    for unit in units:
        done = subprocess.run(["systemctl", "is-active", unit], capture_output=True, text=True)
        if done.returncode:
            well = False
            print(f"  {unit}: {(done.stdout or done.stderr).strip()}")
    return well


def show_status(words: Words) -> None:
    ports = ports_of(words.root)
    well = bool(words.root) or has_walls(ports)
    for name, served in all_served(words.root, ports):
        serves, told = state_of(name, int(served.admin))
        print(f"{name}: {told}")
        units = [broker_of(name), *(unit for _, unit in parts_of(words.root, name))]
        well = (bool(words.root) or are_active(units)) and well and serves
    if not well:
        sys.exit(1)
