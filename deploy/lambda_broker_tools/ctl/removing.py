"""A function is removed."""
from __future__ import annotations

import contextlib
import os
import pwd

from .includes import write_includes, write_ports, write_removed
from .places import broker_of, drop_in_of, env_of, parts_of, ports_of, removed_of, served_of, user_of, walls_of
from .starting import WALLED, reload
from .steps import Steps
from .telling import Failed, run, say
from .walls import known, load_walls, make_user
from .words import Words


def end(steps: Steps, unit: str, parts: list[str]) -> None:
    """Has systemd stop a broker and its parts, now and with the machine."""
    run("systemctl", "stop", unit, *parts)
    steps.did(f"stopped {unit}", lambda: run("systemctl", "start", unit))
    run("systemctl", "disable", unit)
    steps.did(f"disabled {unit}", lambda: run("systemctl", "enable", unit))
    steps.will(WALLED, lambda: load_walls(""))


def delete_files(steps: Steps, name: str, parts: dict[str, str]) -> None:
    """Removes the files of a function and of its parts, which are told by theirs."""
    drop_ins = [drop_in_of(each) for each in (broker_of(name), *parts.values())]
    for path in (env_of(name), walls_of(name), *drop_ins, *parts):
        steps.delete(path)
    for path in drop_ins:
        with contextlib.suppress(OSError):
            os.rmdir(os.path.dirname(steps.at(path)))


def open_walls(steps: Steps, name: str, user: str) -> None:
    """Takes away a function's walls and its user."""
    load_walls("")
    if known(pwd.getpwnam, user):
        run("userdel", user)
        steps.did(f"removed user {user}", lambda: make_user(steps, name, user))


def remove(words: Words, steps: Steps) -> None:
    name, ports = words.name, ports_of(words.root)
    if name not in ports:
        raise Failed(f"there is no {name}")
    parts, disk, user = dict(parts_of(words.root, name)), served_of(words.root, name, ports[name]).disk, user_of(ports[name])
    if not words.root:
        end(steps, broker_of(name), [*parts.values()])
    delete_files(steps, name, parts)
    del ports[name]
    write_ports(steps, ports)
    write_removed(steps, {**removed_of(words.root), name: disk})
    write_includes(steps, ports)
    if not words.root:
        open_walls(steps, name, user)
    reload(steps)
    held = ""
    with contextlib.suppress(Failed, IndexError):
        held = f", {run(words.program, 'audit', disk).splitlines()[1]}"
    say(f"{name} is removed; its disk {'stays' if os.path.exists(disk) else 'is not there'}: {disk}{held}")
