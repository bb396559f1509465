"""A function is added."""
from __future__ import annotations

import importlib.util
import pwd

from .disk import Settings, settings_of
from .drop_ins import drop_in
from .envs import envs, said
from .includes import WRITTEN, write_includes, write_ports, write_removed
from .keeping import tell_kept
from .making import find_disk, make_disk
from .places import USER, broker_of, drop_in_of, env_of, env_values, parts_of, ports_of, read, removed_of, user_of, walls_of
from .ports import BLOCK, choose, ephemeral
from .starting import RELOADED, WALLED, reload, start
from .steps import Steps
from .takers import takers_of
from .telling import Failed, say
from .walls import known, load_walls, make_user, wall
from .words import Words

LOCAL = ("127.0.0.1", "0.0.0.0")


def refuse(words: Words, first: int | None, old: str | None) -> None:
    """Refuses words that do not go with what is there: the first port, and the environment file."""
    name, env = words.name, words.root + env_of(words.name)
    if old is not None and old.splitlines()[:1] != [f"# lambda-broker-ctl {said(words)}"]:
        raise Failed(f"{name} is there, by other words: {env} has them. Edit that, or remove {name} first")
    if first and words.port not in (None, first):
        raise Failed(f"{name} is there, with the ports from {first} on")
    takers = {**takers_of(words, "success"), **takers_of(words, "failure")}
    if takers and words.address not in LOCAL:
        raise Failed(f"a forwarder asks its broker at 127.0.0.1, which does not listen with --address {words.address}")
    if any(not option.startswith("forward_") for option in takers) and not words.root and not importlib.util.find_spec("boto3"):
        raise Failed("there is no boto3, by which records go to ARNs: apt-get install python3-boto3")


def port_in(old: str | None) -> int | None:
    """The port that an environment file has, which stays as it is."""
    told = env_values(old).get("PORT", "")
    return int(told) if told.isdigit() else None


def owner_of(words: Words) -> pwd.struct_passwd | None:
    """The user who has disks."""
    if words.root:
        return None
    owner = known(pwd.getpwnam, USER)
    if not owner:
        raise Failed(f"there is no user {USER}: systemd-sysusers makes it, or useradd --system {USER}")
    return owner


def write_units(steps: Steps, words: Words, first: int, disk: str, settings: Settings) -> None:
    """The files of a function's units."""
    name = words.name
    for path, text in envs(words, first, disk, settings.environments).items():
        if read(steps.at(path)) is None:
            steps.write(path, text, 0o600)
    units = [unit for _, unit in parts_of(words.root, name)]
    text, path = drop_in(words, disk, settings, units), drop_in_of(broker_of(name))
    if text:
        steps.write(path, text)
    else:
        steps.delete(path)
    for unit in units:
        if unit.startswith("lambda_runtime@"):
            steps.write(drop_in_of(unit), f"{WRITTEN}[Service]\nUser={user_of(first)}\n")


def set_up(words: Words, steps: Steps, ports: dict[str, int], old: str | None) -> None:
    """Makes what is not there: the disk and all files."""
    name, owner, wanted = words.name, owner_of(words), ports.get(words.name) or port_in(old)
    disk, settings = find_disk(words, steps, ports, old)
    if not words.root:
        steps.will(RELOADED, lambda: reload(steps))
        steps.will(WALLED, lambda: load_walls(""))
    first = ports.get(name) or choose(ports, wanted or words.port, min(ephemeral(), 65536))
    ports[name] = first
    write_ports(steps, ports)
    if settings is None:
        make_disk(steps, words, owner)
        settings = settings_of(disk)
    elif old is None:
        tell_kept(words, disk, settings)
    write_removed(steps, {other: path for other, path in removed_of(words.root).items() if other != name})
    write_units(steps, words, first, disk, settings)
    write_includes(steps, ports)
    steps.write(walls_of(name), wall(first))


def start_up(steps: Steps, name: str, first: int, is_new: bool) -> None:
    """Has the machine take what was set up."""
    make_user(steps, name, user_of(first))
    if not load_walls("") and is_new:
        say(f"there is no nft: each user of this machine reaches the ports of {name}")
    reload(steps)
    start(steps, name)


def add(words: Words, steps: Steps) -> None:
    name, ports = words.name, ports_of(words.root)
    old = read(words.root + env_of(name))
    refuse(words, ports.get(name) or port_in(old), old)
    set_up(words, steps, ports, old)
    first = ports[name]
    if not words.root:
        start_up(steps, name, first, old is None)
    if all(step.what in (RELOADED, WALLED) for step in steps.done):
        say(f"{name} is there already: nothing was changed")
        return
    say(f"{name}: callers {first}, environments from {first + 1} on, operator {first + BLOCK - 1}")
