"""Walls between functions: who reaches which port, by user."""
from __future__ import annotations

import contextlib
import grp
import os
import pwd
import shutil
from collections.abc import Callable
from typing import TypeVar

from .includes import WRITTEN
from .places import PORTS, TABLE, USER, user_of
from .ports import BLOCK, MOST_ENVIRONMENTS
from .steps import Steps
from .telling import Failed, run, say

# Who of this machine reaches the callers' and the operator's port of each function, and who the operator's alone, of those users
# that are here. A program of the group's reaches both.
CALLERS, WATCHERS = (USER, "lambda_forward", "root", "www-data", "nginx"), ("prometheus",)
OPERATORS = "lambda_operators"

Known = TypeVar("Known")


def known(look: Callable[[str], Known], name: str) -> Known | None:
    """What the machine has of a user or a group, or None."""
    try:
        return look(name)
    except KeyError:
        return None


def wall(first: int) -> str:
    """The rules of a function's ports, for the table of deploy/walls.nft. What no line accepts is refused."""
    operator = first + BLOCK - 1
    return f"""{WRITTEN}tcp dport {first + 1}-{first + MOST_ENVIRONMENTS} meta skuid {user_of(first)} accept
tcp dport {{ {first}, {operator} }} meta skuid @callers accept
tcp dport {{ {first}, {operator} }} meta skgid @operators accept
tcp dport {operator} meta skuid @watchers accept
tcp dport {first}-{operator} reject with tcp reset
"""


def nft() -> str | None:
    return shutil.which("nft", path=f"{os.environ.get('PATH', '')}:/usr/sbin:/sbin")


def members() -> dict[str, list[int]]:
    """The ids of users and groups that are here, by the set of the table that they are in."""
    users = {name: [known(pwd.getpwnam, user) for user in of] for name, of in (("callers", CALLERS), ("watchers", WATCHERS))}
    ids = {name: [user.pw_uid for user in found if user] for name, found in users.items()}
    group = known(grp.getgrnam, OPERATORS)
    return {**ids, "operators": [group.gr_gid] if group else []}


def load_walls(root: str) -> bool:
    """Has the kernel take the walls of all functions in the place of those from before: whether it can."""
    program = nft()
    if not program:
        return False
    text = f'include "{root}{TABLE}"\n'
    for name, found in members().items():
        if found:
            text += f"add element inet lambda_broker {name} {{ {', '.join(map(str, found))} }}\n"
    run(program, "-I", os.path.dirname(root + PORTS), "-f", "-", input=text)
    return True


def make_user(steps: Steps, name: str, user: str) -> None:
    if known(pwd.getpwnam, user):
        return
    steps.will(f"made user {user}", lambda: known(pwd.getpwnam, user) and run("userdel", user))
    run("systemd-sysusers", "--inline", f'u {user} - "Function {name}"')
    say(f"made user {user}")


def has_walls(ports: dict[str, int]) -> bool:
    """Whether the kernel has the walls of each function, where it can be asked."""
    program = nft()
    if os.geteuid() or not program:
        return True
    told = ""
    with contextlib.suppress(Failed):
        told = run(program, "list", "table", "inet", "lambda_broker")
    without = [name for name, first in ports.items() if f"tcp dport {first}-{first + BLOCK - 1} reject" not in told]
    for name in without:
        print(f"{name}: each user of this machine reaches its ports: systemctl restart lambda_walls")
    return not without
