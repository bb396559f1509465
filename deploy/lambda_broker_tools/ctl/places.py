"""Where things are, and what the files there tell."""
from __future__ import annotations

import dataclasses
import os
import re
from collections.abc import Iterator

from .ports import BLOCK
from .telling import Failed

PORTS = "/etc/lambda_broker/ports"
REMOVED = "/etc/lambda_broker/removed"
NGINX = "/etc/lambda_broker/nginx.conf"
PROMETHEUS = "/etc/lambda_broker/prometheus.json"
TABLE = "/usr/share/lambda_broker/walls.nft"
USER = "lambda_broker"


def read(path: str) -> str | None:
    """What a file has, or None where there is none."""
    try:
        with open(path, encoding="utf-8") as file:
            return file.read()
    except FileNotFoundError:
        return None


def disk_of(name: str) -> str:
    return f"/var/lib/lambda_broker/{name}/disk"


def env_of(name: str) -> str:
    return f"/etc/lambda_broker/{name}.env"


def drop_in_of(unit: str) -> str:
    return f"/etc/systemd/system/{unit}.d/function.conf"


def broker_of(name: str) -> str:
    return f"lambda_broker@{name}.service"


def walls_of(name: str) -> str:
    return f"/etc/lambda_broker/walls/{name}.nft"


def user_of(first: int) -> str:
    """The user of a function's runtimes. Names of users are short, so it is told by the first port."""
    return f"lambda_{first}"


def ports_of(root: str) -> dict[str, int]:
    """The first port of each function."""
    lines = [line.split() for line in (read(root + PORTS) or "").splitlines() if line and not line.startswith("#")]
    try:
        return {name: int(port) for name, port in lines}
    except ValueError:
        raise Failed(f"{root + PORTS}: a line has a function and its first port, and no more") from None


def env_values(text: str | None) -> dict[str, str]:
    """What an environment file says, without the quotes around it."""
    found = {}
    for key, value in re.findall(r"^(\w+)=(.*)$", text or "", re.M):
        quoted = re.fullmatch(r'"(.*)"', value.strip())
        found[key] = re.sub(r"\\(.)", r"\1", quoted[1]) if quoted else value.strip()
    return found


@dataclasses.dataclass(frozen=True)
class Served:
    """Where a broker is served, and its disk."""

    port: str
    address: str
    admin: str
    disk: str


def served_of(root: str, name: str, first: int) -> Served:
    """What the environment file of a function says, or would."""
    told = env_values(read(root + env_of(name)))
    return Served(
        port=told.get("PORT", str(first)),
        address=told.get("ADDRESS", "127.0.0.1"),
        admin=told.get("ADMIN", str(first + BLOCK - 1)),
        disk=told.get("DISK", root + disk_of(name)),
    )


def all_served(root: str, ports: dict[str, int]) -> Iterator[tuple[str, Served]]:
    """The same of each function, by their names."""
    for name, first in sorted(ports.items()):
        yield name, served_of(root, name, first)


def removed_of(root: str) -> dict[str, str]:
    """The functions that were removed, and the disk of each, which stayed."""
    lines = [line for line in (read(root + REMOVED) or "").splitlines() if not line.startswith("#")]
    return {name: disk for name, disk in (line.split(" ", 1) for line in lines if " " in line)}


def place_of(root: str, name: str) -> str:
    """The path of a function's disk, also of one that was removed."""
    told = env_values(read(root + env_of(name))).get("DISK") or removed_of(root).get(name)
    return told or root + disk_of(name)


def parts_of(root: str, name: str) -> Iterator[tuple[str, str]]:
    """The environment files of runtimes and forwarders, each with its unit."""
    for kind in "runtime", "forward":
        folder = f"/etc/lambda_{kind}"
        for file in sorted(os.listdir(root + folder)) if os.path.isdir(root + folder) else ():
            if file.startswith(f"{name}:") and file.endswith(".env"):
                yield f"{folder}/{file}", f"lambda_{kind}@{file[:-4]}.service"
