"""What others read: the list of ports, nginx's map and Prometheus' targets."""
from __future__ import annotations

import json

from .looking import bracketed
from .places import NGINX, PORTS, PROMETHEUS, REMOVED, Served, all_served
from .ports import BLOCK
from .steps import Steps

WRITTEN = "# Written by lambda-broker-ctl, which writes it anew with each add and remove.\n"


def write_ports(steps: Steps, ports: dict[str, int]) -> None:
    head = f"# Each function and the first of its {BLOCK} ports. Written by lambda-broker-ctl.\n"
    steps.write(PORTS, head + "".join(f"{name} {port}\n" for name, port in sorted(ports.items())))


def write_removed(steps: Steps, removed: dict[str, str]) -> None:
    head = "# Functions that were removed, and their disks, which stayed. Written by lambda-broker-ctl.\n"
    if removed:
        steps.write(REMOVED, head + "".join(f"{name} {disk}\n" for name, disk in sorted(removed.items())))
    else:
        steps.delete(REMOVED)


def a_map(what: str, values: dict[str, str]) -> str:
    """A map of nginx from functions."""
    keys = "".join(f'    "~^{name}$"  {value};\n' for name, value in values.items())
    return f'map $function ${what} {{\n    default  "";\n{keys}}}\n'


def an_upstream(served: Served) -> str:
    # A broker closes a connection after 120 seconds without a request; nginx gives one up before, after 60.
    server = f"{bracketed(served.address)}:{served.port}"
    return f"\nupstream broker-{served.port} {{\n    server {server};\n    keepalive 64;\n}}\n"


def write_includes(steps: Steps, ports: dict[str, int]) -> None:
    """nginx's map and Prometheus' targets."""
    served = dict(all_served(steps.root, ports))
    text = WRITTEN + a_map("broker", {name: f"broker-{told.port}" for name, told in served.items()})
    text += a_map("operator", {name: f"127.0.0.1:{told.admin}" for name, told in served.items()})
    steps.write(NGINX, text + "".join(map(an_upstream, served.values())))
    targets = [{"targets": [f"127.0.0.1:{told.admin}"], "labels": {"broker": name}} for name, told in served.items()]
    steps.write(PROMETHEUS, json.dumps(targets, indent=1) + "\n")
