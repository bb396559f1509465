"""What the ports of a broker answer."""
from __future__ import annotations

import http.client
import re


def reached(address: str) -> str:
    """Where what listens at an address is asked."""
    return {"0.0.0.0": "127.0.0.1", "::": "::1"}.get(address, address)


def bracketed(address: str) -> str:
    address = reached(address)
    return f"[{address}]" if ":" in address else address


def look(port: int, path: str, host: str = "127.0.0.1", method: str = "GET", seconds: float = 5) -> tuple[int, str]:
    """Status and body of a reply."""
    connection = http.client.HTTPConnection(host, port, timeout=seconds)
    try:
        connection.request(method, path)
        reply = connection.getresponse()
        return reply.status, reply.read().decode()
    finally:
        connection.close()


def state_of(name: str, admin: int) -> tuple[bool, str]:
    """Whether the broker with this operator's port is well and of this function, and what it says."""
    try:
        status, told = look(admin, "/healthz")
        if status != 200:
            return False, told.strip()
        _, told = look(admin, "/metrics")
    except (OSError, http.client.HTTPException) as why:
        return False, f"port {admin} does not answer: {why}"
    function = re.search('^lambda_broker_settings_info{function="([^"]*)"', told, re.M)
    if not function or function[1] != name:
        return False, f"port {admin} is that of {function[1] if function else 'another program'}"
    return True, summary_of(dict(re.findall(r"^lambda_broker_(\S+) (\S+)$", told, re.M)))


def summary_of(numbers: dict[str, str]) -> str:
    """What the numbers of a broker that is well say in short."""
    held = sum(int(number) for key, number in numbers.items() if key.startswith("events{"))
    waits, records = (float(numbers[f"oldest_{kind}_age_seconds"]) for kind in ("wait", "record"))
    wrong = [key.split('"')[1] for key, number in numbers.items() if key.startswith("problem{") and number != "0"]
    told = f"serves, {held} held, oldest wait {waits:.0f} s, oldest record {records:.0f} s"
    return "; ".join([told, *wrong])
