"""How many accepts a second a broker makes on a volume, with and without `--watch`, by the load client of `bench/load`."""
import json
import os
import statistics

from brokers import PORT, Broker, formatted
from machines import run

TURNS, EVENTS, SECTORS = 5, 1024, 32769
BUILD = os.path.join(os.path.dirname(os.path.abspath(__file__)), "..", "..", "bench", "load", "build")
LIMITS = "--sectors", SECTORS, "--events", EVENTS, "--payload", 128, "--response", 64


def rate(volume, client, connections, words):
    """Accepts a second of a broker on a new disk."""
    machine = volume.machines[0]
    disk = formatted(volume, machine, *LIMITS, sectors=SECTORS)
    broker = Broker(machine, disk, *words)
    try:
        told = machine.run(client, "accepts", "broker", f"127.0.0.1:{PORT}", connections, EVENTS - connections)
        return json.loads(told)["rate"]
    finally:
        broker.kill()
        volume.drop(machine)


def cell(values):
    return f"{statistics.median(values):,.0f} ({min(values):,.0f} to {max(values):,.0f})"


def measure(volume):
    """Prints a table of medians; the two take turns."""
    client = run(BUILD).strip().split("\n")[-1]
    print(f"{volume.name}, {os.cpu_count()} processors, load {os.getloadavg()[0]:.1f}; medians of {TURNS} turns, least and greatest\n")
    print("| accepts a second | without `--watch` | with it | ratio |\n|---|---|---|---|", flush=True)
    for connections in 1, 64:
        plain, watched = [], []
        for _ in range(TURNS):
            plain.append(rate(volume, client, connections, []))
            watched.append(rate(volume, client, connections, ["--watch"]))
        ratio = statistics.median(watched) / statistics.median(plain)
        print(f"| {connections} connection{'s' * (connections > 1)} | {cell(plain)} | {cell(watched)} | {ratio:.2f} |", flush=True)
