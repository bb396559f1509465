"""A client of Ceph by its library alone, which `check` runs on its machines. It wants Debian's python3-rados and python3-rbd.

    librbd_client operator      does what each line of its input asks, and answers it by a line
    librbd_client write IMAGE   writes numbers until it is refused, and prints each that was flushed
    librbd_client read IMAGE    prints the number in an image
    librbd_client read-fenced IMAGE ADDRESS before|behind
        waits for a line, fences an address, and prints the number that a client reads then, which attached the image before or behind that
"""
import json
import sys
import time

import rados
import rbd

POOL, SECTOR = "disks", 512


def connected():
    """A client of its own: what it knows of the OSDs is not shared. It keeps nothing that it has read."""
    cluster = rados.Rados(conffile=rados.Rados.DEFAULT_CONF_FILES, conf={"rbd_cache": "false"})
    cluster.connect()
    return cluster


def ask(cluster, **command):
    """What the monitor answers."""
    status, answer, why = cluster.mon_command(json.dumps({**command, "format": "json"}), b"")
    if status:
        raise RuntimeError(f"{command}: {status}: {why}")
    return json.loads(answer) if answer.strip() else None


def states(cluster, count):
    """What each placement group says of itself."""
    told = []
    for group in (f"{cluster.pool_lookup(POOL)}.{number:x}" for number in range(count)):
        query = json.dumps({"prefix": "query", "pgid": group, "format": "json"})
        status, answer, _ = cluster.pg_command(group, query, b"", timeout=20)
        told.append(json.loads(answer)["state"] if status == 0 else str(status))
    return told


def fence(cluster, word, address):
    """Adds an address to the blocklist, or takes it off: the seconds that it took."""
    began = time.monotonic()
    ask(cluster, prefix="osd blocklist", blocklistop=word, addr=address)
    return time.monotonic() - began


def number_in(image):
    return int(image.read(0, SECTOR).rstrip(b"\0") or b"0")


def answer_to(cluster, pool, word, words, rest):
    if word == "ask":
        return ask(cluster, **json.loads(rest))
    if word == "blocklist":
        return fence(cluster, *words)
    if word == "states":
        return states(cluster, int(rest))
    return rbd.RBD().create(pool(), words[0], int(words[1]))


def operator():
    cluster = connected()
    print("ready", flush=True)
    for line in sys.stdin:
        word, rest = line.split(None, 1)
        answer = answer_to(cluster, lambda: cluster.open_ioctx(POOL), word, rest.split(), rest)
        print(json.dumps(answer), flush=True)


def write(name):
    number = 0
    with rbd.Image(connected().open_ioctx(POOL), name) as image:
        while True:
            number += 1
            image.write(str(number).encode().ljust(SECTOR, b"\0"), 0)
            image.flush()
            print(number, flush=True)


def read(name):
    with rbd.Image(connected().open_ioctx(POOL), name) as image:
        print(number_in(image), flush=True)


def read_fenced(name, address, when):
    fencing, image = connected(), None
    if when == "before":
        image = rbd.Image(connected().open_ioctx(POOL), name)
        number_in(image)
    print("ready", flush=True)
    sys.stdin.readline()
    fence(fencing, "add", address)
    image = image or rbd.Image(connected().open_ioctx(POOL), name)
    print(number_in(image), flush=True)
    image.close()


WORDS = {"operator": operator, "write": write, "read": read, "read-fenced": read_fenced}
WORDS[sys.argv[1]](*sys.argv[2:])
