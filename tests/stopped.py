"""Images that a stop may leave of a file, by the writes, flushes and changes of size of a command that `watch_disk.c` recorded."""
import struct

SECTOR = 512
FLUSH, WRITE, RESIZE = range(3)


def calls_of(path):
    """Each call as its kind, its place or the new size, and the bytes that were written."""
    with open(path, "rb") as file:
        data = file.read()
    at, calls = 0, []
    while at < len(data):
        kind, place, count = struct.unpack_from("QQQ", data, at)
        calls.append((kind, place, data[at + 24:at + 24 + count]))
        at += 24 + count
    return calls


def put(image, at, content):
    """Writes into an image, which grows where that is behind its end."""
    image.extend(bytes(max(0, at + len(content) - len(image))))
    image[at:at + len(content)] = content


def resize(image, size):
    image.extend(bytes(max(0, size - len(image))))
    del image[size:]


def made(settled, pending):
    """What is there once all of these calls are done."""
    image = bytearray(settled)
    for kind, at, content in pending:
        resize(image, at) if kind == RESIZE else put(image, at, content)
    return image


def killed(settled, pending, draw):
    """What is there where the program was killed in the last of these calls."""
    if not pending or pending[-1][0] == RESIZE:
        return made(settled, pending)
    kind, at, content = pending[-1]
    return made(settled, [*pending[:-1], (kind, at, content[:draw.randrange(len(content) + 1)])])


def sector_left(draw, old, new):
    """What a stop leaves of a sector in flight: the old bytes, the new ones, or the front of these."""
    return (old, new, new[:(cut := draw.randrange(len(new)))] + old[cut:])[draw.randrange(3)]


def torn(settled, pending, draw):
    """What is there where the power was lost: any sectors of what was not flushed; sizes change in their order."""
    image, ends = bytearray(settled), False
    for kind, at, content in pending:
        if kind == RESIZE:
            ends = ends or draw.random() < 0.5
            ends or resize(image, at)
            continue
        for place in range(at, at + len(content), SECTOR):
            new = content[place - at:place - at + SECTOR]
            old = bytes(image[place:place + len(new)])
            put(image, place, sector_left(draw, old + bytes(len(new) - len(old)), new))
    return image


def images_of(before, calls, draw, each):
    """So many images of a stop in or behind each call."""
    settled, pending = bytes(before), []
    for call in calls:
        if call[0] == FLUSH:
            settled, pending = bytes(made(settled, pending)), []
        else:
            pending.append(call)
        yield made(settled, pending)
        for _ in range(each):
            yield killed(settled, pending, draw)
            yield torn(settled, pending, draw)
