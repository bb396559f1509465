"""Formatting what is there already: a disk that holds something, and a file that is no disk, are left as they are unless they are
given up by `--force`.
"""
import contextlib
import os
import subprocess

import disks
from disks import ACCEPT, Settings, command, id_of
from harness import Skipped, case, matches, same


def put(path, content):
    with open(path, "wb") as file:
        file.write(content)


def content_of(path):
    with open(path, "rb") as file:
        return file.read()


def words_of(path, sectors=64, **settings):
    settings = {"events": 4, "payload": 1024, "response": 1024, **settings}
    words = ["format", path, "--sectors", sectors, "--name", "my-function", "--handler", "app.main"]
    words += ["--arn", "arn:aws:lambda:us-east-2:123456789012:function:my-function"]
    return words + [word for name, value in settings.items() for word in (f"--{name}", value)]


def blank(sectors=64):
    """A disk that was just formatted by `words_of`."""
    settings = Settings()
    return disks.disk(sectors, disks.segment(2, settings, 1, disks.snapshot(2, settings)))


def is_left(broker, path, line, *words):
    """It is refused with this line, and each byte stays; by `--force` it is formatted."""
    before, mode = content_of(path), os.stat(path).st_mode
    same(broker.said(*words_of(path), *words), (1, f"refused: {line}\n"))
    assert content_of(path) == before, "what was refused was changed"
    same((broker.said(*words_of(path), *words, "--force"), content_of(path) == blank()), ((0, "formatted 64 sectors\n"), True))
    same(os.stat(path).st_mode, mode)


def three_events(broker):
    """Its disk holds three events."""
    broker.serve()
    same([broker.invoke("{}").status for _ in range(3)], 3 * [202])
    same(broker.stop(), (202, 0, ""))
    return broker.disk


@case()
def a_disk_that_holds_events_is_not_formatted(broker):
    disk = three_events(broker)
    before = content_of(disk)
    for more in (), ("--force",):
        same((more, broker.said(*words_of(disk, 20), *more)), (more, (1, "refused: too small, least 44\n")))
        assert content_of(disk) == before, "what was refused was changed"
    is_left(broker, disk, "holds 3 events")


@case()
def events_that_have_ended_are_held_until_they_are_collected(broker):
    broker.serve()
    events = [broker.live("{}", "1") for _ in range(2)]
    same(broker.stop(), (202, 0, ""))
    before = broker.content()
    same(broker.said(*words_of(broker.disk)), (1, "refused: holds 2 events\n"))
    assert broker.content() == before, "what was refused was changed"
    broker.serve()
    same([broker.delete(event).status for event in events], [204, 204])
    same(broker.stop(), (202, 0, ""))
    same((broker.said(*words_of(broker.disk)), broker.content() == blank()), ((0, "formatted 64 sectors\n"), True))


@case()
def a_file_that_is_no_disk_is_not_formatted(broker):
    made = broker.disk + "1"
    for content in content_of("/etc/passwd"), b"\1", 4096 * b"\0" + b"x", bytes(100000) + b"\n", 100000 * b"\1":
        put(made, content)
        is_left(broker, made, "not empty")


@case()
def what_a_symbolic_link_names_is_not_formatted(broker):
    made, link = broker.disk + "1", broker.disk + "2"
    os.symlink(made, link)
    put(made, content_of("/etc/passwd"))
    is_left(broker, link, "not empty")
    same((os.path.islink(link), content_of(made) == blank()), (True, True))
    os.remove(link)
    os.symlink(three_events(broker), link)
    is_left(broker, link, "holds 3 events")


@case()
def a_damaged_disk_is_not_formatted(broker):
    settings = Settings()
    frames = [(1, [command(ACCEPT, id_of(1), 1573755365568, b"{}")])]
    whole = disks.disk(64, disks.segment(2, settings, 1, disks.snapshot(2, settings), frames))
    for at, sector in (512, 1), (2 * 512 + 24, 2), (4 * 512 + 511, 3):
        damaged = bytearray(whole)
        damaged[at] ^= 1
        put(broker.disk, damaged)
        is_left(broker, broker.disk, f"damaged at sector {sector}")


@case()
def a_disk_of_another_size_is_not_formatted(broker):
    settings = Settings()
    a, b = (disks.segment(2, settings, n, disks.snapshot(2, settings)) for n in (1, 2))
    put(broker.disk, disks.disk(64, a, b) + bytes(64 * 512))
    is_left(broker, broker.disk, "resized, formatted with 64 sectors")


@case()
def a_disk_of_version_1_that_holds_an_event_is_not_formatted(broker):
    settings = Settings()
    frames = [(1, [command(ACCEPT, id_of(1), 1573755365568, b"{}")])]
    put(broker.disk, disks.disk(64, disks.segment(1, settings, 1, disks.snapshot(1, settings), frames)))
    before = broker.content()
    status, told = broker.said(*words_of(broker.disk))
    same((status, matches("refused: (.*)\n", told) and broker.content() == before), (1, True))
    same(broker.said(*words_of(broker.disk), "--force"), (0, "formatted 64 sectors\n"))


@case()
def what_holds_nothing_is_formatted(broker):
    made = broker.disk + "1"
    for content in b"", bytes(1), bytes(64 * 512), bytes(100000), blank(), blank(80), blank(81), blank(44):
        for more in (), ("--force",):
            put(made, content)
            same((len(content), more, broker.said(*words_of(made), *more)), (len(content), more, (0, "formatted 64 sectors\n")))
            assert content_of(made) == blank(), "it is another disk"


@case()
def a_disk_that_was_used_and_holds_nothing_is_formatted(broker):
    broker.serve()
    for _ in range(3):
        same(broker.delete(broker.live('"secret"', '"secret"')).status, 204)
    same(broker.stop(), (202, 0, ""))
    same(broker.said(*words_of(broker.disk)), (0, "formatted 64 sectors\n"))
    assert broker.content() == blank(), "it is another disk"


@case()
def a_disk_that_is_served_is_not_formatted_by_force(broker):
    broker.serve()
    same(broker.said(*words_of(broker.disk), "--force"), (1, "refused: in use by another program\n"))
    same(broker.invoke("{}").status, 202)


@case()
def a_new_file_is_for_its_owner_alone(broker):
    made = broker.disk + "1"
    for mask in "0", "022", "077":
        same(broker.said(*words_of(made), under=["bash", "-c", f'umask {mask}; exec "$@"', "bash"])[0], 0)
        same((mask, os.stat(made).st_mode & 0o7777), (mask, 0o600))
        os.remove(made)


@contextlib.contextmanager
def small_room(folder, size="64k"):
    """A file system of 64 KiB, or of this size."""
    room = os.path.join(folder, "room")
    os.mkdir(room)
    words = ["mount", "-t", "tmpfs", "-o", f"size={size}", "lambda_broker_tests", room]
    if os.getuid() != 0 or subprocess.run(words, capture_output=True).returncode != 0:
        raise Skipped("no file system can be mounted")
    try:
        yield room
    finally:
        subprocess.run(["umount", room], check=True)


@case()
def where_there_is_no_room_nothing_is_left_and_nothing_is_changed(broker):
    with small_room(broker.folder) as room:
        made = os.path.join(room, "disk")
        refused = 1, "refused: no room for so many sectors\n"
        for more in (), ("--allocate",):
            same((more, broker.said(*words_of(made, 4096), *more), os.listdir(room)), (more, refused, []))
        for content in b"", bytes(20 * 512), blank(64):
            put(made, content)
            for more in (), ("--force",), ("--allocate",), ("--allocate", "--force"):
                same((len(content), more, broker.said(*words_of(made, 4096), *more)), (len(content), more, refused))
                same((len(content), more, content_of(made) == content), (len(content), more, True))
        os.remove(made)
        same((broker.said(*words_of(made)), content_of(made) == blank()), ((0, "formatted 64 sectors\n"), True))


@case()
def an_arn_that_does_not_end_with_the_name_is_warned_of(broker):
    """Records are told with the ARN, so a version or an alias at its end would be told twice."""
    new = broker.disk + "1"
    for end, warnings in (":my-function", 0), (":my-function:prod", 1), (":other", 1):
        words = words_of(new)
        words[words.index("--arn") + 1] = "arn:aws:lambda:us-east-2:123456789012:function" + end
        done = broker.command(*words)
        same((end, done.returncode, done.stdout), (end, 0, "formatted 64 sectors\n"))
        told = [line for line in done.stderr.splitlines() if line.startswith("warning: ") and end in line]
        same((end, len(told)), (end, warnings))
