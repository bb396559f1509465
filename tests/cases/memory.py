"""Memory that is refused: each request of a command in turn."""
import ast
import importlib.machinery
import importlib.util
import os

import disks
from disks import ACCEPT, START, SUCCEED, Settings, command, id_of
from cases.stopping import stranger
from harness import HERE, Built, Skipped, case, same

LOADER = importlib.machinery.SourceFileLoader("refuse_memory", os.path.join(HERE, "refuse_memory"))
refuse_memory = importlib.util.module_from_spec(importlib.util.spec_from_loader("refuse_memory", LOADER))
LOADER.exec_module(refuse_memory)


def each_request_is_refused(broker, *words, **more):
    """How the runs of a command ended, each of which was refused one request."""
    words = [Built.program, *words]
    runs = refuse_memory.Runs(Built.refuse_memory, broker.folder, words, says="refused: out of memory", **more)
    status, _, asked = runs.run(0)
    same(status, 0)
    if not asked:
        raise Skipped("the program was built with a memory of its own, as `rt try` does it")
    reached, counts, found = runs.all()
    same((found, reached), ([], sum(counts.values())))
    return counts


def disk_with_records(broker):
    """Its disk holds two events that ended, and one that waits."""
    settings, lives = Settings(), []
    for n in 1, 2:
        lives += [command(ACCEPT, id_of(n), 1000 * n, b'{"a":1}'), command(START, id_of(n), 1000 * n, environment=1)]
        lives += [command(SUCCEED, id_of(n), 1000 * n + 1, b"ok")]
    lives += [command(ACCEPT, id_of(3), 3000, b"3")]
    frames = [(n + 1, [one]) for n, one in enumerate(lives)]
    with open(broker.disk, "wb") as disk:
        disk.write(disks.disk(64, disks.segment(2, settings, 1, disks.snapshot(2, settings), frames)))


@case()
def a_trial_that_is_refused_memory_ends_and_says_so(broker):
    counts = each_request_is_refused(broker, "trial")
    # Its disk is in memory, and a request of that is a fault of the device.
    assert counts[1] > 0 and set(counts) <= {0, 1, 3}, counts


@case()
def an_audit_that_is_refused_memory_ends_and_says_so(broker):
    disk_with_records(broker)
    before = broker.content()
    for words in ((), ("--records",), ("--json",), ("--in-force", "--event", id_of(2))):
        counts = each_request_is_refused(broker, "audit", broker.disk, *words)
        # Where a request can be done without, it prints what it prints with it.
        assert counts[1] > 100 and set(counts) <= {0, 1}, counts
    assert broker.content() == before, "the audit changed the disk"


@case()
def a_format_that_is_refused_memory_ends_and_says_so(broker):
    words = ["--sectors", "64", "--name", "f", "--handler", "h", "--arn", "f", "--events", "4", "--payload", "16", "--response", "16"]
    counts = each_request_is_refused(broker, "format", "DISK", *words, made="DISK")
    assert counts[1] > 100 and set(counts) <= {0, 1}, counts


@case()
def a_configure_that_is_refused_memory_leaves_what_was_in_force(broker):
    disk_with_records(broker)
    was = []

    def look(disk):
        was.append(broker.said("audit", disk, "--in-force")[1].splitlines()[0:4:3])

    counts = each_request_is_refused(broker, "configure", broker.disk, "--retries", "1", made=broker.disk, behind=look)
    assert counts[1] > 100 and set(counts) <= {0, 1}, counts
    old, new = ["generation 1 number 7", "in force retries 2 age 21600"], ["generation 1 number 8", "in force retries 1 age 21600"]
    # Twice it had all of its memory: where its requests were counted, and where they were looked for.
    same((was.count(old), was.count(new)), (counts[1], counts.get(0, 0) + 2))


@case()
def a_stop_that_is_refused_memory_ends(broker):
    # Nobody takes it: it would wait for the end of who does.
    listener, port = stranger(b"HTTP/1.1 404 Not Found\r\n\r\n")
    runs = refuse_memory.Runs(Built.refuse_memory, broker.folder, [Built.program, "stop", "--port", str(port)])
    status, told, asked = runs.run(0)
    same((status, told), (1, f"refused: 127.0.0.1:{port} does not take it\n"))
    if not asked:
        raise Skipped("the program was built with a memory of its own, as `rt try` does it")
    reached, counts, found = runs.all()
    listener.close()
    same((found, reached, set(counts)), ([], sum(counts.values()), {1}))


@case()
def a_copy_that_is_refused_memory_leaves_the_old_disk_and_no_other(broker):
    disk_with_records(broker)
    old, held, made, wrong = broker.content(), broker.audit()[1], [], []

    def look(disk):
        with open(disk, "rb") as kept:
            if kept.read() != old:
                wrong.append("the old disk was changed")
        if os.path.exists(f"{disk}.copy"):
            # A file that was just made may stay behind, empty as it is.
            if os.path.getsize(f"{disk}.copy"):
                made.append(broker.said("audit", f"{disk}.copy")[1].splitlines()[1])
            os.remove(f"{disk}.copy")

    counts = each_request_is_refused(broker, "copy", broker.disk, f"{broker.disk}.copy", made=broker.disk, behind=look)
    assert counts[1] > 100 and set(counts) <= {0, 1}, counts
    # Twice it had all of its memory: where its requests were counted, and where they were looked for.
    same((wrong, made), ([], (counts.get(0, 0) + 2) * [held]))


@case()
def a_migration_that_is_refused_memory_is_done_by_the_next_one(broker):
    with open(os.path.join(HERE, "old_disks", "audits.txt")) as audits:
        for name, told in (line.split(" ", 1) for line in audits):
            held = ast.literal_eval(told)[1]
            wrong = []

            def go_on(disk):
                broker.said("migrate", disk)
                status, told = broker.said("audit", disk)
                if (status, told.splitlines()[1:]) != (0, [held, "older agrees"]):
                    wrong.append(told)

            disk = os.path.join(HERE, "old_disks", name)
            counts = each_request_is_refused(broker, "migrate", disk, made=disk, behind=go_on)
            same((name, wrong, set(counts) <= {0, 1}), (name, [], True))
