"""A disk that is seen through an overlay mount: its lock there is not that of the file below, so two brokers would serve it."""
import contextlib
import os
import subprocess

from harness import ARN, Skipped, case, needs, same

REFUSED = "refused: seen through an overlay mount, which locks it apart from the file below\n"


@contextlib.contextmanager
def overlay(broker):
    """The folder of its disk, merged over an empty one: the path of its disk there."""
    needs("mount", "umount")
    lower, work, merged = (os.path.join(os.path.dirname(broker.folder), f"{os.path.basename(broker.folder)}.{name}") for name in ("lower", "work", "merged"))
    for folder in lower, work, merged:
        os.mkdir(folder)
    try:
        words = ["mount", "-t", "overlay", "-o", f"lowerdir={lower},upperdir={broker.folder},workdir={work}", "overlay", merged]
        if os.getuid() or subprocess.run(words, stderr=subprocess.DEVNULL).returncode:
            raise Skipped("no overlay can be mounted here")
        try:
            yield os.path.join(merged, "disk")
        finally:
            subprocess.run(["umount", merged], check=True)
    finally:
        subprocess.run(["rm", "-rf", lower, work, merged], check=True)


@case()
def no_second_broker_serves_a_disk_through_an_overlay(broker):
    with overlay(broker) as shown:
        broker.serve()
        same([broker.invoke("{}").status for _ in range(3)], 3 * [202])
        before = broker.content()
        for words in ("serve", shown, "--port", 2000), ("configure", shown, "--retries", 1), ("migrate", shown), ("copy", shown, f"{broker.disk}.new"):
            same(broker.said(*words), (1, REFUSED))
        same(broker.content() == before, True)
        same(broker.stop(), (202, 0, ""))
        same(broker.held(), 3)


@case()
def nothing_is_made_through_an_overlay(broker):
    with overlay(broker) as shown:
        before = broker.content()
        forced = "format", shown, "--force", "--sectors", 4096, "--name", "f", "--handler", "app.main", "--arn", ARN, "--events", 16, "--payload", 64, "--response", 64
        same(broker.said(*forced), (1, REFUSED))
        same(broker.format(f"{shown}.new", 4096, events=16, payload=1024, response=1024), (1, REFUSED))
        same(broker.said("copy", broker.disk, f"{shown}.new"), (1, REFUSED))
        same((os.path.exists(f"{shown}.new"), broker.content() == before), (False, True))


@case()
def an_audit_reads_through_an_overlay(broker):
    broker.serve()
    same(broker.invoke("{}").status, 202)
    same(broker.stop()[1], 0)
    with overlay(broker) as shown:
        same(broker.said("audit", shown)[0], 0)
