"""A broker that stands by for a disk that another one has open, and an opening that does not trust what a machine kept of one."""
import contextlib
import os
import shutil
import subprocess

from harness import Apart, Broker, Built, Ports, case, line_of, same

EVENTS = 100


@contextlib.contextmanager
def standby(broker, *more):
    """A second broker that stands by for the same disk, at ports of its own."""
    second = Broker.__new__(Broker)
    second.folder, second.disk, second.environments = broker.folder, broker.disk, broker.environments
    second.ports, second.watch = Ports(), None
    second.port, second.admin = second.ports.first, second.ports.first + second.environments + 1
    words = [Built.program, "serve", second.disk, "--port", str(second.port), "--admin", str(second.admin), "--standby", *more]
    second.served = subprocess.Popen(words, stdout=subprocess.PIPE, stderr=subprocess.DEVNULL, bufsize=0)
    try:
        yield second
    finally:
        second.end()


@case()
def a_broker_that_stands_by_waits_for_the_lock_and_goes_on_with_all_events(broker):
    for end, held in (broker.kill, 2), (broker.stop, 4):
        broker.serve()
        same(broker.invoke("{}").status, 202)
        with standby(broker) as second:
            same(line_of(second.served), "waiting for the lock\n")
            # It has not read the disk yet: what comes now is there too.
            same(broker.invoke("{}").status, 202)
            end()
            same(line_of(second.served), f"serving on 127.0.0.1:{second.port}\n")
            same(line_of(second.served), f"showing on 127.0.0.1:{second.admin}\n")
            same(second.stop(), (202, 0, ""))
        same(broker.held(), held)


@case()
def a_broker_that_stands_by_for_a_free_disk_serves_it_at_once(broker):
    with standby(broker) as second:
        same(line_of(second.served), f"serving on 127.0.0.1:{second.port}\n")


@case()
def a_broker_that_stands_by_is_ended_by_a_signal(broker):
    broker.serve()
    with standby(broker) as second:
        same(line_of(second.served), "waiting for the lock\n")
        second.served.terminate()
        same(second.served.wait(timeout=60), -15)
    same(broker.invoke("{}").status, 202)


@contextlib.contextmanager
def devices(path, count):
    """So many block devices over one file, each with a lock and a cache of its own."""
    if os.getuid() != 0 or not shutil.which("losetup"):
        raise Apart("no loop devices without root")
    made = []
    try:
        for _ in range(count):
            done = subprocess.run(["losetup", "--find", "--show", path], capture_output=True, text=True)
            if done.returncode:
                raise Apart(f"no loop device: {done.stderr.strip()}")
            made.append(done.stdout.strip())
        yield made
    finally:
        for device in made:
            subprocess.run(["losetup", "--detach", device], check=True)


@case({"events": EVENTS})
def an_opening_reads_the_device_and_not_what_the_machine_kept_of_it(broker):
    with devices(broker.disk, 2) as (first, second), open(second, "rb"):
        # The second one's cache has the empty disk, and stays as long as somebody has it open.
        same(broker.said("audit", second)[1].splitlines()[1], "held 0 waiting 0 running 0 success 0 failure 0")
        broker.disk = first
        broker.serve()
        for _ in range(EVENTS):
            same(broker.invoke("{}").status, 202)
        broker.stop()
        told = f"held {EVENTS} waiting {EVENTS} running 0 success 0 failure 0"
        same(broker.said("audit", second)[1].splitlines()[1], told)
