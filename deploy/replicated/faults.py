"""The faults that have to lose nothing: each is made so often, and each acknowledged event is looked for afterwards."""
import random
import time
from collections import Counter

from brokers import PROGRAM, Broker, formatted
from machines import until

TAKEN_OVER, PATIENCE, MOST_SECONDS = 4, 20, 5


def served(volume, machine, *words):
    disk = formatted(volume, machine)
    broker = Broker(machine, disk, *words)
    broker.load()
    time.sleep(random.uniform(0.2, 0.7))
    return broker


def behind_a_kill(volume, first, second, broker):
    """Kills the program. Then the volume is taken off, attached to the second machine, and served there."""
    began = time.monotonic()
    broker.kill()
    volume.detach(first)
    return broker, Broker(second, volume.attach(second)), began


def killed(volume, first, second):
    """The program is killed."""
    return behind_a_kill(volume, first, second, served(volume, first))


def replica(volume, first, second):
    """A replica is lost, and then the program is killed."""
    broker = served(volume, first)
    volume.lose_replica()
    time.sleep(0.3)
    return behind_a_kill(volume, first, second, broker)


def looked(volume, first, second):
    """The standby had audited the disk before. Where an attachment is not to be kept, it attaches anew."""
    disk = formatted(volume, first)
    theirs = volume.attach(second)
    # On GlusterFS the lock of who formatted it may outlast that by a moment.
    until(lambda: "held 0" in second.run(PROGRAM, "audit", theirs, check=False), "an audit")
    broker = Broker(first, disk)
    broker.load()
    time.sleep(random.uniform(0.2, 0.7))
    began = time.monotonic()
    broker.kill()
    if not volume.keeps_attachments:
        volume.detach(first)
        volume.detach(second)
        theirs = volume.attach(second)
    return broker, Broker(second, theirs), began


def behind_a_fence(volume, first, second, broker):
    """Fences the first machine. Then the volume is attached to the second one, and served there."""
    broker.fence_took = volume.fence(first)
    began = time.monotonic()
    return broker, Broker(second, volume.attach(second)), began


def cut(volume, first, second):
    """The machine is cut off and fenced, and the volume is attached to the second behind the fence."""
    broker = served(volume, first)
    first.cut()
    return behind_a_fence(volume, first, second, broker)


def fenced(volume, first, second):
    """The machine is fenced alone, while its broker goes on."""
    return behind_a_fence(volume, first, second, served(volume, first))


def clear(volume, brokers):
    """Ends all of a try. What hangs in a volume goes with that."""
    first, _ = volume.machines
    for broker in brokers:
        broker.served.kill()
    first.join()
    volume.admit(first)
    for machine in volume.machines:
        volume.drop(machine)
    for broker in brokers:
        broker.kill()
        broker.rest()


def tried(volume, fault):
    """One try: both brokers, how many of the first one's events are gone, and how long it took until they were served again."""
    broker, after, began = fault(volume, *volume.machines)
    try:
        broker.rest()
        return broker, after, len(after.gone(broker.acknowledged)), after.since - began
    finally:
        clear(volume, (broker, after))


def middle_and_most(times, unit="s", by=1):
    times = sorted(times)
    return f"{by * times[len(times) // 2]:.2f} {unit}, at most {by * times[-1]:.2f} {unit}"


def try_all(volume, fault, tries):
    """Prints what came of so many tries of a fault: whether nothing was lost, and what was fenced was served again soon enough."""
    acknowledged, gone, times, fences, refusals = 0, 0, [], [], Counter()
    for _ in range(tries):
        broker, after, lost, took = tried(volume, fault)
        acknowledged, gone = acknowledged + len(broker.acknowledged), gone + lost
        if not after.serves():
            refusals[after.told()] += 1
        times.append(took)
        if broker.fence_took:
            fences.append(broker.fence_took)
        if fault is replica:
            volume.mend()
    late = bool(fences) and max(times) > MOST_SECONDS
    told = f"{fault.__name__}: {gone} of {acknowledged} acknowledged events gone in {tries} tries"
    told += f"; served again in {middle_and_most(times)}"
    if fences:
        told += f" behind a fence of {middle_and_most(fences, 'ms', 1000)}"
    told += f", and not in {MOST_SECONDS} s" if late else ""
    told += "".join(f"; {count} not served: {line}" for line, count in refusals.items())
    bad = gone or late or refusals
    print("FAILED " if bad else "ok     ", told, flush=True)
    return not bad


def harm_to(after, events):
    """What the first one's late writes did to the second, which takes more events and crashes: a third one has to have all."""
    if not after.serves():
        return after.told()
    after.load(50)
    after.rest()
    after.kill()
    again = Broker(after.machine, after.disk)
    gone = again.gone(events + after.acknowledged)
    again.kill()
    return f"{len(gone)} gone: {again.told()}" if gone else None


def taken(volume, first, second):
    """Both watch, and nothing is fenced: how many events the first one acknowledged, how many of them the second lacks, with which status
    and when the first one ended, and what harm it did, if any."""
    disk = volume.without_lock(first, formatted(volume, first))
    broker = Broker(first, disk, "--watch")
    broker.load()
    time.sleep(random.uniform(0.1, 1))
    after = Broker(second, volume.without_lock(second, volume.attach(second)), "--watch")
    try:
        status, took = broker.ended(PATIENCE)
        broker.rest()
        gone = after.gone(broker.acknowledged) if after.serves() else []
        return len(broker.acknowledged), len(gone), status, took, harm_to(after, broker.acknowledged)
    finally:
        clear(volume, (broker, after))


def try_takeovers(volume, tries):
    """Prints what came of so many takeovers without a fence: whether nothing was lost, and each first broker noticed."""
    acknowledged, gone, statuses, times, harms = 0, 0, Counter(), [], []
    for _ in range(tries):
        some, lost, status, took, harm = taken(volume, *volume.machines)
        acknowledged, gone = acknowledged + some, gone + lost
        harms += [harm] if harm else []
        statuses[status] += 1
        times.append(took)
    good = not gone and set(statuses) == {TAKEN_OVER}
    told = f"taken: {gone} of {acknowledged} acknowledged events gone in {tries} tries without a fence, both with --watch; the first ended"
    told += " and ".join(f" with status {status} in {count}" for status, count in statuses.items())
    told += f", {middle_and_most(times)} after the second served; its late writes harmed the second in {len(harms)}"
    told += f" ({', '.join(harms)})" if harms else ""
    print("ok     " if good else "FAILED ", told, flush=True)
    return good
