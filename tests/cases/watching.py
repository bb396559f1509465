"""A broker that claims its disk: what stands in the claim, and how it ends once another token stands there."""
import contextlib
import http.client
import os
import random
import stat
import subprocess
import threading
import time

from cases.program import taken
from cases.standby import devices, standby
from harness import Apart, Beside, Broker, Ports, case, line_of, needs, same, until

SECTORS = 16385
CLAIM, TOKEN = 512 * (SECTORS - 1), 16
OTHER = b"another broker's"
TAKEN = (4, "refused: taken over\n")
WATCHED = {"sectors": SECTORS, "events": 1024}


def claim_of(broker):
    """The token in its claim, behind which all is zeros."""
    claim = broker.content()[CLAIM:]
    same(claim[TOKEN:], bytes(512 - TOKEN))
    return claim[:TOKEN]


def generation(broker):
    return broker.audit()[0].split()[1]


@case()
def a_disk_without_a_sector_for_a_claim_is_refused_and_stays_as_it_is(broker):
    for sectors in 4096, 4099:
        other = type(broker)(sectors)
        before = other.content()
        line = "refused: no sector for a claim: a disk that is watched has 8 n + 1 sectors\n"
        same(other.said("serve", other.disk, "--port", Ports().first, "--watch"), (1, line))
        same(other.content() == before, True)
        other.close()


@case()
def a_disk_that_no_broker_has_formatted_is_refused_and_stays_as_it_is(broker):
    blank = f"{broker.disk}.blank"
    for content in bytes(512 * 65), bytes(512 * 64) + b"x" * 512, b"x" * 512 * 65, bytes(512):
        with open(blank, "wb") as disk:
            disk.write(content)
        same(broker.said("serve", blank, "--port", Ports().first, "--watch"), (1, "refused: not formatted\n"))
        with open(blank, "rb") as disk:
            same(disk.read() == content, True)


@case(WATCHED)
def a_claim_stands_while_the_disk_is_served_and_is_given_up_at_an_orderly_end(broker):
    same(claim_of(broker), bytes(TOKEN))
    tokens = set()
    for held in 1, 2:
        broker.serve("--watch")
        tokens.add(claim_of(broker))
        same(broker.invoke("{}").status, 202)
        same(broker.stop(), (202, 0, ""))
        same(claim_of(broker), bytes(TOKEN))
        same((broker.held(), generation(broker)), (held, "1"))
    same((len(tokens), bytes(TOKEN) in tokens), (2, False))


@case(WATCHED)
def who_finds_a_claim_switches_before_it_serves(broker):
    broker.serve("--watch")
    same(broker.invoke("{}").status, 202)
    broker.kill()
    left = claim_of(broker)
    assert left != bytes(TOKEN)
    broker.serve("--watch")
    assert claim_of(broker) not in (left, bytes(TOKEN))
    same(generation_served(broker), 2)
    same(broker.stop(), (202, 0, ""))
    same((claim_of(broker), generation(broker), broker.held()), (bytes(TOKEN), "2", 1))


def who_does_not_watch(broker):
    """The commands that write a disk without a claim of their own."""
    return [
        ("serve", broker.disk, "--port", Ports().first), ("configure", broker.disk, "--retries", 0),
        ("copy", broker.disk, broker.disk + ".new"), ("migrate", broker.disk)
    ]


@case(WATCHED)
def who_does_not_watch_refuses_a_disk_in_whose_claim_somebody_stands(broker):
    broker.serve("--watch")
    same(broker.invoke("{}").status, 202)
    broker.kill()
    before = broker.content()
    for words in who_does_not_watch(broker):
        same((words[0], broker.said(*words)), (words[0], (1, "refused: claimed\n")))
        same((broker.content() == before, os.path.exists(broker.disk + ".new")), (True, False))
    # An audit only reads, and who watches takes it over.
    same((generation(broker), broker.held(), broker.content() == before), ("1", 1, True))
    broker.serve("--watch")
    same(broker.stop(), (202, 0, ""))
    same(broker.configure("--retries", 0)[0], 0)


@case(WATCHED)
def who_does_not_watch_may_take_a_claim_away(broker):
    serve, configure, copy, migrate = who_does_not_watch(broker)
    wanted = (0, "configured retries 0 age 21600\n"), (0, f"copied 0 events to {SECTORS} sectors\n"), (1, "refused: not an old version\n")
    for words, told in zip((configure, copy, migrate), wanted):
        broker.put(CLAIM, OTHER)
        same(broker.said(*words, "--unclaim"), told)
        same(claim_of(broker), bytes(TOKEN))
    broker.put(CLAIM, OTHER)
    broker.serve("--unclaim")
    same((claim_of(broker), broker.invoke("{}").status), (bytes(TOKEN), 202))
    same(broker.stop(), (202, 0, ""))
    same((claim_of(broker), generation(broker), broker.held()), (bytes(TOKEN), "1", 1))
    same(broker.said(*serve, "--watch", "--unclaim")[0], 2)


@case({"sectors": 4096})
def a_disk_without_a_sector_for_a_claim_is_not_claimed(broker):
    broker.put(512 * 4095, OTHER)
    same(broker.configure("--retries", 0)[0], 0)
    blank = f"{broker.disk}.blank"
    with open(blank, "wb") as disk:
        disk.write(bytes(512 * 64) + OTHER + bytes(496))
    same(broker.said("configure", blank), (1, "refused: not formatted\n"))


@case()
def a_look_drops_all_that_may_be_kept_as_one_with_the_claim(broker):
    """From a multiple of 2 MiB to the end of the device, at claims in odd pages too."""
    for sectors in 4097, 8193, 8201, 16393:
        other = type(broker)(sectors)
        watch = other.watches_disk()
        other.serve("--watch")
        drops = watch.drops
        same(other.invoke("{}").status, 202)
        assert watch.drops > drops
        place = 512 * (sectors - 1)
        same((sectors, watch.drop_at, watch.drop_size), (sectors, place - place % (1 << 21), 0))
        same(other.stop(), (202, 0, ""))
        other.close()


def generation_served(broker):
    return broker.number("generation")


@case(WATCHED)
def a_start_that_is_refused_behind_its_claim_has_the_next_one_switch(broker):
    ports = Ports()
    with taken(ports.first):
        words = "serve", broker.disk, "--port", ports.first, "--watch"
        same(broker.said(*words), (1, "refused: port in use\n"))
    ports.close()
    left = claim_of(broker)
    assert left != bytes(TOKEN)
    same((generation(broker), broker.held()), ("1", 0))
    broker.serve("--watch")
    same((claim_of(broker) != left, generation_served(broker)), (True, 2))
    same(broker.stop(), (202, 0, ""))


@case(WATCHED)
def a_broker_that_stands_by_claims_only_once_it_has_the_lock(broker):
    broker.serve("--watch")
    same(broker.invoke("{}").status, 202)
    own = claim_of(broker)
    with standby(broker, "--watch") as second:
        same(line_of(second.served), "waiting for the lock\n")
        same((broker.invoke("{}").status, claim_of(broker)), (202, own))
        broker.kill()
        same(line_of(second.served), f"serving on 127.0.0.1:{second.port}\n")
        same(line_of(second.served), f"showing on 127.0.0.1:{second.admin}\n")
        assert claim_of(broker) not in (own, bytes(TOKEN))
        same(generation_served(second), 2)
        same(second.stop(), (202, 0, ""))
    same((claim_of(broker), broker.held()), (bytes(TOKEN), 2))


@case(WATCHED)
def an_idle_broker_ends_at_whichever_address_it_serves(broker):
    for address in "127.0.0.7", "0.0.0.0":
        broker.serve("--watch", "--address", address)
        broker.put(CLAIM, OTHER)
        same(broker.ended(), TAKEN)
        same(claim_of(broker), OTHER)


@case(WATCHED)
def an_idle_broker_ends_once_another_token_stands_in_its_claim(broker):
    broker.serve("--watch")
    same(broker.invoke("{}").status, 202)
    poll = broker.send_next()
    same(poll.done().status, 200)
    broker.put(CLAIM, OTHER)
    same(broker.ended(), TAKEN)
    # The other one's token stays, and no more was written.
    same((claim_of(broker), generation(broker), broker.held()), (OTHER, "1", 1))


@case(WATCHED)
def a_broker_ends_once_nobody_stands_in_its_claim(broker):
    broker.serve("--watch")
    broker.put(CLAIM, bytes(TOKEN))
    same(broker.ended(), TAKEN)


@case(WATCHED)
def a_broker_without_the_word_looks_at_no_claim(broker):
    watch = broker.watches_disk()
    broker.serve()
    same(broker.invoke("{}").status, 202)
    broker.put(CLAIM, OTHER)
    # Each look at a claim drops first what the machine keeps of it.
    drops = watch.drops
    for _ in range(20):
        same(broker.invoke("{}").status, 202)
    time.sleep(2)
    same(watch.drops, drops)
    same(broker.stop(), (202, 0, ""))
    same(claim_of(broker), OTHER)


@case(WATCHED)
def a_reply_comes_only_behind_a_look_that_follows_the_last_flush(broker):
    watch = broker.watches_disk()
    broker.serve("--watch")
    same(broker.invoke("{}").status, 202)
    # While the last flush of a commit goes on, its frame is written and its reply was not given: now another broker claims.
    flushes = watch.flushes
    watch.hold_flush = flushes + 2
    asked = broker.send_invoke("{}")
    until("the flush", lambda: watch.flushes == flushes + 2)
    broker.put(CLAIM, OTHER)
    watch.let_go()
    same(asked.done().status, 503)
    same(broker.ended(), TAKEN)
    same(claim_of(broker), OTHER)


@case(WATCHED)
def none_is_told_202_who_asks_behind_another_claim(broker):
    broker.serve("--watch")
    same([broker.invoke("{}").status for _ in range(5)], 5 * [202])
    broker.put(CLAIM, OTHER)
    # It may have noticed, and ended, before it is asked.
    assert status_of(broker) in (503, None)
    same(broker.ended(), TAKEN)
    assert broker.held() >= 5


@case(WATCHED)
def a_claim_that_cannot_be_read_is_a_device_fault(broker):
    watch = broker.watches_disk()
    broker.serve("--watch")
    same(broker.invoke("{}").status, 202)
    watch.fail_read = watch.reads + 1
    same(broker.ended(), (3, "device fault\n"))
    assert broker.stderr().count(f"device fault: reading {broker.disk} at sector {SECTORS - 1}: ") == 1, broker.stderr()
    watch.clear()
    same(broker.held(), 1)


def status_of(broker):
    """The status of an invocation, or none where nobody answers."""
    try:
        return broker.invoke("{}").status
    except (OSError, http.client.HTTPException):
        return None


class Second(Broker):
    """A broker on another device of the first one's disk."""

    def __init__(self, first, disk):
        self.folder, self.disk, self.environments = first.folder, disk, first.environments
        self.ports, self.watch, self.served, self.words = None, None, None, []


def invoke_until_refused(broker, told):
    """Invokes, and notes the ids of those that were told 202, until another status or none comes."""
    for number in range(1000):
        try:
            answer = broker.invoke(f"{number}")
        except (OSError, http.client.HTTPException):
            return
        if answer.status != 202:
            return
        told.append(answer.id)


def two_devices(path):
    """Two block devices over one file, each with a cache of its own."""
    return devices(path, 2)


@contextlib.contextmanager
def two_nodes(path):
    """One block device over a file, and a second node of it."""
    with devices(path, 1) as [device]:
        node = f"{path}.node"
        try:
            os.mknod(node, stat.S_IFBLK | 0o600, os.stat(device).st_rdev)
            open(node, "rb").close()
        except OSError as why:
            raise Apart(f"no second node of a device: {why}") from why
        yield device, node


def read_on(path, ended):
    """Reads a device again and again, once what the machine kept of it is dropped, so that it keeps large pieces."""
    while not ended.is_set():
        subprocess.run(["blockdev", "--flushbufs", path], check=False)
        with open(path, "rb") as device:
            while device.read(1 << 20):
                pass


def take_over(broker, ways, is_asked, is_read=False):
    """A second broker serves the disk by another way, at a random moment while the first one serves, and is asked or is idle: how
    that ended, how long it took, how many events it was told of, which of them the second one lacks, and how that ended."""
    told, ended = [], threading.Event()
    with ways(broker.disk) as (first, second):
        one, other = Second(broker, first), Second(broker, second)
        reader = Beside(read_on, first, ended) if is_read else None
        try:
            one.serve("--watch")
            asking = Beside(invoke_until_refused, one, told) if is_asked else None
            until("an event that is acknowledged", lambda: told or not is_asked)
            time.sleep(random.random() / 2)
            other.serve("--watch")
            began = time.monotonic()
            status = one.ended()
            took = time.monotonic() - began
            if asking:
                asking.done()
            held = {event["id"] for event in other.look("/events?limit=1000").json["events"]}
            lost = [event for event in told if event not in held]
            stopped = other.stop()
        finally:
            ended.set()
            if reader:
                reader.done()
            one.end()
            other.end()
    return status, took, len(told), lost, stopped


def take_over_often(broker, ways, often, sectors=SECTORS, is_read=False):
    """So many times, each with a new disk, every fourth time with a first broker that is idle. By hand more often, and then each tells
    what it saw."""
    asked = os.environ.get("LAMBDA_BROKER_TAKEOVERS")
    for number in range(int(asked or often)):
        other = type(broker)(**{**WATCHED, "sectors": sectors, "payload": 512})
        try:
            status, took, told, lost, stopped = take_over(other, ways, number % 4 > 0, is_read)
        finally:
            other.close()
        same((status, lost, stopped), (TAKEN, [], (202, 0, "")))
        assert took < 10, took
        if asked:
            print(f"acknowledged {told}, ended after {took:.2f} s", flush=True)


@case(WATCHED)
def who_takes_a_disk_over_has_all_that_the_other_acknowledged(broker):
    take_over_often(broker, two_devices, 4)


@case(WATCHED)
def who_takes_a_disk_over_by_a_second_node_of_its_device_has_all_of_it_too(broker):
    take_over_often(broker, two_nodes, 4)


@case(WATCHED)
def who_takes_over_has_all_where_the_claim_is_in_an_odd_page_and_a_reader_is_beside(broker):
    needs("blockdev")
    for sectors in 8201, 16393:
        take_over_often(broker, two_devices, 4, sectors, True)
