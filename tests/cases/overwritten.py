"""A disk that is overwritten in place while it is served, by an older state of it or by another disk: that is told within seconds,
all is refused from then on, and no end in order hides it. What was written before is no more, but for a backup."""
import contextlib
import http.client
import re
import time

from cases.gone import health, is_shut
from harness import case, same, until

# A disk that switches every few lives.
SMALL = {"sectors": 64, "events": 4, "payload": 64, "response": 64}
# As a broker of these tests is formatted.
USUAL = {"events": 16, "payload": 1024, "response": 1024, "environments": 1, "timeout": 900}
TOLD = "^disk is gone: (.*) was overwritten. Nothing is accepted from now on. Not all that was told is in it: cp "


def overwrite(disk, content):
    """As `cp` and `dd conv=notrunc` do it: the file keeps its number, and here its size at each moment."""
    with open(disk, "r+b") as file:
        file.write(content)


def cut_and_write(disk, content):
    """As `cp` and a shell's `>` do it: the file is cut first, and has its size again when it is looked at."""
    with open(disk, "wb") as file:
        file.write(content)


def text(size):
    return '"' + size * "x" + '"'


def lives(broker, size):
    """An event of that size is accepted, ends and is collected, ahead of those that wait."""
    same(broker.invoke(text(size)).status, 202)
    event = broker.next().id
    same(broker.respond(event, text(size)).status, 202)
    same(broker.delete(event).status, 204)


def is_told(broker):
    """That all is refused, that it says why, and that an end is no end in order."""
    until("an end of all", lambda: is_shut(broker))
    same(broker.invoke("{}").status, 503)
    found = re.search(TOLD, broker.stderr(), re.M)
    assert found and found[1] == broker.disk, broker.stderr()
    assert " was overwritten. " in health(broker, "?deep")[1], health(broker, "?deep")
    same(broker.said("stop", "--port", broker.port)[0], 1)
    same(broker.said("stop", "--port", broker.port, "--lose"), (0, f"stopped 127.0.0.1:{broker.port}\n"))
    same(broker.ended(), (1, "refused: disk is gone\n"))
    assert "stopped " not in broker.stderr(), broker.stderr()


def other_disk(broker, events=2):
    """Another disk of the same settings, on which events were accepted."""
    own, other = broker.disk, f"{broker.disk}.other"
    same(broker.format(other, 4096, **USUAL)[0], 0)
    broker.disk = other
    broker.serve()
    for _ in range(events):
        same(broker.invoke("{}").status, 202)
    same(broker.stop()[1], 0)
    content = broker.content()
    broker.disk = own
    return content


def answered(broker):
    """An event that is given is answered, where one is: its id."""
    event = broker.next()
    if event.status == 200:
        broker.respond(event.id, "{}")
        return event.id
    return "00000000-0000-4000-8000-000000000000"


@case()
def by_an_older_state_of_it(broker):
    broker.serve()
    same(broker.invoke("{}").status, 202)
    backup = broker.content()
    same([broker.invoke("{}").status for _ in range(3)], 3 * [202])
    overwrite(broker.disk, backup)
    is_told(broker)


@case()
def by_another_one_that_looks_like_it(broker):
    other = other_disk(broker)
    broker.serve()
    same([broker.invoke("{}").status for _ in range(2)], 2 * [202])
    overwrite(broker.disk, other)
    is_told(broker)


@case()
def by_another_one_before_anything_was_written_by_its_broker(broker):
    other = other_disk(broker, events=3)
    broker.serve()
    same(broker.invoke("{}").status, 202)
    same(broker.stop()[1], 0)
    broker.serve()
    overwrite(broker.disk, other)
    is_told(broker)


@case(SMALL)
def by_its_own_state_before_switches_and_before_anything_was_written(broker):
    broker.serve()
    same(broker.invoke("{}").status, 202)
    same(broker.stop()[1], 0)
    backup = broker.content()
    broker.serve()
    for _ in range(40):
        lives(broker, 30)
    same(broker.invoke("{}").status, 202)
    same(broker.stop()[1], 0)
    broker.serve()
    overwrite(broker.disk, backup)
    is_told(broker)


@case()
def and_cut_before_where_it_has_its_size_again(broker):
    broker.serve()
    same(broker.invoke("{}").status, 202)
    backup = broker.content()
    same(broker.invoke("{}").status, 202)
    cut_and_write(broker.disk, backup)
    until("an end of all", lambda: is_shut(broker))
    assert re.search("^disk is gone: .* (was overwritten|has lost bytes). ", broker.stderr(), re.M), broker.stderr()
    same(broker.said("stop", "--port", broker.port, "--lose")[0], 0)
    same(broker.ended(), (1, "refused: disk is gone\n"))


def refuses(broker):
    """Whether a life more is refused. A port that is left in the midst of it closes its connections."""
    try:
        return broker.invoke("{}").status == 503 or not broker.delete(answered(broker))
    except (ConnectionError, http.client.HTTPException):
        return True


@case()
def under_load(broker):
    """Whatever is written behind it, what was written before it is looked for."""
    broker.serve()
    lives(broker, 40)
    backup = broker.content()
    end = time.monotonic() + 1.5
    while time.monotonic() < end:
        lives(broker, 50)
    overwrite(broker.disk, backup)
    until("a refusal", lambda: refuses(broker))
    is_told(broker)


def goes_on_behind(broker, lost):
    """Between two looks so many events are accepted behind a copy, which is written back, and one more event comes at once."""
    broker.serve()
    same(broker.invoke("{}").status, 202)
    backup = broker.content()
    same({broker.invoke("{}").status for _ in range(lost)}, {202})
    overwrite(broker.disk, backup)
    # A look may have come between.
    with contextlib.suppress(ConnectionError):
        broker.invoke("{}")
    is_told(broker)


@case()
def by_its_state_of_an_event_ago_where_it_goes_on_at_once(broker):
    goes_on_behind(broker, 1)


@case({"events": 400, "sectors": 8192})
def by_its_state_of_twenty_events_ago_where_it_goes_on_at_once(broker):
    goes_on_behind(broker, 20)


@case({"events": 400, "sectors": 8192})
def by_its_state_of_a_hundred_events_ago_where_it_goes_on_at_once(broker):
    goes_on_behind(broker, 100)


@case()
def right_before_an_end_in_order(broker):
    broker.serve()
    same(broker.invoke("{}").status, 202)
    backup = broker.content()
    same(broker.invoke("{}").status, 202)
    overwrite(broker.disk, backup)
    assert broker.ask("POST", "/broker/stop").status in (202, 503)
    until("an end of all", lambda: is_shut(broker))
    same(broker.said("stop", "--port", broker.port, "--lose")[0], 0)
    same(broker.ended(), (1, "refused: disk is gone\n"))


@case({"sectors": 4097})
def and_watched(broker):
    broker.serve("--watch")
    same(broker.invoke("{}").status, 202)
    content = broker.content()
    # Its claim stays: else it would be another broker's.
    same(broker.invoke("{}").status, 202)
    overwrite(broker.disk, content[:-512])
    is_told(broker)


@case()
def by_its_own_bytes(broker):
    """A backup that is written back as it was read, or a copy onto itself, changes nothing."""
    broker.serve()
    same([broker.invoke("{}").status for _ in range(3)], 3 * [202])
    overwrite(broker.disk, broker.content())
    time.sleep(3)
    same((broker.invoke("{}").status, health(broker)[0]), (202, 200))
    same(broker.stop(), (202, 0, ""))


@case(SMALL)
def by_nobody_through_many_switches(broker):
    """What the broker itself writes is no other's."""
    broker.serve()
    end = time.monotonic() + 4
    while time.monotonic() < end:
        lives(broker, 60)
    time.sleep(1.5)
    same(health(broker)[0], 200)
    assert "disk is gone" not in broker.stderr(), broker.stderr()
    same(broker.stop(), (202, 0, ""))


@case()
def by_nobody_under_the_load_of_many(broker):
    broker.serve()
    end = time.monotonic() + 4
    while time.monotonic() < end:
        for asked in [broker.send_invoke(text(n)) for n in range(1, 13)]:
            same(asked.done().status, 202)
        for _ in range(12):
            broker.delete(answered(broker))
    same(health(broker)[0], 200)
    same(broker.stop(), (202, 0, ""))
