"""How far long work is, as standard error tells it: on a terminal in one line that is written over, else in a line after each ten seconds."""
import os
import pty
import re
import subprocess
import time

from cases.copying import put
from cases.formatting import words_of
from cases.migrate import old_disk
from harness import DEADLINE, Beside, Built, case, same, until

# After how many seconds a line is due: on a terminal, and elsewhere.
SOON, SELDOM = 0.2, 10
LINE = r"progress: (\S+) \(([0-9]+) MiB\): ([0-9]+) MiB read, ([0-9]+) MiB written"


def held_words(broker, *words):
    """What has the program at work, with its first flush held."""
    watch = broker.watch
    watch.clear()
    watch.hold_flush = 1
    return [Built.program, *map(str, words)], {**os.environ, **watch.env}


def let_go(broker, seconds):
    """Lets the flush that is held go once so many seconds have passed."""
    until("a flush", lambda: broker.watch.flushes == 1)
    time.sleep(seconds)
    broker.watch.let_go()


def read_all(file):
    """What a terminal was told, until nobody has it open any more."""
    told = b""
    while True:
        try:
            more = os.read(file, 4096)
        except OSError:
            return told.decode()
        if not more:
            return told.decode()
        told += more


def on_a_terminal(broker, *words, seconds=2 * SOON):
    """The status of a command, what it prints, and what its terminal is told, where its first flush takes so long."""
    ours, theirs = pty.openpty()
    told, env = held_words(broker, *words)
    program = subprocess.Popen(told, stdin=subprocess.DEVNULL, stdout=subprocess.PIPE, stderr=theirs, env=env, text=True)
    os.close(theirs)
    read = Beside(read_all, ours)
    try:
        let_go(broker, seconds)
        printed = program.communicate(timeout=DEADLINE)[0]
        return program.returncode, printed, read.done()
    finally:
        program.kill()
        os.close(ours)


def elsewhere(broker, *words, seconds=SELDOM + SOON):
    """The same where standard error is a pipe."""
    told, env = held_words(broker, *words)
    program = subprocess.Popen(told, stdin=subprocess.DEVNULL, stdout=subprocess.PIPE, stderr=subprocess.PIPE, env=env, text=True)
    try:
        let_go(broker, seconds)
        printed, lines = program.communicate(timeout=DEADLINE)
        return program.returncode, printed, lines
    finally:
        program.kill()


def first_line(told):
    """What the first line tells that a pipe was told. Where the machine is slow more come, each of which tells of more work."""
    found = [re.fullmatch(LINE, line) for line in told.splitlines()]
    assert found and all(found), repr(told)
    works = [tuple(map(int, each.groups()[1:])) for each in found]
    assert works == sorted(set(works)) and len({each[1] for each in found}) == 1, repr(told)
    return found[0][1], *works[0]


def stands(told):
    """What stands in the line of a terminal that was told so much."""
    line = ""
    for part in told.split("\r"):
        line = part + line[len(part):]
    return line.rstrip()


def is_one_line(told, *name):
    """A terminal was told how far it is of these files, in one line that is gone at the end."""
    assert "\n" not in told and told.endswith("\r"), repr(told)
    *texts, last = [part for part in told.split("\r") if part]
    same((stands(told), last.strip()), ("", ""))
    found = [re.fullmatch(LINE, text.rstrip()) for text in texts]
    assert found and all(found), repr(told)
    assert {each[1] for each in found} <= set(name), repr(told)
    return [tuple(map(int, each.groups()[1:])) for each in found]


@case()
def on_a_terminal_long_work_is_one_line(broker):
    disk, new = broker.disk, broker.disk + ".new"
    broker.watches_disk()
    works_on = [
        ("audit", disk), ("configure", disk, "--age", 100), ("copy", disk, new), words_of(disk, 4096),
        words_of(disk, 4096, events=5) + ["--force"]]
    for words in works_on:
        status, _, told = on_a_terminal(broker, *words)
        same((words[0], status), (words[0], 0))
        assert all(work[0] == 2 for work in is_one_line(told, "disk", "disk.new")), told
    put(disk, old_disk())
    status, printed, told = on_a_terminal(broker, "migrate", disk)
    same((status, printed), (0, "migrated generation 2 number 1\n"))
    is_one_line(told, "disk")


@case()
def what_is_refused_leaves_no_line(broker):
    broker.watches_disk()
    status, printed, told = on_a_terminal(broker, "copy", broker.disk, broker.disk + ".new", "--events", 1)
    same((status, printed), (1, "refused: smaller limit: events\n"))
    is_one_line(told, "disk")


@case()
def what_takes_no_time_is_not_told(broker):
    broker.watches_disk()
    new = broker.disk + ".new"
    for words in ("audit", broker.disk), ("copy", broker.disk, new), ("migrate", broker.disk), words_of(new, 64, events=5):
        told, env = held_words(broker, *words)
        broker.watch.let_go()
        done = subprocess.run(told, capture_output=True, text=True, env=env)
        same((words[0], done.stderr), (words[0], ""))


@case(slow=True)
def elsewhere_long_work_is_told_after_each_ten_seconds(broker):
    """All of a new disk is written in pieces of 64 MiB, each of which is flushed. Ten seconds pass at the first of them."""
    watch, made, sectors = broker.watches_disk(), broker.disk + ".made", 300 * 2048
    watch.env["WATCH_DISK"] = made
    status, printed, told = elsewhere(broker, *words_of(made, sectors), "--allocate")
    same((status, printed), (0, f"formatted {sectors} sectors\n"))
    same(first_line(told), (made, 300, 0, 64))


@case(slow=True)
def elsewhere_a_long_opening_is_told(broker):
    broker.watches_disk()
    status, printed, told = elsewhere(broker, "audit", broker.disk)
    same((status, printed.splitlines()[0]), (0, "generation 1 number 0"))
    name, size, _, written = first_line(told)
    same((name, size, written), (broker.disk, 2, 0))
