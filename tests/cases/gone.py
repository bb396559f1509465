"""A disk that is removed, moved, replaced or cut while it is served: all is refused from then on, and what was told can be saved."""
import os
import re
import shutil
import socket
import subprocess
import time

from harness import INVOKE, EVENT, Asked, Skipped, case, needs, same, statuses, until

REFUSED = b'{"errorMessage":"broker is not available","errorType":"Unavailable"}'


def remove(broker):
    os.remove(broker.disk)
    return "nothing is at"


def move(broker):
    os.rename(broker.disk, f"{broker.disk}.moved")
    return "nothing is at"


def replace(broker):
    """As rsync and a restore do it: another file takes its name."""
    shutil.copy(broker.disk, f"{broker.disk}.new")
    os.rename(f"{broker.disk}.new", broker.disk)
    return "another file is at"


def copy_back(broker):
    """The way that the line on standard error names: the file is there as long as the process lives."""
    line = until("a line", lambda: re.search("^disk is gone: .*$", broker.stderr(), re.M))[0]
    process, number = re.search("cp /proc/([0-9]+)/fd/([0-9]+) NEW", line).groups()
    same(int(process), broker.served.pid)
    with open(f"/proc/{process}/fd/{number}", "rb") as left, open(f"{broker.disk}.saved", "wb") as saved:
        shutil.copyfileobj(left, saved)
    return line


def health(broker, query=""):
    told = Asked(broker.admin, "GET", f"/healthz{query}").done()
    return told.status, told.body.decode()


def binds(free, port):
    try:
        free.bind(("127.0.0.1", port))
        return True
    except OSError:
        return False


def is_shut(broker):
    """Whether both ports are those of a broker whose disk is gone: each comes by itself."""
    try:
        return health(broker)[1].startswith("disk is gone: ") and broker.ask("GET", "/").status == 503
    except OSError:
        return False


def saves_all(broker, lose):
    """Events that were told 202 up to a loss of the disk, and what becomes of all behind that."""
    broker.serve()
    told = [broker.invoke("{}") for _ in range(3)]
    same([one.status for one in told], 3 * [202])
    became = lose(broker)
    until("an end of all", lambda: is_shut(broker))
    refused = broker.invoke("{}")
    same((refused.status, refused.body), (503, REFUSED))
    line = copy_back(broker)
    assert line.startswith(f"disk is gone: {became} {broker.disk}"), line
    for query in "", "?deep":
        same(health(broker, query), (503, f"{line}\n"))
    metrics = Asked(broker.admin, "GET", "/metrics").done()
    same((metrics.status, b'\nlambda_broker_problem{reason="disk_is_gone"} 1\n' in metrics.body), (200, True))
    # An end in order would lose what was told.
    same(broker.said("stop", "--port", broker.port), (1, f"refused: 127.0.0.1:{broker.port} refuses all, as where a disk is gone: its line on standard error says how to save it\n"))
    same((broker.ask("POST", "/broker/stop").status, broker.served.poll()), (503, None))
    same(broker.said("stop", "--port", broker.port, "--lose"), (0, f"stopped 127.0.0.1:{broker.port}\n"))
    same(broker.ended(), (1, "refused: disk is gone\n"))
    assert "stopped " not in broker.stderr(), broker.stderr()
    os.replace(f"{broker.disk}.saved", broker.disk)
    same(broker.held(), 3)
    broker.serve()
    same({broker.next().id}, {told[0].id})
    same(broker.stop(), (202, 0, ""))


@case()
def a_disk_that_is_removed_is_told_and_what_was_told_can_be_saved(broker):
    saves_all(broker, remove)


@case()
def a_disk_that_is_moved_away_is_told_and_what_was_told_can_be_saved(broker):
    saves_all(broker, move)


@case()
def a_disk_that_is_replaced_is_told_and_what_was_told_can_be_saved(broker):
    saves_all(broker, replace)


@case()
def a_disk_that_is_cut_is_told_and_nothing_more_is_accepted(broker):
    broker.serve()
    same(broker.invoke("{}").status, 202)
    os.truncate(broker.disk, 512 * 4000)
    until("an end of all", lambda: is_shut(broker))
    same(broker.invoke("{}").status, 503)
    assert re.search(f"^disk is gone: {broker.disk} has lost bytes. ", broker.stderr(), re.M), broker.stderr()
    same(broker.said("stop", "--port", broker.port, "--lose"), (0, f"stopped 127.0.0.1:{broker.port}\n"))
    same(broker.ended(), (1, "refused: disk is gone\n"))


@case()
def an_end_in_order_right_behind_a_removal_keeps_the_last_copy(broker):
    for _ in range(5):
        broker.serve()
        told = broker.invoke("{}")
        same(told.status, 202)
        os.remove(broker.disk)
        # On a busy machine it was looked at between.
        assert broker.ask("POST", "/broker/stop").status in (202, 503)
        until("an end of all", lambda: is_shut(broker))
        same(broker.served.poll(), None)
        copy_back(broker)
        same(broker.said("stop", "--port", broker.port, "--lose")[0], 0)
        same(broker.ended()[0], 1)
        os.replace(f"{broker.disk}.saved", broker.disk)
    same(broker.held(), 5)


@case()
def a_stop_right_behind_a_removal_says_that_the_broker_stays(broker):
    broker.serve()
    same(broker.invoke("{}").status, 202)
    os.remove(broker.disk)
    refused = 1, f"refused: 127.0.0.1:{broker.port} refuses all, as where a disk is gone: its line on standard error says how to save it\n"
    begun = time.monotonic()
    same(broker.said("stop", "--port", broker.port, "--name", "my-function"), refused)
    # It does not wait for the end of a port that is another one by then.
    assert time.monotonic() - begun < 40, time.monotonic() - begun
    same(broker.served.poll(), None)
    until("an end of all", lambda: is_shut(broker))
    for words in (), ("--name", "my-function"):
        same(broker.said("stop", "--port", broker.port, *words), refused)
    copy_back(broker)
    same(broker.said("stop", "--port", broker.port, "--lose")[0], 0)
    os.replace(f"{broker.disk}.saved", broker.disk)
    same(broker.held(), 1)


@case()
def a_disk_that_is_shown_by_a_mount_of_it_alone_is_gone_where_it_is_removed(broker):
    """As a container is given one file: it has its name there, and no other any more."""
    needs("mount", "umount")
    shown = os.path.join(broker.folder, "shown")
    open(shown, "w").close()
    if subprocess.run(["mount", "--bind", broker.disk, shown], stderr=subprocess.DEVNULL).returncode:
        raise Skipped("nothing can be mounted here")
    own, broker.disk = broker.disk, shown
    try:
        broker.serve()
        same(broker.invoke("{}").status, 202)
        os.remove(own)
        until("an end of all", lambda: is_shut(broker))
        with open(shown, "rb") as left, open(own, "wb") as saved:
            shutil.copyfileobj(left, saved)
        same(broker.said("stop", "--port", broker.port, "--lose")[0], 0)
        same(broker.ended()[0], 1)
    finally:
        subprocess.run(["umount", shown], check=True)
    broker.disk = own
    same(broker.held(), 1)


@case()
def who_takes_the_port_of_a_disk_that_is_gone_does_not_end_its_broker(broker):
    broker.serve()
    same(broker.invoke("{}").status, 202)
    # A request that is half sent keeps the front from its end, and who has the port meanwhile keeps the next from it.
    with broker.socket() as half:
        half.sendall(b"POST / HTTP/1.1\r\ncontent-length: 10\r\n\r\n")
        os.remove(broker.disk)
        with socket.socket() as other:
            other.setsockopt(socket.SOL_SOCKET, socket.SO_REUSEADDR, 1)
            until("a free port", lambda: binds(other, broker.port))
            other.listen()
            time.sleep(9)
            same(broker.served.poll(), None)
    until("an end of all", lambda: is_shut(broker))
    copy_back(broker)
    same(broker.said("stop", "--port", broker.port, "--lose")[0], 0)
    os.replace(f"{broker.disk}.saved", broker.disk)
    same(broker.held(), 1)


@case()
def events_told_while_a_disk_goes_are_all_in_the_copy_or_were_refused(broker):
    broker.serve()
    asked = []
    for n in range(12):
        asked.append(broker.send_invoke("{}"))
        if n == 5:
            os.remove(broker.disk)
    told = statuses(asked)
    until("an end of all", lambda: is_shut(broker))
    copy_back(broker)
    broker.kill()
    os.replace(f"{broker.disk}.saved", broker.disk)
    same(broker.held() >= told.count(202), True)


@case()
def with_the_words_of_aws_callers_are_told_so_too(broker):
    broker.serve("--dialect", "aws")
    os.remove(broker.disk)
    until("an end of all", lambda: is_shut(broker))
    refused = broker.ask("POST", INVOKE, "{}", EVENT)
    same((refused.status, refused.json["Type"]), (503, "Service"))


@case()
def without_an_operators_port_a_disk_that_is_gone_is_told_on_standard_error(broker):
    broker.serve(admin=False)
    same(broker.invoke("{}").status, 202)
    os.remove(broker.disk)
    copy_back(broker)
    # As soon as the line says how: the port that serves may be there still, or none.
    same(broker.said("stop", "--port", broker.port, "--lose"), (0, f"stopped 127.0.0.1:{broker.port}\n"))
    same(broker.ended(), (1, "refused: disk is gone\n"))


@case()
def a_broker_that_serves_is_stopped_in_order_where_it_is_to_lose_too(broker):
    broker.serve()
    same(broker.invoke("{}").status, 202)
    same(broker.said("stop", "--port", broker.port, "--lose"), (0, f"stopped 127.0.0.1:{broker.port}\n"))
    same(broker.ended()[0], 0)
    same(broker.held(), 1)
    same(broker.said("stop", "--port", broker.port, "--lose"), (1, f"refused: no broker on 127.0.0.1:{broker.port}\n"))


@case()
def a_disk_that_stays_is_looked_at_and_nothing_is_told(broker):
    broker.serve()
    os.link(broker.disk, f"{broker.disk}.link")
    os.remove(f"{broker.disk}.link")
    os.utime(broker.disk)
    time.sleep(3)
    same((broker.invoke("{}").status, health(broker)[0]), (202, 200))
    same(broker.stop(), (202, 0, ""))
    assert "disk is gone" not in broker.stderr(), broker.stderr()


@case()
def a_disk_of_another_function_is_not_served_where_one_is_named(broker):
    before = broker.content()
    words = "serve", broker.disk, "--port", 2000, "--name", "other"
    same(broker.said(*words), (1, "refused: the disk is of function my-function\n"))
    same(broker.content() == before, True)
    broker.serve("--name", "my-function")
    same(broker.stop(), (202, 0, ""))


@case({"sectors": 4097})
def a_disk_of_another_function_is_not_claimed_where_one_is_named(broker):
    before = broker.content()
    words = "serve", broker.disk, "--port", 2000, "--name", "other", "--watch"
    same(broker.said(*words), (1, "refused: the disk is of function my-function\n"))
    same(broker.content() == before, True)
    broker.serve("--name", "my-function", "--watch")
    same(broker.stop(), (202, 0, ""))


@case({"sectors": 4097})
def a_disk_that_is_watched_and_removed_is_told_too(broker):
    broker.serve("--watch")
    same(broker.invoke("{}").status, 202)
    os.remove(broker.disk)
    until("an end of all", lambda: is_shut(broker))
    copy_back(broker)
    same(broker.said("stop", "--port", broker.port, "--lose")[0], 0)
    same(broker.ended()[0], 1)
    os.replace(f"{broker.disk}.saved", broker.disk)
    same(broker.held(), 1)
