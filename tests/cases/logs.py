"""What `serve` says on standard error for who keeps a log: how it opened, which environments were reset, and how it ended."""
import fcntl
import os
import re
import subprocess
import time

from harness import ARN, DEADLINE, EXTENSION, OPENING, RUNTIME, Built, Ports, case, same, until

STOPPED = (202, 0, "")


def lines_with(broker, *words):
    """The lines on standard error that have these words."""
    return [line for line in broker.stderr().splitlines() if all(re.search(word, line) for word in words)]


def until_told(broker, *words, count=1):
    """Waits until so many lines have these words: those."""
    until(f"{words} on standard error", lambda: len(lines_with(broker, *words)) >= count)
    found = lines_with(broker, *words)
    same((words, len(found)), (words, count))
    return found


@case()
def what_was_opened_is_told_in_one_line(broker):
    broker.serve()
    until_told(broker, "opened", r"held 0\b", r"interrupted 0\b")
    same([broker.invoke(f"{n}").status for n in range(3)], 3 * [202])
    same(broker.next().status, 200)
    broker.kill()
    broker.serve()
    line = until_told(broker, "opened", r"held 3\b", r"interrupted 1\b")[0]
    assert re.search(r"[0-9.]+ ?(ms|s|milliseconds|seconds)\b", line), f"{line!r} does not say how long it took"
    same(len(lines_with(broker, "opened")), 1)


@case()
def an_end_in_order_is_told_with_who_asked_for_it(broker):
    broker.serve()
    same(lines_with(broker, "stopped"), [])
    same(broker.stop(), STOPPED)
    until_told(broker, "stopped", "POST /broker/stop")
    same(len(lines_with(broker, "opened")), 1)


@case()
def a_device_fault_is_no_end_in_order(broker):
    broker.watches_disk().fail_flush = OPENING + 1
    broker.serve()
    same(broker.invoke("{}").status, 503)
    same(broker.ended(), (3, "device fault\n"))
    same(lines_with(broker, "stopped"), [])


@case()
def payloads_and_answers_are_in_no_log(broker):
    broker.serve()
    same(broker.delete(broker.live('"the payload"', "the answer")).status, 204)
    same(broker.delete(broker.live('"the payload"', "the answer", path="error")).status, 409)
    same(broker.stop(), STOPPED)
    same(lines_with(broker, "the payload|the answer"), [])


# The header that some clients send with an error.
TYPE = {"Lambda-Extension-Function-Error-Type": "Extension.Failed"}

# What a broker tells of environments that were reset.
RESET = r"^(an )?environment\b.* was reset: "


@case({"timeout": 1, "retries": 0})
def an_environment_that_did_not_answer_in_time_is_told_with_its_event(broker):
    broker.serve()
    event = broker.invoke("{}").id
    same(broker.next().id, event)
    same(until_told(broker, RESET), [f"an environment was reset: event {event} was not answered in time"])
    # What comes late resets nothing any more, and an answer in time nothing at all.
    same(broker.respond(event, "late").type, "InvalidRequestID")
    same(broker.delete(event).status, 204)
    broker.live("{}", "in time")
    same(broker.stop(), STOPPED)
    same(len(lines_with(broker, RESET)), 1)


@case({"environments": 3})
def a_report_that_resets_an_environment_is_told_with_its_cause(broker):
    broker.serve()
    same(broker.ask("POST", f"{RUNTIME}/init/error", "{}", environment=2).status, 202)
    starts, ends = broker.extension(environment=3), broker.extension(environment=1)
    same(broker.ask("POST", f"{EXTENSION}/init/error", "{}", {**starts, **TYPE}, 3).status, 202)
    same(broker.ask("POST", f"{EXTENSION}/exit/error", "{}", {**ends, **TYPE}, 1).status, 202)
    # The environment was reset, so the extension is not known any more: what is refused resets nothing.
    same(broker.ask("POST", f"{EXTENSION}/exit/error", "{}", {**ends, **TYPE}, 1).type, "UnknownExtension")
    same(broker.stop(), STOPPED)
    same(sorted(lines_with(broker, RESET)), [
        "environment 1 was reset: an extension ended",
        "environment 2 was reset: its runtime could not start",
        "environment 3 was reset: an extension could not start",
    ])


@case()
def a_log_that_nobody_reads_holds_no_port_up(broker):
    path = os.path.join(broker.folder, "log")
    os.mkfifo(path)
    log = os.open(path, os.O_RDWR | os.O_NONBLOCK)
    fcntl.fcntl(log, fcntl.F_SETPIPE_SZ, 8192)
    broker.serve(under=["bash", "-c", f'exec "$@" 2> {path}', "bash"])
    same([broker.ask("POST", f"{RUNTIME}/init/error", "{}", environment=1).status for _ in range(300)], 300 * [202])
    told = os.read(log, 1 << 16).decode().splitlines()
    os.close(log)
    resets = [line for line in told if not re.match("opened |warning: ", line)]
    assert 10 < len(resets) < 300, told
    same(set(resets), {"environment 1 was reset: its runtime could not start"})
    same(broker.stop(), STOPPED)


# How long an end may take at which nothing is waited for, in seconds. It takes some milliseconds, and more on a machine that is busy.
SOON = 5


class Unread:
    """A pipe that nobody reads, as the standard stream of this number."""

    def __init__(self, broker, stream=2):
        path = os.path.join(broker.folder, "unread")
        os.mkfifo(path)
        self.end = os.open(path, os.O_RDWR | os.O_NONBLOCK)
        # What runs a command with it.
        self.under = ["timeout", "30", "bash", "-c", f'exec "$@" {stream}> {path}', "bash"]

    def fill(self):
        """From now on it takes nothing more."""
        for piece in (4096, 1):
            self.fill_by(b"." * piece)
        return self

    def fill_by(self, piece):
        try:
            while os.write(self.end, piece):
                pass
        except BlockingIOError:
            pass

    def close(self):
        os.close(self.end)


@case()
def a_start_and_an_end_wait_for_no_reader_of_standard_error(broker):
    log = Unread(broker).fill()
    broker.serve(under=log.under)
    same(broker.ask("POST", f"{RUNTIME}/init/error", "{}", environment=1).status, 202)
    broker.live("{}", "{}")
    # What was left out is counted: that it was opened, and the reset.
    assert broker.number("lines_dropped_total") >= 2
    same(broker.stop(), STOPPED)
    log.close()


@case()
def a_device_fault_waits_for_no_reader_of_standard_error(broker):
    log = Unread(broker)
    broker.watches_disk().fail_flush = OPENING + 1
    broker.serve(under=log.under)
    log.fill()
    began = time.monotonic()
    same(broker.invoke("{}").status, 503)
    same(broker.ended(), (3, "device fault\n"))
    took = time.monotonic() - began
    assert took < SOON, f"it ended {took:.1f} s behind its fault"
    # The disk is another broker's then.
    broker.watch.fail_flush = 0
    broker.serve()
    same(broker.stop(), STOPPED)
    log.close()


@case()
def the_commands_wait_for_no_reader_of_standard_error(broker):
    log, made = Unread(broker).fill(), broker.disk + "1"
    words = [made, "--sectors", 4096, "--name", "g", "--handler", "h", "--arn", ARN, "--events", 1]
    same(broker.said("format", *words, under=log.under), (0, "formatted 4096 sectors\n"))
    broker.watches_disk().fail_read = 1
    same(broker.said("audit", broker.disk, under=log.under), (3, "device fault\n"))
    log.close()


@case()
def a_start_and_an_end_wait_for_no_reader_of_standard_output(broker):
    full, ports = Unread(broker, stream=1).fill(), Ports()
    broker.port, broker.admin = ports.first, ports.first + 2
    words = [Built.program, "serve", broker.disk, "--port", str(broker.port), "--admin", str(broker.admin)]
    for fault in False, True:
        broker.watches_disk().fail_flush = OPENING + 1 if fault else 0
        served = subprocess.Popen([*full.under, *words], stderr=subprocess.DEVNULL, env={**os.environ, **broker.watch.env})
        until("a reply", lambda: is_served(broker))
        if fault:
            same(broker.invoke("{}").status, 503)
            same(served.wait(DEADLINE), 3)
        else:
            same(broker.ask("POST", "/broker/stop").status, 202)
            same(served.wait(DEADLINE), 0)
    ports.close()
    full.close()


def is_served(broker):
    try:
        return broker.look("/healthz").status == 200
    except OSError:
        return False
