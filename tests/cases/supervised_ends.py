"""What `deploy/supervise` ends by itself: what hangs, what a new version takes the place of, and what a stop leaves to the next one."""
import contextlib
import fcntl
import glob
import json
import os
import pty
import re
import signal
import socket
import subprocess
import sys
import time

from cases.supervised import FUNCTION, SUPERVISE, TWENTY, answered_at_once, connections, ended, event_of, supervised, until_polled
from harness import DEADLINE, EXAMPLES, HERE, Apart, Late, case, line_of, needs, same, until

# How long an event of these cases may last, so that a busy machine answers one in time, and how long it may take behind that until
# another process has answered the next one.
TIMEOUT, SOON = 8, 30


def another(runtime, process):
    """The process that has taken the place of this one, for which it waits."""
    return until("another process", lambda: (lambda now: now not in (None, process) and now)(runtime.process()))


def stays(runtime, process, seconds):
    """It is this process, for so long."""
    end = time.monotonic() + seconds
    while time.monotonic() < end:
        same(runtime.process(), process)
        time.sleep(0.05)


def has_timed_out(broker, event):
    until("the timeout", lambda: event_of(broker, event)["failures"])


# What hangs


@case({"timeout": TIMEOUT, "retries": 0}, slow=True)
def a_runtime_that_hangs_is_ended_and_the_next_event_runs(broker):
    broker.serve()
    with supervised(broker) as runtime:
        hung = broker.invoke('{"waits":900}').id
        runtime.has(hung)
        began, old = time.monotonic(), runtime.process()
        waits = broker.invoke("{}").id
        assert answered_at_once(broker, waits) != old
        took = time.monotonic() - began
        # It began a little before it was seen to.
        assert TIMEOUT - 1 < took < TIMEOUT + SOON, took
        runtime.has(waits)
        told = ended(broker, hung, "failure")
        # It failed by its timeout, as the broker judged, and nothing was reported of it.
        same((told["requestContext"]["approximateInvokeCount"], "responsePayload" in told), (1, False))
        same(os.path.exists(f"/proc/{old}"), False)
        same(sum("hung" in line for line in runtime.lines()), 1)


@case({"timeout": TIMEOUT}, slow=True)
def a_runtime_that_hangs_stays_where_that_is_wanted(broker):
    broker.serve()
    with supervised(broker, options=["--keep-hung"]) as runtime:
        hung = broker.invoke('{"waits":900}').id
        runtime.has(hung)
        process = runtime.process()
        has_timed_out(broker, hung)
        stays(runtime, process, 3)
        # A new version ends it.
        runtime.program.send_signal(signal.SIGHUP)
        another(runtime, process)
        assert answered_at_once(broker, broker.invoke("{}").id) != process


# It answers a little behind its deadline, by the time that it was told.
LATE = """
import time
def main(event, context):
    print("has", context.aws_request_id, flush=True)
    time.sleep(context.get_remaining_time_in_millis() / 1000 + event["late"])
"""


@case({"timeout": TIMEOUT, "retries": 0}, slow=True)
def who_answers_late_but_asks_again_is_not_ended(broker):
    broker.serve()
    with supervised(broker) as runtime:
        broker.until_parked(1)
        with open(os.path.join(broker.folder, "app.py"), "w") as file:
            file.write(LATE)
        runtime.kill()
        broker.until_parked(1)
        # A busy machine may be later than a second.
        for _ in range(6):
            event, process = broker.invoke('{"late":0.1}').id, until("a process", runtime.process)
            runtime.has(event)
            has_timed_out(broker, event)
            broker.until_parked(1)
            time.sleep(1.5)
            is_kept = runtime.process() == process
            ended(broker, event, "failure")
            if is_kept:
                break
        assert is_kept, runtime.lines()


# It answers, and then works on.
WORKS_ON = """
import http.client, os, time
broker = http.client.HTTPConnection(os.environ["AWS_LAMBDA_RUNTIME_API"])
broker.request("GET", "/2018-06-01/runtime/invocation/next")
given = broker.getresponse()
given.read()
broker.request("POST", f"/2018-06-01/runtime/invocation/{given.headers['Lambda-Runtime-Aws-Request-Id']}/response", str(os.getpid()))
broker.getresponse().read()
time.sleep(900)
"""


@case({"timeout": TIMEOUT}, slow=True)
def who_answers_and_never_asks_again_is_ended(broker):
    broker.serve()
    with supervised(broker, ["python3", "-c", WORKS_ON]):
        events = [broker.invoke("{}").id for _ in range(2)]
        told = [ended(broker, event) for event in events]
        same([each["requestContext"]["approximateInvokeCount"] for each in told], [1, 1])
        assert told[0]["responsePayload"] != told[1]["responsePayload"]


# An extension that hangs in its first event, as long as a file is not there.
HANGS = """
import http.client, json, os, sys, time
broker = http.client.HTTPConnection(os.environ["AWS_LAMBDA_RUNTIME_API"])
def ask(method, path, body=None, **more):
    broker.request(method, f"/2020-01-01/extension/{path}", body, {name.replace("_", "-"): value for name, value in more.items()})
    reply = broker.getresponse()
    reply.read()
    return reply
me = ask("POST", "register", '{"events":["INVOKE"]}', Lambda_Extension_Name="x").headers["Lambda-Extension-Identifier"]
while ask("GET", "event/next", Lambda_Extension_Identifier=me).status == 200:
    if not os.path.exists(sys.argv[1]):
        open(sys.argv[1], "w").close()
        time.sleep(900)
"""


def with_extension(broker):
    """A runtime and this extension, in one process group."""
    return ["sh", "-c", f'python3 -c "$0" {broker.folder}/hung & exec {FUNCTION}', HANGS]


@case({"timeout": TIMEOUT}, slow=True)
def an_extension_that_hangs_is_ended_with_its_runtime(broker):
    broker.serve("--extensions", "1")
    with supervised(broker, with_extension(broker)) as runtime:
        events = [broker.invoke("{}").id for _ in range(3)]
        processes = [answered_at_once(broker, event) for event in events]
        assert processes[0] != processes[1] == processes[2], processes
        same(broker.number("attempts_failed_total"), 0)
        same(sum("hung" in line for line in runtime.lines()), 1)


@case()
def an_extension_that_is_ended_while_it_registers_is_not_waited_for(broker):
    watch = broker.watches_disk()
    broker.serve("--extensions", "1")
    watch.hold_flush = watch.flushes + 1
    accepted = broker.send_invoke("{}")
    until("a flush", lambda: watch.flushes == watch.hold_flush)
    open(os.path.join(broker.folder, "hung"), "w").close()
    with supervised(broker, with_extension(broker)) as runtime:
        # A registration and a poll, which get no reply.
        port = f":{broker.port + 1:04X}"
        until("two requests", lambda: sum(row[2].endswith(port) for row in connections(runtime.program.pid)) == 2)
        os.kill(until("a process", runtime.process), signal.SIGKILL)
        time.sleep(2)
        watch.let_go()
        answered_at_once(broker, accepted.done().id)


@case({"timeout": TIMEOUT, "retries": 0}, slow=True)
def behind_a_timeout_extensions_begin_anew_with_a_runtime_that_is_late(broker):
    broker.serve("--extensions", "1")
    open(os.path.join(broker.folder, "hung"), "w").close()
    with supervised(broker, with_extension(broker)) as runtime:
        broker.until_parked(2)
        # It is late, and asks again; but the extension's registration is void.
        late = broker.invoke(json.dumps({"waits": TIMEOUT + 0.3})).id
        runtime.has(late)
        process = runtime.process()
        ended(broker, late, "failure")
        assert answered_at_once(broker, broker.invoke("{}").id) != process


# Its clock is another one by so many seconds, from when a file is there.
OTHER_CLOCK = """
import os, runpy, sys, time
own, flag, step = time.time, sys.argv.pop(1), int(sys.argv.pop(1))
time.time = lambda: own() + (step if os.path.exists(flag) else 0)
sys.argv[0] = sys.argv.pop(1)
runpy.run_path(sys.argv[0], run_name="__main__")
"""


def with_clock(flag, step):
    return {"by": [sys.executable, "-c", OTHER_CLOCK, flag, str(step), SUPERVISE]}


@case({"timeout": TIMEOUT, "retries": 0}, slow=True)
def a_clock_of_its_own_ends_nothing_early_and_nothing_late(broker):
    broker.serve()
    flag = os.path.join(broker.folder, "flag")
    for step in 3600, -3600:
        # It is so from the beginning, as on another machine, and begins to be so in an event.
        for begins in False, True:
            if not begins:
                open(flag, "w").close()
            with supervised(broker, **with_clock(flag, step)) as runtime:
                until_polled(broker, runtime)
                event = broker.invoke('{"waits":2.5}').id
                runtime.has(event)
                open(flag, "w").close()
                process = answered_at_once(broker, event)
                os.remove(flag)
                hung = broker.invoke('{"waits":900}').id
                runtime.has(hung)
                open(flag, "w").close()
                has_timed_out(broker, hung)
                another(runtime, process)
                ended(broker, hung, "failure")
                os.remove(flag)


# New versions


# Each says which version it is, and has each event for so many seconds.
VERSION = """
import os, time
def main(event, context):
    print("has", context.aws_request_id, flush=True)
    time.sleep(event.get("waits", 0))
    while "until" in event and not os.path.exists(event["until"]):
        time.sleep(0.05)
    return {"process": os.getpid(), "version": %d}
"""


def put_version(broker, version):
    with open(os.path.join(broker.folder, "app.py"), "w") as file:
        file.write(VERSION % version)


def renew(broker, runtime, version):
    """Asks for a new version of the code: the process that it takes the place of."""
    put_version(broker, version)
    process = until("a process", runtime.process)
    runtime.program.send_signal(signal.SIGHUP)
    return process


@case({"events": 64}, slow=True)
def new_versions_while_it_is_idle_cost_no_attempt(broker):
    broker.serve()
    with supervised(broker) as runtime:
        for version in range(TWENTY):
            broker.until_parked(1)
            old = renew(broker, runtime, version)
            # It may come before the end of the old process, between the two, or while the new one begins.
            time.sleep(0.02 * (version % 8))
            first = broker.invoke("{}").id
            another(runtime, old)
            answered_at_once(broker, first)
            event = broker.invoke("{}").id
            record = ended(broker, event)
            same((record["responsePayload"]["version"], record["requestContext"]["approximateInvokeCount"]), (version, 1))
        same((broker.number("attempts_started_total"), broker.number("attempts_failed_total")), (2 * TWENTY, 0))


def records(broker, side):
    told = broker.look(f"/records/{side}?limit=1000").body.decode()
    return [json.loads(line) for line in told.splitlines()]


def under_a_stream(broker, runtime, versions, lost=0):
    """New versions in a row, while events wait and come. So many attempts may be lost."""
    count = 0
    for version in range(versions):
        for _ in range(4):
            same(broker.invoke('{"waits":0.05}').status, 202)
            count += 1
        another(runtime, renew(broker, runtime, version))
    same(broker.invoke("{}").status, 202)
    until("all to end", lambda: broker.number('events{standing="success"}') == count + 1, 4 * DEADLINE)
    told = [(record["requestContext"]["approximateInvokeCount"], record["requestContext"]["condition"]) for record in records(broker, "success")]
    same([condition for _, condition in told], (count + 1) * ["Success"])
    more = sum(attempts for attempts, _ in told) - (count + 1)
    assert more <= lost, told
    same((broker.number("attempts_started_total"), broker.number("attempts_failed_total")), (count + 1 + more, more))
    same(records(broker, "success")[-1]["responsePayload"]["version"], versions - 1)


@case({"events": 512, "sectors": 20000}, slow=True)
def new_versions_under_a_stream_of_events_cost_no_attempt(broker):
    broker.serve()
    with supervised(broker) as runtime:
        under_a_stream(broker, runtime, TWENTY)


@case({"events": 512, "sectors": 20000}, slow=True)
def new_versions_with_extensions_cost_hardly_an_attempt(broker):
    broker.serve("--extensions", "1")
    script = f"{os.path.join(EXAMPLES, 'extension.py')} > {broker.folder}/told & exec {FUNCTION}"
    with supervised(broker, ["sh", "-c", script]) as runtime:
        broker.until_parked(2)
        # An event that comes just as registrations are made void loses an attempt, as docs/operating/clients.md says. One in 41 was seen to.
        under_a_stream(broker, runtime, TWENTY // 2, lost=1)


@case({"retries": 0})
def a_new_version_waits_for_the_event_that_runs(broker):
    broker.serve()
    with supervised(broker) as runtime:
        for version in range(3):
            event = broker.invoke('{"waits":2}').id
            runtime.has(event)
            waits = broker.invoke("{}").id
            old = renew(broker, runtime, version)
            for _ in range(version):
                # It is asked for more than once.
                runtime.program.send_signal(signal.SIGHUP)
            same(answered_at_once(broker, event), old)
            record = ended(broker, waits)
            same((record["responsePayload"]["version"], record["requestContext"]["approximateInvokeCount"]), (version, 1))
            runtime.has(waits)
            assert record["responsePayload"]["process"] != old
            broker.until_parked(1)


@case(slow=True)
def a_new_version_is_started_at_once_where_the_old_one_fails_to_start(broker):
    broker.serve()
    flag = os.path.join(broker.folder, "flag")
    with supervised(broker, ["sh", "-c", f"[ -e {flag} ] || exit 1; exec {FUNCTION}"]) as runtime:
        until("a long pause", lambda: any("again in 16 s" in line for line in runtime.lines()))
        open(flag, "w").close()
        began = time.monotonic()
        runtime.program.send_signal(signal.SIGHUP)
        event = broker.invoke("{}").id
        answered_at_once(broker, event)
        # The pause would have been sixteen seconds.
        assert time.monotonic() - began < 15, time.monotonic() - began


def holders(terminal):
    """Which processes have the other end of a terminal open: their numbers and names."""
    number, found = os.path.basename(terminal), []
    for info in glob.glob("/proc/[0-9]*/fdinfo/*"):
        with contextlib.suppress(OSError):
            with open(info) as told:
                if re.search(f"^tty-index:\t{number}$", told.read(), re.M):
                    process = info.split("/")[2]
                    with open(f"/proc/{process}/cmdline") as words:
                        found.append((process, words.read().replace("\0", " ")))
    return found


@case(slow=True)
def a_terminal_that_goes_away_ends_it(broker):
    needs("setsid")
    broker.serve()
    here, there = pty.openpty()
    terminal = os.ttyname(there)
    with supervised(broker, by=["setsid", "--ctty", SUPERVISE], stdin=there) as runtime:
        os.close(there)
        broker.until_parked(1)
        process = runtime.process()
        # By hand it asks for a new version there too.
        runtime.program.send_signal(signal.SIGHUP)
        another(runtime, process)
        broker.until_parked(1)
        os.close(here)
        try:
            same(runtime.program.wait(DEADLINE), 0)
        except subprocess.TimeoutExpired as why:
            raise Late(f"it has not ended; {holders(terminal)} have its terminal") from why


# Restarts


class Manager:
    """A service manager that keeps a file from one supervisor to the next, in the words of sd_notify and sd_listen_fds."""

    def __init__(self, broker):
        self.path = os.path.join(broker.folder, "notify")
        self.socket = socket.socket(socket.AF_UNIX, socket.SOCK_DGRAM)
        self.socket.bind(self.path)
        self.socket.settimeout(DEADLINE)
        self.env = {"NOTIFY_SOCKET": self.path}

    def told(self):
        """The next that it is told: the words, and a file."""
        text, files, _, _ = socket.recv_fds(self.socket, 4096, 4)
        return text.decode(), files

    def file(self):
        """The file that a supervisor leaves, which waits until that has been taken."""
        text, (file,) = self.told()
        same(text, "FDSTORE=1\nFDNAME=poll")
        # Not by the number by which it is handed over.
        given, file = file, fcntl.fcntl(file, fcntl.F_DUPFD_CLOEXEC, 10)
        os.close(given)
        text, (barrier,) = self.told()
        same(text, "BARRIER=1")
        os.close(barrier)
        return file

    def start(self, file):
        """How a supervisor is started that is handed a file, and what it then is told by."""
        script = f'exec 3<&{file} {file}<&-; exec env LISTEN_PID=$$ LISTEN_FDS=1 LISTEN_FDNAMES=poll "$0" "$@"'
        return {"by": ["bash", "-c", script, SUPERVISE], "env": self.env, "pass_fds": [file]}

    def has_forgotten(self):
        same(self.told(), ("FDSTOREREMOVE=1\nFDNAME=poll", []))


def stop_and_leave(runtime, manager):
    """Ends a supervisor by SIGTERM: what it leaves."""
    runtime.program.send_signal(signal.SIGTERM)
    file = manager.file()
    same(runtime.program.wait(DEADLINE), 0)
    return file


@case({"events": 32})
def a_restart_while_it_is_idle_costs_no_attempt(broker):
    needs("bash")
    broker.serve()
    manager, file, event = Manager(broker), None, None
    for n in range(6):
        with supervised(broker, **manager.start(file) if file else {"env": manager.env}) as runtime:
            if file:
                os.close(file)
                manager.has_forgotten()
            if n:
                # What came between the two, or what comes now.
                event = event if n % 2 else broker.invoke("{}").id
                answered_at_once(broker, event)
                runtime.has(event)
            broker.until_parked(1)
            file = stop_and_leave(runtime, manager)
        # Its poll is still there.
        same(broker.number("parked_polls"), 1)
        event = broker.invoke('{"a":"b"}').id if not n % 2 else None
    os.close(file)
    same((broker.number("attempts_started_total"), broker.number("attempts_failed_total")), (5, 0))


@case({"payload": 262144, "sectors": 20000, "retries": 0})
def an_event_that_no_process_has_read_is_left_to_the_next_supervisor(broker):
    needs("bash")
    broker.serve()
    manager = Manager(broker)
    with supervised(broker, env=manager.env) as runtime:
        broker.until_parked(1)
        with open(os.path.join(broker.folder, "app.py"), "w") as app:
            app.write("import time\ntime.sleep(900)\n")
        runtime.kill()
        until("another process", runtime.process)
        event = broker.invoke(json.dumps({"a": 200000 * "b"})).id
        broker.until_number('events{standing="running"}', 1)
        broker.until_read(1)
        file = stop_and_leave(runtime, manager)
    with supervised(broker, **manager.start(file)) as runtime:
        os.close(file)
        manager.has_forgotten()
        answered_at_once(broker, event)
        runtime.has(event)


@case({"retries": 0})
def what_is_left_is_of_use_to_its_own_broker_alone(broker):
    needs("bash")
    broker.serve()
    manager = Manager(broker)
    with supervised(broker, env=manager.env) as runtime:
        broker.until_parked(1)
        file = stop_and_leave(runtime, manager)
    same(broker.stop(), (202, 0, ""))
    broker.serve()
    # Its connection has ended.
    with supervised(broker, **manager.start(file)) as runtime:
        os.close(file)
        manager.has_forgotten()
        broker.until_parked(1)
        event = broker.invoke("{}").id
        answered_at_once(broker, event)
        runtime.has(event)
        # An event that runs is reported, and nothing is left.
        event = broker.invoke('{"waits":900}').id
        runtime.has(event)
        same(runtime.end(), 0)
        told = ended(broker, event, "failure")["responsePayload"]
        same(told["errorMessage"], f"RequestId: {event} Error: Runtime exited with error: signal: terminated")
        manager.socket.settimeout(0)
        try:
            raise AssertionError(manager.told())
        except BlockingIOError:
            pass


# lambda-broker-ctl reload


# It knows two units, and does what their file says.
SYSTEMCTL = """#!/bin/sh
case "$*" in
*:1.service) MAINPID={} ;;
*:2.service) MAINPID={} ;;
esac
export MAINPID
case "$*" in
"show --property=MainPID --value lambda_runtime@my-function:"[12].service) echo $MAINPID ;;
"reload lambda_runtime@my-function:"[12].service) exec {} ;;
*) exit 1 ;;
esac
"""
IN_ITS_ETC = 'mount --bind "$0/etc" /etc && PATH="$0/bin:$PATH" && exec "$@"'


def lay_out(root, runtimes):
    """What the machine of a function has, and one without a runtime, as far as a reload looks."""
    with open(os.path.join(HERE, "..", "deploy", "lambda_runtime@.service")) as unit:
        (asks,) = re.findall("^ExecReload=(.*)$", unit.read(), re.M)
    made = {"etc/lambda_broker/ports": "my-function 20000\nalone 20020\n", "bin/systemctl": SYSTEMCTL.format(*runtimes, asks)}
    made |= {f"etc/lambda_runtime/my-function:{n}.env": "" for n in (1, 2)}
    for path, text in made.items():
        os.makedirs(os.path.dirname(os.path.join(root, path)), exist_ok=True)
        with open(os.path.join(root, path), "w") as file:
            file.write(text)
    os.chmod(os.path.join(root, "bin/systemctl"), 0o755)


def start_reload(broker, name):
    """A reload by name."""
    ctl = os.path.join(HERE, "..", "deploy", "lambda-broker-ctl")
    words = ["unshare", "--mount", "sh", "-c", IN_ITS_ETC, broker.folder, sys.executable, ctl, "reload", name]
    return subprocess.Popen(words, stdout=subprocess.PIPE, stderr=subprocess.STDOUT, bufsize=0)


def ends(started):
    """Its status, and the lines that were not read."""
    told, _ = started.communicate(timeout=2 * DEADLINE)
    return started.returncode, told.decode().splitlines()


def reload(broker, name):
    return ends(start_reload(broker, name))


@case({"environments": 2})
def a_function_is_reloaded_by_its_name(broker):
    needs("unshare", "mount")
    if os.getuid() or subprocess.run(["unshare", "--mount", "true"]).returncode:
        raise Apart("this is not root, or it has no mount namespaces")
    broker.serve()
    with supervised(broker) as one, supervised(broker, environment=2) as two:
        lay_out(broker.folder, [each.program.pid for each in (one, two)])
        unit = "lambda_runtime@my-function:{}.service".format
        broker.until_parked(2)
        put_version(broker, 7)
        old = [each.process() for each in (one, two)]
        status, told = reload(broker, "my-function")
        new = [each.process() for each in (one, two)]
        same((status, told), (0, [f"{unit(n + 1)}: process {new[n]} has taken the place of {old[n]}" for n in (0, 1)]))
        assert not {*old} & {*new}, (old, new)
        flag = os.path.join(broker.folder, "flag")
        event = broker.invoke(json.dumps({"until": flag})).id
        broker.until_number('events{standing="running"}', 1)
        runs = event_of(broker, event)["environment"]
        started = start_reload(broker, "my-function")
        lines = [line_of(started) for _ in range(runs)]
        same(lines[-1], f"{unit(runs)}: process {new[runs - 1]} ends its event first\n")
        open(flag, "w").close()
        same(ends(started)[0], 0)
        same(ended(broker, event)["responsePayload"], {"process": new[runs - 1], "version": 7})
        with open(os.path.join(broker.folder, "app.py"), "w") as file:
            file.write("raise SystemExit(3)\n")
        status, told = reload(broker, "my-function")
        same((status, told[2:]), (1, [f"{w}{unit(n)}: its new process did not stay: journalctl -u {unit(n)} says why" for w, n in (("lambda-broker-ctl: ", 1), ("", 2))]))
        put_version(broker, 8)
        same(reload(broker, "my-function")[0], 0)
        same(ended(broker, broker.invoke("{}").id)["responsePayload"]["version"], 8)
        same(reload(broker, "other"), (1, ["lambda-broker-ctl: there is no other"]))
        same(reload(broker, "alone"), (1, ["lambda-broker-ctl: alone has no runtime on this machine: it was added without --runtime"]))
