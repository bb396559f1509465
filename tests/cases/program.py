"""The words of the program, its lines and its statuses."""
import contextlib
import os
import re
import socket
import subprocess
import sys

import disks
from disks import ACCEPT, Settings, command, id_of
from harness import DEADLINE, HERE, OPENING, Built, Ports, case, needs, same, until
from programs import put_program, without_stamp

FUNCTION = ["--name", "f", "--handler", "h", "--arn", "a"]

# Shows what tools/try shows, of this program.
SHOW = """import sys
names = {"__name__": "shown", "__file__": sys.argv[1]}
exec(open(sys.argv[1], encoding="utf-8").read(), names)
names["PROGRAM"] = sys.argv[2]
names["show_the_main_job"]()"""


@case()
def the_trial_prints_what_became_of_an_event(broker):
    told = "accepted 1 00000000-0000-4000-8000-000000000001\ndurable 1\nrecovered waiting due 1573755365568\n"
    same(broker.said("trial"), (0, told))


@case()
def tools_try_shows_its_eight_steps(broker):
    tool = os.path.join(HERE, "..", "tools", "try")
    done = subprocess.run(
        [sys.executable, "-c", SHOW, tool, Built.program], stdin=subprocess.DEVNULL, capture_output=True, text=True, timeout=2 * DEADLINE,
    )
    same((done.returncode, done.stderr), (0, ""))
    same(re.findall(r"^(\d)\. ", done.stdout, re.M), list("12345678"))


@case()
def words_that_are_no_command_are_usage_faults(broker):
    disk, made = broker.disk, broker.disk + "1"
    for words in (
        (), ("juggle",), ("",), ("trial", "x"), ("trial", "--x"), ("audit",), ("configure",), ("migrate",), ("serve",), ("format",),
        ("format", made), ("format", made, "--sectors", 64), ("format", made, *FUNCTION), ("format", "--sectors", 64, *FUNCTION),
        ("format", made, "--sectors", "x", *FUNCTION), ("format", made, "--sectors", -1, *FUNCTION),
        ("format", made, "--sectors", 1 << 64, *FUNCTION), ("format", made, "--sectors", "0x40", *FUNCTION),
        ("format", made, "--sectors", 64, "--sectors", 64, *FUNCTION),
        *(("format", made, "--sectors", 64, *FUNCTION, f"--{name}", value) for name, value in (
            ("retries", 256), ("age", 1 << 32), ("timeout", 1 << 16), ("concurrency", 256), ("environments", 256),
            ("events", 1 << 16), ("payload", 1 << 32), ("response", 1 << 32), ("retries", "x"), ("age", -1),
        )),
        ("serve", disk), ("serve", disk, "--port"), ("serve", disk, "--port", 1023), ("serve", disk, "--port", 65520),
        ("serve", disk, "--port", "x"), ("serve", disk, "--port", 20000, "--admin", 80), ("serve", disk, "--port", 20000, "--admin", 65536),
        ("serve", disk, "--port", 20000, "--address", "here"), ("serve", disk, "--port", 20000, "--dialect", "azure"),
        ("serve", disk, "--port", 20000, "--extensions", 11), ("serve", disk, "--port", 20000, "--extensions", -1),
        *(("serve", disk, "--port", 20000, "--threads", count) for count in (0, 33, "x")),
    ):
        done = broker.command(*words)
        same((words, done.returncode), (words, 2))
        assert "Usage:" in done.stdout or "For more information, try '--help'." in done.stdout, (words, done.stdout)
    same(os.path.exists(made), False)


@case()
def help_is_told_where_it_is_asked_for(broker):
    for words in ("--help",), ("-h",), ("help",), ("serve", "--help"), ("audit", "--help"):
        status, told = broker.said(*words)
        same((words, status, "Usage:" in told), (words, 0, True))


STAMP = b"\nlambda_broker-stamp 0.1.0+20261130.abcdef123456 rattle-kit-13f logic dac8208d650f15bf proved\n"
STAMPED = "0.1.0+20261130.abcdef123456 (rattle-kit-13f logic dac8208d650f15bf, proved)"
NO_STAMP = "0.1.0 (no stamp: unproved)"


@contextlib.contextmanager
def stamped(broker, stamp):
    """The program with these bytes in place of its stamp, as the one of a broker."""
    with open(Built.program, "rb") as file:
        content = file.read()
    path = os.path.join(broker.folder, "stamped")
    put_program(path, without_stamp(content) + stamp)
    yield path


def version_told(path):
    done = subprocess.run([path, "--version"], capture_output=True, text=True, timeout=DEADLINE)
    same((done.returncode, done.stderr), (0, ""))
    return done.stdout


@case()
def its_version_is_that_of_its_stamp(broker):
    for stamp, told in (
        (STAMP, STAMPED),
        (STAMP.replace(b" proved", b" unproved"), STAMPED.replace("proved", "unproved")),
        (b"x" + STAMP, STAMPED), (STAMP[:1] + STAMP, STAMPED), (STAMP + STAMP, STAMPED),
    ):
        with stamped(broker, stamp) as path:
            same((stamp, version_told(path)), (stamp, f"lambda_broker {told}\n"))


@case()
def a_stamp_that_is_malformed_is_none(broker):
    for stamp in (
        b"", STAMP[1:], STAMP[:-1], STAMP + b"x", STAMP + b"\n", STAMP.replace(b"proved", b"true"), STAMP.replace(b" logic", b""),
        STAMP.replace(b"0.1.0+20261130.abcdef123456 ", b""), STAMP.replace(b"0.1.0+20261130.abcdef123456", b""),
        STAMP.replace(b" rattle-kit-13f", b""), STAMP.replace(b"dac8208d650f15bf", b""), STAMP.replace(b"-stamp", b"_stamp"),
        STAMP.replace(b" logic", b"  logic"), STAMP.replace(b"13f", b"\xff"), STAMP.replace(b"0.1.0+", b"0.1.0 + "),
    ):
        with stamped(broker, stamp) as path:
            same((stamp, version_told(path)), (stamp, f"lambda_broker {NO_STAMP}\n"))


@case()
def a_program_that_is_not_proved_says_so_once(broker):
    for stamp, count in (STAMP, 0), (STAMP.replace(b" proved", b" unproved"), 1), (b"", 1):
        with stamped(broker, stamp) as path:
            broker.serve(under=["bash", "-c", 'own="$1" && shift 2 && exec "$own" "$@"', "bash", path])
            same(broker.stop(), (202, 0, ""))
        same((stamp, broker.stderr().count("warning: this program is not proved\n")), (stamp, count))


@case()
def each_setting_out_of_its_range_is_refused_by_name_the_first_one_first(broker):
    made = broker.disk + "1"
    bad = [
        ("retries", [3, 255]), ("age", [0, 59, 21601]), ("timeout", [0, 901]), ("concurrency", [0, 65]), ("environments", [0, 17]),
        ("events", [0, 1025]), ("payload", [0, 1, 1048577]), ("response", [0, 1, 262145]),
        ("name", ["", 65 * "a", "a.b", "ä"]), ("handler", ["", 129 * "a", "a b", 'a"']), ("arn", ["", 201 * "a", "a\\b", "\x7f"]),
    ]
    for place, (field, values) in enumerate(bad):
        for value in values:
            same((field, value, broker.format(made, 64, **{field: value})), (field, value, (1, f"refused: bad settings: {field}\n")))
        if place:
            first = bad[place - 1][0]
            told = broker.format(made, 64, **{field: values[0], first: bad[place - 1][1][0]})
            same((field, told), (field, (1, f"refused: bad settings: {first}\n")))
    # They are judged before the file, and before whether the disk is large enough.
    same(broker.format(os.path.join(broker.folder, "x", "y"), 1, age=59), (1, "refused: bad settings: age\n"))
    same(os.path.exists(made), False)


@case()
def each_setting_at_the_ends_of_its_range_is_taken(broker):
    made = broker.disk + "1"
    for settings, sectors in (
        ({"retries": 0, "age": 60, "timeout": 1, "concurrency": 1, "environments": 1, "events": 1, "payload": 2, "response": 2,
          "name": "a", "handler": "!", "arn": "~"}, 12),
        ({"retries": 2, "age": 21600, "timeout": 900, "concurrency": 64, "environments": 16, "events": 1024, "payload": 16, "response": 16,
          "name": 32 * "a_", "handler": 128 * "~", "arn": 200 * "!"}, 452),
    ):
        same(broker.format(made, sectors, **settings), (0, f"formatted {sectors} sectors\n"))
        same(broker.format(made, sectors - 1, **settings), (1, f"refused: too small, least {sectors}\n"))


@case()
def a_disk_is_formatted_byte_by_byte_so(broker):
    made = broker.disk + "1"
    with open(made, "wb") as old:
        old.write(bytes(100000))
    same(broker.format(made, 65, events=4, payload=1024, response=1024), (0, "formatted 65 sectors\n"))
    settings = Settings()
    with open(made, "rb") as disk:
        assert disk.read() == disks.disk(65, disks.segment(2, settings, 1, disks.snapshot(2, settings))), "it is another disk"


@case()
def an_event_is_written_byte_by_byte_so(broker):
    made = broker.disk
    os.remove(made)
    same(broker.format(made, 64, events=4, payload=1024, response=1024)[0], 0)
    broker.serve()
    event = broker.invoke("").id
    accepted = broker.look(f"/events/{event}").json["accepted"]
    same(broker.stop(), (202, 0, ""))
    settings = Settings()
    frames = [(1, [command(ACCEPT, event, accepted, b"{}")])]
    assert broker.content() == disks.disk(64, disks.segment(2, settings, 1, disks.snapshot(2, settings), frames)), "it is another disk"


@case()
def a_disk_that_is_too_small_is_refused_with_the_least_number_of_sectors(broker):
    made = broker.disk + "1"
    same(broker.format(made, 21, events=1, payload=2900, response=64), (1, "refused: too small, least 22\n"))
    same(broker.format(made, 139, events=300, payload=16, response=16), (1, "refused: too small, least 140\n"))
    same(broker.format(made, 0, events=4, payload=1024, response=1024), (1, "refused: too small, least 44\n"))


def told_by_all(broker, disk):
    """What each command that opens a disk says of it."""
    free = Ports()
    told = {broker.said(*words) for words in (
        ("audit", disk), ("audit", disk, "--json"), ("audit", disk, "--records"), ("audit", disk, "--in-force"), ("configure", disk),
        ("migrate", disk), ("serve", disk, "--port", free.first),
    )}
    free.close()
    return told


@case()
def a_file_that_is_no_disk_is_refused_by_each_command(broker):
    folder, pipe = os.path.join(broker.folder, "folder"), os.path.join(broker.folder, "pipe")
    os.mkdir(folder)
    os.mkfifo(pipe)
    for size, line in (0, "not formatted"), (5 * 512, "not formatted"), (64 * 512, "not formatted"), (100, "not a whole number of sectors"):
        disk = broker.disk + str(size)
        with open(disk, "wb") as zeros:
            zeros.write(bytes(size))
        same((size, told_by_all(broker, disk)), (size, {(1, f"refused: {line}\n")}))
    for path, line in (
        (broker.disk + "x", "no such file"), ("", "no such file"), (folder, "neither a file nor a block device"),
        (pipe, "neither a file nor a block device"), ("/dev/null", "neither a file nor a block device"),
    ):
        same((path, told_by_all(broker, path)), (path, {(1, f"refused: {line}\n")}))
    for path in folder, pipe, "/dev/null":
        same(broker.format(path, 4096, events=4, payload=1024, response=1024), (1, "refused: neither a file nor a block device\n"))
    same(broker.format(os.path.join(broker.folder, "x", "y"), 64, events=4, payload=1024, response=1024), (1, "refused: no such file\n"))
    for sectors in (1 << 54, 1 << 63, (1 << 64) - 1):
        same(broker.format(broker.disk + "1", sectors, events=4), (1, "refused: no room for so many sectors\n"))


@case()
def a_disk_that_may_not_be_opened_is_refused(broker):
    needs("setpriv")
    os.chmod(broker.folder, 0o755)
    os.chmod(broker.disk, 0o600)
    program = os.path.join(broker.folder, "program")
    # (a file that another thread's child still has open for writing cannot be run, so a child of its own copies it)
    subprocess.run(["cp", Built.program, program], check=True)
    os.chmod(program, 0o755)
    nobody = ["setpriv", "--reuid=65534", "--regid=65534", "--clear-groups"] if os.getuid() == 0 else []
    if not nobody:
        os.chmod(broker.disk, 0)
    for words in ("audit", broker.disk), ("configure", broker.disk), ("migrate", broker.disk), ("serve", broker.disk, "--port", "20000"):
        done = subprocess.run([*nobody, program, *words], capture_output=True, text=True, timeout=240)
        same((words, done.returncode, done.stdout), (words, 1, "refused: permission denied\n"))


@case()
def a_disk_that_is_served_is_refused_to_all_others_and_one_that_is_audited_to_those_who_write(broker):
    broker.serve()
    same(told_by_all(broker, broker.disk), {(1, "refused: in use by another program\n")})
    same(broker.format(broker.disk, 4096, events=4, payload=16, response=16), (1, "refused: in use by another program\n"))
    same(broker.stop(), (202, 0, ""))
    needs("flock")
    shared = ["flock", "--shared", broker.disk]
    same(broker.said("audit", broker.disk, under=shared)[0], 0)
    same(broker.said("configure", broker.disk, under=shared), (1, "refused: in use by another program\n"))


@case()
def a_disk_is_copied_as_it_is_said_and_never_while_it_is_served(broker):
    needs("flock")
    copy = broker.disk + ".copy"
    copies = ["flock", "--shared", "--nonblock", broker.disk, "cp", broker.disk, copy]
    broker.serve()
    same(broker.invoke("{}").status, 202)
    same((subprocess.run(copies).returncode, os.path.exists(copy)), (1, False))
    same(broker.stop(), (202, 0, ""))
    same(subprocess.run(copies).returncode, 0)
    same(broker.said("audit", copy), broker.said("audit", broker.disk))
    same(broker.held(), 1)


@case()
def a_damaged_disk_is_refused_with_the_sector(broker):
    settings = Settings()
    frames = [(1, [command(ACCEPT, id_of(1), 1573755365568, b"{}")])]
    one = disks.disk(64, disks.segment(2, settings, 1, disks.snapshot(2, settings), frames))
    for changes, line in (
        ([], None),
        ([(4 * 512 + 511, b"\1")], "damaged at sector 3"),
        ([(4 * 512 + 32, b"\7")], "damaged at sector 3"),
        ([(4 * 512 + 7, b"\2")], "damaged at sector 3"),
        ([(512, b"a")], "damaged at sector 1"),
        ([(512 + 7, b"\3")], "newer version"),
        ([(512 + 7, b"\0")], "damaged at sector 1"),
        ([(512 + 15, b"\0")], "damaged at sector 1"),
        ([(512 + 511, b"\1")], "damaged at sector 1"),
        ([(512 + 28, b"\3")], "damaged at sector 1"),
        ([(2 * 512 + 24, b"\1")], "damaged at sector 2"),
        ([(2 * 512 + 16, b"\3")], "damaged at sector 2"),
        ([(32 * 512, one[: 3 * 512])], "damaged at sector 32"),
        ([(0, bytes(512))], "not formatted"),
        # A gate is open exactly where its first byte is 1.
        ([(0, b"\2")], "not formatted"),
        ([(32 * 512, b"\2")], None),
        ([(3 * 512, b"\2")], None),
    ):
        disk = bytearray(one)
        for at, content in changes:
            disk[at : at + len(content)] = content
        with open(broker.disk, "wb") as file:
            file.write(disk)
        if line:
            same((changes, told_by_all(broker, broker.disk)), (changes, {(1, f"refused: {line}\n")}))
            assert broker.content() == disk, "a disk that is refused was changed"
        else:
            same((changes, broker.said("audit", broker.disk)[0]), (changes, 0))


def taken(port):
    """A socket that has this port."""
    one = socket.socket()
    one.setsockopt(socket.SOL_SOCKET, socket.SO_REUSEADDR, 1)
    one.bind(("127.0.0.1", port))
    one.listen()
    return one


@case({"environments": 2})
def a_port_in_use_is_refused_that_of_callers_of_environments_and_of_the_operator(broker):
    ports = Ports()
    words = ["serve", broker.disk, "--port", ports.first, "--admin", ports.first + 3]
    for place in range(4):
        with taken(ports.first + place):
            same((place, broker.said(*words)), (place, (1, "refused: port in use\n")))
    # One broker cannot have a port twice.
    same(broker.said(*words[:-1], ports.first + 1), (1, "refused: port in use\n"))
    ports.close()


def names_address(line, address, port):
    """A line on standard error has this address and this port."""
    return re.search(rf"(?<![0-9.]){re.escape(address)}(?![0-9])", line) and re.search(rf"(?<![0-9]){port}(?![0-9])", line)


@case({"environments": 2})
def a_port_in_use_is_named_on_standard_error(broker):
    ports = Ports()
    words = ["serve", broker.disk, "--port", ports.first, "--admin", ports.first + 3]

    def names(port):
        done = broker.command(*words)
        same((port, done.returncode, done.stdout), (port, 1, "refused: port in use\n"))
        return sum(bool(names_address(line, "127.0.0.1", port)) for line in done.stderr.splitlines()) == 1

    for port in range(ports.first, ports.first + 4):
        with taken(port):
            # A process that another case begins has the port before this one open until it runs its program.
            until("a line that names this port", lambda: names(port))
    ports.close()


@case()
def an_address_that_this_machine_has_not_is_named_on_standard_error(broker):
    """192.0.2.1 is of documentation alone."""
    done = broker.command("serve", broker.disk, "--port", 20000, "--address", "192.0.2.1")
    same((done.returncode, done.stdout.startswith("refused: "), done.stdout.count("\n")), (1, True, 1))
    # (the warning names the address too, as one that others reach)
    same(len([line for line in done.stderr.splitlines() if "192.0.2.1" in line and not line.startswith("warning: ")]), 1)


# Standard output that takes nothing: it is closed, full, or a pipe that nobody reads.
TAKES_NOTHING = (
    ["bash", "-c", 'exec "$@" >&-', "bash"], ["bash", "-c", 'exec "$@" >/dev/full', "bash"],
    ["bash", "-c", 'mkfifo "$0" && { : < "$0" & } && exec 4> "$0" && wait && exec "$@" >&4', "FIFO"],
)


def under_all(broker):
    """Each way of a standard output that takes nothing."""
    for n, words in enumerate(TAKES_NOTHING):
        yield n, [os.path.join(broker.folder, f"fifo{os.urandom(4).hex()}") if word == "FIFO" else word for word in words]


@case()
def each_status_stays_though_standard_output_takes_nothing(broker):
    zeros = broker.disk + "0"
    with open(zeros, "wb") as file:
        file.write(bytes(64 * 512))
    for words, status in (("audit", zeros), 1), (("serve", zeros, "--port", 20000), 1), (("juggle",), 2), ((), 2), (("audit",), 2):
        for n, under in under_all(broker):
            same((words, n, broker.command(*words, under=under).returncode), (words, n, status))


@case()
def a_device_fault_has_its_status_though_standard_output_takes_nothing(broker):
    watch = broker.watches_disk()
    for word in "fail_read", "fail_flush":
        for words in ("audit",), ("audit", "--json"), ("configure",), ("migrate",), ("serve", "--port", 20000):
            for n, under in under_all(broker):
                watch.clear()
                setattr(watch, word, 1)
                done = broker.command(words[0], broker.disk, *words[1:], under=under)
                same((word, words, n, done.returncode), (word, words, n, 3))


@case()
def a_fault_while_it_serves_has_its_status_though_nobody_reads_what_it_prints(broker):
    broker.watches_disk().fail_flush = OPENING + 1
    broker.serve()
    broker.served.stdout.close()
    same(broker.invoke("{}").status, 503)
    same(broker.served.wait(DEADLINE), 3)


@case()
def a_stream_that_is_closed_never_becomes_the_disk(broker):
    """A file that is opened has the least free number. What is printed to a stream of that number would be written to the disk."""
    size, held = len(broker.content()), 0
    for closed in "0<&-", "1>&-", "2>&-", "0<&- 1>&- 2>&-":
        ports = Ports()
        under = ["bash", "-c", f'exec "$@" {closed}', "bash"]
        words = ["serve", broker.disk, "--port", str(ports.first), "--admin", str(ports.first + 2), "--address", "0.0.0.0"]
        served = subprocess.Popen([*under, Built.program, *words], stdout=subprocess.DEVNULL, stderr=subprocess.DEVNULL)
        try:
            broker.port = ports.first
            until("an invoke", lambda: served.poll() is None and is_accepted(broker))
            same((broker.ask("POST", "/broker/stop").status, served.wait(DEADLINE)), (202, 0))
        finally:
            served.kill()
            served.wait()
            ports.close()
        held += 1
        same((closed, len(broker.content())), (closed, size))
        same((closed, broker.audit()[1]), (closed, f"held {held} waiting {held} running 0 success 0 failure 0"))


def is_accepted(broker):
    """Whether an event was accepted, by a broker that may not listen yet."""
    try:
        return broker.invoke("{}").status == 202
    except OSError:
        return False


@case()
def faults_are_found_in_this_order(broker):
    blank, missing = broker.disk + "0", broker.disk + "x"
    with open(blank, "wb") as zeros:
        zeros.write(bytes(64 * 512))
    ports = Ports()
    with taken(ports.first):
        same(broker.said("serve", missing, "--port", 80)[0], 2)
        same(broker.said("serve", missing, "--port", ports.first), (1, "refused: no such file\n"))
        same(broker.said("serve", blank, "--port", ports.first), (1, "refused: not formatted\n"))
        same(broker.said("serve", broker.disk, "--port", ports.first), (1, "refused: port in use\n"))
    ports.close()
    same(broker.said("format", blank, "--sectors", 1, *FUNCTION, "--age", 59, "--x")[0], 2)
    same(broker.said("format", blank, "--sectors", 1, *FUNCTION, "--age", 59), (1, "refused: bad settings: age\n"))


@case()
def a_worn_disk_takes_no_more_commands_and_is_served(broker):
    # The number of the snapshot, the first field of the third sector, is the greatest but one: 2^62 - 1.
    broker.put(2 * 512, ((1 << 62) - 1).to_bytes(8, "big"))
    broker.serve()
    same(broker.invoke("{}").status, 202)
    worn = broker.invoke("{}")
    same((worn.status, worn.type), (503, "Unavailable"))
    same(broker.stop(), (202, 0, ""))
    same(broker.audit()[:2], [f"generation 1 number {1 << 62}", "held 1 waiting 1 running 0 success 0 failure 0"])
