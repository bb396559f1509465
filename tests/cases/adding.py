"""What `lambda-broker-ctl add` makes of a disk that is gone, stayed or is another function's, and of words that would end or mislead."""
import contextlib
import fcntl
import os
import shutil
import subprocess

from cases.packages import ADD, DEPLOY, ETC, LIMITS, SMALL, UNITS
from cases.packages import a_root, content_of, ctl, done, run, started, text_of, tree, unit_words, values_of
from harness import ARN, DEADLINE, EVENT, HERE, INVOKE, Asked, Built, case, line_of, matches, same

GONE = "its disk is gone: is the volume mounted?"
STANDS = "my-function is there already: nothing was changed"


def arn_of(name):
    return ARN.replace("my-function", name)


def folder_of(root, name="my-function"):
    return os.path.join(root, "var/lib/lambda_broker", name)


def disk_of(root, name="my-function"):
    return os.path.join(folder_of(root, name), "disk")


def formatted(disk, name, *more):
    """A disk that was made by hand."""
    words = "--sectors", 512, "--name", name, "--handler", "app.main", "--arn", arn_of(name)
    status, told, why = run(Built.program, "format", disk, *words, "--events", 16, "--payload", 1024, "--response", 1024, *more)
    same((status, told, why), (0, "formatted 512 sectors\n", ""))


def refused(root, name, words, *parts):
    """An add is refused with these parts of its line, and changes nothing."""
    there = tree(root)
    status, told, why = ctl(root, "add", name, *words)
    same((status, told), (1, ""))
    for part in *parts, "\nnothing was changed\n":
        assert part in why, f"{part!r} is not in {why!r}"
    same(tree(root), there)


@contextlib.contextmanager
def with_an_event(root, *more):
    """A function whose disk holds an event that was answered 202, and which is not served any more. Nobody else takes its ports."""
    served, ports, _ = started(root, *more)
    try:
        same(Asked(ports.first, "POST", INVOKE, "{}", EVENT).done().status, 202)
        served.kill()
        served.wait()
        yield
    finally:
        served.kill()
        served.wait()
        ports.close()


@case()
def a_disk_that_is_gone_is_not_made_anew(broker):
    with a_root() as root, with_an_event(root):
        words = *ADD, "--dialect", "aws"
        away, disk, env = os.path.join(root, "away"), disk_of(root), os.path.join(root, ETC, "my-function.env")
        # The folder is a mount point, of which the volume was taken.
        os.rename(disk, away)
        refused(root, "my-function", words, GONE, f"There is {env}, and no {disk}", "--new-disk")
        # The whole folder is in a volume.
        os.rmdir(folder_of(root))
        refused(root, "my-function", words, GONE, f"There is {env}, and no {disk}")
        # Each of its other traces is enough.
        text = text_of(env)
        os.remove(env)
        refused(root, "my-function", words, GONE, f"There is {root}/{ETC}/ports, and no {disk}")
        done(root, "remove", "my-function")
        refused(root, "my-function", words, GONE, f"There is {root}/{ETC}/removed, and no {disk}")
        os.remove(os.path.join(root, ETC, "removed"))
        os.mkdir(folder_of(root))
        refused(root, "my-function", words, GONE, f"There is {folder_of(root)}, and no {disk}")
        os.rmdir(folder_of(root))
        with open(env, "w") as file:
            file.write(text)
        refused(root, "my-function", words, GONE, f"There is {env}, and no {disk}")
        # So is a link into a volume that is not there.
        os.mkdir(folder_of(root))
        os.symlink(os.path.join(root, "mnt/disk"), disk)
        refused(root, "my-function", words, GONE, f"and no {disk}")
        refused(root, "my-function", (*words, "--new-disk"), "by a link", "make that yourself")
        os.remove(disk)
        # Once it is mounted again all is well, by the ports of before, and what was told is there.
        os.rename(away, disk)
        first = values_of(root, f"{ETC}/my-function.env")["PORT"]
        same(done(root, "add", "my-function", *words)[-1].split(", ")[0], f"my-function: callers {first}")
        same(done(root, "add", "my-function", *words), [STANDS])
        told = done(root, "remove", "my-function")
        same(told[-1], f"my-function is removed; its disk stays: {disk}, held 1 waiting 1 running 0 success 0 failure 0")
        assert f"kept {disk}, as it was formatted" in done(root, "add", "my-function", *words)
        same(broker.said("audit", disk)[1].splitlines()[1].split()[:2], ["held", "1"])


@case()
def a_new_disk_is_made_where_that_is_said(broker):
    with a_root() as root:
        os.makedirs(folder_of(root))
        refused(root, "my-function", ADD, GONE, f"There is {folder_of(root)}, and no {disk_of(root)}")
        told = done(root, "add", "my-function", *ADD, "--new-disk")
        sectors = matches(f"formatted {disk_of(root)} with ([0-9]+) sectors", next(line for line in told if "formatted" in line))[0]
        same(os.path.getsize(disk_of(root)), 512 * int(sectors))
        # The word is of one add, and takes nothing away.
        refused(root, "my-function", (*ADD, "--new-disk"), f"{disk_of(root)} is there", "--new-disk is for a disk that is gone")
        same(done(root, "add", "my-function", *ADD), [STANDS])
        os.remove(disk_of(root))
        same(done(root, "remove", "my-function")[-1], f"my-function is removed; its disk is not there: {disk_of(root)}")
        os.rmdir(folder_of(root))
        refused(root, "my-function", ADD, GONE)
        done(root, "add", "my-function", *ADD, "--new-disk")
        same(done(root, "add", "my-function", *ADD), [STANDS])
        same(os.path.exists(os.path.join(root, ETC, "removed")), False)
        # A function that was never here may say it too.
        done(root, "add", "x", *SMALL, "--arn", arn_of("x"), "--new-disk")


@case()
def a_disk_of_another_function_is_refused(broker):
    with a_root() as root:
        done(root, "add", "my-function", *ADD)
        formatted(os.path.join(root, "other"), "g")
        os.rename(disk_of(root), os.path.join(root, "away"))
        shutil.copy(os.path.join(root, "other"), disk_of(root))
        refused(root, "my-function", ADD, f"the disk is of function g: {disk_of(root)}")
        done(root, "remove", "my-function")
        refused(root, "my-function", ADD, "the disk is of function g")
        # The newer half says it, and the other one may be another's.
        with open(disk_of(root), "r+b") as file, open(os.path.join(root, "away"), "rb") as own:
            half = 512 * 256
            segment = own.read(1024 + 512)
            file.seek(half)
            file.write(segment[:520] + (2).to_bytes(8, "big") + segment[528:])
        assert f"kept {disk_of(root)}, as it was formatted" in done(root, "add", "my-function", *ADD)
        done(root, "remove", "my-function")
        # What is no disk is told in the program's words.
        with open(disk_of(root), "wb") as file:
            file.write(bytes(512 * 512))
        refused(root, "my-function", ADD, disk_of(root), "refused: not formatted")


@case()
def a_unit_serves_its_own_functions_disk_alone(broker):
    with a_root() as root, with_an_event(root):
        words, env = unit_words(root, "my-function")
        os.remove(env["DISK"])
        formatted(env["DISK"], "g")
        before = content_of(env["DISK"])
        served = subprocess.Popen([Built.program, *words], stdout=subprocess.PIPE, stderr=subprocess.DEVNULL, bufsize=0)
        try:
            same(line_of(served), "refused: the disk is of function g\n")
            same(served.wait(DEADLINE), 1)
        finally:
            served.kill()
            served.communicate()
        same(content_of(env["DISK"]) == before, True)


@case()
def a_unit_waits_for_the_volume_of_its_disk(broker):
    same("\nRequiresMountsFor=/var/lib/lambda_broker/%i\n" in text_of(DEPLOY, "lambda_broker@.service"), True)
    same(" serve ${DISK} --name %i " in text_of(DEPLOY, "replicated/lambda_broker_volume@.service"), True)
    with a_root() as root, a_root() as volume:
        done(root, "add", "my-function", *ADD)
        drop_in = os.path.join(root, UNITS, "lambda_broker@my-function.service.d/function.conf")
        same(os.path.exists(drop_in), False)
        folder = os.path.join(volume, "a %b")
        os.mkdir(folder)
        os.rename(disk_of(root), os.path.join(folder, "f.disk"))
        with open(os.path.join(root, ETC, "my-function.env"), "a") as file:
            file.write(f'DISK="{folder}/f.disk"\n')
        done(root, "add", "my-function", *ADD)
        lines = [line for line in text_of(drop_in).splitlines() if line and not line.startswith("#")]
        told = f'"{volume}/a %%b"'
        same(lines, ["[Unit]", f"RequiresMountsFor={told}", "[Service]", f"ReadWritePaths={told}"])
        same(done(root, "add", "my-function", *ADD), [STANDS])
        # Once it was removed, it is that disk which is taken again.
        done(root, "remove", "my-function")
        assert f"kept {folder}/f.disk, as it was formatted" in done(root, "add", "my-function", *ADD)
        same(values_of(root, f"{ETC}/my-function.env")["DISK"], f'"{folder}/f.disk"')
        same([line for line in text_of(drop_in).splitlines() if line and not line.startswith("#")], lines)
        same((done(root, "add", "my-function", *ADD), os.listdir(folder_of(root))), ([STANDS], []))
        # It is that disk which is looked for.
        os.rename(folder, f"{folder}.away")
        refused(root, "my-function", ADD, GONE, f"and no {folder}/f.disk")
        refused(root, "my-function", (*ADD, "--new-disk"), f"--new-disk makes {disk_of(root)}, and my-function has {folder}/f.disk")


@case()
def what_is_in_force_on_a_disk_that_stays_is_told(broker):
    with a_root() as root:
        first = "--retries", 1, "--environments", 2, "--timeout", 7
        sectors = matches("formatted .* with ([0-9]+) sectors", next(line for line in done(root, "add", "my-function", *ADD, *first)
                                                                     if line.startswith("formatted")))[0]
        done(root, "remove", "my-function")
        disk = disk_of(root)
        same(run(Built.program, "configure", disk, "--age", 900)[0], 0)
        now = "--retries", 0, "--age", 60, "--timeout", 7, "--concurrency", 3, "--environments", 3, "--payload", 512, "--handler", "b.c"
        told = done(root, "add", "my-function", *ADD, *now, "--runtime", "/usr/bin/my-runtime")
        at = told.index(f"kept {disk}, as it was formatted")
        numbers = f"sectors {sectors} retries 1 age 900 timeout 7 concurrency 10 environments 2 events 16 payload 1024 response 1024"
        same(told[at + 1], f"in force: {numbers}")
        lines = [line for line in told if line.startswith("not in force: ")]
        wanted = [("--retries 0", "1", "configure"), ("--age 60", "900", "configure"), ("--concurrency 3", "10", "only a new disk")]
        wanted += [("--environments 3", "2", "copy"), ("--payload 512", "1024", "only raise"), ("--handler b.c", "app.main", "copy")]
        same([line.split(": ")[1] for line in lines], [f"{option}. It is {found}" for option, found, _ in wanted])
        for line, (option, _, remedy) in zip(lines, wanted):
            assert remedy in line, line
            assert "configure" != remedy or f"lambda_broker configure {disk} {option} " in line, line
        # There are as many runtimes as the disk has environments.
        same([os.path.exists(f"{root}/etc/lambda_runtime/my-function:{n}.env") for n in (1, 2, 3)], [True, True, False])


@case()
def of_each_disk_no_more_is_told_than_can_be_known(broker):
    with a_root() as root:
        disk, limits = disk_of(root), "environments 1 events 4 payload 32 response 32"
        os.makedirs(folder_of(root))
        # One of an older format, whose settings are those in force. Its newer half is the second.
        shutil.copy(os.path.join(HERE, "old_disks", "two"), disk)
        told = done(root, "add", "my-function", *ADD)
        assert f"in force: sectors 24 retries 2 age 21600 timeout 3 concurrency 10 {limits}" in told, told
        same([line.split(": ")[1] for line in told if line.startswith("not in force")], [
            "--events 16. It is 4", "--payload 1024. It is 32", "--response 1024. It is 32",
        ])
        assert f"disk {disk} of format 1, to be migrated to 2: " in done(root, "list")[0]
        done(root, "remove", "my-function")
        # One that another program has, whose retries and age may have been changed.
        with open(disk, "r+b") as held:
            fcntl.flock(held, fcntl.LOCK_EX)
            told = done(root, "add", "my-function", *ADD, "--retries", 0)
        assert f"in force: sectors 24 timeout 3 concurrency 10 {limits}" in told, told
        same([line for line in told if "--retries" in line], [])
        # One of a later format, whose settings nobody knows here.
        with open(disk, "r+b") as later:
            for gate in 0, 512 * 12:
                later.seek(gate + 519)
                later.write(b"\x7f")
        refused(root, "my-function", (*ADD, "--retries", 0), f"audit {disk}: refused: ")
        assert f"disk {disk} of format 127, which this program does not read" in done(root, "list")[0]
        os.remove(disk)
        assert f"disk {disk}, which is gone: is the volume mounted?" in done(root, "list")[0]
        formatted(disk, "g")
        assert f"disk {disk} of function g: is the wrong volume mounted?" in done(root, "list")[0]


@case()
def limits_of_a_copy_come_into_force_by_the_same_words(broker):
    with a_root() as root:
        words = *ADD, "--runtime", "/usr/bin/my-runtime"
        done(root, "add", "my-function", *words)
        disk, larger = disk_of(root), os.path.join(root, "larger")
        # By the size in docs/FORMATS.md.
        sectors = 2 * (2 - (-(25 + 1024 * (78 + 262144 + 1024)) // 512) + 3)
        same(run(Built.program, "copy", disk, larger, "--sectors", sectors, "--environments", 2, "--events", 1024, "--payload", 262144)[0], 0)
        os.replace(larger, disk)
        done(root, "add", "my-function", *words)
        same(values_of(root, "etc/lambda_runtime/my-function:2.env")["_HANDLER"], "app.main")
        drop_in = text_of(root, UNITS, "lambda_broker@my-function.service.d/function.conf")
        # By 'Memory' in docs/operating/machines.md: 3 * most + 2 * the disk + 100 MiB, rounded up.
        most = 1024 * (262144 + 1024)
        same(f"MemoryMax={-(-(3 * most + 2 * 512 * sectors) // 2**20) + 100}M" in drop_in, True)
        same(done(root, "add", "my-function", *words), [STANDS])


@case()
def a_function_may_watch_its_disk_and_let_operators_act(broker):
    with a_root() as root:
        status, told, why = ctl(root, "add", "my-function", *ADD, "--watch", "--sectors", 512)
        same((status, told, "--watch wants a disk of 8 n + 1 sectors, which --sectors 512 is not" in why), (2, "", True))
        same(tree(root), {})
        done(root, "add", "my-function", *ADD, "--watch", "--acts")
        same(values_of(root, f"{ETC}/my-function.env")["WORDS"], "--watch --acts")
        same(os.path.getsize(disk_of(root)) % 4096, 512)
        same(done(root, "add", "my-function", *ADD, "--watch", "--acts"), [STANDS])
        refused(root, "my-function", ADD, "by other words")
        done(root, "remove", "my-function")
        formatted(os.path.join(root, "even"), "my-function")
        os.replace(os.path.join(root, "even"), disk_of(root))
        refused(root, "my-function", (*ADD, "--watch"), f"{disk_of(root)} has 512 sectors, and --watch wants 8 n + 1")
        done(root, "add", "my-function", *ADD)
        os.remove(disk_of(root))
        done(root, "remove", "my-function")
        done(root, "add", "my-function", *ADD, "--watch", "--sectors", 513, "--new-disk")
        same(os.path.getsize(disk_of(root)), 512 * 513)


@case()
def a_function_that_watches_is_served_by_its_unit(broker):
    with a_root() as root:
        served, ports, _ = started(root, "--watch", "--acts")
        try:
            same(line_of(served), f"showing on 127.0.0.1:{ports.first + 19}\n")
            same(content_of(disk_of(root))[-512:] != bytes(512), True)
            # An act is understood: of an event that is not held it can say so.
            act = Asked(ports.first + 19, "POST", f"/records/{'0' * 8}-0000-4000-8000-{'0' * 12}/retry", "", {"lambda-broker-act": "1"})
            same(act.done().status, 404)
        finally:
            served.kill()
            served.wait()
            ports.close()


URL = "http://127.0.0.1:1/x"
# Words, and whose records nobody collects by them.
COLLECTED = {
    (): "success and failure",
    ("--discard", "success"): "failure",
    ("--discard", "failure"): "success",
    ("--forward-success", URL): "failure",
    ("--forward-failure", URL): "success",
    ("--discard", "both"): None,
    ("--forward-success", URL, "--forward-failure", URL): None,
    ("--forward-success", URL, "--discard", "failure"): None,
    ("--discard", "success", "--forward-failure", URL): None,
    ("--keep-records",): None,
    ("--discard", "success", "--keep-records"): None,
    ("--forward-failure", URL, "--keep-records"): None,
}


@case()
def an_add_says_who_collects_records(broker):
    with a_root() as root:
        for n, (words, kept) in enumerate(COLLECTED.items()):
            add = "add", f"f{n}", *LIMITS, "--arn", arn_of(f"f{n}"), *words
            if kept:
                status, told, why = ctl(root, *add)
                same((status, told, f"nobody collects the records of {kept}. " in why), (2, "", True))
                for part in "--forward-", "--discard ", "--keep-records", "16 places", "429":
                    assert part in why, why
            else:
                done(root, *add)
                same("keep" in text_of(root, ETC, f"f{n}.env"), False)
                same(done(root, *add), [f"f{n} is there already: nothing was changed"])
        same(len(done(root, "list")), sum(not kept for kept in COLLECTED.values()))
        # Who collects all keeps none.
        for words in ("--discard", "both"), ("--forward-success", URL, "--forward-failure", URL):
            status, told, why = ctl(root, "add", "x", *SMALL, "--arn", ARN, *words)
            same((status, told, "--keep-records is for records that are neither sent nor discarded" in why), (2, "", True))
        status, _, why = ctl(root, "add", "x", "--handler", "a.b", "--arn", ARN)
        same((status, "64 places" in why), (2, True))


@case()
def sizes_may_be_told_in_kib_and_more(broker):
    limits = "--handler", "app.main", "--events", 1, "--keep-records", "--arn", ARN
    with a_root() as root:
        done(root, "add", "my-function", *limits, "--payload", "1M", "--response", "256K")
        # However a size is told, it is the same one.
        same(done(root, "add", "my-function", *limits, "--payload", 1048576, "--response", "262144"), [STANDS])
        done(root, "remove", "my-function")
        told = done(root, "add", "my-function", *limits, "--payload", "1024K", "--response", "1K")
        assert any(line.startswith("in force: ") and line.endswith(" payload 1048576 response 262144") for line in told), told
        assert any(line.startswith("not in force: --response 1024. It is 262144: ") for line in told), told
        status, _, why = ctl(root, "add", "g", *limits, "--payload", "2G")
        same((status, "refused: bad settings: payload" in why, os.path.exists(disk_of(root, "g"))), (1, True, False))
        for bad in "1m", "1KiB", "K", "1.5M", "-1", "1 K", "":
            status, told, why = ctl(root, "add", "g", *limits, f"--payload={bad}")
            same((bad, status, told, "a size is a number of bytes" in why), (bad, 2, "", True))


@case()
def an_add_may_have_all_of_a_disk_written(broker):
    with a_root() as root:
        done(root, "add", "my-function", *ADD)
        done(root, "add", "g", *SMALL, "--arn", arn_of("g"), "--allocate")
        holed, whole = (os.stat(disk_of(root, name)) for name in ("my-function", "g"))
        same(holed.st_size, whole.st_size)
        assert holed.st_blocks < whole.st_blocks and whole.st_blocks * 512 >= whole.st_size, (holed, whole)
        # It is of the one format: with it or without it, the function stands.
        same(done(root, "add", "g", *SMALL, "--arn", arn_of("g")), ["g is there already: nothing was changed"])
        same(done(root, "add", "my-function", *ADD, "--allocate"), [STANDS])
