"""A probe: what it tells of a volume, that it writes to one of zeros alone, and what another attachment sees."""
import contextlib
import fcntl
import re

from cases.standby import devices
from harness import case, matches, same

TIMES = r"microseconds median \d+ greatest \d+"
UNKNOWN = "not known: whether a barrier outlasts a loss of power, whether a fence holds\n"


def content_of(path):
    with open(path, "rb") as file:
        return file.read()


def zeros(path, size):
    with open(path, "wb") as file:
        file.truncate(size)
    return path


@contextlib.contextmanager
def locked(path):
    with open(path, "rb") as file:
        fcntl.flock(file, fcntl.LOCK_EX)
        yield


def probed(broker, *words):
    """The lines of a probe that is done, but the last, which is always there."""
    status, told = broker.said("probe", *words)
    same((status, told.endswith(UNKNOWN)), (0, True))
    return told.removesuffix(UNKNOWN)


@case()
def a_probe_measures_a_volume_of_zeros_and_leaves_it_so(broker):
    for sectors, watch in (1, "yes"), (64, "no"), (65, "yes"), (67, "no"):
        path = zeros(f"{broker.disk}.{sectors}", 512 * sectors)
        matches(rf"sectors {sectors} watch {watch}\nlock refused\nbarrier {TIMES}\nlook {TIMES}\n", probed(broker, path))
        same(content_of(path), bytes(512 * sectors))


@case()
def a_probe_only_reads_what_holds_something(broker):
    broker.serve()
    same(broker.invoke("{}").status, 202)
    broker.stop()
    other = zeros(f"{broker.disk}.other", 512 * 65)
    with open(other, "r+b") as file:
        file.write(b"x")
    for path in broker.disk, other:
        before = content_of(path)
        told = probed(broker, path, "--witness", path)
        pattern = rf"sectors \d+ watch (?:yes|no)\nlock refused\nbarrier not tried\nlook {TIMES}\nwitness lock refused not tried\n"
        matches(pattern, told)
        same(content_of(path) == before, True)
    same(broker.held(), 1)


@case()
def a_probe_is_refused_what_an_opening_is(broker):
    empty, part, small = zeros(f"{broker.disk}.0", 0), zeros(f"{broker.disk}.700", 700), zeros(f"{broker.disk}.64", 512 * 64)
    for words, line in (
        ((f"{broker.disk}.none",), "no such file"),
        ((empty,), "no sectors"),
        ((part,), "not a whole number of sectors"),
        ((small, "--witness", f"{broker.disk}.none"), "the witness: no such file"),
        ((small, "--witness", zeros(f"{broker.disk}.65", 512 * 65)), "the witness has 65 sectors"),
    ):
        same((words, broker.said("probe", *words)), (words, (1, f"refused: {line}\n")))
    with locked(small):
        same(broker.said("probe", small), (1, "refused: in use by another program\n"))
    same(content_of(small), bytes(512 * 64))


@case()
def a_witness_of_the_same_file_sees_all_and_one_of_another_file_nothing(broker):
    path, other = (zeros(f"{broker.disk}.{name}", 512 * 65) for name in ("one", "other"))
    same(probed(broker, path, "--witness", path).splitlines()[-1], "witness lock refused plain 20 opened 20 of 20")
    same(probed(broker, path, "--witness", other).splitlines()[-1], "witness lock taken plain 0 opened 0 of 20")
    same((content_of(path), content_of(other)), 2 * (bytes(512 * 65),))


@case()
def a_second_loop_device_of_a_file_shows_old_bytes_to_an_opening_that_trusts_the_machine(broker):
    path = zeros(f"{broker.disk}.volume", 512 * 65)
    with devices(path, 2) as (first, second):
        told = probed(broker, first, "--witness", second)
        lines = rf"sectors 65 watch yes\nlock refused\nbarrier {TIMES}\nlook {TIMES}\nwitness lock taken plain 0 opened 20 of 20\n"
        assert re.fullmatch(lines, told), told
        same(content_of(second), bytes(512 * 65))
