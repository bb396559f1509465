"""The worked cases where memory is refused: each request of the program over scripts in turn. What `scripts times` times."""
import os
import subprocess

from cases.memory import refuse_memory
from harness import HERE, Built, Skipped, case

CRATE = os.path.join(HERE, "..", "crates", "scripts")


class ScriptRuns(refuse_memory.Runs):
    """A step that is refused memory is done once more, and then has to answer as if nothing had been refused. A run in which the disk
    in memory or an opening wanted it goes another way, and says so with status 1."""

    def is_told(self, status, told, whole):
        return status == 1 or told == whole


def scripts():
    """The program over scripts."""
    program = os.path.join(CRATE, "out", "scripts")
    if not os.path.isfile(program):
        raise Skipped("scripts is not built")
    return program


def each_run_ends_and_most_go_on(broker, file):
    """Each run of a file's cases for want of memory ends by itself, and most go on to the same answers."""
    words = [scripts(), os.path.join(CRATE, "data", file)]
    reached, counts, found = ScriptRuns(Built.refuse_memory, broker.folder, words).all()
    assert reached and not found, (reached, counts, found[:3])
    assert counts.get(0, 0) > reached // 2, counts


@case()
def a_broker_that_is_refused_memory_goes_on_when_it_is_asked_again(broker):
    each_run_ends_and_most_go_on(broker, "memory.txt")


@case()
def a_hall_that_is_refused_memory_goes_on_when_it_is_asked_again(broker):
    each_run_ends_and_most_go_on(broker, "memory_of_halls.txt")


@case()
def the_calls_of_the_table_that_are_timed_do_what_they_are_timed_for(broker):
    moves = ("next_move", "next_move, all too old", "next_move, behind one that waits", "standing")
    told = subprocess.run([scripts(), "times"], stdout=subprocess.PIPE, text=True, check=True).stdout.splitlines()
    assert told == ["apply: 400 calls, 400 as meant", *(f"{name}: 100 calls, 100 as meant" for name in moves)], told
