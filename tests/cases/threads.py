"""Callers on several threads, who share one port."""
import http.client
import os

from harness import DEADLINE, EVENT, INVOKE, Asked, Beside, Built, Ports, case, same, statuses, until

THREADS, CALLERS = 4, 16


def thread_count(broker):
    """How many threads the program has."""
    return len(os.listdir(f"/proc/{broker.served.pid}/task"))


def accept(port, most, ids):
    """Adds the ids of the events that were accepted on one connection, up to so many, or up to its end."""
    caller = http.client.HTTPConnection("127.0.0.1", port, timeout=DEADLINE)
    try:
        for _ in range(most):
            caller.request("POST", INVOKE, "{}", EVENT)
            answer = caller.getresponse()
            answer.read()
            if answer.status != 202:
                break
            ids.append(answer.headers["x-amzn-RequestId"])
    except (OSError, http.client.HTTPException):
        pass
    caller.close()


@case()
def as_many_threads_serve_the_callers_as_are_asked_for(broker):
    counts = []
    for threads in (1, 2, 5):
        broker.serve("--threads", str(threads))
        broker.until_all_serve()
        counts.append(thread_count(broker))
        same(broker.stop(), (202, 0, ""))
    same([count - counts[0] for count in counts], [0, 1, 4])


@case()
def one_thread_a_processor_serves_the_callers_where_nobody_says_how_many(broker):
    counts = []
    for words in ((), ("--threads", "1")):
        broker.serve(*words)
        broker.until_all_serve()
        counts.append(thread_count(broker))
        same(broker.stop(), (202, 0, ""))
    same(counts[0] - counts[1], min(8, len(os.sched_getaffinity(0))) - 1)


@case({"events": 1024, "retries": 0, "sectors": 65536})
def what_several_threads_accepted_is_served_once_each(broker):
    broker.serve("--threads", str(THREADS))
    ids = []
    callers = [Beside(accept, broker.port, 20, ids) for _ in range(CALLERS)]
    same([caller.done() for caller in callers], CALLERS * [None])
    same((len(ids), len(set(ids))), (20 * CALLERS, 20 * CALLERS))
    given = []
    for _ in ids:
        event = broker.next()
        same(broker.respond(event.id, "1").status, 202)
        given.append(event.id)
    same(sorted(given), sorted(ids))
    for _ in ids:
        record = broker.record().json["requestContext"]["requestId"]
        same(broker.delete(record).status, 204)
        given.remove(record)
    same((given, broker.record().status, broker.stop()), ([], 204, (202, 0, "")))


@case({"events": 1024, "sectors": 65536})
def what_several_threads_accepted_is_there_behind_a_kill(broker):
    broker.serve("--threads", str(THREADS))
    ids = []
    callers = [Beside(accept, broker.port, 1024, ids) for _ in range(CALLERS)]
    until("some events", lambda: len(ids) > 50)
    broker.kill()
    same([caller.done() for caller in callers], CALLERS * [None])
    broker.serve()
    same([event for event in ids if broker.look(f"/events/{event}").status != 200], [])
    same(broker.stop(), (202, 0, ""))


@case()
def all_threads_answer_who_waits_when_the_broker_stops(broker):
    broker.serve("--threads", str(THREADS))
    idle = [broker.socket() for _ in range(CALLERS)]
    asked = [Asked(broker.port, "GET", "/x") for _ in range(CALLERS)]
    same(statuses(asked), CALLERS * [404])
    same(broker.stop(), (202, 0, ""))
    # Each idle connection was closed.
    same([client.recv(1) for client in idle], CALLERS * [b""])
    for client in idle:
        client.close()


def with_few(threads):
    """What runs a program that gets at most so many threads beside its first."""
    return ["env", f"LD_PRELOAD={Built.few_threads}", f"FEW_THREADS={threads}"]


# The threads of the cases below that serve no callers: environment 1, the operator's port, the ticker, and who looks at the disk.
OTHERS = 4


@case()
def the_callers_have_as_many_threads_as_there_is_room_for(broker):
    for more in 1, 3:
        broker.serve(under=with_few(OTHERS + more))
        same([broker.invoke("{}").status for _ in range(3)], 3 * [202])
        same(broker.stop(), (202, 0, ""))


@case()
def more_threads_than_there_is_room_for_are_refused_before_anybody_is_served(broker):
    ports = Ports()
    words = ["serve", broker.disk, "--port", ports.first, "--admin", ports.first + 2]
    refused = (1, "refused: no room for 2 threads of callers\n")
    same(broker.said(*words, "--threads", 2, under=with_few(OTHERS + 1)), refused)
    same(broker.said(*words, under=with_few(OTHERS)), (1, refused[1].replace("2", "1")))
    ports.close()
    broker.serve("--threads", "2", under=with_few(OTHERS + 2))
    same(broker.stop(), (202, 0, ""))
