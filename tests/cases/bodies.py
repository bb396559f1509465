"""The room that bodies have while they are under way, and in which codings they come."""
import contextlib
import resource
import socket
import time

from cases.limits import INVOKES, ends_at, is_last, statuses_in, told_to_the_end, told_until
from harness import REQUEST, case, same, sends_much, until

# A body whose last byte is missing, of which the least room holds 8.
BODY = '"' + (1048576 - 2) * "x" + '"'
ROOM = 8


def sends_most(broker):
    """A client that sends such a body but for its last byte."""
    client = broker.socket()
    client.setblocking(False)
    head = f"{INVOKES}content-length: {len(BODY)}\r\n\r\n"
    left = memoryview((head + BODY[:-1]).encode())

    def go_on():
        """Sends what is taken at once: whether that was the last."""
        nonlocal left
        with contextlib.suppress(BlockingIOError):
            while left:
                left = left[client.send(left) :]
        return not left

    return client, go_on


def are_accepted(clients):
    """The last bytes of these bodies are sent, and each is accepted."""
    for client, _ in clients:
        client.setblocking(True)
        client.sendall(BODY[-1:].encode())
    for client, _ in clients:
        told = told_until(client, b"\r\n\r\n")
        assert b" 202 " in told, told


def resident(broker):
    """How many MiB the program has in memory."""
    with open(f"/proc/{broker.served.pid}/statm") as told:
        return int(told.read().split()[1]) * resource.getpagesize() >> 20


@case({"payload": 1048576, "events": 16, "sectors": 80000})
def bodies_for_which_there_is_no_room_wait_and_are_read_in_their_turn(broker):
    # One thread reads heads in the order in which they come.
    broker.serve("--body-memory", "8", "--threads", "1")
    with contextlib.ExitStack() as stack:
        clients = [sends_most(broker) for _ in range(ROOM + 2)]
        for client, _ in clients:
            stack.enter_context(client)
            # The system keeps so little of a body that what it took was read for the most part, and so has its place.
            client.setsockopt(socket.SOL_SOCKET, socket.SO_SNDBUF, 131072)
        until("the room to be taken", lambda: sum([go_on() for _, go_on in clients[:ROOM]]) == ROOM)
        small = stack.enter_context(broker.socket())
        small.sendall(f"{INVOKES}content-length: 2\r\n\r\n{{}}".encode())
        time.sleep(1)
        same(broker.number("events_accepted_total"), 0)
        # A look wants no room of it, and a body that is too large by its head neither.
        same(sends_much(broker.invoke, 3000000 * "1").status, 413)
        are_accepted(clients[:ROOM])
        assert b" 202 " in told_until(small, b"\r\n\r\n")
        until("all to be sent", lambda: all([go_on() for _, go_on in clients[ROOM:]]))
        are_accepted(clients[ROOM:])
    same(broker.number("events_accepted_total"), ROOM + 3)


@case({"payload": 1048576, "events": 16, "sectors": 80000}, slow=True)
def a_body_that_finds_no_room_in_its_time_is_answered_408(broker):
    broker.serve("--body-memory", "8")
    before, began = resident(broker), time.monotonic()
    with contextlib.ExitStack() as stack:
        clients = [sends_most(broker) for _ in range(75)]
        for client, _ in clients:
            stack.enter_context(client)
        until("the room to be taken", lambda: sum(go_on() for _, go_on in clients) >= ROOM)
        for _ in range(5):
            time.sleep(1)
            [go_on() for _, go_on in clients]
        # 75 MiB were sent, which were some 340 in memory without a bound.
        assert resident(broker) - before < 150, (before, resident(broker))
        for client, _ in clients:
            client.setblocking(True)
            is_last(ends_at(client, began, REQUEST), 408)
    same(broker.invoke("{}").status, 202)


@case()
def a_transfer_coding_that_is_not_understood_is_answered_501(broker):
    broker.serve()
    for lines in ("gzip, chunked", "gzip", "chunked, chunked", "identity", "gzip\r\ntransfer-encoding: chunked"):
        with broker.socket() as client:
            client.sendall(f"{INVOKES}transfer-encoding: {lines}\r\n\r\n2\r\n{{}}\r\n0\r\n\r\n".encode())
            told = told_to_the_end(client)
        assert statuses_in(told) in ([501], [400]), (lines, told)
        if lines == "gzip, chunked":
            is_last(told, 501)
            assert told.endswith(b'{"errorMessage":"no transfer coding but chunked is understood","errorType":"TransferCoding"}'), told
    same(broker.number("events_accepted_total"), 0)
    with broker.socket() as client:
        client.sendall(f"{INVOKES}transfer-encoding: CHUNKED\r\nconnection: close\r\n\r\n2\r\n{{}}\r\n0\r\n\r\n".encode())
        same(statuses_in(told_to_the_end(client)), [202])
