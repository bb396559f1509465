"""Ending a broker by the program's own command."""
import os
import signal
import socket
import subprocess
import threading

from harness import Apart, Ports, case, same


@case()
def a_broker_is_stopped_by_a_command_that_waits_for_its_end(broker):
    broker.serve()
    same(broker.invoke("{}").status, 202)
    same(broker.said("stop", "--port", broker.port), (0, f"stopped 127.0.0.1:{broker.port}\n"))
    # Nobody listens any more, and all that was accepted is on the disk.
    same(broker.said("stop", "--port", broker.port), (1, f"refused: no broker on 127.0.0.1:{broker.port}\n"))
    same(broker.ended(), (0, ""))
    same(broker.audit()[1], "held 1 waiting 1 running 0 success 0 failure 0")


@case()
def a_broker_is_stopped_at_the_address_that_it_serves_on(broker):
    for address in "0.0.0.0", "127.0.0.2":
        broker.serve("--address", address)
        same(broker.said("stop", "--port", broker.port, "--address", address), (0, f"stopped {address}:{broker.port}\n"))
        same(broker.ended(), (0, ""))


@case()
def the_first_process_of_a_container_is_ended_by_its_command_and_not_by_a_signal(broker):
    first = ["unshare", "--user", "--map-root-user", "--pid", "--fork", "--kill-child"]
    if subprocess.run([*first, "true"], capture_output=True).returncode != 0:
        raise Apart("no namespace of processes can be made")
    broker.serve(under=first)
    [number] = map(int, subprocess.check_output(["pgrep", "-P", str(broker.served.pid)]).split())
    for one in signal.SIGTERM, signal.SIGINT, signal.SIGHUP, signal.SIGQUIT:
        os.kill(number, one)
    same(broker.invoke("{}").status, 202)
    same(broker.said("stop", "--port", broker.port), (0, f"stopped 127.0.0.1:{broker.port}\n"))
    same(broker.ended(), (0, ""))
    same(broker.held(), 1)


@case()
def a_broker_is_stopped_by_its_function_and_no_other(broker):
    for dialect in "profile", "aws":
        broker.serve("--dialect", dialect)
        at = f"127.0.0.1:{broker.port}"
        for name in "another", "my-functio", "my-function2":
            told = broker.said("stop", "--port", broker.port, "--name", name)
            same((name, told), (name, (1, f"refused: {at} does not serve the function {name}\n")))
        same(broker.invoke("{}").status, 202)
        same(broker.said("stop", "--port", broker.port, "--name", "my-function"), (0, f"stopped my-function on {at}\n"))
        same(broker.ended(), (0, ""))
    # What asks for the name accepts no event.
    same(broker.held(), 2)


@case()
def who_listens_elsewhere_at_that_port_is_no_wall(broker):
    with socket.create_server(("127.0.0.2", 0)) as other:
        port = other.getsockname()[1]
        same(broker.said("stop", "--port", port), (1, f"refused: no broker on 127.0.0.1:{port}\n"))


def stranger(reply):
    """A port at which every connection is answered with these bytes, and then ends: its listener, and its number."""
    listener = socket.create_server(("127.0.0.1", 0))

    def serve():
        while True:
            try:
                taken, _ = listener.accept()
            except OSError:
                return
            with taken:
                if taken.recv(4096):
                    taken.sendall(reply)

    threading.Thread(target=serve, daemon=True).start()
    return listener, listener.getsockname()[1]


@case()
def what_does_not_take_the_stop_is_no_broker_that_stops(broker):
    not_taken, refuses = "does not take it", "refuses all, as where a disk is gone: its line on standard error says how to save it"
    for reply, why in (
        (b"", not_taken), (b"HTTP/1.1", not_taken), (b"HTTP/1.1 404 Not Found\r\n\r\n", not_taken), (b"SSH-2.0-OpenSSH\r\n", not_taken),
        (b"HTTP/1.1 503 Service Unavailable\r\n\r\n", refuses),
    ):
        listener, port = stranger(reply)
        same((reply, broker.said("stop", "--port", port)), (reply, (1, f"refused: 127.0.0.1:{port} {why}\n")))
        # Whatever is lost by it.
        same((reply, broker.said("stop", "--port", port, "--lose")), (reply, (1, f"refused: 127.0.0.1:{port} does not take it\n")))
        listener.close()


@case(slow=True)
def who_takes_the_stop_and_listens_on_is_told(broker):
    listener, port = stranger(b"HTTP/1.1 202 Accepted\r\ncontent-length: 0\r\n\r\n")
    same(broker.said("stop", "--port", port), (1, f"refused: 127.0.0.1:{port} is still open\n"))
    listener.close()


@case()
def words_of_a_stop_that_are_none_are_usage_faults(broker):
    ports = Ports()
    for words in (), ("--port",), ("--port", 0), ("--port", 65536), ("--port", ports.first, "--address", "here"), ("--port", ports.first, "x"):
        done = broker.command("stop", *words)
        same((words, done.returncode), (words, 2))
        assert "For more information, try '--help'." in done.stdout, (words, done.stdout)
    ports.close()
