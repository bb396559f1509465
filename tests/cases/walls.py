"""The walls between functions, as `lambda-broker-ctl` writes them for the table of `deploy/walls.nft`: in a network and with users of
their own, so that nothing of the machine is touched.
"""
import contextlib
import os
import shutil
import subprocess
import sys

from cases.packages import CTL, DEPLOY, ETC, SMALL, a_root, done, run, values_of
from harness import ARN, Apart, Built, case, line_of, matches, same

# Numbers of users, beside those of the functions.
USERS = {"root": 0, "www-data": 33, "prometheus": 61010, "lambda_broker": 61011, "lambda_forward": 61012, "someone": 61013}
OPERATORS = 61020

# Brings the network up, and has the users that a folder names.
BEGIN = """mount --bind "$0/etc/passwd" /etc/passwd && mount --bind "$0/etc/group" /etc/group && ip link set lo up &&
nft list ruleset && echo ready && exec sleep infinity"""

# Prints those of its ports that answer.
PROBE = """import socket, sys
for port in sys.argv[1:]:
    with socket.socket() as probe:
        probe.settimeout(20)
        if probe.connect_ex(("127.0.0.1", int(port))) == 0:
            print(port)
"""


def needs_a_network():
    missing = [word for word in ("nft", "ip", "unshare", "nsenter", "setpriv") if not shutil.which(word)]
    if os.geteuid() or missing:
        raise Apart(f"there is no {missing[0]}" if missing else "not root")


@contextlib.contextmanager
def a_network(root):
    """How a command is run in a network of its own, with the users of this folder."""
    words = ["unshare", "--net", "--mount", "sh", "-c", BEGIN, root]
    holder = subprocess.Popen(words, stdout=subprocess.PIPE, stderr=subprocess.DEVNULL, bufsize=0)
    try:
        if line_of(holder) != "ready\n":
            raise Apart("no network with nft can be made")
        yield ["nsenter", "--net", "--mount", "--target", str(holder.pid)]
    finally:
        holder.kill()
        holder.wait()
        holder.stdout.close()


def write(root, name, text):
    with open(os.path.join(root, "etc", name), "w") as file:
        file.write(text)


def settle(root, ports):
    """The users of these functions and the others, and the table."""
    users = {**USERS, **{f"lambda_{port}": 61001 + n for n, port in enumerate(ports)}}
    write(root, "passwd", "".join(f"{name}:x:{uid}:{uid}::/:/bin/sh\n" for name, uid in users.items()))
    write(root, "group", f"root:x:0:\nlambda_operators:x:{OPERATORS}:\n")
    os.makedirs(os.path.join(root, "usr/share/lambda_broker"))
    shutil.copy(os.path.join(DEPLOY, "walls.nft"), os.path.join(root, "usr/share/lambda_broker"))
    return users


@contextlib.contextmanager
def served(root, within, names):
    """The brokers of these functions, in that network."""
    brokers = []
    try:
        for name in names:
            env = values_of(root, f"{ETC}/{name}.env")
            words = [Built.program, "serve", os.path.join(root, "var/lib/lambda_broker", name, "disk")]
            words += ["--port", env["PORT"], "--admin", env["ADMIN"]]
            brokers.append(subprocess.Popen([*within, *words], stdout=subprocess.PIPE, stderr=subprocess.DEVNULL, bufsize=0))
            same([line_of(brokers[-1]) for _ in range(2)][1], f"showing on 127.0.0.1:{env['ADMIN']}\n")
        yield
    finally:
        for broker in brokers:
            broker.kill()
            broker.communicate()


def reached(within, ports, user, group=61099):
    """Those of these ports that a program of this user and group reaches."""
    status, told, why = run(*within, "setpriv", "--reuid", user, "--regid", group, "--clear-groups", sys.executable, "-c", PROBE, *ports)
    same((status, why), (0, ""))
    return {int(port) for port in told.split()}


def stopped(within, port, user, group=61099):
    """What comes of a stop by this user."""
    return run(*within, "setpriv", "--reuid", user, "--regid", group, "--clear-groups", Built.program, "stop", "--port", port)


@case()
def each_function_has_walls(broker):
    needs_a_network()
    with a_root() as root:
        names = "my-function", "send-mail"
        told = [done(root, "add", name, *SMALL, "--arn", ARN.replace("my-function", name), "--environments", 2)[-1] for name in names]
        one, other = (int(matches(".*: callers ([0-9]+), .*", line)[0]) for line in told)
        users = settle(root, (one, other))
        callers, operators = {one, other}, {one + 19, other + 19}
        environments = {of: {of + 1, of + 2} for of in (one, other)}
        every = sorted(callers | operators | environments[one] | environments[other])
        wanted = {name: callers | operators for name in ("root", "www-data", "lambda_broker", "lambda_forward")}
        wanted |= {"prometheus": operators, "someone": set(), **{f"lambda_{of}": environments[of] for of in (one, other)}}
        with a_network(root) as within, served(root, within, names):
            # Without the walls each port is anybody's.
            same(reached(within, every, users["someone"]), {*every})
            load = [*within, sys.executable, CTL, "--root", root, "unit", "walls"]
            for _ in range(2):
                same(run(*load), (0, "", ""))
                same({name: reached(within, every, users[name]) for name in wanted}, wanted)
            # Who is kept out is not told that nobody listens.
            told = stopped(within, one, users["someone"])
            same(told, (1, f"refused: no broker on 127.0.0.1:{one} that this user reaches: a wall may keep it out\n", ""))
            same(stopped(within, 1, users["someone"]), (1, "refused: no broker on 127.0.0.1:1\n", ""))
            same(reached(within, every, users["someone"], OPERATORS), callers | operators)
            # Rules of the operator's own come first.
            write(root, "lambda_broker/own.nft", f"tcp dport {one + 1} meta skuid www-data accept\n")
            same(run(*load), (0, "", ""))
            same(reached(within, every, users["www-data"]), callers | operators | {one + 1})
            # One that nft refuses changes nothing.
            write(root, "lambda_broker/own.nft", "accept all\n")
            same(run(*load)[0], 1)
            same(reached(within, every, users["www-data"]), callers | operators | {one + 1})
            os.remove(os.path.join(root, ETC, "own.nft"))
            done(root, "remove", "send-mail")
            same(run(*load), (0, "", ""))
            same(reached(within, every, users["someone"]), {other, other + 19, *environments[other]})
