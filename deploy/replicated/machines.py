"""Machines that are namespaces, on one switch: what runs on them, and how one is cut off."""
import os
import signal
import subprocess
import time

DEADLINE = 300


def run(*words, check=True, seconds=DEADLINE):
    """What a command prints."""
    done = subprocess.run([*map(str, words)], stdout=subprocess.PIPE, stderr=subprocess.STDOUT, text=True, timeout=seconds)
    if check and done.returncode:
        raise RuntimeError(f"{' '.join(map(str, words))}: {done.returncode}: {done.stdout.strip()}")
    return done.stdout


def until(look, what, seconds=DEADLINE):
    """What a look shows once it shows something, for which it waits."""
    end = time.monotonic() + seconds
    while time.monotonic() < end:
        found = look()
        if found:
            return found
        time.sleep(0.02)
    raise RuntimeError(f"{what} did not come")


class Machine:
    """A network and a mount namespace, which a process keeps, with an address on the switch that all share."""

    def __init__(self, net, number):
        self.net, self.number, self.address = net, number, f"10.77.0.{number}"
        self.space, self.link = f"{net.name}-{number}", f"v{number}"
        self.folder = os.path.join(net.folder, str(number))
        os.makedirs(os.path.join(self.folder, "volume"))
        run("ip", "netns", "add", self.space)
        run("ip", "link", "add", self.link, "netns", net.name, "type", "veth", "peer", "name", "eth0", "netns", self.space)
        run("ip", "-n", net.name, "link", "set", self.link, "master", "switch", "up")
        run("ip", "-n", self.space, "addr", "add", f"{self.address}/24", "dev", "eth0")
        for device in "lo", "eth0":
            run("ip", "-n", self.space, "link", "set", device, "up")
        keeper = ["ip", "netns", "exec", self.space, "unshare", "-m", "sh", "-c", "mount -t tmpfs none /run && echo . && exec sleep infinity"]
        self.keeper = subprocess.Popen(keeper, stdout=subprocess.PIPE)
        self.keeper.stdout.readline()

    def words(self, *words):
        return ["nsenter", "-t", str(self.keeper.pid), "-m", "-n", *map(str, words)]

    def run(self, *words, **more):
        return run(*self.words(*words), **more)

    def start(self, *words, **more):
        """A process on this machine; `nsenter` becomes it."""
        return subprocess.Popen(self.words(*words), **more)

    def serve(self, *words):
        """A process whose lines nobody reads."""
        return self.start(*words, stdout=subprocess.DEVNULL, stderr=subprocess.DEVNULL)

    def mounted(self, place):
        return f" {place} " in self.run("cat", "/proc/mounts")

    def cut(self):
        run("ip", "-n", self.net.name, "link", "set", self.link, "down")

    def join(self):
        run("ip", "-n", self.net.name, "link", "set", self.link, "up")

    def end(self):
        """Kills what runs in it, and removes it."""
        for pid in run("ip", "netns", "pids", self.space, check=False).split():
            os.kill(int(pid), signal.SIGKILL)
        self.keeper.wait()
        run("ip", "netns", "del", self.space, check=False)


class Net:
    """Machines on one switch, in a namespace of its own."""

    def __init__(self, folder):
        self.folder, self.name, self.machines = folder, f"lb{os.getpid()}", []
        run("ip", "netns", "add", self.name)
        run("ip", "-n", self.name, "link", "add", "switch", "type", "bridge")
        run("ip", "-n", self.name, "link", "set", "switch", "up")

    def machine(self, number):
        self.machines.append(Machine(self, number))
        return self.machines[-1]

    def end(self):
        for machine in self.machines:
            machine.end()
        run("ip", "netns", "del", self.name, check=False)
