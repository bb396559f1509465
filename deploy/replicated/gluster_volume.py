"""GlusterFS on machines of its own, with a volume for one disk, which two more machines mount."""
import contextlib
import os
import signal
import time

from machines import DEADLINE, until

SCRIPT = os.path.join(os.path.dirname(os.path.abspath(__file__)), "gluster")


class Gluster:
    """A volume of three bricks, with the options that `gluster` beside this file sets."""

    name = "gluster"
    # With those options a mount keeps nothing: a standby that has looked goes on with its own.
    keeps_attachments = True

    def __init__(self, net):
        self.net, self.daemons, self.mounts, self.loops = net, {}, {}, {}
        self.replicas = [net.machine(number) for number in (1, 2, 3)]
        self.machines = [net.machine(number) for number in (11, 12)]
        for brick in self.replicas:
            self.start_brick(brick)
        first = self.replicas[0]
        for other in self.replicas[1:]:
            until(lambda: "success" in first.run("gluster", "peer", "probe", other.address, check=False), "a peer")
        until(lambda: first.run("gluster", "pool", "list").count("Connected") == 3, "the pool")
        places = [f"{brick.address}:{brick.folder}/brick" for brick in self.replicas]
        self.ask("create", "disks", "replica", "3", *places, "force")
        first.run(SCRIPT, "options", "disks", seconds=5 * DEADLINE)
        self.ask("start", "disks")
        until(lambda: first.run("gluster", "volume", "status", "disks").count(" Y ") >= 3, "the bricks")

    def ask(self, word, *words):
        return self.replicas[0].run("gluster", "--mode=script", "volume", word, *words)

    def forget_options(self):
        """The volume is as it comes."""
        self.ask("reset", "disks", "force")

    def start_brick(self, brick):
        for name in "var", "log", "brick":
            os.makedirs(os.path.join(brick.folder, name), exist_ok=True)
        if brick not in self.daemons:
            brick.run("mkdir", "-p", "/run/gluster", "/var/lib/glusterd", "/var/log/glusterfs")
            brick.run("mount", "--bind", f"{brick.folder}/var", "/var/lib/glusterd")
            brick.run("mount", "--bind", f"{brick.folder}/log", "/var/log/glusterfs")
        self.daemons[brick] = brick.serve("glusterd", "-N")
        until(lambda: brick.run("gluster", "pool", "list", check=False).count("UUID"), "glusterd")

    def lose_replica(self):
        """The program of one brick is killed, and gone: until then no other is started in its place."""
        program = int(self.replicas[1].run("sh", "-c", "cat /run/gluster/vols/disks/*.pid"))
        os.kill(program, signal.SIGKILL)
        until(lambda: not os.path.exists(f"/proc/{program}"), "the end of the brick")

    def is_healed(self):
        time.sleep(0.5)
        return self.ask("heal", "disks", "info").count("Number of entries: 0") == 3

    def mend(self):
        """Starts the brick that was lost, and waits until it has what came meanwhile, for which it may have to be told again."""
        for seconds in 10, 10, 10, 30, DEADLINE:
            self.ask("start", "disks", "force")
            until(lambda: self.ask("status", "disks").count(" Y ") >= 3, "the bricks")
            self.replicas[0].run("gluster", "--mode=script", "volume", "heal", "disks", check=False)
            with contextlib.suppress(RuntimeError):
                return until(self.is_healed, "the healing", seconds)
        raise RuntimeError(f"not healed: {self.ask('heal', 'disks', 'info')}")

    def attach(self, machine):
        """Mounts the volume on a machine, and answers the disk there."""
        place = f"{machine.folder}/volume"
        words = ["glusterfs", "-N", *(f"--volfile-server={brick.address}" for brick in self.replicas), "--volfile-id=disks"]
        self.mounts[machine] = machine.serve(*words, f"--log-file={machine.folder}/log", place)
        until(lambda: machine.mounted(place) and machine.run("stat", "-c", "%i", place, check=False).strip().isdigit(), "the mount")
        return f"{place}/disk"

    def renew(self, machine, sectors):
        """No disk, in place of the one before, on a machine that is attached now."""
        disk = self.attach(machine)
        machine.run("rm", "-f", disk)
        return disk

    def detach(self, machine):
        loop = self.loops.pop(machine, None)
        if loop:
            machine.run("losetup", "--detach", loop)
        mount = self.mounts.pop(machine, None)
        if mount:
            machine.run("umount", "-l", f"{machine.folder}/volume", check=False)
            mount.kill()
            mount.wait()

    drop = detach

    def break_connections(self, machine):
        """Each brick ends what a machine has open there, and its locks go with that."""
        for brick in self.replicas:
            brick.run("ss", "-K", "dst", machine.address, check=False)

    def without_lock(self, machine, disk):
        """A disk whose lock keeps off nobody else: a loop device, which keeps nothing."""
        self.loops[machine] = machine.run("losetup", "--find", "--show", "--direct-io=on", disk).strip()
        return self.loops[machine]

    def fence(self, machine):
        """The bricks take nothing of a machine any more: how many seconds it took until each knew."""
        began = time.monotonic()
        for brick in self.replicas:
            brick.run("ip", "route", "add", "blackhole", f"{machine.address}/32", check=False)
        self.break_connections(machine)
        return time.monotonic() - began

    def admit(self, machine):
        for brick in self.replicas:
            brick.run("ip", "route", "del", "blackhole", f"{machine.address}/32", check=False)

    def end(self):
        for machine in list(self.mounts):
            self.detach(machine)
