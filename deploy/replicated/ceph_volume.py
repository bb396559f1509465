"""Ceph on machines of its own, with the image of one disk, which two more machines attach as `rbd` beside this file does."""
import json
import os
import subprocess
import uuid

from machines import DEADLINE, run, until

HERE = os.path.dirname(os.path.abspath(__file__))
SCRIPT, CLIENT = os.path.join(HERE, "rbd"), ["/usr/bin/python3", os.path.join(HERE, "librbd_client.py")]
POOL, GROUPS, SECTOR = "disks", 8, 512
CONF = """[global]
fsid = {fsid}
mon host = {monitor}
auth cluster required = none
auth service required = none
auth client required = none
run dir = /run/ceph
log file = {folder}/$name.log
osd pool default size = 3
osd pool default min size = 2
osd pool default pg autoscale mode = off
osd crush chooseleaf type = 0
osd memory target = 939524096
bluestore block size = 2147483648
bluestore block wal create = false
bluestore block db create = false
mon data avail crit = 1
mon data avail warn = 2
"""


class Ceph:
    """A monitor and three OSDs, each with one of a disk's three replicas; two of these have to take a write."""

    name = "ceph"
    # An old attachment may read with an older map: a standby that has looked attaches anew.
    keeps_attachments = False

    def __init__(self, net):
        self.net, self.daemons, self.image, self.made = net, {}, None, 0
        self.replicas = [net.machine(number) for number in (1, 2, 3)]
        self.monitor = net.machine(4)
        self.machines = [net.machine(number) for number in (11, 12)]
        self.fsid, self.conf = str(uuid.uuid4()), os.path.join(net.folder, "ceph.conf")
        with open(self.conf, "w", encoding="ascii") as file:
            file.write(CONF.format(fsid=self.fsid, monitor=self.monitor.address, folder=net.folder))
        # Each client finds it so.
        os.environ["CEPH_CONF"] = self.conf
        self.start_monitor()
        self.make_osds()
        self.ask(prefix="osd pool create", pool=POOL, pg_num=GROUPS, pgp_num=GROUPS, pool_type="replicated")
        self.ask(prefix="osd pool application enable", pool=POOL, app="rbd")
        until(self.is_whole, "the pool")

    def start_monitor(self):
        machine, data = self.monitor, f"{self.monitor.folder}/mon"
        machine.run("mkdir", "-p", "/run/ceph")
        chart = f"{machine.folder}/monmap"
        address = f"[v2:{machine.address}:3300,v1:{machine.address}:6789]"
        run("monmaptool", "--create", "--addv", "a", address, "--fsid", self.fsid, chart)
        machine.run("ceph-mon", "--mkfs", "-i", "a", "--monmap", chart, "--mon-data", data)
        self.daemons["monitor"] = machine.serve("ceph-mon", "-f", "-i", "a", "--mon-data", data, "--public-addr", machine.address)
        self.operator = machine.start(*CLIENT, "operator", stdin=subprocess.PIPE, stdout=subprocess.PIPE, text=True)
        self.operator.stdout.readline()

    def tell(self, line):
        """What the operator answers to a line."""
        self.operator.stdin.write(f"{line}\n")
        self.operator.stdin.flush()
        return json.loads(self.operator.stdout.readline())

    def ask(self, **command):
        return self.tell(f"ask {json.dumps(command)}")

    def make_osds(self):
        making = []
        for number, machine in enumerate(self.replicas):
            name = str(uuid.uuid4())
            machine.run("mkdir", "-p", "/run/ceph", f"{machine.folder}/osd")
            self.ask(prefix="osd new", uuid=name)
            words = "--mkfs", "-i", number, "--osd-uuid", name, "--osd-data", f"{machine.folder}/osd"
            making.append(machine.serve("ceph-osd", *words))
        for number, made in enumerate(making):
            if made.wait(DEADLINE):
                raise RuntimeError(f"ceph-osd --mkfs: {made.returncode}")
            self.start_osd(number)

    def start_osd(self, number):
        machine = self.replicas[number]
        words = "-f", "-i", number, "--osd-data", f"{machine.folder}/osd", "--public-addr", machine.address
        self.daemons[number] = machine.serve("ceph-osd", *words)

    def is_whole(self):
        """Whether each replica is there and has all."""
        up = self.ask(prefix="osd stat")["num_up_osds"] == len(self.replicas)
        return up and self.tell(f"states {GROUPS}") == GROUPS * ["active+clean"]

    def lose_replica(self):
        """The program of one OSD is killed."""
        self.daemons[1].kill()
        self.daemons[1].wait()

    def mend(self):
        """Starts the OSD that was lost, and waits until it has what came meanwhile."""
        self.start_osd(1)
        until(self.is_whole, "the healing")

    def make(self, size):
        """A new image of zeros. Those before stay: to remove one that was left open takes seconds."""
        self.made += 1
        self.image = f"disk{self.made}"
        self.tell(f"create {self.image} {size}")
        return self.image

    def renew(self, machine, sectors):
        """The disk of a new image, which is attached to a machine."""
        self.make(sectors * SECTOR)
        return self.attach(machine)

    def attach(self, machine):
        """Attaches the newest image to a machine, and answers its file."""
        place = f"{machine.folder}/disk"
        machine.run(SCRIPT, "attach-fuse", f"{POOL}/{self.image}", place)
        machine.run(SCRIPT, "attached-fuse", place)
        return place

    def detach(self, machine):
        machine.run(SCRIPT, "detach-fuse", f"{machine.folder}/disk")

    def drop(self, machine):
        """Takes off what may hang, since it was fenced or cut off."""
        place = f"{machine.folder}/disk"
        if machine.mounted(place):
            machine.run("sh", "-c", f"kill -9 $(cat {place}.pid)", check=False)
        while machine.mounted(place):
            machine.run("umount", "-l", place, check=False)

    def forget_options(self):
        """None was set."""

    def break_connections(self, machine):
        """Nothing has to break for another machine to write: no lock keeps it off."""

    def without_lock(self, machine, disk):
        return disk

    def fence(self, machine):
        """The OSDs take nothing of a machine any more, as soon as they know: how many seconds it took to tell the monitor so."""
        return self.tell(f"blocklist add {machine.address}")

    def admit(self, machine):
        self.tell(f"blocklist rm {machine.address}")

    def end(self):
        for machine in self.machines:
            self.drop(machine)
        for daemon in [self.operator, *self.daemons.values()]:
            daemon.kill()
            daemon.wait()
