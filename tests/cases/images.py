"""The image that `deploy/image` makes of a package, opened by umoci and run by runc, as engines do."""
import contextlib
import json
import os
import shutil
import signal
import subprocess
import tempfile

from cases.packages import DEPLOY, packaged, run
from harness import ARN, DEADLINE, EVENT, INVOKE, RUNTIME, Apart, Asked, Ports, case, line_of, matches, same

USER = 65534
FORMAT = "format", "disk", "--sectors", 64, "--name", "my-function", "--handler", "app.main", "--arn", ARN, "--events", 4, "--payload", 64, "--response", 64


def needs_apart(*programs):
    for program in programs:
        if not shutil.which(program):
            raise Apart(f"there is no {program}")


def image_in(folder, package):
    """The image of a package: its path and tag."""
    os.mkdir(folder)
    status, told, why = run(os.path.join(DEPLOY, "image"), package, folder)
    same((status, why), (0, ""))
    return matches("oci:(.*)\n", told)[0]


def digest_of(image):
    """What names all that an image has."""
    with open(os.path.join(image.rsplit(":", 1)[0], "index.json")) as file:
        return json.load(file)["manifests"][0]["digest"]


class Containers:
    """Containers of an image over one volume, which share this machine's network. A root that is written to is refused by the system."""

    def __init__(self, image, folder):
        self.bundle, self.volume = os.path.join(folder, "bundle"), os.path.join(folder, "volume")
        self.name = f"lambda_broker.{os.getpid()}.{os.path.basename(folder)}"
        done = run("umoci", "unpack", "--image", image, self.bundle)
        same((done[0], done[0] and done[2]), (0, 0))
        with open(os.path.join(self.bundle, "config.json")) as file:
            self.config = json.load(file)
        os.mkdir(self.volume)
        os.chown(self.volume, USER, USER)
        self.config["process"]["terminal"] = False
        self.config["root"]["readonly"] = True
        self.config["linux"]["namespaces"] = [{"type": kind} for kind in ("pid", "ipc", "uts", "mount")]
        self.config["linux"].pop("resources", None)
        mounts = [mount for mount in self.config["mounts"] if mount["destination"] == "/proc"]
        self.config["mounts"] = [*mounts, {"destination": "/var/lib/lambda_broker", "type": "bind", "source": self.volume, "options": ["rbind", "rw"]}]
        self.entry = self.config["process"]["args"]

    def start(self, *words):
        """Runs the image with these words."""
        self.config["process"]["args"] = [*self.entry, *map(str, words)]
        with open(os.path.join(self.bundle, "config.json"), "w") as file:
            json.dump(self.config, file)
        run_it = ["runc", "run", "--no-pivot", "--bundle", self.bundle, self.name]
        return subprocess.Popen(run_it, stdout=subprocess.PIPE, stderr=subprocess.PIPE, bufsize=0)

    def said(self, *words):
        """The status of a run, and what it printed."""
        started = self.start(*words)
        told, why = started.communicate(timeout=2 * DEADLINE)
        return started.returncode, told.decode(), why.decode()

    def remove(self):
        run("runc", "delete", "--force", self.name)


@contextlib.contextmanager
def containers():
    """Containers of an image that was made just so; none where this machine runs none."""
    needs_apart("umoci", "runc", "dpkg-deb", "ldd")
    if os.getuid():
        raise Apart("this is not root, who may run containers")
    with tempfile.TemporaryDirectory(prefix="lambda_broker.") as folder:
        image = image_in(os.path.join(folder, "image"), packaged(folder)[1])
        made = Containers(image, folder)
        try:
            status, _, why = made.said("--version")
            if status:
                raise Apart(f"runc runs nothing here: {why.strip()}")
            yield made
        finally:
            made.remove()


def served(made, port):
    started = made.start("serve", "disk", "--port", port)
    same(line_of(started), f"serving on 127.0.0.1:{port}\n")
    return started


@case()
def an_image_runs_is_killed_and_stopped_over_its_volume_and_loses_nothing(broker):
    with containers() as made:
        same(made.said(*FORMAT), (0, "formatted 64 sectors\n", ""))
        ports = Ports()
        try:
            started = served(made, ports.first)
            told = [Asked(ports.first, "POST", INVOKE, payload, EVENT).done() for payload in ("1", "2")]
            same([reply.status for reply in told], [202, 202])
            # What an engine sends where nothing else is said.
            same(run("runc", "kill", made.name, "KILL")[0], 0)
            started.communicate(timeout=DEADLINE)
            started = served(made, ports.first)
            for reply in told:
                event = Asked(ports.first + 1, "GET", f"{RUNTIME}/invocation/next").done()
                same(event.id, reply.id)
                same(Asked(ports.first + 1, "POST", f"{RUNTIME}/invocation/{reply.id}/response", "0").done().status, 202)
            # What is run in a container ends with its first process, also what waits for that end.
            assert run("runc", "exec", made.name, "lambda_broker", "stop", "--port", ports.first)[0] in (0, 128 + signal.SIGKILL)
            out, _ = started.communicate(timeout=DEADLINE)
            same((started.returncode, out), (0, b""))
        finally:
            ports.close()
        status, told, _ = made.said("audit", "disk")
        same((status, told.splitlines()[1]), (0, "held 2 waiting 0 running 0 success 2 failure 0"))


@case()
def an_image_tells_nothing_of_when_it_was_made(broker):
    needs_apart("umoci", "dpkg-deb", "ldd")
    with tempfile.TemporaryDirectory(prefix="lambda_broker.") as folder:
        package = packaged(folder)[1]
        made = [image_in(os.path.join(folder, name), package) for name in ("one", "two")]
        same(digest_of(made[0]), digest_of(made[1]))
