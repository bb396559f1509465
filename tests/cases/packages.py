"""`deploy/lambda-broker-ctl` over a folder of its own, with the words of the units, and the package that `deploy/package` makes."""
import ast
import contextlib
import filecmp
import gzip
import json
import os
import re
import shutil
import subprocess
import sys
import tempfile

from cases.proxy import FUNCTIONS
from harness import ARN, DEADLINE, EVENT, HERE, INVOKE, Apart, Asked, Beside, Built, Ports, case, line_of, matches, same
from programs import put_program

DEPLOY = os.path.join(HERE, "..", "deploy")
CTL = os.path.join(DEPLOY, "lambda-broker-ctl")
LIMITS = "--handler", "app.main", "--events", 16, "--payload", 1024, "--response", 1024
# Whose records nobody collects in a case.
SMALL = *LIMITS, "--keep-records"
ADD = *SMALL, "--arn", ARN
ETC, UNITS = "etc/lambda_broker", "etc/systemd/system"


def run(*words, env=None, cwd=None):
    """Status, standard output and standard error of a command."""
    more = {"capture_output": True, "text": True, "timeout": 4 * DEADLINE, "env": {**os.environ, **(env or {})}, "cwd": cwd}
    done = subprocess.run([*map(str, words)], **more)
    return done.returncode, done.stdout, done.stderr


def ctl(root, *words):
    return run(sys.executable, CTL, "--root", root, "--program", Built.program, *words)


def done(root, *words):
    """The lines of what has to be done."""
    status, told, why = ctl(root, *words)
    same((status, why), (0, ""))
    return told.splitlines()


def modules(program):
    """The modules of a program, or of all, by their paths from `deploy/`."""
    for at, _, names in os.walk(os.path.join(DEPLOY, "lambda_broker_tools", program)):
        yield from (os.path.relpath(os.path.join(at, name), DEPLOY) for name in names if name.endswith(".py"))


def text_of(*path):
    with open(os.path.join(*path)) as file:
        return file.read()


def content_of(path):
    with open(path, "rb") as file:
        return file.read()


def values_of(root, name):
    return dict(re.findall("^([A-Z_]+)=(.*)$", text_of(root, name), re.M))


def tree(root):
    """Each file and folder, what it has, and when it was changed."""
    found = {}
    for at, folders, files in os.walk(root):
        for name in folders:
            found[os.path.relpath(os.path.join(at, name), root)] = None
        for name in files:
            path = os.path.join(at, name)
            told = os.lstat(path)
            content = os.readlink(path) if os.path.islink(path) else content_of(path)
            found[os.path.relpath(path, root)] = content, told.st_mtime_ns, told.st_mode & 0o777
    return found


def without_times(root):
    return {name: what and (what[0], what[2]) for name, what in tree(root).items()}


@contextlib.contextmanager
def a_root():
    with tempfile.TemporaryDirectory(prefix="lambda_broker.") as root:
        yield root


def ephemeral():
    return int(text_of("/proc/sys/net/ipv4/ip_local_port_range").split()[0])


RUNTIMES = "runtime@my-function:1", "runtime@my-function:2"


@case()
def a_function_is_added_once(broker):
    url = "http://127.0.0.1:1/x?a=$b"
    more = "--environments", 2, "--runtime", "/usr/bin/my-runtime --fast", "--task-root", "/srv/x", "--forward-failure", url, "--dialect", "aws"
    words = *LIMITS, "--arn", ARN, *more, "--threads", "2", "--body-memory", "16", "--clock-grace", "60", "--discard", "success", "--handler", "a.b'$c"
    with a_root() as root:
        told = done(root, "add", "my-function", *words)
        port = int(matches("my-function: callers ([0-9]+), .*", told[-1])[0])
        assert 2000 <= port <= ephemeral() - 20, port
        there = tree(root)
        envs = [f"{ETC}/my-function.env", "etc/lambda_forward/my-function:failure.env"]
        envs += [f"etc/lambda_runtime/my-function:{n}.env" for n in (1, 2)]
        drop_in, *users = (f"{UNITS}/lambda_{of}.service.d/function.conf" for of in ("broker@my-function", *RUNTIMES))
        shared = [f"{ETC}/{name}" for name in ("ports", "nginx.conf", "prometheus.json", "walls/my-function.nft")]
        disk = "var/lib/lambda_broker/my-function/disk"
        same({name for name, what in there.items() if what}, {*envs, drop_in, *users, disk, *shared})
        same([text_of(root, name).splitlines()[1:] for name in users], 2 * [["[Service]", f"User=lambda_{port}"]])
        same({there[name][2] for name in (*envs, disk)}, {0o600})
        wanted = {"PORT": str(port), "ADDRESS": "127.0.0.1", "ADMIN": str(port + 19), "WORDS": "--dialect aws --threads 2 --body-memory 16 --clock-grace 60 --discard success"}
        same(values_of(root, envs[0]), wanted)
        same(values_of(root, envs[1]), {"PORT": str(port), "SIDE": "failure", "URL": url, "WORDS": f"--admin {port + 19}"})
        wanted = {"RUNTIME": "/usr/bin/my-runtime --fast", "EXTENSIONS": "", "AWS_LAMBDA_RUNTIME_API": f"127.0.0.1:{port + 2}"}
        same(values_of(root, envs[3]), {**wanted, "_HANDLER": '"a.b\'\\$c"', "FUNCTION_ARN": ARN, "LAMBDA_TASK_ROOT": "/srv/x"})
        parts = {f"lambda_runtime@my-function:{n}.service" for n in (1, 2)} | {"lambda_forward@my-function:failure.service"}
        found = dict(line.split("=") for line in text_of(root, drop_in).splitlines() if "=" in line)
        same([{*found[key].split()} for key in ("Wants", "PropagatesStopTo")], 2 * [parts])
        same({*found["After"].split()}, {f"lambda_runtime@my-function:{n}.service" for n in (1, 2)})
        same(found["Before"], "lambda_forward@my-function:failure.service")
        same(done(root, "add", "my-function", *words), ["my-function is there already: nothing was changed"])
        same(tree(root), there)
        status, told, why = ctl(root, "add", "my-function", *ADD)
        same((status, told, why.splitlines()[1]), (1, "", "nothing was changed"))
        same(tree(root), there)


QUEUE, BUS = "arn:aws:sqs:us-east-2:123456789012:results", "arn:aws:events:us-east-2:123456789012:event-bus/a/b.c"
OTHER = "arn:aws:lambda:us-east-2:123456789012:function:x:$LATEST"


@case()
def records_go_to_what_arns_name(broker):
    url = "http://127.0.0.1:1/x"
    for words, wanted in (
        (("--on-success", OTHER, "--on-failure", BUS, "--dead-letter", QUEUE), {"success": f"--to {OTHER}", "failure": f"--to {BUS} --dead-letter {QUEUE}"}),
        (("--discard", "success", "--dead-letter", QUEUE), {"failure": f"--dead-letter {QUEUE}"}),
        (("--on-success", QUEUE, "--forward-failure", url, "--dead-letter", QUEUE), {"success": f"--to {QUEUE}", "failure": f"--dead-letter {QUEUE}"}),
    ):
        with a_root() as root:
            told = done(root, "add", "my-function", *LIMITS, "--arn", ARN, *words)
            port = int(matches("my-function: callers ([0-9]+), .*", told[-1])[0])
            found = {side: f"etc/lambda_forward/my-function:{side}.env" for side in ("success", "failure")}
            found = {side: values_of(root, path) for side, path in found.items() if os.path.exists(os.path.join(root, path))}
            urls = {"URL": url} if url in words else {}
            base = {side: {"PORT": str(port), "SIDE": side, **(urls if side == "failure" else {})} for side in wanted}
            same(found, {side: {**base[side], "WORDS": f"--admin {port + 19} {to}"} for side, to in wanted.items()})
            units = {f"lambda_forward@my-function:{side}.service" for side in wanted}
            drop_in = text_of(root, f"{UNITS}/lambda_broker@my-function.service.d/function.conf")
            same({*re.search("^Wants=(.*)$", drop_in, re.M)[1].split()}, units)
            same(done(root, "add", "my-function", *LIMITS, "--arn", ARN, *words), ["my-function is there already: nothing was changed"])
    wrong = ("--on-success", "x"), ("--on-success", f"{QUEUE}.fifo"), ("--on-success", "arn:aws:s3:::bucket"), ("--dead-letter", BUS)
    wrong += ("--on-success", QUEUE, "--forward-success", url), ("--on-success", QUEUE, "--discard", "success"), ("--dead-letter", QUEUE, "--discard", "both")
    with a_root() as root:
        for words in wrong:
            same((words, ctl(root, "add", "my-function", *ADD, *words)[0]), (words, 2))


@case()
def each_function_has_ports_of_its_own(broker):
    with a_root() as root:
        for name in "my-function", "send-mail", "My-Function":
            done(root, "add", name, *SMALL, "--arn", ARN.replace("my-function", name), "--runtime", "/usr/bin/my-runtime")
        lines = done(root, "list")
        ports = {name: int(port) for name, port in (matches("(.*): callers ([0-9]+), .*", line) for line in lines)}
        same(sorted(ports), ["My-Function", "my-function", "send-mail"])
        assert all(abs(one - other) >= 20 for one in ports.values() for other in ports.values() if one != other), ports
        same(len(set(ports.values())), 3)
        told = json.loads(text_of(root, ETC, "prometheus.json"))
        same({each["labels"]["broker"]: each["targets"] for each in told}, {x: [f"127.0.0.1:{p + 19}"] for x, p in ports.items()})
        status, _, why = ctl(root, "add", "other", *ADD, "--port", ports["send-mail"])
        same((status, f"send-mail has ports from {ports['send-mail']} on" in why), (1, True))
        status, _, why = ctl(root, "add", "other", *ADD, "--port", ephemeral() - 10)
        same((status, "where on the system gives ports away" in why), (1, True))
        told = done(root, "remove", "My-Function")
        disk = os.path.join(root, "var/lib/lambda_broker/My-Function/disk")
        wanted = f"My-Function is removed; its disk stays: {disk}, held 0 waiting 0 running 0 success 0 failure 0"
        same(told[-1], wanted)
        text = "".join(line for line in text_of(root, ETC, "nginx.conf").splitlines(True) if not line.startswith("#"))
        two = ports["my-function"], ports["send-mail"]
        same(text.split(), FUNCTIONS.format(*two, *(port + 19 for port in two)).split())
        same({os.path.join(root, name) for name in tree(root) if "My-Function" in name}, {os.path.dirname(disk), disk})
        same(ctl(root, "remove", "My-Function")[0], 1)
        assert f"kept {disk}, as it was formatted" in done(root, "add", "My-Function", *ADD)
        # What the program warns of is told.
        same(ctl(root, "add", "x", *ADD)[2].split(":")[0], "warning")


@case()
def a_step_that_fails_is_undone(broker):
    with a_root() as root:
        done(root, "add", "my-function", *ADD, "--retries", 0)
        told = broker.said("audit", os.path.join(root, "var/lib/lambda_broker/my-function/disk"), "--in-force")[1]
        same(told.splitlines()[-1], "in force retries 0 age 21600")
        there = without_times(root)
        # The program refuses; and what comes behind the disk cannot be written.
        for words, blocked, why in ((("--retries", 3), None, "bad settings: retries"), ((), "x.env.new", "Is a directory")):
            if blocked:
                os.mkdir(os.path.join(root, ETC, blocked))
            status, told, error = ctl(root, "add", "x", *ADD, *words)
            if blocked:
                assert "undone: formatted" in told, told
                os.rmdir(os.path.join(root, ETC, blocked))
            same((status, why in error, error.splitlines()[-1]), (1, True, "all that was done before is undone"))
            same(without_times(root), there)
        wrong = ("--environments", 17), ("--host", "a b"), ("--address", "x"), ("--runtime", "x"), ("--forward-success", "/x")
        wrong += (("--forward-failure", "http://127.0.0.1:1/x", "--discard", "both"),)
        for words in (), ("add", "a/b", *ADD), ("add", "x"), *(("add", "x", *ADD, *more) for more in wrong), ("remove",), ("x",):
            same(ctl(root, *words)[0], 2)
        same(done(root, "list")[0].split(":")[0], "my-function")
        # What was undone is no function whose disk is gone.
        assert any(line.startswith("formatted ") for line in done(root, "add", "x", *SMALL, "--arn", ARN.replace("my-function", "x")))


def unit_words(root, name):
    """The words by which a function's unit serves its disk, and its environment."""
    env = {"DISK": os.path.join(root, f"var/lib/lambda_broker/{name}/disk"), **values_of(root, f"{ETC}/{name}.env")}
    words = re.search("^ExecStart=/usr/bin/lambda_broker (.*)$", text_of(DEPLOY, "lambda_broker@.service"), re.M)[1]
    words = words.replace("$WORDS", env["WORDS"]).replace("%i", name)
    return re.sub(r"\$\{(\w+)\}", lambda found: env[found[1]], words).split(), env


def started(root, *more):
    """A function whose broker is served by the words of its unit: the program, its ports, and its environment."""
    for _ in range(20):
        ports = Ports()
        done(root, "add", "my-function", *ADD, "--port", ports.first, "--dialect", "aws", *more)
        words, env = unit_words(root, "my-function")
        served = subprocess.Popen([Built.program, *words], stdout=subprocess.PIPE, stderr=subprocess.DEVNULL, bufsize=0)
        line = line_of(served)
        if line != "refused: port in use\n":
            same(line, f"serving on 127.0.0.1:{ports.first}\n")
            return served, ports, {"PORT": env["PORT"], "MAINPID": str(served.pid)}
        served.communicate()
        ports.close()
        done(root, "remove", "my-function")
    raise AssertionError("no free ports")


@case()
def a_broker_is_served_and_ended_by_its_unit(broker):
    with a_root() as root:
        served, ports, env = started(root)
        try:
            same(run(sys.executable, CTL, "unit", "serving", env=env), (0, "", ""))
            status, _, why = run(sys.executable, CTL, "unit", "free", env=env)
            same((status, why), (1, f"lambda-broker-ctl: another program listens on port {ports.first}\n"))
            same(Asked(ports.first, "POST", INVOKE, "{}", EVENT).done().status, 202)
            status, told, _ = ctl(root, "status")
            same((status, matches("my-function: serves, ([0-9]+) held, oldest wait .*\n", told)), (0, ("1",)))
            ends = Beside(served.communicate)
            same(run(sys.executable, CTL, "unit", "end", env=env), (0, "", ""))
            ends.done()
            same(served.returncode, 0)
            # What has ended does not serve, and needs no end.
            same(run(sys.executable, CTL, "unit", "serving", env=env)[0], 1)
            same(run(sys.executable, CTL, "unit", "end", env={**env, "MAINPID": ""})[0], 0)
            same(ctl(root, "status")[0], 1)
            told = done(root, "remove", "my-function")
            assert told[-1].endswith("held 1 waiting 1 running 0 success 0 failure 0"), told
        finally:
            served.kill()
            served.wait()
            ports.close()


FILES = """usr/bin/lambda_broker usr/bin/lambda-broker-ctl usr/lib/lambda_broker/lambda_forward usr/lib/lambda_broker/function.py
usr/lib/lambda_broker/function.js usr/lib/lambda_broker/supervise
usr/lib/sysusers.d/lambda_broker.conf
usr/lib/systemd/system/lambda_broker@.service usr/lib/systemd/system/lambda_runtime@.service
usr/lib/systemd/system/lambda_forward@.service usr/lib/systemd/system/lambda_walls.service
usr/lib/systemd/system/nftables.service.d/lambda_broker.conf usr/lib/tmpfiles.d/lambda_broker.conf
usr/share/lambda_broker/walls.nft usr/share/lambda_broker/device.conf usr/share/lambda_broker/consoles/lambda_broker.html
usr/share/lambda_broker/nginx.conf usr/share/lambda_broker/nginx_operators.conf
usr/share/lambda_broker/prometheus.yml usr/share/lambda_broker/prometheus_job.yml
usr/share/lambda_broker/alerts.yml usr/share/lambda_broker/alerts.test.yml
usr/share/man/man8/lambda_broker.8.gz usr/share/man/man8/lambda-broker-ctl.8.gz usr/share/doc/lambda-broker-unproved/copyright
usr/share/doc/lambda-broker-unproved/changelog.gz usr/share/lintian/overrides/lambda-broker-unproved
usr/share/doc/lambda-broker-unproved/CHANGELOG.md.gz usr/share/bash-completion/completions/lambda_broker
usr/share/bash-completion/completions/lambda-broker-ctl usr/share/zsh/vendor-completions/_lambda_broker
usr/share/zsh/vendor-completions/_lambda-broker-ctl""".split()
PAGES = "aws clients containers disks machines replicated running watching".split()
FILES += [f"usr/share/man/man7/lambda_broker-{name}.7.gz" for name in PAGES if name not in ("machines", "running")]
DOCUMENTS = ["README.md", *(f"docs/{name}.md" for name in ("OPERATING", "FORMATS", "GLOSSARY", "NOT_PROVED", "PROMISES"))]
FILES += [f"usr/lib/lambda_broker/{name}" for name in modules("")]
FILES += [f"usr/share/doc/lambda-broker/{name}" for name in (*DOCUMENTS, *(f"docs/operating/{name}.md" for name in PAGES))]


def completed(root, *words):
    """What bash completes the last of these words to."""
    script = 'source "$0"; COMP_WORDS=("$@"); COMP_CWORD=$(($# - 1)); "_${1//-/_}"; printf "%s\\n" "${COMPREPLY[@]}"'
    status, told, why = run("bash", "-c", script, os.path.join(root, "usr/share/bash-completion/completions", words[0]), *words)
    same((status, why), (0, ""))
    return told.split()


def refusals():
    """What `lambda-broker-ctl` refuses with, X for each word that it takes from elsewhere."""
    for node in (node for path in modules("ctl") for node in ast.walk(ast.parse(text_of(DEPLOY, path)))):
        if isinstance(node, ast.Call) and getattr(node.func, "id", "") == "Failed":
            parts = node.args[0].values if isinstance(node.args[0], ast.JoinedStr) else [node.args[0]]
            yield "".join(part.value if isinstance(part, ast.Constant) else "X" for part in parts)


@case()
def each_refusal_of_ctl_stands_in_its_page(broker):
    section = text_of(DEPLOY, "..", "docs", "operating", "machines.md").split("## What lambda-broker-ctl refuses\n")[1].split("\n## ")[0]
    phrases = re.findall("`([^`]*)`", "".join(re.findall("^- (.*?)(?<=`): ", section, re.M)))
    # In the page two dots stand for any words, and so do words in capitals.
    fits = [re.sub(r"(?:\\ )?\\\.\\\.", ".*", re.sub(r"\b[A-Z]+\b", ".*", re.escape(phrase))) for phrase in phrases if not phrase.isupper()]
    # What has no words of its own is what a command said.
    told = [refusal.split("\n")[0] for refusal in refusals() if re.search("[a-z]", refusal)]
    assert len(told) > 20, told
    same([refusal for refusal in told if not any(re.fullmatch(f".*{fit}.*", refusal) for fit in fits)], [])


# What an operator looks up: statuses, refusals, and what stands behind a link.
LOOKED_UP = {
    "man8/lambda_broker.8": ("Exit statuses", "2: the arguments were not understood", "damaged at sector S: Damage (lambda_broker-disks(7),", "--port P"),
    "man8/lambda-broker-ctl.8": ("1: refused, by a line", "only root can do that: Run it as root.", "apt-get install ./lambda-broker_"),
    "man7/lambda_broker-disks.7": ("NAME", "lambda_broker migrate DISK", "puts them back (lambda_broker(8)"),
}


def readings(root):
    """What is wrong with the manual pages below a folder, as `man` shows them."""
    if not shutil.which("man"):
        return []
    wrong, man = [], os.path.join(root, "usr/share/man")
    for path in sorted(os.path.join(at, name) for at, _, names in os.walk(man) for name in names):
        status, told, why = run("man", "--warnings", "-l", path, env={"LC_ALL": "C.UTF-8", "MANWIDTH": "400"})
        wrong += [(path, status, why)] if status or why else []
        # Nothing of Markdown is left, and what is named below /usr is there.
        wrong += [(path, left) for left in re.findall(r"\*\*|\]\([^ )]*\.md|^ *#+ .*", told)]
        named = {name.rstrip(".,;:") for name in re.findall(r"/(usr/(?:share|lib)/(?:doc/)?lambda[-_]broker/[^ ,)\"]*[a-z])", told)}
        wrong += [(path, name) for name in named if not os.path.exists(os.path.join(root, name))]
        pages = {(name, section) for name, section in re.findall(r"(lambda[-_]broker[-a-z]*)\(([78])\)", told)}
        wrong += [(path, page) for page in pages if not os.path.exists(f"{man}/man{page[1]}/{page[0]}.{page[1]}.gz")]
        wanted = LOOKED_UP.get(os.path.relpath(path, man).removesuffix(".gz"), ())
        wrong += [(path, text) for text in wanted if text not in told]
    return wrong


def dead_links(root):
    """The links of the package's pages that lead to no file of it."""
    top, dead = os.path.join(root, "usr/share/doc/lambda-broker"), []
    for at, _, names in os.walk(top):
        for name in names:
            if not name.endswith(".md"):
                continue
            for target in re.findall(r"\]\(([^)\s#:]+)[^)\s:]*\)", text_of(at, name)):
                path = os.path.join(root, target[1:]) if target.startswith("/") else os.path.join(at, target)
                dead += [(name, target)] if not os.path.exists(path) else []
    return dead


def packaged(folder):
    """The program that is tested with a stamp, and its package."""
    program = os.path.join(folder, "lambda_broker")
    put_program(program, content_of(Built.program))
    stamp = "--unproved", "--again", "--commit", "abcdef123456", "--date", "20261130", "--kit", "x logic y"
    same(run(sys.executable, os.path.join(DEPLOY, "stamp"), program, *stamp)[0], 0)
    status, told, why = run(sys.executable, os.path.join(DEPLOY, "package"), "--unproved", program, folder)
    same((status, status and why), (0, 0))
    return program, matches(f"({re.escape(folder)}/.*[.]deb)\n", told)[0]


PROGRAMS = "usr/bin/lambda-broker-ctl", "usr/lib/lambda_broker/supervise", "usr/lib/lambda_broker/lambda_forward"


def helps(root, program, folder):
    """What an installed program says of itself, found through a link and from another folder, and what that of the checkout says."""
    name = os.path.basename(program)
    link = os.path.join(folder, name)
    os.symlink(os.path.join(root, program), link)
    return {run(sys.executable, path, "--help", cwd=folder) for path in (link, os.path.join(root, program), os.path.join(DEPLOY, name))}


@case()
def the_package_has_what_an_operator_needs(broker):
    if not shutil.which("dpkg-deb"):
        raise Apart("there is no dpkg-deb")
    with a_root() as folder, a_root() as root:
        program, made = packaged(folder)
        told = dict(re.findall("^([A-Z][A-Za-z-]+): (.*)$", run("dpkg-deb", "-f", made)[1], re.M))
        matches(r"libc6 \(>= 2\.[0-9]+\), libgcc-s1, passwd, python3, systemd", told["Depends"])
        same(run("dpkg-deb", "-R", made, root)[0], 0)
        scripts = ["DEBIAN/postinst", "DEBIAN/prerm", "DEBIAN/postrm"]
        same({name for name, what in tree(root).items() if what}, {*FILES, *scripts, "DEBIAN/control"})
        same([run("sh", "-n", os.path.join(root, name))[0] for name in scripts], [0, 0, 0])
        same(filecmp.cmp(os.path.join(root, "usr/bin/lambda_broker"), program, shallow=False), True)
        units = "".join(text_of(root, name) for name in FILES if name.endswith(".service"))
        run_by_units = {path[1:] for path in re.findall("^Exec[A-Z][A-Za-z]*=-?(/[^ ]+)", units, re.M)} - {"bin/sh", "usr/sbin/nft"}
        same(run_by_units - {*FILES}, set())
        commands = {"trial", "format", "audit", "configure", "migrate", "copy", "probe", "serve", "stop"}
        with gzip.open(os.path.join(root, "usr/share/man/man8/lambda_broker.8.gz"), "rt") as file:
            page = file.read().replace("\\-", "-")
        same({*re.findall("^[.]SS (.*)$", page, re.M)}, commands)
        with a_root() as other:
            told = [helps(root, name, other) for name in PROGRAMS]
        same([[status for status, _, _ in of] for of in told], len(PROGRAMS) * [[0]])
        same(readings(root), [])
        same(dead_links(root), [])
        same({*completed(root, "lambda_broker", "")}, {*commands, "--help"})
        for command in commands:
            options = {*re.findall("^ +(?:-., )?(--[a-z-]+)", broker.said(command, "--help")[1], re.M)}
            same({*completed(root, "lambda_broker", command, "--")}, options)
            assert all(f".B {option}" in page for option in options - {"--help"}), command
        same(completed(root, "lambda_broker", "serve", "--dialect", ""), ["profile", "aws"])
        same({*completed(root, "lambda-broker-ctl", "")}, {"add", "remove", "list", "status", "reload", "--help"})
        assert "--forward-success" in completed(root, "lambda-broker-ctl", "add", "--f")
