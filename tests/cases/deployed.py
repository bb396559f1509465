"""What stands in `deploy/` as it is deployed: the units by systemd's own tool; two brokers behind nginx, with long polls and a
forwarder; and Prometheus with its page, by the configurations of the documents.
"""
import base64
import contextlib
import json
import os
import re
import shutil
import subprocess
import tempfile
import time
from urllib.parse import quote

from cases.proxy import before
from harness import ARN, DEADLINE, EVENT, HERE, RUNTIME, Apart, Asked, Broker, Built, case, matches, same, until

TOP = os.path.join(HERE, "..")
DEPLOY = os.path.join(TOP, "deploy")
# What the units run, and where it is here.
INSTALLED = {"/usr/bin/lambda-broker-ctl": os.path.join(DEPLOY, "lambda-broker-ctl"), "/usr/bin/lambda_broker": None}
INSTALLED |= {"/usr/lib/lambda_broker/supervise": os.path.join(DEPLOY, "supervise")}
INSTALLED |= {"/usr/lib/lambda_broker/lambda_forward": os.path.join(DEPLOY, "lambda_forward"), "/usr/sbin/nft": "/bin/true"}
# How many seconds a poll is parked behind nginx, which by itself waits for 60; deploy/check has it park for longer.
PARKED = int(os.environ.get("LAMBDA_BROKER_PARKED", "65"))
SEND_MAIL = ARN.replace("my-function", "send-mail")


def text_of(*path):
    with open(os.path.join(TOP, *path), encoding="utf-8") as file:
        return file.read()


def apart_without(*programs):
    for program in programs:
        if not shutil.which(program):
            raise Apart(f"there is no {program}")


# Units

UNITS = sorted(name for name in os.listdir(DEPLOY) if name.endswith(".service"))


@contextlib.contextmanager
def units():
    """Each unit as that of a function, running what is here in place of what a package installs."""
    with tempfile.TemporaryDirectory(prefix="lambda_broker.") as folder:
        paths = []
        for name in UNITS:
            text = text_of("deploy", name)
            for installed, here in INSTALLED.items():
                text = re.sub(f"={installed}(?= |$)", f"={here or Built.program}", text, flags=re.M)
            paths.append(os.path.join(folder, name.replace("@", "@my-function")))
            with open(paths[-1], "w", encoding="utf-8") as file:
                file.write(text)
        yield dict(zip(UNITS, paths))


def analyzed(*words):
    """The status of systemd's tool, and what it says."""
    done = subprocess.run(["systemd-analyze", *words], capture_output=True, text=True, timeout=DEADLINE, env={**os.environ, "LC_ALL": "C.UTF-8"})
    return done.returncode, done.stdout, done.stderr


@case()
def systemd_takes_each_unit(broker):
    apart_without("systemd-analyze")
    with units() as paths:
        for name, path in paths.items():
            status, _, told = analyzed("verify", path)
            same((name, status, [line for line in told.splitlines() if name.split("@")[0] in line]), (name, 0, []))


@case()
def what_units_run_is_little_exposed(broker):
    apart_without("systemd-analyze")
    with units() as paths:
        for name in "lambda_broker@.service", "lambda_forward@.service", "lambda_runtime@.service":
            status, told, why = analyzed("security", "--offline=true", "--no-pager", "--threshold=25", paths[name])
            if "unrecognized option" in why:
                raise Apart("systemd-analyze is too old")
            level = matches("(?s).*Overall exposure level for .*: ([0-9.]+) .*", told)[0]
            same((name, level, status), (name, level, 0))


# nginx


@contextlib.contextmanager
def two(broker, *words, **settings):
    """The proxy of this broker and of a second one, that of send-mail."""
    apart_without("nginx")
    with contextlib.closing(Broker(name="send-mail", arn=SEND_MAIL, **settings)) as second:
        second.serve("--dialect", "aws")
        with before(broker.serve(*words), second=second) as proxy:
            yield proxy, second


@case({"events": 64})
def each_function_has_its_own_events_behind_nginx(broker):
    with two(broker, events=64) as (proxy, second):
        parts = "", "function:", "123456789012:", "123456789012:function:"
        for served, names in ((broker, ("my-function", ARN)), (second, (*(part + "send-mail" for part in parts), SEND_MAIL))):
            names = [name + end for name in names for end in ("", ":$LATEST")]
            told = [proxy.invoke(spelling) for name in names for spelling in (name, quote(name, safe=""))]
            same([reply.status for reply in told], len(told) * [202])
            for reply in told:
                same(served.next().id, reply.id)
                same(served.respond(reply.id, "1").status, 202)
        same([each.number("events_accepted_total") for each in (broker, second)], [8, 20])
        # What else a broker answers is not let through.
        others = ("POST", "/broker/stop"), ("GET", "/broker/destinations/success"), ("GET", "/"), ("GET", "/metrics"), ("GET", "/events")
        same([Asked(proxy.port, *words).done().status for words in others], 5 * [404])
        large = Asked(proxy.port, "POST", "/2015-03-31/functions/send-mail/invocations", 70000 * b"1", EVENT).done()
        same((large.status, large.headers["X-Amzn-ErrorType"]), (413, "RequestTooLargeException"))


@case(slow=True)
def a_poll_stays_parked_behind_nginx(broker):
    apart_without("nginx")
    with before(broker.serve()) as proxy:
        poll = Asked(proxy.runtimes, "GET", f"{RUNTIME}/invocation/next")
        broker.until_parked(1)
        time.sleep(PARKED)
        event = proxy.invoke("my-function").id
        same((poll.done().status, poll.done().id), (200, event))
        told = Asked(proxy.runtimes, "POST", f"{RUNTIME}/invocation/{event}/response", "1").done()
        same((told.status, broker.record().json["responsePayload"]), (202, 1))


@case({"events": 64})
def a_forwarder_that_dies_loses_no_record_behind_nginx(broker):
    with two(broker, events=64, payload=4096) as (proxy, second):
        url = f"http://127.0.0.1:{proxy.port}/2015-03-31/functions/send-mail/invocations"
        for more in (), ("--admin", str(broker.admin), "--jobs", "2"):
            events = {broker.live("{}", "1") for _ in range(4)}
            words = [os.path.join(DEPLOY, "lambda_forward"), str(broker.port), "success", url, *more]
            for last in False, False, True:
                forwarder = subprocess.Popen(words, stderr=subprocess.DEVNULL)
                before_it = second.number("events_accepted_total")
                try:
                    # One is killed as soon as it has posted something, or once it has collected all.
                    until("a record", lambda: broker.record().status == 204 or not last and second.number("events_accepted_total") > before_it)
                finally:
                    forwarder.kill()
                    forwarder.wait()
            given = set()
            while events - given:
                event = second.next()
                same(second.respond(event.id, "1").status, 202)
                given.add(event.json["requestContext"]["requestId"])
            same(given, events)
            while second.number('events{standing="waiting"}'):
                same(second.respond(second.next().id, "1").status, 202)


# Prometheus


def promtool(path):
    apart_without("promtool")
    done = subprocess.run(["promtool", "check", "config", path], capture_output=True, text=True, timeout=DEADLINE)
    return done.returncode, done.stdout + done.stderr


def documented():
    """The lines that watching.md has for a configuration that is there."""
    found = re.search(r"\n\n((?:    .*\n)*?    rule_files:\n(?:    .*\n)+)", text_of("docs", "operating", "watching.md"))[1]
    return re.sub("^    ", "", found, flags=re.M)


# A configuration as Debian has it.
THERE = """global:
  scrape_interval: 15s
rule_files:
scrape_configs:
  - job_name: prometheus
    static_configs:
      - targets: ['localhost:9090']
"""


def joined():
    """The same with what the document adds, each part behind its key."""
    rules, jobs = matches("rule_files:\n((?:  .*\n)+)scrape_configs:\n((?:  .*\n)+)", documented())
    return THERE.replace("rule_files:\n", f"rule_files:\n{rules}").replace("scrape_configs:\n", f"scrape_configs:\n{jobs}")


def put(folder, name, text, targets=()):
    """A configuration with the paths of this machine, which looks each second."""
    with open(os.path.join(folder, "functions.json"), "w", encoding="utf-8") as file:
        json.dump(targets, file)
    text = text.replace("/etc/lambda_broker/prometheus.json", f"{folder}/functions.json").replace("15s", "1s")
    text = re.sub("- (?:/usr/share/lambda_broker/)?alerts", f"- {os.path.abspath(DEPLOY)}/alerts", text)
    path = os.path.join(folder, name)
    with open(path, "w", encoding="utf-8") as file:
        file.write(text)
    return path


def job_in(text):
    """The job of the brokers, without its interval."""
    found = re.search(r"  - job_name: lambda_broker\n(?:    .*\n)+", text)[0]
    return found.replace("    scrape_interval: 15s\n", "")


@case()
def the_job_is_one_in_each_configuration(broker):
    job = job_in(text_of("deploy", "prometheus.yml"))
    same([job_in(text) for text in (text_of("deploy", "prometheus_job.yml"), documented())], [job, job])
    with tempfile.TemporaryDirectory(prefix="lambda_broker.") as folder:
        for name, text in (("whole", text_of("deploy", "prometheus.yml")), ("joined", joined()), ("job", text_of("deploy", "prometheus_job.yml"))):
            status, told = promtool(put(folder, f"{name}.yml", text))
            same((name, status, status and told), (name, 0, 0))


class Prometheus:
    """Prometheus with a configuration, and with a folder of its own in which the page of the brokers is linked."""

    def __init__(self, folder, text, port, brokers):
        targets = [{"targets": [f"127.0.0.1:{each.admin}"], "labels": {"broker": name}} for name, each in brokers.items()]
        config, consoles = put(folder, "prometheus.yml", text, targets), os.path.join(folder, "consoles")
        os.mkdir(consoles)
        os.symlink(os.path.abspath(os.path.join(DEPLOY, "consoles", "lambda_broker.html")), os.path.join(consoles, "lambda_broker.html"))
        words = ["prometheus", f"--config.file={config}", f"--storage.tsdb.path={folder}/data", f"--web.console.templates={consoles}"]
        self.port = port
        self.started = subprocess.Popen([*words, f"--web.listen-address=127.0.0.1:{port}"], stderr=subprocess.DEVNULL)

    def close(self):
        self.started.kill()
        self.started.wait()

    def ask(self, path, port=None, headers=None):
        with contextlib.suppress(OSError):
            return Asked(port or self.port, "GET", path, None, headers).done()

    def query(self, text):
        """The values that it has of this, or none while it does not answer."""
        reply = self.ask(f"/api/v1/query?query={quote(text)}")
        return [float(each["value"][1]) for each in reply.json["data"]["result"]] if reply and reply.status == 200 else []

    def rows(self, port=None, headers=None):
        """The brokers on its page, and what it says is wrong with each."""
        page = self.ask("/consoles/lambda_broker.html", port, headers)
        found = re.findall('<a href="/brokers/([^/]+)/">.*?<td class="words">(.*?)</td>', page.body.decode() if page else "", re.S)
        return [(name, re.findall("<span>(.*?)</span>", words)) for name, words in found]

    def until_rows(self, wanted):
        until(f"{wanted} in place of {self.rows()}", lambda: self.rows() == wanted)


@contextlib.contextmanager
def watched(broker, text):
    """Prometheus beside two brokers, and their proxy."""
    apart_without("prometheus")
    with two(broker) as (proxy, second), tempfile.TemporaryDirectory(prefix="lambda_broker.") as folder:
        brokers = {"my-function": broker, "send-mail": second}
        with contextlib.closing(Prometheus(folder, text, proxy.prometheus, brokers)) as prometheus:
            yield prometheus, proxy, second


@case()
def prometheus_shows_all_brokers_on_one_page(broker):
    with watched(broker, text_of("deploy", "prometheus.yml")) as (prometheus, proxy, second):
        # Nobody has polled yet.
        prometheus.until_rows([("my-function", ["nobody_polls"]), ("send-mail", ["nobody_polls"])])
        same(prometheus.query('up{job="lambda_broker"}'), [1, 1])

        def grown():
            same(broker.delete(broker.live("{}", "1")).status, 204)
            return prometheus.query('increase(lambda_broker_events_accepted_total{broker="my-function"}[1m]) > 0')

        until("a count that grows", grown)
        # What is wrong comes first, here that of the second: its table is full, and callers are told so.
        for status in [202] * 16 + [429]:
            same(proxy.invoke("send-mail").status, status)
        until("what is wrong", lambda: "table_full" in dict(prometheus.rows()).get("send-mail", ()))
        same(prometheus.rows()[0][0], "send-mail")
        word = {"Authorization": f"Basic {base64.b64encode(b'me:secret').decode()}"}
        same([name for name, _ in prometheus.rows(proxy.operators, word)], ["send-mail", "my-function"])
        same(prometheus.ask("/consoles/lambda_broker.html", proxy.operators).status, 401)
        told = [prometheus.ask(f"/brokers/{name}/healthz", proxy.operators, word).status for name in ("my-function", "send-mail", "other")]
        same(told, [200, 200, 404])
        same(prometheus.query('ALERTS{alertstate="firing"}'), [])


@case()
def prometheus_takes_the_brokers_beside_what_it_has(broker):
    with watched(broker, joined()) as (prometheus, _, _):
        prometheus.until_rows([("my-function", ["nobody_polls"]), ("send-mail", ["nobody_polls"])])
        until("its own job", lambda: len(prometheus.query('up{job="prometheus"}')) == 1)
        wanted = {*re.findall("^ *- alert: (.*)$", text_of("deploy", "alerts.yml"), re.M)}
        rules = prometheus.ask("/api/v1/rules").json["data"]["groups"]
        same({rule["name"] for group in rules for rule in group["rules"] if rule["type"] == "alerting"}, wanted)
