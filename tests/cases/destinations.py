"""`deploy/lambda_forward` to services of AWS, by boto3: what each is sent, and that a record is collected once its id is there, and not
before. The services are a stub of the tests, which speaks their protocols, a second broker, and where it is, moto.
"""
import contextlib
import json
import os
import random
import re
import socket
import subprocess
import sys
import time

from cases.dialect import in_dialect, read_as_sample, unanswered
from cases.forwarding import Forwarder, Hook, tell
from harness import ARN, DEADLINE, HERE, Apart, Broker, Kept, Ports, Skipped, case, line_of, same, until
from services import Services, hang, login_page, refuse, take, take_and_break_off, take_without_ids

FORWARD = os.path.join(HERE, "..", "deploy", "lambda_forward")
PLACE = "us-east-2:123456789012"
QUEUE, TOPIC = f"arn:aws:sqs:{PLACE}:results", f"arn:aws:sns:{PLACE}:results"
FUNCTION, BUS = f"arn:aws:lambda:{PLACE}:function:send-mail", f"arn:aws:events:{PLACE}:event-bus/results"
SERVICES = QUEUE, TOPIC, FUNCTION, BUS
BATCHED = QUEUE, TOPIC, BUS
# Nothing of this machine's own settings, and one try of boto3, so that those of the forwarder are seen.
KEYS = {"AWS_ACCESS_KEY_ID": "any", "AWS_SECRET_ACCESS_KEY": "any", "AWS_MAX_ATTEMPTS": "1", "AWS_EC2_METADATA_DISABLED": "true"}
KEYS |= {"AWS_CONFIG_FILE": "/dev/null", "AWS_SHARED_CREDENTIALS_FILE": "/dev/null", "NO_PROXY": "*", "no_proxy": "*"}
# How AWS's documents have a failure of their sample.
ERROR = '{"errorMessage":"no such order","errorType":"ValueError"}'


def python_with(module):
    """A Python that has this module."""
    for python in sys.executable, "/usr/bin/python3":
        if not subprocess.run([python, "-c", f"import {module}"], stderr=subprocess.DEVNULL).returncode:
            return python
    raise Skipped(f"there is no {module}")


class ToService(Forwarder):
    """The forwarder of one side of a broker to a service."""

    def __init__(self, broker, *words, side="success", env=None):
        self.told = open(os.path.join(broker.folder, "forwarded"), "a+")
        self.told.truncate(0)
        words = [python_with("boto3"), FORWARD, broker.port, side, "--admin", broker.admin, *words]
        self.process = subprocess.Popen(list(map(str, words)), stderr=self.told, env={**os.environ, **KEYS, **(env or {})})


@contextlib.contextmanager
def forwarding(broker, services, *words, **more):
    forwarder = ToService(broker, *words, "--endpoint-url", services.url, **more)
    try:
        yield forwarder
    finally:
        forwarder.close()


@contextlib.contextmanager
def services_of(*answers):
    services = Services(*answers).begin()
    try:
        yield services
    finally:
        services.close()


def until_collected(broker, side="success"):
    until(f"the collection of each {side}", lambda: broker.record(side).status == 204)


def in_awss_words(broker, side="success"):
    """The record that a caller is told in the dialect of AWS."""
    return broker.record(side).body.decode()


@case({"retries": 0, "environments": 1})
def each_service_is_sent_what_aws_sends(broker):
    in_dialect(broker)
    for arn in SERVICES:
        for side, path, answer in ("success", "response", '{"sent":true}'), ("failure", "error", ERROR):
            event = broker.live('{"order": 1}', answer, path=path)
            record = in_awss_words(broker, side)
            with services_of() as services, forwarding(broker, services, "--to", arn, side=side) as forwarder:
                until_collected(broker, side)
                same((len(services.taken), forwarder.said()), (1, ""))
                taken = services.taken[0]
                same((arn, taken["body"], json.loads(taken["body"])["requestContext"]["requestId"]), (arn, record, event))
                target = "results" if arn == QUEUE else arn
                same((taken["target"], taken.get("attributes", {})), (target, {}))
                if arn == FUNCTION:
                    same(taken["call"], "Event")
                if arn == BUS:
                    kind = f"Lambda Function Invocation Result - {side.capitalize()}"
                    wanted = {"Source": "lambda", "DetailType": kind, "Resources": [f"{ARN}:$LATEST", BUS], "Detail": record, "EventBusName": BUS}
                    same(taken["event"], wanted)


@case({"retries": 0, "timeout": 1})
def what_had_no_answer_is_told_as_aws_tells_it(broker):
    in_dialect(broker)
    event = broker.invoke('{"order": 1}').id
    same(broker.next().id, event)
    record = until("a record", lambda: broker.record("failure").status == 200 and in_awss_words(broker, "failure"))
    same(json.loads(record)["responsePayload"]["errorMessage"], unanswered(event, "1.00 seconds"))
    with services_of() as services, forwarding(broker, services, "--to", QUEUE, "--dead-letter", QUEUE, side="failure"):
        until_collected(broker, "failure")
        letter, told = services.taken
        same(told["body"], record)
        same((letter["body"], letter["attributes"]["ErrorMessage"]["StringValue"]), ('{"order": 1}', unanswered(event, "1.00 seconds")))


@case()
def what_gives_no_id_leaves_the_record(broker):
    broker.serve()
    refused = refuse(400, "InvalidAddress", "no such place"), refuse(503, "ServiceUnavailable", "not now"), refuse(403, "AccessDenied", "not you")
    for arn in SERVICES:
        others = (refuse(302, "x", "y"),) if arn == FUNCTION else (take_without_ids, login_page)
        answers = *refused, take_and_break_off, *others
        with services_of(*(one for answer in answers for one in (answer, take))) as services, forwarding(broker, services, "--to", arn) as forwarder:
            for n in range(len(answers)):
                event = broker.live("{}", "1")
                forwarder.until_told(f"sending {event} to {arn}: ")
                until_collected(broker)
                same((arn, len(services.asked), ids_in(services.taken)[-1]), (arn, 2 * n + 2, event))
                assert re.search(f"sending {event} to {re.escape(arn)}: .*: again in 1 s\n$", forwarder.said()), forwarder.said()


@case()
def what_never_answers_is_left_after_the_timeout(broker):
    broker.serve()
    for arn in SERVICES:
        event = broker.live("{}", "1")
        with services_of(hang, hang, take) as services, forwarding(broker, services, "--to", arn, "--timeout", 0.5) as forwarder:
            forwarder.until_told(f"sending {event} to {arn}: ReadTimeoutError")
            until("another try", lambda: len(services.taken) > 1)
            until_collected(broker)
            # On a busy machine what is taken may come too late, too.
            assert len(services.asked) >= 3, services.asked


def ids_in(taken):
    return [json.loads(one["body"])["requestContext"]["requestId"] for one in taken]


@case({"events": 64})
def each_entry_of_a_batch_is_judged_by_itself(broker):
    broker.serve("--acts")
    for arn in BATCHED:
        events = [broker.live(f"{n}", "1") for n in range(40)]
        wrong = {}

        def judge(entry):
            # A third of them once, for a while or for what they are.
            number = int(json.loads(entry["body"])["requestPayload"])
            wrong[number] = wrong.get(number, 0) + 1
            passing = number % 6 == 0
            code = ("InternalFailure" if arn == BUS else "InternalError") if passing else "InvalidArgument"
            return (code, "not this one", not passing) if number % 3 == 0 and wrong[number] == 1 else None

        with services_of() as services:
            services.judge = judge
            with forwarding(broker, services, "--to", arn, "--jobs", 2) as forwarder:
                until_collected(broker)
                same(sorted(ids_in(services.taken)), sorted(events))
                sizes = [len(asked.entries) for asked in services.asked]
                assert max(sizes) == 10 and len(sizes) < 40, sizes
                # What a batch had refused for itself goes at once by itself, and is not told. A batch may be of one.
                told = re.findall(r"sending \S+(?: and (\d+) more)? to .*: (\S+): not this one: again in 1 s", forwarder.said())
                same(sum(1 + int(more or 0) for more, code in told if code.startswith("Internal")), 7)
                same({more for more, code in told if not code.startswith("Internal")} - {""}, set())


@case({"events": 64})
def one_job_keeps_the_order_of_the_ends(broker):
    broker.serve("--acts")
    for arn in SERVICES:
        events = [broker.live("{}", "1") for _ in range(12)]
        with services_of(take, take, refuse(503, "InternalFailure", "not now"), take) as services:
            with forwarding(broker, services, "--to", arn):
                until_collected(broker)
                same((ids_in(services.taken), {len(asked.entries) for asked in services.asked}), (events, {1}))


# How each service says that a record is too large, by its documents; and what else Lambda says.
LARGE = {
    QUEUE: ("InvalidParameterValue", "One or more parameters are invalid. Reason: Message must be shorter than 262144 bytes."),
    TOPIC: ("InvalidParameter", "Invalid parameter: Message too long"),
    FUNCTION: ("RequestTooLargeException", "Request must be smaller than 262144 bytes for the InvokeFunction operation"),
    BUS: ("ValidationException", "Total size of the entries in the request is over the limit."),
}


def refuses_large(arn):
    """A service with a limit, which refuses a request that is above it whole."""

    def answer(handler, asked):
        if any("large" in entry["body"] for entry in asked.entries):
            handler.fail(413 if arn == FUNCTION else 400, *LARGE[arn])
        else:
            handler.take(asked)

    return answer


@case({"events": 64})
def what_is_too_large_is_told_once_and_holds_up_nothing(broker):
    broker.serve("--acts")
    for arn, jobs in [(arn, 1) for arn in SERVICES] + [(arn, 2) for arn in BATCHED]:
        large = [broker.live('"large"', "1"), broker.live('"large"', "2")]
        events = [broker.live("{}", "1") for _ in range(6)]
        with services_of(refuses_large(arn)) as services, forwarding(broker, services, "--to", arn, "--jobs", jobs) as forwarder:
            until("the others", lambda: len(services.taken) == 6)
            events.append(broker.live("{}", "1"))
            until("one more", lambda: len(services.taken) == 7)
            until("the collection", lambda: broker.number('events{standing="success"}') == 2)
            same(sorted(ids_in(services.taken)), sorted(events))
            said = forwarder.said().splitlines()
            same(sorted(line.split()[1] for line in said), sorted(large))
            assert all(f"to {arn}: {LARGE[arn][0]}: " in line and "is too large, and stays" in line for line in said), said
            # Once somebody has collected one, the other stays, and what comes behind it goes.
            same(broker.delete(large[0]).status, 204)
            events.append(broker.live("{}", "1"))
            until("the last one", lambda: len(services.taken) == 8 and broker.number('events{standing="success"}') == 1)
        same(broker.record().json["requestContext"]["requestId"], large[1])
        same(broker.delete(large[1]).status, 204)


@case({"events": 64})
def somebody_takes_what_is_too_large(broker):
    broker.serve("--acts")
    path, hook = os.path.join(broker.folder, "too_large"), Hook(tell(500), tell(200))
    try:
        for taker in path, hook.url, path:
            record = broker.live('{"large":\n\n1}', "1") and broker.look("/records/success").body.strip()
            event = broker.live("{}", "1")
            with services_of(refuses_large(QUEUE)) as services, forwarding(broker, services, "--to", QUEUE, "--too-large", taker) as forwarder:
                until("the other", lambda: ids_in(services.taken) == [event])
                until_collected(broker)
                assert f"is too large, and goes to {taker}" in forwarder.said(), forwarder.said()
                if taker == path:
                    with open(path, "rb") as file:
                        same((file.read().split(b"\n")[-2], os.stat(path).st_mode & 0o777), (record, 0o600))
                    with open(path, "ab") as file:
                        file.write(b'{"a line that broke off')
                else:
                    assert f"putting {json.loads(record)['requestContext']['requestId']}, which is too large" in forwarder.said()
                    same([json.loads(post) for post in hook.posted], 2 * [json.loads(record)])
        with open(path, "rb") as file:
            lines = file.read().split(b"\n")
        same((len(lines), lines[1], json.loads(lines[2])["requestPayload"]), (4, b'{"a line that broke off', {"large": 1}))
    finally:
        hook.close()


def attribute(kind, text):
    return {"DataType": kind, "StringValue": text}


@case({"retries": 0, "response": 8192})
def a_dead_letter_is_the_events_own_payload(broker):
    broker.serve()
    sent = (
        (' {"b": 1.50, "a": [1, "\\u00e9\u00e9"], "b":2 } ', ERROR, '{"b": 1.50, "a": [1, "\\u00e9\u00e9"], "b":2 }', "no such order"),
        # The message is cut behind its first KiB, within no character; and what a message cannot have, or is not, is not sent.
        ("{}", json.dumps({"errorMessage": "a" + 1000 * "\u00e9"}), "{}", "a" + 511 * "\u00e9"),
        ("1", '{"errorMessage":"a\\u0000b\\ufffec"}', "1", "a\ufffdb\ufffdc"),
        ("[]", '{"errorType":"x"}', "[]", ""),
        ("{}", "no JSON", "{}", "no JSON"),
        # A character that SQS refuses is told by its escape.
        ('"\uffff"', ERROR, '"\\uffff"', "no such order"),
    )
    for arn in QUEUE, TOPIC:
        with services_of() as services, forwarding(broker, services, "--dead-letter", arn, side="failure"):
            for payload, answer, body, message in sent:
                event = broker.live(payload.encode(), answer.encode(), path="error")
                until_collected(broker, "failure")
                wanted = {"RequestID": attribute("String", event), "ErrorCode": attribute("Number", "200")}
                wanted |= {"ErrorMessage": attribute("String", message)} if message else {}
                same((services.taken[-1]["body"], services.taken[-1]["attributes"]), (body, wanted))
            same(len(services.taken), len(sent))


@case({"retries": 0, "events": 64})
def a_failure_is_collected_once_both_have_it(broker):
    broker.serve("--acts")
    hook = Hook(tell(500), tell(200))
    try:
        for words in ("--to", BUS), (hook.url,), ("--to", BUS, "--jobs", 2):
            events = [broker.live("{}", ERROR, path="error") for _ in range(4)]
            with services_of() as services, forwarding(broker, services, *words, "--dead-letter", QUEUE, side="failure"):
                until_collected(broker, "failure")
                letters = [one for one in services.taken if one["kind"] == "sqs"]
                same(sorted(one["attributes"]["RequestID"]["StringValue"] for one in letters), sorted(events))
                others = [one for one in services.taken if one["kind"] != "sqs"]
                same(sorted(ids_in(others)), [] if words == (hook.url,) else sorted(events))
        same(len(hook.posted), 5)
    finally:
        hook.close()


@case()
def a_second_broker_takes_records_by_its_arn(broker):
    broker.serve()
    with contextlib.closing(Broker(name="send-mail", arn=FUNCTION)) as second:
        second.serve("--dialect", "aws")
        event = broker.live('{"a":1}', "ok")
        forwarder = ToService(broker, "--to", FUNCTION, "--endpoint-url", f"http://127.0.0.1:{second.port}")
        try:
            until_collected(broker)
            told = second.next()
            same((told.json["requestContext"]["requestId"], told.json["requestPayload"]), (event, {"a": 1}))
            same(second.respond(told.id, "1").status, 202)
            # A record is more than it takes.
            large, small = broker.live(json.dumps(900 * "x"), json.dumps(900 * "y")), broker.live("{}", "1")
            said = forwarder.until_told(f"sending {large} to {FUNCTION}: RequestTooLargeException: ")
            assert "it is too large, and stays" in said, said
            same(second.next().json["requestContext"]["requestId"], small)
        finally:
            forwarder.close()
        same(broker.record().json["requestContext"]["requestId"], large)


# Kills


class Killable:
    """A service with a log, and a forwarder to it, each of which may be killed at any moment and is started again, as the broker is."""

    def __init__(self, broker, arn, *words):
        self.broker, self.ports, self.arn, self.words = broker, Ports(), arn, words
        self.log = os.path.join(broker.folder, f"log_{arn.split(chr(58))[2]}")
        self.service = self.forwarder = None
        self.serve()
        self.forward()

    def serve(self):
        words = [sys.executable, os.path.join(HERE, "services.py"), str(self.ports.first), self.log]
        self.service = subprocess.Popen(words, stdout=subprocess.PIPE, bufsize=0)
        line_of(self.service)

    def forward(self):
        self.forwarder = ToService(self.broker, "--to", self.arn, "--endpoint-url", f"http://127.0.0.1:{self.ports.first}", *self.words)

    def taken(self):
        """The ids of what the service has taken, each as often as it came. A line that a kill cut off was not answered."""
        with open(self.log) as log:
            lines = log.read().split("\n")[:-1]
        return ids_in(json.loads(line) for line in lines if line.endswith("}"))

    def kill_service(self):
        self.service.kill()
        self.service.communicate()

    def close(self):
        self.forwarder.close()
        self.kill_service()
        self.ports.close()

    def shown(self):
        """What the operator's port shows of the records. While a flush takes long on a busy machine, it shows none."""
        told = self.broker.look("/records/success?limit=1000")
        return told.status == 200 and [told.body.decode()]

    def held(self):
        """The records that the broker has, or that its disk has where it was killed."""
        if self.broker.served:
            told = until("the records", self.shown)[0]
        else:
            status, told = self.broker.said("audit", self.broker.disk, "--records")
            same(status, 0)
        return {json.loads(line)["requestContext"]["requestId"] for line in told.splitlines()}

    def kill_one(self, events):
        """Kills one of the three, looks whether all that was collected was taken, and starts it again."""
        which = random.choice(("broker", "forwarder", "service"))
        if which == "broker":
            self.broker.kill()
        elif which == "forwarder":
            self.forwarder.close()
        else:
            self.kill_service()
        collected = {*events} - self.held()
        same((which, collected - {*self.taken()}), (which, set()))
        if which == "broker":
            self.broker.serve("--acts", ports=self.broker.ports)
        elif which == "forwarder":
            self.forward()
        else:
            self.serve()


# How many records are sent to each service, and how often one of the three is killed meanwhile.
RECORDS, KILLS = int(os.environ.get("LAMBDA_BROKER_RECORDS", "40")), 6


def live_through_kills(broker, arn):
    """So many events end while one of the three is killed now and then: each record is taken, and then collected."""
    with contextlib.closing(Killable(broker, arn, *random.choice(((), ("--jobs", 2))))) as killable:
        events, kills = [], sorted(random.sample(range(RECORDS), KILLS))
        for n in range(RECORDS):
            events.append(broker.live(f"{n}", "1"))
            if n in kills:
                time.sleep(random.random() / 10)
                killable.kill_one(events)
        until("the collection of all", lambda: not killable.held(), 4 * DEADLINE)
        taken = killable.taken()
        same((arn, {*taken} ^ {*events}), (arn, set()))


@case({"events": 1024, "environments": 1, "payload": 64, "response": 64, "sectors": 40000}, slow=True)
def kills_at_random_lose_no_record_and_none_is_collected_before_its_id(broker):
    broker.serve("--acts")
    ports = broker.ports = Kept(broker.ports)
    try:
        for arn in SERVICES:
            live_through_kills(broker, arn)
    finally:
        broker.end()
        ports.ports.close()


# moto, which has services of its own


@contextlib.contextmanager
def moto():
    """moto's server, and how a client of it is made."""
    try:
        import boto3
        python = python_with("moto.server")
    except (ImportError, Skipped):
        raise Apart("there is no moto") from None
    with contextlib.closing(Ports()) as ports, open(os.devnull, "w") as null:
        url = f"http://127.0.0.1:{ports.first}"
        served = subprocess.Popen([python, "-m", "moto.server", "-H", "127.0.0.1", "-p", str(ports.first)], stdout=null, stderr=null)
        try:
            until("moto's server", lambda: is_open(ports.first))
            keys = {"aws_access_key_id": "any", "aws_secret_access_key": "any", "region_name": "us-east-2"}
            yield url, lambda kind: boto3.client(kind, endpoint_url=url, **keys)
        finally:
            served.kill()
            served.wait()


def is_open(port):
    with socket.socket() as probe:
        return not probe.connect_ex(("127.0.0.1", port))


def received(queues, queue, count):
    """So many messages of a queue."""
    found = []

    def look():
        more = queues.receive_message(QueueUrl=queue, MaxNumberOfMessages=10, MessageAttributeNames=["All"]).get("Messages", [])
        for one in more:
            queues.delete_message(QueueUrl=queue, ReceiptHandle=one["ReceiptHandle"])
        found.extend(more)
        return len(found) >= count

    until(f"{count} messages", look)
    same(len(found), count)
    return found


def set_up(client):
    """A queue at moto, in which all ends up that is sent to it, to a topic or to a bus; and one that takes only little."""
    queues, topics, buses = client("sqs"), client("sns"), client("events")
    queue = queues.create_queue(QueueName="results")["QueueUrl"]
    queues.create_queue(QueueName="small", Attributes={"MaximumMessageSize": "1024"})
    topics.create_topic(Name="results")
    topics.subscribe(TopicArn=TOPIC, Protocol="sqs", Endpoint=QUEUE, Attributes={"RawMessageDelivery": "true"})
    buses.create_event_bus(Name="results")
    kinds = [f"Lambda Function Invocation Result - {how}" for how in ("Success", "Failure")]
    pattern = json.dumps({"source": ["lambda"], "detail-type": kinds})
    buses.put_rule(Name="all", EventBusName="results", EventPattern=pattern)
    buses.put_targets(Rule="all", EventBusName="results", Targets=[{"Id": "1", "Arn": QUEUE}])
    return queues, queue


@case({"retries": 0, "events": 64})
def motos_services_take_each_record(broker):
    with moto() as (url, client):
        queues, queue = set_up(client)
        in_dialect(broker, "--acts")
        for arn in BATCHED:
            for jobs in 1, 2:
                events = [broker.live("{}", ERROR, path="error") for _ in range(12)]
                forwarder = ToService(broker, "--to", arn, "--jobs", jobs, "--endpoint-url", url, side="failure")
                try:
                    bodies = [json.loads(one["Body"]) for one in received(queues, queue, 12)]
                    until_collected(broker, "failure")
                    same((arn, forwarder.said()), (arn, ""))
                finally:
                    forwarder.close()
                if arn == BUS:
                    heads = {(one["source"], one["detail-type"], *one["resources"]) for one in bodies}
                    same(heads, {("lambda", "Lambda Function Invocation Result - Failure", f"{ARN}:$LATEST", BUS)})
                    bodies = [one["detail"] for one in bodies]
                read = [read_as_sample(one) for one in bodies]
                same(sorted(read), sorted((event, "RetriesExhausted", 1, "no such order") for event in events))


@case({"retries": 0})
def motos_queues_take_dead_letters_and_refuse_what_is_too_large(broker):
    with moto() as (url, client):
        queues, queue = set_up(client)
        in_dialect(broker)
        letter, large = broker.live('{"order":1}', ERROR, path="error"), broker.live(json.dumps(900 * "x"), '{"errorMessage":"x"}', path="error")
        small = QUEUE.replace("results", "small")
        forwarder = ToService(broker, "--dead-letter", QUEUE, "--to", small, "--endpoint-url", url, side="failure")
        try:
            first, second = received(queues, queue, 2)
            same((first["Body"], second["Body"]), ('{"order":1}', json.dumps(900 * "x")))
            told = {name: (one["DataType"], one["StringValue"]) for name, one in first["MessageAttributes"].items()}
            same(told, {"RequestID": ("String", letter), "ErrorCode": ("Number", "200"), "ErrorMessage": ("String", "no such order")})
            said = forwarder.until_told(f"sending {large} to {small}: ")
            assert "it is too large, and stays" in said, said
            until("the collection of the other", lambda: broker.number('events{standing="retries_exhausted"}') == 1)
        finally:
            forwarder.close()
        same(broker.record("failure").json["requestContext"]["requestId"], large)


# Words


@case()
def words_that_go_with_no_service_are_usage_faults(broker):
    admin = "--admin", 2
    for words in (
        ("--to", QUEUE), ("--to", "x", *admin), ("--to", f"{QUEUE}.fifo", *admin), ("--to", "arn:aws:s3:::bucket", *admin),
        ("--to", f"arn:aws:lambda:{PLACE}:layer:x", *admin), ("--to", f"{QUEUE}\n", *admin), ("--to", "arn:aws:sqs:us-east-2:1:q", *admin),
        ("http://h/", "--to", QUEUE, *admin), ("--dead-letter", QUEUE, *admin), ("http://h/", "--too-large", "x"), ("http://h/", "--region", "x"),
        ("http://h/", "--endpoint-url", "http://h/"), ("--to", QUEUE, *admin, "--endpoint-url", "h"), ("--to", QUEUE, *admin, "--too-large", "ftp://h"),
    ):
        done = subprocess.run([FORWARD, "1", "success", *map(str, words)], capture_output=True, text=True, timeout=DEADLINE)
        same((words, done.returncode, "usage:" in done.stderr), (words, 2, True))
    done = subprocess.run([FORWARD, "1", "failure", "--dead-letter", BUS, "--admin", "2"], capture_output=True, text=True, timeout=DEADLINE)
    same((done.returncode, "ARN of sqs, sns" in done.stderr), (2, True))


@case()
def without_boto3_it_says_so(broker):
    with open(os.path.join(broker.folder, "boto3.py"), "w") as file:
        file.write("raise ImportError('none')\n")
    words = [FORWARD, "1", "success", "--to", QUEUE, "--admin", "2"]
    done = subprocess.run(words, capture_output=True, text=True, timeout=DEADLINE, env={**os.environ, "PYTHONPATH": broker.folder})
    same((done.returncode, "there is no boto3" in done.stderr), (1, True))
