"""Places that take records: services of AWS."""
from __future__ import annotations

import dataclasses
import enum
import re
import sys
import time
from collections.abc import Mapping
from typing import Any, Tuple, Union

from ..arns import ARN
from .asking import KINDS, Request, until
from .hooks import TooLarge
from .records import MOST_MESSAGE, Record
from .words import Words

# Of how many records a batch is, and how many bytes all services take of one.
BATCH, BATCH_BYTES = 10, 255 << 10
# How a service tells that a record is too large: by its status, by the error's code, or in words.
LARGE_STATUS, LARGE_CODES = 413, re.compile("Request(?:Entity)?TooLarge(?:Exception)?|(?:.*[.])?BatchRequestTooLong(?:Exception)?")
LARGE_WORDS = re.compile("must be shorter than|message too long|entries in the request is over the limit", re.I)


class Alone(enum.Enum):
    """What becomes of a record that was refused in a batch for what it is: it is sent by itself."""

    ALONE = enum.auto()


# None where a record is taken, why it is not, or that it is sent alone; and what a call is answered, and why it was not.
Verdict = Union[None, str, Alone]
Attempt = Tuple[Mapping[str, Any], Union[str, None]]


def all_alone(count: int) -> list[Verdict]:
    return [Alone.ALONE for _ in range(count)]


@dataclasses.dataclass
class Answer:
    """What a service says of one entry of a batch: its id, or its error, and whether that is the entry's own."""

    id: str | None = None
    code: str | None = None
    text: str | None = None
    is_own: bool = False

    def verdict(self) -> Verdict:
        if self.id:
            return None
        return Alone.ALONE if self.is_own else ": ".join(filter(None, (self.code, self.text)))


def plain(text: str) -> str:
    """A text of JSON as SQS takes it, which refuses two characters that JSON has: as escapes they say the same."""
    return text.replace("\ufffe", "\\ufffe").replace("\uffff", "\\uffff")


def attribute(kind: str, text: str) -> dict[str, str]:
    return {"DataType": kind, "StringValue": text}


def attributes_of(record: Record, seconds: int | None) -> dict[str, dict[str, str]]:
    """What AWS puts beside a dead letter. The message is cut where its first KiB ends, and has no character that SQS refuses."""
    told = {"RequestID": attribute("String", record.event), "ErrorCode": attribute("Number", "200")}
    message = re.sub("[^\t\n\r -\ud7ff\ue000-\ufffd\U00010000-\U0010ffff]", "\ufffd", record.message(seconds))
    message = message.encode()[:MOST_MESSAGE].decode(errors="ignore")
    return {**told, "ErrorMessage": attribute("String", message)} if message else told


def refusal_of(why: Exception) -> str:
    """In words why boto3 had no answer."""
    told = getattr(why, "response", None) or {}
    error, status = told.get("Error", {}), told.get("ResponseMetadata", {}).get("HTTPStatusCode")
    code, message = str(error.get("Code", type(why).__name__)), str(error.get("Message") or why)
    text = f"{code}: {' '.join(message.split())[:200]}"
    is_large = status == LARGE_STATUS or LARGE_CODES.fullmatch(code) or error and LARGE_WORDS.search(message)
    return TooLarge(text) if is_large else text


class AttemptSeconds:
    """How long an attempt may last, which the words for an event without an answer have. The broker is asked for it once."""

    def __init__(self, words: Words) -> None:
        self.metrics = f"http://127.0.0.1:{words.admin}/metrics"
        self.seconds: int | None = None

    def of(self, record: Record) -> int | None:
        """It is asked for where a record has no answer."""
        while not record.has_answer() and not self.seconds:
            told = until("reading the timeout", lambda status: status == 200, Request(self.metrics)).body
            found = re.search(rb"^lambda_broker_timeout_seconds (\d+)$", told, re.M)
            self.seconds = int(found[1]) if found else None
            if not found:
                time.sleep(1)  # While a flush hangs the port does not tell it.
        return self.seconds


def client_of(kind: str, region: str, words: Words) -> Any:
    """boto3's client of a service."""
    try:
        import boto3
        from botocore.config import Config
    except ImportError:
        sys.exit("lambda_forward: there is no boto3 for this Python, which ARNs need: Debian has it as python3-boto3")
    proxies = {"proxies": {scheme: f"http://{words.proxy}" for scheme in KINDS}} if words.proxy else {}
    config = Config(connect_timeout=words.timeout, read_timeout=words.timeout, max_pool_connections=max(10, words.jobs), **proxies)
    try:
        return boto3.client(kind, region_name=region, endpoint_url=words.endpoint_url, config=config)
    except Exception as why:
        sys.exit(f"lambda_forward: boto3: {why}")


class Service:
    """A service of AWS, by boto3."""

    most, verb = BATCH, "sending {} to {}"

    def __init__(self, arn: str, words: Words, seconds: AttemptSeconds) -> None:
        self.arn = self.url = arn
        self.kind, self.region, self.account, self.name = re.findall(ARN.format("[a-z]+", ".+"), arn)[0]
        self.client, self.side, self.seconds = client_of(self.kind, words.region or self.region, words), words.side, seconds

    def attempt(self, call: str, **words: Any) -> Attempt:
        """What a call is answered, and why it was not."""
        try:
            return getattr(self.client, call)(**words), None
        except Exception as why:
            # Whatever boto3 raises, nothing is known to be taken.
            return {}, refusal_of(why)

    def send_one(self, record: Record) -> str | None:
        """None where a record is taken, else why not."""
        raise NotImplementedError

    def send_batch(self, records: list[Record]) -> list[Verdict]:
        """The same of each of several, or that it is sent alone."""
        raise NotImplementedError

    def send(self, records: list[Record]) -> list[str | None]:
        """Of each record None where it is taken, else why not. What a batch has refused for what it is, is sent by itself."""
        told: list[Verdict] = self.send_batch(records) if len(records) > 1 else [Alone.ALONE]
        return [self.send_one(record) if isinstance(why, Alone) else why for record, why in zip(records, told)]

    def judge(self, count: int, answers: dict[int, Answer], why: str | None) -> list[Verdict]:
        """What becomes of each of a batch, by its answers."""
        if isinstance(why, TooLarge):
            return all_alone(count)
        return [why or (answers[at].verdict() if at in answers else "it was not answered") for at in range(count)]


class Messages(Service):
    """A queue or a topic, which takes records, or dead letters."""

    CALLS = {"sqs": ("send_message", "send_message_batch", "Entries", "MessageBody")}
    CALLS |= {"sns": ("publish", "publish_batch", "PublishBatchRequestEntries", "Message")}

    def __init__(self, arn: str, words: Words, seconds: AttemptSeconds, takes_payloads: bool = False) -> None:
        super().__init__(arn, words, seconds)
        self.single, self.batch, self.entries, self.body = self.CALLS[self.kind]
        self.target = {"TopicArn": arn} if self.kind == "sns" else {}
        self.takes_payloads = takes_payloads

    def find(self) -> str | None:
        """Asks for the URL of a queue, once: why it is not known."""
        if self.target:
            return None
        told, why = self.attempt("get_queue_url", QueueName=self.name, QueueOwnerAWSAccountId=self.account)
        self.target = {"QueueUrl": told["QueueUrl"]} if told.get("QueueUrl") else {}
        return why or (None if self.target else "its URL was not told")

    def content(self, record: Record) -> dict[str, Any]:
        seconds = self.seconds.of(record)
        if self.takes_payloads:
            return {self.body: plain(record.payload()), "MessageAttributes": attributes_of(record, seconds)}
        return {self.body: plain(record.as_aws(seconds))}

    def send_one(self, record: Record) -> str | None:
        why = self.find()
        if why:
            return why
        told, why = self.attempt(self.single, **self.target, **self.content(record))
        return None if told.get("MessageId") else why or "no id of the message"

    def send_batch(self, records: list[Record]) -> list[Verdict]:
        entries = [{"Id": str(at), **self.content(record)} for at, record in enumerate(records)]
        why = self.find()
        if why:
            return self.judge(len(records), {}, why)
        told, why = self.attempt(self.batch, **self.target, **{self.entries: entries})
        answers = {int(one["Id"]): Answer(one.get("MessageId"), text="no id") for one in told.get("Successful", ())}
        for one in told.get("Failed", ()):
            answers[int(one["Id"])] = Answer(None, one.get("Code"), one.get("Message"), bool(one.get("SenderFault")))
        return self.judge(len(records), answers, why)


class Bus(Service):
    """An event bus."""

    # The errors of an entry that are not its own.
    PASSING = "InternalFailure", "InternalException", "ThrottlingException"

    def entry(self, record: Record) -> dict[str, Any]:
        how = "Success" if self.side == "success" else "Failure"
        detail, resources = record.as_aws(self.seconds.of(record)), [record.told["requestContext"]["functionArn"], self.arn]
        kind = {"Source": "lambda", "DetailType": f"Lambda Function Invocation Result - {how}"}
        return {**kind, "Resources": resources, "Detail": detail, "EventBusName": self.arn}

    def send_batch(self, records: list[Record]) -> list[Verdict]:
        told, why = self.attempt("put_events", Entries=[self.entry(record) for record in records])
        answers = {}
        for at, one in enumerate(told.get("Entries", ())):
            code = one.get("ErrorCode")
            is_own = len(records) > 1 and bool(code) and code not in self.PASSING
            answers[at] = Answer(one.get("EventId"), code, one.get("ErrorMessage") or "no id", is_own)
        return self.judge(len(records), answers, why)

    def send_one(self, record: Record) -> str | None:
        told, why = self.attempt("put_events", Entries=[self.entry(record)])
        one = (told.get("Entries") or [{}])[0]
        error = one.get("ErrorCode"), one.get("ErrorMessage") or "no id of the event"
        return None if one.get("EventId") else why or ": ".join(filter(None, error))


class Function(Service):
    """A function, of which each record becomes an event."""

    most = 1

    def send_one(self, record: Record) -> str | None:
        content = record.as_aws(self.seconds.of(record)).encode()
        told, why = self.attempt("invoke", FunctionName=self.arn, InvocationType="Event", Payload=content)
        if why is None and "Payload" in told:
            told["Payload"].read()
        is_taken = told.get("StatusCode") == 202 and told.get("ResponseMetadata", {}).get("RequestId")
        return None if is_taken else why or f"{told.get('StatusCode')}, and no id of the invocation"

    def send_batch(self, records: list[Record]) -> list[Verdict]:
        return all_alone(len(records))


SERVICES = {"sqs": Messages, "sns": Messages, "events": Bus, "lambda": Function}
