#!/usr/bin/env python3
"""A service that speaks the wire protocols of SQS, SNS, Lambda and EventBridge, as boto3 does, as far as a forwarder of records
asks: in JSON, and SQS and SNS as forms with replies in XML, as older boto3. What it takes it writes to a log before it answers.

Usage: services.py PORT LOG
"""
import hashlib
import http.server
import json
import os
import re
import sys
import threading
import time
import uuid
from urllib.parse import parse_qsl, unquote
from xml.sax.saxutils import escape


def refuse(status, code, message):
    """Refuses a request whole."""

    def answer(handler, _):
        handler.fail(status, code, message)

    return answer


def take(handler, asked):
    handler.take(asked)


def hang(handler, asked):
    """Takes all and says nothing."""
    for entry in asked.entries:
        handler.server.note(asked, entry)
    handler.server.over.wait()


def take_and_break_off(handler, asked):
    for entry in asked.entries:
        handler.server.note(asked, entry)
    handler.close_connection = True


def take_without_ids(handler, asked):
    handler.take(asked, gives_ids=False)


def login_page(handler, _):
    handler.tell(200, b"<html>please log in</html>", "text/html")


def log_of(path):
    """A log. A line that a kill cut off is ended as no other is, so that the next one is none of it."""
    log = open(path, "a+")
    end = os.fstat(log.fileno()).st_size
    if end and os.pread(log.fileno(), 1, end - 1) != b"\n":
        log.write(" was cut off\n")
        log.flush()
    return log


class Services(http.server.ThreadingHTTPServer):
    """Does to a request what it is told, for one after another, and the last of it for all behind. A request for the URL of a queue
    is answered in any case. `judge` refuses an entry of a batch: code, message, and whether it is the sender's fault."""

    daemon_threads = True

    def __init__(self, *answers, port=0, log=None):
        self.answers, self.asked, self.over, self.lock = list(answers) or [take], [], threading.Event(), threading.Lock()
        self.judge, self.taken = (lambda entry: None), []
        self.log = log_of(log) if log else None
        super().__init__(("127.0.0.1", port), Handler)

    @property
    def url(self):
        return f"http://127.0.0.1:{self.server_port}"

    def note(self, asked, entry):
        """Takes an entry: its id."""
        id = str(uuid.uuid4())
        with self.lock:
            self.taken.append({"kind": asked.kind, "call": asked.call, "target": asked.target, "id": id, **entry})
            if self.log:
                self.log.write(json.dumps(self.taken[-1]) + "\n")
                self.log.flush()
        return id

    def begin(self):
        threading.Thread(target=self.serve_forever, args=(0.02,), daemon=True).start()
        return self

    def close(self):
        self.over.set()
        self.shutdown()
        self.server_close()

    def handle_error(self, *words):
        """A client that goes away is no fault."""


def members(form, prefix):
    """A list of a form: what stands behind each of its numbers, in their order."""
    found = {}
    for name, value in form.items():
        at = re.fullmatch(re.escape(prefix) + r"\.(?:member\.|entry\.)?(\d+)\.(.*)", name)
        if at:
            found.setdefault(int(at[1]), {})[at[2]] = value
    return [found[at] for at in sorted(found)]


def attributes_of_form(form, prefix):
    wanted = {one["Name"]: one for one in members(form, prefix)}
    return {name: {"DataType": one["Value.DataType"], "StringValue": one["Value.StringValue"]} for name, one in wanted.items()}


class Asked:
    """A request in the words of all its protocols: which service, which call, whom, and the entries that are to be taken."""

    def __init__(self, headers, path, body):
        self.is_form = headers.get("Content-Type", "").startswith("application/x-www-form-urlencoded")
        name = headers.get("X-Amz-Target", "")
        if self.is_form:
            self.read_form(dict(parse_qsl(body.decode(), keep_blank_values=True)))
        elif name:
            self.kind, self.call = {"AmazonSQS": "sqs", "AWSEvents": "events"}[name.split(".")[0]], name.split(".")[1]
            self.read_json(json.loads(body))
        else:
            self.kind, self.call, self.target = "lambda", headers["X-Amz-Invocation-Type"], unquote(path.split("/")[3])
            self.entries = [{"at": "0", "body": body.decode()}]
        self.is_batch = self.call in ("SendMessageBatch", "PublishBatch", "PutEvents")

    def read_json(self, told):
        self.target, self.entries = told.get("QueueUrl", "").split("/")[-1] or told.get("QueueName"), []
        if self.kind == "events":
            self.target = {one["EventBusName"] for one in told["Entries"]}.pop()
            self.entries = [{"at": str(at), "body": one["Detail"], "event": one} for at, one in enumerate(told["Entries"])]
        elif self.call != "GetQueueUrl":
            for one in told.get("Entries", [told]):
                self.entries.append({"at": one.get("Id", "0"), "body": one["MessageBody"], "attributes": one.get("MessageAttributes", {})})

    def read_form(self, form):
        self.call = form["Action"]
        self.kind = "sns" if "TopicArn" in form else "sqs"
        self.target = form.get("TopicArn") or form.get("QueueUrl", "").split("/")[-1] or form.get("QueueName")
        text, attributes = ("Message", "MessageAttributes") if self.kind == "sns" else ("MessageBody", "MessageAttribute")
        lists = members(form, "PublishBatchRequestEntries") + members(form, "SendMessageBatchRequestEntry")
        entries = lists or ([form] if text in form else [])
        self.entries = [{"at": one.get("Id", "0"), "body": one[text], "attributes": attributes_of_form(one, attributes)} for one in entries]


class Handler(http.server.BaseHTTPRequestHandler):
    protocol_version = "HTTP/1.1"

    def do_POST(self):
        length = int(self.headers["Content-Length"])
        body = self.rfile.read(length)
        if len(body) < length:
            # A client that is killed may have sent the head alone: no service takes what has not come whole.
            self.close_connection = True
            return None
        self.asked = asked = Asked(self.headers, self.path, body)
        if asked.call == "GetQueueUrl":
            return self.answer({"QueueUrl": f"{self.server.url}/123456789012/{asked.target}"})
        self.server.asked.append(asked)
        return self.server.answers[min(len(self.server.asked), len(self.server.answers)) - 1](self, asked)

    def tell(self, status, body, kind, **headers):
        self.send_response(status)
        for name, value in {"Content-Type": kind, "Content-Length": str(len(body)), "x-amzn-RequestId": str(uuid.uuid4()), **headers}.items():
            self.send_header(name, value)
        self.end_headers()
        self.wfile.write(body)

    def fail(self, status, code, message):
        if self.asked.is_form:
            text = f"<ErrorResponse><Error><Type>Sender</Type><Code>{escape(code)}</Code><Message>{escape(message)}</Message></Error></ErrorResponse>"
            return self.tell(status, text.encode(), "text/xml")
        body = json.dumps({"__type": code, "message": message, "Type": "User"}).encode()
        return self.tell(status, body, "application/json", **{"x-amzn-ErrorType": code})

    def answer(self, told):
        """A reply with these members, of which some are lists."""
        if not self.asked.is_form:
            return self.tell(200, json.dumps(told).encode(), "application/x-amz-json-1.0")
        text = ""
        for name, value in told.items():
            inner = [f"<{name}>{escape(str(value))}</{name}>"] if not isinstance(value, list) else []
            for one in value if isinstance(value, list) else ():
                inner.append("".join(f"<{key}>{escape(str(of).lower() if of in (True, False) else str(of))}</{key}>" for key, of in one.items()))
            if isinstance(value, list) and self.asked.kind == "sns":
                inner = [f"<{name}>{''.join(f'<member>{one}</member>' for one in inner)}</{name}>"]
            elif isinstance(value, list):
                tag = "SendMessageBatchResultEntry" if name == "Successful" else "BatchResultErrorEntry"
                inner = [f"<{tag}>{one}</{tag}>" for one in inner]
            text += "".join(inner)
        call = self.asked.call
        return self.tell(200, f"<{call}Response><{call}Result>{text}</{call}Result></{call}Response>".encode(), "text/xml")

    def take(self, asked, gives_ids=True):
        good, bad = [], []
        for entry in asked.entries:
            refused = self.server.judge(entry)
            if refused and not asked.is_batch:
                return self.fail(400, *refused[:2])
            id = None if refused else self.server.note(asked, entry)
            (bad if refused else good).append((entry, refused or (id if gives_ids else "")))
        return getattr(self, f"reply_{asked.kind}")(asked, good, bad)

    def reply_lambda(self, asked, good, _):
        id = good[0][1]
        self.tell(202, b"", "application/json", **{"x-amzn-RequestId": id})

    def reply_events(self, asked, good, bad):
        told = {entry["at"]: {"EventId": id} for entry, id in good}
        told |= {entry["at"]: {"ErrorCode": code, "ErrorMessage": message} for entry, (code, message, _) in bad}
        self.answer({"FailedEntryCount": len(bad), "Entries": [told[entry["at"]] for entry in asked.entries]})

    def reply_sqs(self, asked, good, bad):
        def of(entry, id):
            return {"MessageId": id, "MD5OfMessageBody": hashlib.md5(entry["body"].encode()).hexdigest()}

        if not asked.is_batch:
            return self.answer(of(*good[0]))
        failed = [{"Id": entry["at"], "SenderFault": own, "Code": code, "Message": message} for entry, (code, message, own) in bad]
        return self.answer({"Successful": [{"Id": entry["at"], **of(entry, id)} for entry, id in good], "Failed": failed})

    reply_sns = reply_sqs

    def log_message(self, *words):
        pass


def main():
    if len(sys.argv) != 3:
        sys.exit(__doc__)
    for _ in range(600):
        try:
            server = Services(port=int(sys.argv[1]), log=sys.argv[2])
            break
        except OSError:
            time.sleep(0.1)
    print(os.getpid(), flush=True)
    server.serve_forever()


if __name__ == "__main__":
    main()
