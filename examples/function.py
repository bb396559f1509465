#!/usr/bin/env python3
"""A runtime for a function of your own in Python: it calls that with each event, and answers with its result or with its error.

Usage: function.py PORT FOLDER HANDLER    The handler app.main is the function `main` of FOLDER/app.py, src/app.main that of
FOLDER/src/app.py. It is called with the event and a context, as by AWS Lambda. What it prints or raises is on its standard output
and error. Without words AWS_LAMBDA_RUNTIME_API, LAMBDA_TASK_ROOT and _HANDLER say the same, the first as HOST:PORT. It ends where
its broker goes: a supervisor starts it again.

Results are rendered as by AWS's runtime: bytes are the answer as they stand, within a result they are text, and a Decimal is a
number. But a result with NaN or an infinity is no JSON, and so an error, Runtime.MarshalError. A handler that is async is refused,
as AWS's runtime calls none: one that is not can say `asyncio.run(work(event))`.
"""
import contextlib
import decimal
import importlib
import inspect
import json
import os
import sys
import time
import traceback
from http.client import HTTPConnection, HTTPException

API = "/2018-06-01/runtime/invocation"
TRACE = "_X_AMZN_TRACE_ID"
# An integer of more digits is not spelled out.
MOST_DIGITS = 400


class Told:
    """An object with these attributes, each None where nothing is told of it."""

    def __init__(self, names, told):
        for name in names.split():
            setattr(self, name, told.get(name))


class Context:
    """What a handler is told beside the event. What AWS tells by variables is None where these are not set, but for the name, which
    stands in the ARN."""

    def __init__(self, headers):
        self.aws_request_id = headers["Lambda-Runtime-Aws-Request-Id"]
        self.invoked_function_arn = headers["Lambda-Runtime-Invoked-Function-Arn"]
        self.deadline = int(headers["Lambda-Runtime-Deadline-Ms"])
        parts = self.invoked_function_arn.split(":")
        self.function_name = os.environ.get("AWS_LAMBDA_FUNCTION_NAME") or (parts[6] if len(parts) > 6 else None)
        self.function_version = os.environ.get("AWS_LAMBDA_FUNCTION_VERSION", "$LATEST")
        self.memory_limit_in_mb = os.environ.get("AWS_LAMBDA_FUNCTION_MEMORY_SIZE")
        self.log_group_name = os.environ.get("AWS_LAMBDA_LOG_GROUP_NAME")
        self.log_stream_name = os.environ.get("AWS_LAMBDA_LOG_STREAM_NAME")
        self.identity = self.identity_of(json.loads(headers.get("Lambda-Runtime-Cognito-Identity") or "{}"))
        self.client_context = self.client_of(json.loads(headers.get("Lambda-Runtime-Client-Context") or "null"))

    def identity_of(self, told):
        names = {"cognito_identity_id": told.get("cognitoIdentityId"), "cognito_identity_pool_id": told.get("cognitoIdentityPoolId")}
        return Told("cognito_identity_id cognito_identity_pool_id", names)

    def client_of(self, told):
        if told is None:
            return None
        made = Told("client custom env", told)
        made.client = made.client and Told("installation_id app_title app_version_name app_version_code app_package_name", made.client)
        return made

    def get_remaining_time_in_millis(self):
        return max(0, self.deadline - int(1000 * time.time()))

    def log(self, text):
        sys.stdout.write(str(text))


def load(folder, name):
    """The handler of this name."""
    os.chdir(folder)
    sys.path[0] = os.getcwd()
    module, dot, function = name.rpartition(".")
    if not dot or not module or not function:
        sys.exit(f"Runtime.MalformedHandlerName: Bad handler '{name}': it is told as module.function, as app.main or src/app.main")
    handler = getattr(importlib.import_module(module.replace("/", ".")), function, None)
    if handler is None:
        sys.exit(f"Runtime.HandlerNotFound: Handler '{function}' missing on module '{module}'")
    if is_async(handler):
        sys.exit(f"The handler {name} is async, which AWS's runtime for Python does not run: call asyncio.run(..) in one that is not")
    return handler


def is_async(handler):
    """Whether a call makes a coroutine or the like, which has done nothing yet."""
    calls = handler, getattr(handler, "func", None), getattr(handler, "__call__", None)
    return any(inspect.iscoroutinefunction(call) or inspect.isasyncgenfunction(call) for call in calls)


def plain(text):
    """A text that UTF-8 has: half of a surrogate pair stands as its escape."""
    return text.encode(errors="backslashreplace").decode()


def told(why):
    """What an error says, if it can."""
    try:
        return str(why)
    except Exception as other:
        return f"its text was not told: {type(other).__name__}"


def error(message, type, trace):
    record = {"errorMessage": plain(message), "errorType": plain(type), "stackTrace": [plain(line) for line in trace]}
    return "error", json.dumps(record, ensure_ascii=False).encode()


def rendered(value):
    """What JSON has in place of a value that it does not have."""
    if isinstance(value, bytes):
        return value.decode()
    if isinstance(value, decimal.Decimal):
        is_whole = value.is_finite() and value.adjusted() < MOST_DIGITS and value == value.to_integral_value()
        return int(value) if is_whole else float(value)
    if inspect.iscoroutine(value):
        value.close()
    raise TypeError(f"Object of type {type(value).__name__} is not JSON serializable")


def marshalled(answer):
    """A result as bytes. Of NaN, and of half of a surrogate pair, a record would make a string of the whole result."""
    if isinstance(answer, bytes):
        return answer
    return json.dumps(answer, allow_nan=False, ensure_ascii=False, default=rendered).encode()


def answer_of(handler, event, context):
    try:
        answer = handler(json.loads(event), context)
    except Exception as why:
        with contextlib.suppress(OSError, ValueError):
            traceback.print_exc()
        return error(told(why), type(why).__name__, traceback.format_tb(why.__traceback__.tb_next))
    try:
        return "response", marshalled(answer)
    except Exception as why:
        with contextlib.suppress(OSError, ValueError):
            traceback.print_exc()
        return error(f"Unable to marshal response: {told(why)}", "Runtime.MarshalError", [])


def ask(broker, method, path, body=None):
    broker.request(method, f"{API}/{path}", body)
    reply = broker.getresponse()
    return reply.status, reply.headers, reply.read()


def note_trace(headers):
    """Has libraries find the trace of the event."""
    os.environ[TRACE] = headers.get("Lambda-Runtime-Trace-Id", "")
    if not os.environ[TRACE]:
        del os.environ[TRACE]


def serve_one(broker, handler):
    status, headers, event = ask(broker, "GET", "next")
    if status != 200:
        sys.exit(f"next: {status} {event.decode()}")
    # The broker closes a connection that is idle for two minutes. The answer opens another one.
    broker.close()
    note_trace(headers)
    context = Context(headers)
    path, answer = answer_of(handler, event, context)
    if ask(broker, "POST", f"{context.aws_request_id}/{path}", answer)[0] == 413:
        path, answer = error(f"an answer of {len(answer)} bytes is too large", "Function.ResponseSizeTooLarge", [])
        ask(broker, "POST", f"{context.aws_request_id}/{path}", answer)


def main():
    if len(sys.argv) not in (1, 4):
        sys.exit(__doc__)
    if len(sys.argv) == 4:
        address, folder, handler = f"127.0.0.1:{sys.argv[1]}", *sys.argv[2:]
    else:
        address, folder, handler = (os.environ[name] for name in ("AWS_LAMBDA_RUNTIME_API", "LAMBDA_TASK_ROOT", "_HANDLER"))
    sys.stdout.reconfigure(line_buffering=True)
    handler, broker = load(folder, handler), HTTPConnection(address)
    try:
        while True:
            serve_one(broker, handler)
    except (OSError, HTTPException) as why:
        sys.exit(f"the broker is gone: {why}")


main()
