#!/usr/bin/env python3
"""A runtime in Python: it answers each event with the number of its members, and reports what is no object as an error.

Usage: runtime.py [PORT [COUNT]]    Without PORT the broker's port of the environment is that of AWS_LAMBDA_RUNTIME_API,
which is HOST:PORT, as for the runtimes of AWS Lambda.
"""
import json
import os
import sys
from http.client import HTTPConnection

API = "/2018-06-01/runtime"


def handle(event):
    if not isinstance(event, dict):
        raise TypeError("the event is no object")
    return {"members": len(event)}


def ask(broker, method, path, body=None):
    broker.request(method, path, body)
    reply = broker.getresponse()
    return reply.status, reply.headers, reply.read()


def serve_one(broker):
    status, headers, body = ask(broker, "GET", f"{API}/invocation/next")
    if status != 200:
        sys.exit(f"next: {status} {body.decode()}")
    event = headers["Lambda-Runtime-Aws-Request-Id"]
    try:
        path, answer = "response", handle(json.loads(body))
    except Exception as fault:
        path, answer = "error", {"errorMessage": str(fault), "errorType": type(fault).__name__}
    ask(broker, "POST", f"{API}/invocation/{event}/{path}", json.dumps(answer))


def main():
    count = int(sys.argv[2]) if len(sys.argv) > 2 else None
    broker = HTTPConnection(f"127.0.0.1:{sys.argv[1]}" if len(sys.argv) > 1 else os.environ["AWS_LAMBDA_RUNTIME_API"])
    while count is None or count > 0:
        serve_one(broker)
        count = count and count - 1


main()
