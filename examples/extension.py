#!/usr/bin/env python3
"""An extension in Python: it registers for INVOKE and SHUTDOWN, and prints each event until the environment is shut down.

Start it before the runtime of its environment. Usage: extension.py [PORT [NAME]]    Without PORT the broker's port of the
environment is that of AWS_LAMBDA_RUNTIME_API, which is HOST:PORT, as for the extensions of AWS Lambda.
"""
import json
import os
import sys
from http.client import HTTPConnection

API = "/2020-01-01/extension"


def ask(broker, method, path, body=None, headers=None):
    broker.request(method, path, body, headers or {})
    reply = broker.getresponse()
    return reply.status, reply.headers, reply.read()


def register(broker, name):
    events = json.dumps({"events": ["INVOKE", "SHUTDOWN"]})
    status, headers, body = ask(
        broker, "POST", f"{API}/register", events, {"Lambda-Extension-Name": name}
    )
    if status != 200:
        sys.exit(f"register: {status} {body.decode()}")
    return headers["Lambda-Extension-Identifier"]


def main():
    name = sys.argv[2] if len(sys.argv) > 2 else "printer"
    broker = HTTPConnection(f"127.0.0.1:{sys.argv[1]}" if len(sys.argv) > 1 else os.environ["AWS_LAMBDA_RUNTIME_API"])
    me = {"Lambda-Extension-Identifier": register(broker, name)}
    while True:
        status, _, body = ask(broker, "GET", f"{API}/event/next", headers=me)
        print(status, body.decode(), flush=True)
        if status != 200 or json.loads(body)["eventType"] == "SHUTDOWN":
            return


main()
