"""The runtimes, extensions and callers of `examples/`, as they are run by hand."""
import http.server
import json
import os
import subprocess
import sys

from harness import DEADLINE, EXAMPLES, Beside, Skipped, case, needs, same, until


def run(name, *words, **more):
    """Starts one of the examples."""
    # boto3 may be Debian's, also where another Python runs this.
    path = os.pathsep.join(filter(None, [os.environ.get("PYTHONPATH"), "/usr/lib/python3/dist-packages"]))
    env = {**os.environ, **more.pop("env", {}), "PYTHONPATH": path}
    return subprocess.Popen([os.path.join(EXAMPLES, name), *map(str, words)], stdout=subprocess.PIPE, text=True, env=env, **more)


def told_by_boto3(caller, seconds=2 * DEADLINE):
    told = caller.communicate(timeout=seconds)[0]
    if told.startswith("skipped: "):
        raise Skipped("there is no boto3")
    return told.split()


@case()
def the_shell_runtime_and_caller(broker):
    needs("curl")
    broker.serve()
    runtime = run("runtime.sh", broker.port + 1, 1)
    said = run("caller.sh", broker.port, "my-function", '{"say":"hi"}').communicate(timeout=2 * DEADLINE)[0].splitlines()
    runtime.wait(DEADLINE)
    same(said[0][:4], "202 ")
    same(json.loads(said[1])["responsePayload"], {"SAY": "HI"})
    same(said[2], "204")


@case()
def the_python_runtime_and_extension(broker):
    broker.serve()
    extension = run("extension.py", broker.port + 1)
    broker.until_parked(1)
    runtime = run("runtime.py", broker.port + 1, 2)
    good, bad = broker.invoke('{"a":1,"b":2}'), broker.invoke("[]")
    runtime.wait(DEADLINE)
    record = broker.record().json
    same((record["responsePayload"], record["requestContext"]["requestId"]), ({"members": 2}, good.id))
    broker.until_parked(1)
    same(broker.stop(), (202, 0, ""))
    told = [line.split(" ", 1) for line in extension.communicate(timeout=DEADLINE)[0].splitlines()]
    same([json.loads(body)["eventType"] for _, body in told], ["INVOKE", "INVOKE", "SHUTDOWN"])
    same([json.loads(body).get("requestId") for _, body in told[:2]], [good.id, bad.id])


HANDLER = """
def main(event, context):
    return {"id": context.aws_request_id, "twice": 2 * event["name"]}
"""


def serve_with_handler(broker):
    with open(os.path.join(broker.folder, "app.py"), "w") as file:
        file.write(HANDLER)
    broker.serve()


@case({"retries": 0})
def the_runtime_of_a_handler_in_a_folder(broker):
    serve_with_handler(broker)
    function = run("function.py", broker.port + 1, broker.folder, "app.main", stderr=subprocess.DEVNULL)
    good, raises, long = (broker.invoke(json.dumps(event)).id for event in ({"name": "a"}, {}, {"name": 900 * "a"}))

    def ended(side, event):
        record = until("a record", lambda: broker.record(side).status == 200 and broker.record(side).json)
        same((record["requestContext"]["requestId"], broker.delete(event).status), (event, 204))
        return record["responsePayload"]

    same(ended("success", good), {"id": good, "twice": "aa"})
    told = ended("failure", raises)
    same((told["errorMessage"], told["errorType"], len(told["stackTrace"])), ("'name'", "KeyError", 1))
    assert f'{broker.folder}/app.py", line 3, in main' in told["stackTrace"][0], told
    same(ended("failure", long)["errorType"], "Function.ResponseSizeTooLarge")
    same(broker.stop(), (202, 0, ""))
    assert function.wait(DEADLINE), "it did not end as a failure"


@case()
def the_runtime_of_a_handler_by_its_variables(broker):
    serve_with_handler(broker)
    variables = {"AWS_LAMBDA_RUNTIME_API": f"127.0.0.1:{broker.port + 1}", "LAMBDA_TASK_ROOT": broker.folder}
    function = run("function.py", env={**variables, "_HANDLER": "app.main"}, stderr=subprocess.DEVNULL)
    event = broker.invoke('{"name":1}').id
    until("a record", lambda: broker.record().status == 200)
    same(broker.record().json["responsePayload"], {"id": event, "twice": 2})
    broker.kill()
    assert function.wait(DEADLINE), "it did not end as a failure"


# What a handler may raise or return, beside what JSON has.
ODD = """
class Silent(Exception):
    def __str__(self):
        raise ValueError("nothing")

def main(event, context):
    if event == "raises":
        raise ValueError("a" + chr(0xDC80) + "\\u00e9")
    if event == "silent":
        raise Silent()
    return {"nan": {"mean": float("nan")}, "infinity": [float("-inf")], "half": chr(0xD83D), "set": {1}, "whole": chr(0x1F600)}[event]
"""


@case({"retries": 0})
def a_handler_answers_what_is_no_json(broker):
    with open(os.path.join(broker.folder, "app.py"), "w") as file:
        file.write(ODD)
    broker.serve()
    function = run("function.py", broker.port + 1, broker.folder, "app.main", stderr=subprocess.DEVNULL)
    try:
        # As AWS's runtime words it, in `errorMessage` as far as that is not Python's own.
        marshal = "Runtime.MarshalError", "Unable to marshal response: "
        odd = {"nan": marshal, "infinity": marshal, "half": marshal, "set": marshal}
        for event, (kind, words) in {**odd, "raises": ("ValueError", "a\\udc80\u00e9"), "silent": ("Silent", "")}.items():
            id = broker.invoke(json.dumps(event)).id
            told = until("a failure", lambda: broker.record("failure").status == 200 and broker.record("failure").json)["responsePayload"]
            same((event, told["errorType"], told["errorMessage"].startswith(words)), (event, kind, True))
            same(broker.delete(id).status, 204)
        # It goes on, and what JSON has comes as it is.
        broker.invoke('"whole"')
        same(until("a success", lambda: broker.record().status == 200 and broker.record().json)["responsePayload"], "\U0001F600")
    finally:
        function.kill()


class Taker(http.server.BaseHTTPRequestHandler):
    """Takes what is posted to it, but for the first time."""

    def do_POST(self):
        self.server.posted.append(self.rfile.read(int(self.headers["Content-Length"])))
        self.send_response(200 if len(self.server.posted) > 1 else 500)
        self.send_header("Content-Length", "0")
        self.end_headers()

    def log_message(self, *words):
        pass


@case()
def the_runtime_by_its_variable_and_the_forwarder(broker):
    broker.serve()
    event = broker.invoke('{"a":1}').id
    runtime = run("runtime.py", env={"AWS_LAMBDA_RUNTIME_API": f"127.0.0.1:{broker.port + 1}"})
    taker = http.server.HTTPServer(("127.0.0.1", 0), Taker)
    taker.posted, taker.timeout = [], 2 * DEADLINE
    forwarder = run("forward.py", broker.port, "success", f"http://127.0.0.1:{taker.server_port}/", stderr=subprocess.DEVNULL)
    try:
        for _ in range(2):
            taker.handle_request()
        until("the collection", lambda: broker.record().status == 204)
        same([json.loads(record)["requestContext"]["requestId"] for record in taker.posted], [event, event])
    finally:
        forwarder.kill()
        runtime.kill()
        taker.server_close()


@case()
def the_caller_by_boto3(broker):
    broker.serve()
    status, id = told_by_boto3(run("caller.py", broker.port, "my-function", '{"a":1}'))
    same((status, broker.next().id), ("202", id))


# A function of whose records nobody has heard: boto3 as it is by default, and more events than the table holds.
BURST = """
import sys
try:
    import boto3
except ImportError:
    sys.exit(print("skipped: boto3 is not installed"))
port, count = sys.argv[1:]
keys = {"aws_access_key_id": "any", "aws_secret_access_key": "any", "region_name": "us-east-2"}
client = boto3.client("lambda", endpoint_url="http://127.0.0.1:" + port, **keys)
for _ in range(int(count)):
    told = client.invoke(FunctionName="my-function", InvocationType="Event", Payload="{}")["StatusCode"]
    assert told == 202, told
print(count)
"""


@case({"events": 64})
def a_burst_by_boto3_over_a_small_table_whose_records_are_discarded(broker):
    broker.serve("--dialect", "aws", "--discard", "success")
    runtime = run("runtime.py", broker.port + 1, 1000)
    burst = os.path.join(broker.folder, "burst.py")
    with open(burst, "w") as file:
        file.write(BURST)
    try:
        same(told_by_boto3(run(sys.executable, burst, broker.port, 1000), 10 * DEADLINE), ["1000"])
        runtime.wait(2 * DEADLINE)
    finally:
        runtime.kill()
    broker.until_number("records_collected_total", 1000)
    same(broker.stop(), (202, 0, ""))
    same(broker.held(), 0)


@case({"events": 1})
def the_caller_by_boto3_tries_a_full_broker_again(broker):
    broker.serve()
    held = broker.invoke("{}").id
    caller = run("caller.py", broker.port, "my-function", "{}")
    told = Beside(told_by_boto3, caller)
    until("a refusal, or the end", lambda: broker.number('refused_total{reason="too_many"}') or not told.is_alive(), 2 * DEADLINE)
    same(broker.next().id, held)
    same(broker.respond(held, "1").status, 202)
    same(broker.delete(held).status, 204)
    same(told.done(2 * DEADLINE)[0], "202")
