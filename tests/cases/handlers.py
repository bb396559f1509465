"""`examples/function.py` and `examples/function.js` run handlers as AWS's runtimes do: context, variables, names, results and errors.
What is awaited is that of AWS's documents and of the sources of its runtimes.
"""
import contextlib
import json
import os
import re
import subprocess

from harness import ARN, DEADLINE, EXAMPLES, HERE, case, needs, same, until

SUPERVISE = os.path.join(HERE, "..", "deploy", "supervise")
TRACE = "Root=1-00000000-000000000000000000000000;Sampled=0"
# What this machine's own environment says of a function is not the case's.
ENV = {name: value for name, value in os.environ.items() if not name.startswith(("AWS_", "_X_AMZN", "LAMBDA_")) and name not in ("TZ", "_HANDLER")}


def put(broker, **files):
    """Files below the broker's folder, each with a text."""
    for name, text in files.items():
        path = os.path.join(broker.folder, name.replace("__", "/").replace("_dot_", "."))
        os.makedirs(os.path.dirname(path), exist_ok=True)
        with open(path, "w", encoding="utf-8") as file:
            file.write(text)


@contextlib.contextmanager
def running(broker, program, handler, *before, **env):
    """A runtime of a broker that is served, or a supervisor of one."""
    variables = {"AWS_LAMBDA_RUNTIME_API": f"127.0.0.1:{broker.port + 1}", "LAMBDA_TASK_ROOT": broker.folder, "_HANDLER": handler}
    with open(os.path.join(broker.folder, "runtime"), "w+") as told:
        words = [*map(str, before), os.path.join(EXAMPLES, program)]
        process = subprocess.Popen(words, env={**ENV, **variables, **env}, stdout=told, stderr=told, start_new_session=True)
        try:
            yield process
        finally:
            process.terminate()
            process.wait(DEADLINE)


def told_by(broker):
    with open(os.path.join(broker.folder, "runtime"), errors="replace") as told:
        return told.read()


def record_of(broker, event, side="success"):
    """The record of an event, which is collected."""

    def look():
        found = broker.record(side)
        return found.status == 200 and found.json

    found = until(f"a {side}", look)
    same((found["requestContext"]["requestId"], broker.delete(event).status), (event, 204))
    return found


def answer(broker, payload):
    """What a function answers to this."""
    return record_of(broker, broker.invoke(json.dumps(payload)).id)["responsePayload"]


def failure(broker, payload):
    """The error's type and message."""
    told = record_of(broker, broker.invoke(json.dumps(payload)).id, "failure")["responsePayload"]
    return told["errorType"], told["errorMessage"]


def refused(broker, program, handler, *parts):
    """A runtime does not begin, and says why."""
    with running(broker, program, handler) as process:
        same((handler, process.wait(DEADLINE)), (handler, 1))
        said = told_by(broker)
        assert all(part in said for part in parts), (handler, said)


def supervised(broker, *more):
    return SUPERVISE, "--broker", f"127.0.0.1:{broker.port + 1}", *more, "--"


# As the logger of AWS's Powertools reads it, and each other member that the Developer Guide has.
CONTEXT = """
import os

class Logger:
    def inject(self, handler):
        def wrapped(event, context):
            names = "function_name", "memory_limit_in_mb", "invoked_function_arn", "aws_request_id"
            return handler(event, context, {name: getattr(context, name) for name in names})
        return wrapped

@Logger().inject
def main(event, context, logged):
    rest = "function_version", "log_group_name", "log_stream_name", "client_context"
    identity = context.identity.cognito_identity_id, context.identity.cognito_identity_pool_id
    env = {name: value for name, value in os.environ.items() if name.startswith(("AWS_", "_X_AMZN", "_H", "TZ"))}
    more = {"identity": identity, "env": env, "left": context.get_remaining_time_in_millis()}
    return {**logged, **{name: getattr(context, name) for name in rest}, **more}
"""
# The same for Node.
NODE_CONTEXT = """
exports.handlers = { main: async (event, context) => {
  const names = ["functionName", "memoryLimitInMB", "invokedFunctionArn", "awsRequestId", "functionVersion", "logGroupName", "logStreamName"];
  const told = Object.fromEntries(names.map((name) => [name.replace("MB", "Mb").replace(/[A-Z]/g, (letter) => "_" + letter.toLowerCase()), context[name]]));
  const env = Object.fromEntries(Object.entries(process.env).filter(([name]) => /^(AWS_|_X_AMZN|_H|TZ)/.test(name)));
  const identity = [null, null];
  return { ...told, client_context: context.clientContext || null, identity, env, left: context.getRemainingTimeInMillis() };
} };
"""


def reads_its_context(broker, program, handler):
    """A handler below folders is told all that AWS tells, under a supervisor with the function's ARN."""
    broker.serve()
    with running(broker, program, handler, *supervised(broker, "--arn", ARN), AWS_REGION="eu-west-1"):
        event = broker.invoke("{}").id
        told = record_of(broker, event)["responsePayload"]
        env = told["env"]
        assert 0 < told.pop("left") <= 900000 and int(told["memory_limit_in_mb"]) > 0, told
        stream = re.fullmatch(r"\d{4}/\d\d/\d\d/\[\$LATEST\][0-9a-f]{32}", told["log_stream_name"])
        assert stream, told
        same(env.pop("AWS_LAMBDA_RUNTIME_API").split(":")[0], "127.0.0.1")
        of_context = {"NAME": told["function_name"], "VERSION": told["function_version"], "MEMORY_SIZE": told["memory_limit_in_mb"]}
        wanted = {f"AWS_LAMBDA_FUNCTION_{name}": value for name, value in of_context.items()}
        wanted |= {"AWS_LAMBDA_LOG_GROUP_NAME": "/aws/lambda/my-function", "AWS_LAMBDA_LOG_STREAM_NAME": told["log_stream_name"]}
        wanted |= {"AWS_LAMBDA_INITIALIZATION_TYPE": "on-demand", "AWS_XRAY_CONTEXT_MISSING": "LOG_ERROR", "TZ": ":UTC", "_HANDLER": handler}
        # What is set already stays.
        same(env, {**wanted, "AWS_REGION": "eu-west-1", "AWS_DEFAULT_REGION": "us-east-2", "_X_AMZN_TRACE_ID": TRACE})
        del told["env"], told["memory_limit_in_mb"], told["log_stream_name"]
        wanted = {"function_name": "my-function", "function_version": "$LATEST", "invoked_function_arn": ARN, "aws_request_id": event}
        same(told, {**wanted, "log_group_name": "/aws/lambda/my-function", "client_context": None, "identity": [None, None]})
    # Without its ARN the name is that of the event's ARN. Of the supervisor a poll is left, which goes with the broker.
    broker.kill()
    broker.serve()
    with running(broker, program, handler):
        told = answer(broker, {})
        same((told["function_name"], told["function_version"], told.get("memory_limit_in_mb")), ("my-function", "$LATEST", None))


@case({"response": 8192})
def a_handler_in_python_reads_its_context(broker):
    put(broker, src__deep__app_dot_py=CONTEXT)
    reads_its_context(broker, "function.py", "src/deep/app.main")


@case({"response": 8192})
def a_handler_in_node_reads_its_context(broker):
    needs("node")
    put(broker, src__deep__app_dot_js=NODE_CONTEXT)
    reads_its_context(broker, "function.js", "src/deep/app.handlers.main")


RESULTS = """
import asyncio
from decimal import Decimal

async def work(event):
    return event

def wrapped(event, context):
    return work(event)

def main(event, context):
    if event == "run":
        return asyncio.run(work({"ran": True}))
    if event == "coroutine":
        return wrapped(event, context)
    return {"bytes": b'{"a": [1.0, "\\xc3\\xa9"]}', "no JSON": b"\\xff plain", "within": {"a": [b"\\xc3\\xa9"]}, "not UTF-8": [b"\\xff"],
            "decimals": [Decimal("1.50"), Decimal(7), Decimal("1E+3"), Decimal("-0.25")], "NaN": [Decimal("NaN")], "none": None}[event]
"""


@case({"retries": 0})
def a_handler_in_python_returns_bytes_and_numbers(broker):
    put(broker, app_dot_py=RESULTS)
    broker.serve()
    with running(broker, "function.py", "app.main"):
        same(answer(broker, "bytes"), {"a": [1.0, "\u00e9"]})
        same([answer(broker, "no JSON"), answer(broker, "within"), answer(broker, "none")], ["\ufffd plain", {"a": ["\u00e9"]}, None])
        same([answer(broker, "decimals"), answer(broker, "run")], [[1.5, 7, 1000, -0.25], {"ran": True}])
        marshal = "Unable to marshal response: "
        for event, words in ("not UTF-8", "'utf-8' codec"), ("NaN", "Out of range float"), ("coroutine", "Object of type coroutine is not JSON serializable"):
            kind, message = failure(broker, event)
            same((event, kind, message.startswith(marshal + words)), (event, "Runtime.MarshalError", True))
        assert "never awaited" not in told_by(broker), told_by(broker)


ASYNC = """
import functools

async def main(event, context):
    return 1

async def stream(event, context):
    yield 1

class Handler:
    async def __call__(self, event, context):
        return 1

partial, made = functools.partial(main), Handler()
"""


@case()
def what_cannot_be_a_handler_is_refused_in_words(broker):
    put(broker, app_dot_py=ASYNC)
    broker.serve()
    for name in "main", "stream", "partial", "made":
        refused(broker, "function.py", f"app.{name}", f"The handler app.{name} is async", "asyncio.run(..)")
    refused(broker, "function.py", "app.other", "Runtime.HandlerNotFound: Handler 'other' missing on module 'app'")
    refused(broker, "function.py", "app", "Runtime.MalformedHandlerName: Bad handler 'app'")
    refused(broker, "function.py", "none/app.main", "No module named 'none'")
    same(broker.number('environments{phase="init"}'), 1)


NODE = """
const wait = (ms) => new Promise((resolve) => setTimeout(resolve, ms));
let ticks = 0;
exports.main = async (event) => {
  if (event === "throw") throw new TypeError("no \\ud83d such");
  if (event === "plain") throw "a text";
  if (event === "nothing") throw undefined;
  if (event === "big") return { n: 1n };
  if (event === "half") return ["\\ud83d"];
  if (event === "circle") { const made = {}; made.made = made; return made; }
  if (event === "long") return "x".repeat(2000);
  if (event === "never") return new Promise(() => {});
  if (event === "unhandled") { Promise.reject(new RangeError("nobody")); await wait(10000); }
  if (event === "uncaught") { setImmediate(() => { throw new RangeError("nobody either"); }); await wait(10000); }
  if (event === "undefined") return undefined;
  await wait(5);
  return { whole: "\\u{1F600}\\\\ud83d", number: 1.5, nan: NaN };
};
exports.callback = (event, context, callback) => {
  if (event === "error") return callback(new Error("told so"));
  if (event === "waits") return callback(null, "told", setTimeout(() => console.log("ticks", ++ticks), 300));
  if (event === "goes") {
    context.callbackWaitsForEmptyEventLoop = false;
    setTimeout(() => console.log("ticks", ++ticks), 3000);
    return callback(null, ticks);
  }
  if (event === "succeed") return context.succeed(1);
  if (event === "fail") return context.fail(new Error("failed so"));
  if (event === "done") return context.done(null, 2);
  return "what is returned without a promise is not told";
};
"""


@case({"retries": 0})
def a_handler_in_node_answers_by_its_promise(broker):
    needs("node")
    put(broker, app_dot_mjs=re.sub(r"exports\.(\w+) =", r"export const \1 =", NODE))
    broker.serve()
    with running(broker, "function.js", "app.main", *supervised(broker)):
        same(answer(broker, {}), {"whole": "\U0001F600\\ud83d", "number": 1.5, "nan": None})
        same(answer(broker, "undefined"), None)
        for event, wanted in (
            ("throw", ("TypeError", "no \ufffd such")), ("plain", ("string", "a text")), ("nothing", ("Error", "undefined")),
            ("unhandled", ("Runtime.UnhandledPromiseRejection", "nobody")), ("uncaught", ("RangeError", "nobody either")),
            ("long", ("Function.ResponseSizeTooLarge", "an answer of 2002 bytes is too large")),
        ):
            same((event, failure(broker, event)), (event, wanted))
        for event in "big", "half", "circle":
            kind, message = failure(broker, event)
            same((event, kind, message[:35]), (event, "Runtime.MarshalError", "Unable to stringify response body: "))
        same(failure(broker, "never")[0], "Runtime.NodeJsExit")
        same(answer(broker, "undefined"), None)


@case({"retries": 0})
def a_handler_in_node_answers_by_its_callback(broker):
    needs("node")
    put(broker, app_dot_js=NODE)
    broker.serve()
    with running(broker, "function.js", "app.callback"):
        # By itself it waits for what is under way, which `goes` leaves for the next one.
        same((answer(broker, "waits"), told_by(broker)), ("told", "ticks 1\n"))
        same((answer(broker, "goes"), told_by(broker)), (1, "ticks 1\n"))
        same((answer(broker, "waits"), told_by(broker)), ("told", "ticks 1\nticks 2\nticks 3\n"))
        same([answer(broker, event) for event in ("succeed", "done", "returned")], [1, 2, None])
        same([failure(broker, event) for event in ("error", "fail")], [("Error", "told so"), ("Error", "failed so")])


@case()
def what_cannot_be_a_handler_in_node_is_refused_in_words(broker):
    needs("node")
    put(broker, app_dot_js="exports.main = () => {}; exports.five = 5;", bad_dot_js="exports.main = (")
    broker.serve()
    for handler, words in (
        ("app.other", "Runtime.HandlerNotFound: app.other is undefined or not exported"), ("app.five", "Runtime.HandlerNotFound: app.five is not a function"),
        ("app", "Runtime.MalformedHandlerName: Bad handler app"), ("none/app.main", "Runtime.ImportModuleError"), ("bad.main", "SyntaxError"),
    ):
        refused(broker, "function.js", handler, words)
    same(broker.number('environments{phase="init"}'), 1)
