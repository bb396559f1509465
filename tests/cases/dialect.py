"""The dialect of AWS: what its SDK for Python, its runtimes and its extensions are told."""
import datetime
import json
import uuid

from harness import ARN, EVENT, EXTENSION, INVOKE, OPENING, Beside, Skipped, case, same, until


def in_dialect(broker, *words):
    """Serves the broker in the dialect of AWS."""
    broker.words = ["--dialect", "aws", *words]
    return broker.serve()


def by_boto3(broker, mode="standard", tries=1):
    """A client of a broker that answers in the dialect of AWS."""
    try:
        import boto3
        from botocore.config import Config
    except ImportError:
        raise Skipped("there is no boto3")
    return boto3.client(
        "lambda",
        endpoint_url=f"http://127.0.0.1:{broker.port}",
        region_name="us-east-2",
        aws_access_key_id="unused",
        aws_secret_access_key="unused",
        config=Config(retries={"mode": mode, "total_max_attempts": tries}, read_timeout=60),
    )


def called(client, name="my-function", kind="Event", payload=b"{}"):
    """The status that an invocation is told, or the error that it raises, as its name, status and message."""
    from botocore.exceptions import ClientError

    try:
        return client.invoke(FunctionName=name, InvocationType=kind, Payload=payload)["StatusCode"]
    except ClientError as error:
        assert isinstance(error, getattr(client.exceptions, type(error).__name__)), f"{error!r} is not typed"
        told = error.response
        uuid.UUID(told["ResponseMetadata"]["RequestId"])
        return type(error).__name__, told["ResponseMetadata"]["HTTPStatusCode"], told["Error"]["Message"]


@case({"events": 1})
def each_refusal_has_the_type_that_an_sdk_knows(broker):
    in_dialect(broker)
    other = "/2015-03-31/functions/other/invocations"
    for words, status, type in (
        (("POST", other, "{}", EVENT), 404, "ResourceNotFoundException"),
        (("POST", INVOKE, "{}"), 400, "InvalidParameterValueException"),
        (("POST", INVOKE, "{", EVENT), 400, "InvalidRequestContentException"),
        (("POST", INVOKE, 2000 * "1", EVENT), 413, "RequestTooLargeException"),
        (("POST", INVOKE, "{}", EVENT), 202, None),
        (("POST", INVOKE, "{}", EVENT), 429, "TooManyRequestsException"),
    ):
        told = broker.ask(*words)
        same((words[:2], told.status, told.headers["X-Amzn-ErrorType"]), (words[:2], status, type))
    refused = broker.delete(broker.next().id)
    same((refused.status, refused.headers["X-Amzn-ErrorType"]), (409, "ResourceConflictException"))


@case({"events": 1})
def boto3_raises_a_typed_exception_for_each_refusal(broker):
    client = by_boto3(in_dialect(broker))
    other = f"no such path or function: only {ARN} is here"
    same(called(client, name="other"), ("ResourceNotFoundException", 404, other))
    kinds = "InvocationType must be Event or DryRun"
    same(called(client, kind="RequestResponse"), ("InvalidParameterValueException", 400, kinds))
    no_json = "Could not parse request body into json: the payload for my-function is not JSON"
    same(called(client, payload=b"{"), ("InvalidRequestContentException", 400, no_json))
    large = "body is too large: a payload for my-function has at most 1024 bytes, any other body 4096"
    same(called(client, payload=b'"' + 1024 * b"a" + b'"'), ("RequestTooLargeException", 413, large))
    same(called(client, kind="DryRun"), 204)
    same(called(client), 202)
    same(called(client), ("TooManyRequestsException", 429, full_with(1, 0, 0)))


def full_with(events, successes, failures):
    where = "/broker/destinations/success", "/broker/destinations/failure"
    counts = f"{successes} records wait to be collected at {where[0]}, {failures} at {where[1]}"
    return f"table is full: my-function holds at most {events} events; {counts}"


@case({"events": 4, "retries": 0})
def a_full_table_says_how_many_records_wait_and_where(broker):
    client = by_boto3(in_dialect(broker))
    for path in "response", "error", "response":
        broker.live("{}", "1", path=path)
    waiting = broker.invoke("{}").id
    same(called(client), ("TooManyRequestsException", 429, full_with(4, 2, 1)))
    broker.kill()
    in_dialect(broker)
    same(called(by_boto3(broker)), ("TooManyRequestsException", 429, full_with(4, 2, 1)))
    same(broker.delete(broker.record().id).status, 204)
    same(broker.invoke("{}").status, 202)
    same(called(by_boto3(broker)), ("TooManyRequestsException", 429, full_with(4, 1, 1)))
    same(broker.next().id, waiting)


@case()
def boto3_raises_a_service_exception_where_the_device_failed(broker):
    broker.watches_disk().fail_flush = OPENING + 1
    same(called(by_boto3(in_dialect(broker))), ("ServiceException", 503, "broker is not available"))
    same(broker.ended(), (3, "device fault\n"))


@case({"events": 1})
def boto3_in_standard_mode_tries_a_full_broker_again(broker):
    client = by_boto3(in_dialect(broker), tries=10)
    held = broker.invoke("{}").id
    waiting = Beside(called, client)
    # The second try may come before the first one was seen.
    until("a refusal", lambda: broker.number('refused_total{reason="too_many"}') > 0)
    same(broker.next().id, held)
    same(broker.respond(held, "1").status, 202)
    same(broker.delete(held).status, 204)
    same(waiting.done(), 202)


@case()
def boto3_invokes_by_name_arn_and_partial_arn(broker):
    client = by_boto3(in_dialect(broker))
    partial = ["123456789012:function:my-function", "123456789012:function:my-function:$LATEST", "123456789012:my-function"]
    for n, name in enumerate(["my-function", "my-function:$LATEST", ARN, ARN + ":$LATEST", *partial]):
        same(called(client, name=name, payload=json.dumps(n).encode()), 202)
        event = broker.next()
        same(event.json, n)
        same(broker.respond(event.id, "1").status, 202)
    same(broker.ask("POST", "/2015-03-31/functions/function:my-function/invocations", "{}", EVENT).status, 202)
    same(called(client, name="123456789013:function:my-function")[0], "ResourceNotFoundException")


@case()
def each_reply_to_a_caller_has_an_id(broker):
    in_dialect(broker)
    told = [broker.invoke("{}"), broker.invoke("{"), broker.record(), broker.delete("x"), broker.ask("GET", "/")]
    same([reply.status for reply in told], [202, 400, 204, 404, 404])
    same(len({uuid.UUID(reply.headers["X-Amzn-RequestId"]) for reply in told}), len(told))
    same([reply.json["Type"] for reply in told if reply.body], 3 * ["User"])
    same(broker.next().headers["X-Amzn-RequestId"], None)
    same(broker.ask("GET", "/", environment=1).type, "NotFound")


@case()
def a_reply_that_names_an_event_has_its_id(broker):
    in_dialect(broker)
    held = broker.invoke("{}").id
    same(broker.delete(held).headers["X-Amzn-RequestId"], held)
    same(broker.next().id, held)
    same(broker.respond(held, "1").status, 202)
    record = broker.record()
    same((record.json["requestContext"]["requestId"], record.headers["X-Amzn-RequestId"]), (held, held))
    deleted = broker.delete(held)
    same((deleted.status, deleted.headers["X-Amzn-RequestId"]), (204, held))


@case({"retries": 0, "response": 512})
def an_answer_that_is_too_large_ends_its_attempt_as_an_error(broker):
    in_dialect(broker)
    for size in 513, 100000:
        held = broker.invoke("{}").id
        same(broker.next().id, held)
        same(broker.respond(held, size * "1").status, 202)
        told = broker.record("failure").json
        same(told["responseContext"]["functionError"], "Unhandled")
        same(told["responsePayload"], {
            "errorType": "Function.ResponseSizeTooLarge",
            "errorMessage": "Response payload size exceeded maximum allowed payload size (512 bytes).",
        })
        same(broker.delete(held).status, 204)


def read_as_sample(record):
    """Reads each member that AWS's documented sample of a failure has, as a consumer of that would."""
    context, response = record["requestContext"], record["responseContext"]
    datetime.datetime.strptime(record["timestamp"], "%Y-%m-%dT%H:%M:%S.%fZ")
    same((record["version"], context["functionArn"], record["requestPayload"]), ("1.0", f"{ARN}:$LATEST", {}))
    same((response["statusCode"], response["executedVersion"], response["functionError"]), (200, "$LATEST", "Unhandled"))
    return context["requestId"], context["condition"], context["approximateInvokeCount"], record["responsePayload"]["errorMessage"]


def unanswered(event, after="900.00 seconds"):
    """What stands in place of an answer: that of AWS's sample, and AWS's words for a timeout."""
    exited = f"RequestId: {event} Process exited before completing request"
    return f"{exited}, or Task timed out after {after}"


def failed(broker, event, count=1, condition="RetriesExhausted"):
    """What the record of a failed event, which is collected, has as its error."""
    record = until("a record", lambda: broker.record("failure").status == 200 and broker.record("failure").json)
    told = read_as_sample(record)
    same((told[:3], broker.delete(event).status), ((event, condition, count), 204))
    return told[3]


@case({"retries": 0, "response": 512})
def a_consumer_of_awss_sample_reads_each_failure(broker):
    in_dialect(broker)
    event = broker.live("{}", '{"errorMessage":"x","errorType":"y"}', path="error")
    same(failed(broker, event), "x")
    event = broker.live("{}", 513 * "1")
    same(failed(broker, event), "Response payload size exceeded maximum allowed payload size (512 bytes).")
    same(broker.stop(), (202, 0, ""))
    in_dialect(broker, "--extensions", "1")
    extension = broker.extension()
    parked = broker.send_extension_next(extension), broker.send_next()
    event = broker.invoke("{}").id
    same([poll.done().status for poll in parked], [200, 200])
    same(broker.ask("POST", f"{EXTENSION}/exit/error", "{}", extension, 1).status, 202)
    same(failed(broker, event), unanswered(event))


@case({"retries": 0, "timeout": 1})
def a_consumer_of_awss_sample_reads_a_timeout(broker):
    in_dialect(broker)
    event = broker.invoke("{}").id
    same(broker.next().id, event)
    same(failed(broker, event), unanswered(event, "1.00 seconds"))


@case({"timeout": 1, "age": 60}, slow=True)
def a_consumer_of_awss_sample_reads_what_grew_too_old(broker):
    in_dialect(broker)
    tried, never = broker.invoke("{}").id, broker.invoke("{}").id
    same(broker.next().id, tried)
    until("two ends", lambda: broker.number('events{standing="event_age_exceeded"}') == 2, 180)
    records = {}
    # Which of them ended first is for the tick that found them.
    for _ in range(2):
        record = broker.record("failure").json
        records[record["requestContext"]["requestId"]] = record
        same(broker.delete(record["requestContext"]["requestId"]).status, 204)
    told = unanswered(tried, "1.00 seconds, or the broker ended")
    same(read_as_sample(records[tried]), (tried, "EventAgeExceeded", 1, told))
    waited = f"RequestId: {never} Event expired before its first attempt"
    same(read_as_sample(records[never]), (never, "EventAgeExceeded", 0, waited))


@case({"concurrency": 10})
def boto3_asks_what_the_function_is(broker):
    client = by_boto3(in_dialect(broker))
    client.get_waiter("function_exists").wait(FunctionName="my-function")
    client.get_waiter("function_active_v2").wait(FunctionName=ARN)
    told = client.get_function(FunctionName="my-function")
    same(told["Concurrency"], {"ReservedConcurrentExecutions": 10})
    configuration = client.get_function_configuration(FunctionName="my-function", Qualifier="$LATEST")
    same({name: configuration[name] for name in told["Configuration"]}, told["Configuration"])
    same((configuration["FunctionArn"], configuration["Timeout"], configuration["State"]), (ARN, 900, "Active"))
    try:
        client.get_function(FunctionName="other")
        raise AssertionError("another function is told")
    except client.exceptions.ResourceNotFoundException:
        pass
    accepted = client.invoke_async(FunctionName="my-function", InvokeArgs=b'{"a": 1}')
    same((accepted["Status"], accepted["ResponseMetadata"]["HTTPStatusCode"]), (202, 202))
    event = broker.next()
    same((event.id, event.json), (accepted["ResponseMetadata"]["RequestId"], {"a": 1}))


@case()
def in_the_profile_a_refusal_has_no_id_and_no_type_of_aws(broker):
    broker.serve()
    refused = broker.invoke("{")
    same((refused.headers["X-Amzn-RequestId"], refused.headers["X-Amzn-ErrorType"]), (None, None))
    same(refused.json, {"errorMessage": "payload is not JSON", "errorType": "InvalidRequestContent"})
    partial = "/2015-03-31/functions/123456789012:function:my-function/invocations"
    same(broker.ask("POST", partial, "{}", EVENT).status, 404)


@case()
def an_extension_is_told_that_there_are_no_streams(broker):
    in_dialect(broker)
    for path, name in [("/2022-07-01/telemetry", "Telemetry"), ("/2020-08-15/logs", "Logs")]:
        told = broker.ask("PUT", path, "{}", environment=1)
        same((told.status, told.type), (202, f"{name}.NotSupported"))
    accepts = {"Lambda-Extension-Accept-Feature": "accountId"}
    registered = broker.register(["SHUTDOWN"], **accepts)
    same(registered.json["accountId"], "123456789012")
    identifier = {"Lambda-Extension-Identifier": registered.headers["Lambda-Extension-Identifier"]}
    parked = broker.send_extension_next(identifier)
    broker.until_parked(1)
    same(broker.stop(), (202, 0, ""))
    same(parked.done().json["shutdownReason"], "spindown")


@case()
def a_runtime_comes_before_its_extension_after_each_start(broker):
    for n in range(2):
        in_dialect(broker, "--extensions", "1")
        runtime = broker.send_next()
        event = broker.invoke(json.dumps(n)).id
        identifier = broker.extension()
        broker.until_parked(1)
        same((runtime.is_answered(), broker.number('environments{phase="init"}')), (False, 1))
        extension = broker.send_extension_next(identifier)
        same(runtime.done().id, event)
        same(extension.done().json["requestId"], event)
        same(broker.respond(event, "1").status, 202)
        broker.kill()
