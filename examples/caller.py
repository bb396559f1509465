#!/usr/bin/env python3
"""A caller by boto3, AWS's SDK for Python: it invokes the function with a JSON text and prints the status and the event's id.

Usage: caller.py PORT FUNCTION JSON    Where boto3 is missing it says so, and ends with status 0.
"""
import sys

try:
    import boto3
    from botocore.config import Config
except ImportError:
    sys.exit(print("skipped: boto3 is not installed"))


def client(port):
    """A client of a broker: it signs what it sends, which the broker does not look at. 429 and 5xx are tried again."""
    return boto3.client(
        "lambda",
        endpoint_url=f"http://127.0.0.1:{port}",
        region_name="us-east-2",
        aws_access_key_id="unused",
        aws_secret_access_key="unused",
        # The modes `standard` and `adaptive` try no 429 again whose error they do not know by name.
        config=Config(retries={"mode": "legacy", "total_max_attempts": 5}, read_timeout=60),
    )


def main():
    port, function, text = sys.argv[1:]
    reply = client(port).invoke(FunctionName=function, InvocationType="Event", Payload=text.encode())
    print(reply["StatusCode"], reply["ResponseMetadata"]["HTTPHeaders"]["x-amzn-requestid"])


main()
