"""The variables that AWS sets."""
from __future__ import annotations

import contextlib
import os
import re
import time
import uuid

from .telling import say

# The groups into which the process of a machine or a container is put, where its memory is bounded.
BOUNDS = "/sys/fs/cgroup{}/memory.max"


def memory_mib() -> int:
    """How much memory there is for the runtime."""
    most = os.sysconf("SC_PAGE_SIZE") * os.sysconf("SC_PHYS_PAGES")
    with contextlib.suppress(OSError), open("/proc/self/cgroup", encoding="ascii") as told:
        own = re.findall("^0::(/.*)$", told.read(), re.M)
        for path in BOUNDS.format(""), *(BOUNDS.format(group) for group in own):
            with contextlib.suppress(OSError, ValueError), open(path, encoding="ascii") as bound:
                most = min(most, int(bound.read()))
    return most >> 20


def variables_of(arn: str) -> dict[str, str]:
    """What AWS sets for the processes of a function with this ARN, as far as it does not hang on AWS itself. AWS_LAMBDA_RUNTIME_API,
    LAMBDA_TASK_ROOT and _HANDLER are told by others, and a runtime sets the trace of each event.
    """
    found = re.fullmatch("arn:[^:]*:lambda:([^:]+):[^:]*:function:([^:]+)(?::.*)?", arn)
    if not found:
        if arn:
            say(f"{arn} is no ARN of a function, as arn:aws:lambda:REGION:ACCOUNT:function:NAME: AWS's variables are not set")
        return {}
    region, name = found.groups()
    told = {"FUNCTION_NAME": name, "FUNCTION_VERSION": "$LATEST", "FUNCTION_MEMORY_SIZE": str(memory_mib())}
    told |= {"INITIALIZATION_TYPE": "on-demand", "LOG_GROUP_NAME": f"/aws/lambda/{name}"}
    told["LOG_STREAM_NAME"] = f"{time.strftime('%Y/%m/%d', time.gmtime())}/[$LATEST]{uuid.uuid4().hex}"
    told = {f"AWS_LAMBDA_{name}": value for name, value in told.items()}
    return {**told, "AWS_REGION": region, "AWS_DEFAULT_REGION": region, "AWS_XRAY_CONTEXT_MISSING": "LOG_ERROR", "TZ": ":UTC"}
