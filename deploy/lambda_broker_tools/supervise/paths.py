"""The paths of runtimes and extensions that are looked at."""
import re

RUNTIME, EXTENSION = "/2018-06-01/runtime", "/2020-01-01/extension"
NEXT, EXTENSION_NEXT = f"{RUNTIME}/invocation/next".encode(), f"{EXTENSION}/event/next".encode()
ANSWER = re.compile(f"{RUNTIME}/invocation/([^/]+)/(?:response|error)".encode())
REGISTER = f"{EXTENSION}/register".encode()
# An answer to no event.
NO_ANSWER = f"{RUNTIME}/invocation/00000000-0000-4000-8000-000000000000/response"
