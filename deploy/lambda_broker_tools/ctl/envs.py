"""The environment files of a function, as the words of an add make them."""
from __future__ import annotations

import re
import shlex

from .looking import bracketed
from .places import disk_of, env_of
from .ports import BLOCK
from .takers import forwarder, takers_of
from .words import SIDES, Words

# The words of an add that say nothing of what is there behind it.
UNSAID = "root program command step name port allocate new_disk keep_records".split()


def said(words: Words) -> str:
    """The words of an add that say what is there behind it, in one order: by them it is known again."""
    told = ["add", words.name]
    for option, value in sorted(vars(words).items()):
        if option not in UNSAID and value not in (None, []):
            for one in value if isinstance(value, list) else [value]:
                told += [f"--{option.replace('_', '-')}", *([] if one is True else [str(one)])]
    return shlex.join(told)


def in_quotes(text: str) -> str:
    """A text as an environment file has it, where systemd would take a part of it for more than itself."""
    escaped = re.sub(r'(["\\$`])', r"\\\1", text)
    return text if re.fullmatch(r"[\w.:/-]*", text) else f'"{escaped}"'


def of_broker(words: Words, first: int, disk: str) -> list[str]:
    """The lines of the broker's file."""
    lines = [f"# lambda-broker-ctl {said(words)}", f"PORT={first}", f"ADDRESS={words.address}", f"ADMIN={first + BLOCK - 1}"]
    lines += [f"DISK={in_quotes(disk)}"] if disk != words.root + disk_of(words.name) else []
    return [*lines, f"WORDS={' '.join(words.serve_options())}"]


def of_runtime(words: Words, port: int) -> list[str]:
    """The lines of the file of a runtime with this port."""
    lines = [f"RUNTIME={words.runtime}", f"EXTENSIONS={' '.join(words.runtime_extension)}"]
    lines += [f"AWS_LAMBDA_RUNTIME_API={bracketed(words.address)}:{port}", f"_HANDLER={in_quotes(words.handler)}"]
    lines += [f"FUNCTION_ARN={in_quotes(words.arn)}"]
    return lines + ([f"LAMBDA_TASK_ROOT={words.task_root}"] if words.task_root else [])


def envs(words: Words, first: int, disk: str, environments: int) -> dict[str, str]:
    """The environment files of a function."""
    told = {env_of(words.name): of_broker(words, first, disk)}
    for n in range(1, environments + 1) if words.runtime else ():
        told[f"/etc/lambda_runtime/{words.name}:{n}.env"] = of_runtime(words, first + n)
    for side in SIDES:
        if takers_of(words, side):
            told[f"/etc/lambda_forward/{words.name}:{side}.env"] = forwarder(words, side, first)
    return {path: "\n".join(lines) + "\n" for path, lines in told.items()}
