"""The options that each command takes, and what their values may be."""
from __future__ import annotations

import argparse
import re
import urllib.parse
from collections.abc import Callable

from ..arns import ARN, RESOURCES
from .ports import BLOCK, FIRST
from .words import FORMAT, SIDES

# Those that may be told as 256K or 1M.
SIZES = {option: "; 256K is 262144" for option in ("payload", "response")}
AS_FORMAT, AS_SERVE = "As lambda_broker format has it", "As lambda_broker serve has it"


def a_size(text: str) -> int:
    """Bytes, told as a number of them, or of 2^10, 2^20 or 2^30."""
    found = re.fullmatch("([0-9]{1,12})([KMG]?)", text)
    if not found:
        raise argparse.ArgumentTypeError("a size is a number of bytes, or with K, M or G behind it of 2^10, 2^20 or 2^30 bytes, as 256K")
    return int(found[1]) << 10 * " KMG".index(found[2] or " ")


def a_name(text: str) -> str:
    if not re.fullmatch("[A-Za-z0-9_][A-Za-z0-9_-]{0,63}", text):
        raise argparse.ArgumentTypeError("a function's name has 1 to 64 letters, digits, - and _, and does not begin with -")
    return text


def an_address(text: str) -> str:
    if not re.fullmatch("[0-9a-fA-F.:]+", text):
        raise argparse.ArgumentTypeError("an IP address has digits, dots and colons")
    return text


def a_host(text: str) -> str:
    if not re.fullmatch("[A-Za-z0-9_.-]+", text):
        raise argparse.ArgumentTypeError("a host's name has letters, digits, dots, - and _")
    return text


def a_url(text: str) -> str:
    parts = urllib.parse.urlsplit(text)
    if parts.scheme not in ("http", "https") or not parts.hostname or re.search(r"[\s\"'\\`]", text):
        raise argparse.ArgumentTypeError("a URL begins with http:// or https://, and has no blanks, quotes or backslashes")
    return text


def an_arn(*kinds: str) -> Callable[[str], str]:
    """An ARN of one of these services, of what can take records there."""

    def read(text: str) -> str:
        kind = (text.split(":") + ["", "", ""])[2]
        if kind not in kinds or not re.fullmatch(ARN.format(kind, RESOURCES[kind]), text):
            raise argparse.ArgumentTypeError(f"an ARN of {', '.join(kinds)} is wanted, and none of the kind FIFO")
        return text

    return read


def a_command(text: str) -> str:
    if not text.startswith("/") or re.search(r"[\n\"'\\`$]", text):
        raise argparse.ArgumentTypeError("it is told by its path from / on, without quotes, backslashes or $")
    return text


def add_disk(new: argparse.ArgumentParser) -> None:
    """The options of an add for the disk."""
    for option in FORMAT:
        text = f"{AS_FORMAT}{SIZES.get(option, '')}"
        if option == "sectors":
            text = "Sectors of the disk, else the least size and room for 100 commits of 64 KiB"
        if option in SIZES:
            new.add_argument(f"--{option}", type=a_size, metavar="SIZE", help=text)
        else:
            new.add_argument(f"--{option}", type=int, metavar="N", help=text)
    new.add_argument("--allocate", action="store_true", default=None, help=AS_FORMAT)


def add_serving(new: argparse.ArgumentParser) -> None:
    """The options of an add for the serving."""
    new.add_argument("--dialect", choices=["profile", "aws"], help=AS_SERVE)
    new.add_argument("--extensions", type=int, metavar="N", help=AS_SERVE)
    new.add_argument("--threads", type=int, metavar="N", help=AS_SERVE)
    new.add_argument("--body-memory", type=int, metavar="MIB", help=AS_SERVE)
    new.add_argument("--clock-grace", type=int, metavar="SECONDS", help=AS_SERVE)
    new.add_argument("--discard", choices=[*SIDES, "both"], help="Have the broker throw these records away, as lambda_broker serve has it")
    new.add_argument("--watch", action="store_true", default=None, help=f"{AS_SERVE}; the disk has 8 n + 1 sectors")
    new.add_argument("--acts", action="store_true", default=None, help=AS_SERVE)
    new.add_argument("--address", type=an_address, default="127.0.0.1", metavar="IP", help=AS_SERVE)
    new.add_argument("--host", type=a_host, metavar="HOST", help=AS_SERVE)


def add_runtime(new: argparse.ArgumentParser) -> None:
    """The options of an add for what runs the function."""
    new.add_argument("--runtime", type=a_command, metavar="COMMAND", help="Run this runtime in each environment")
    new.add_argument("--task-root", type=a_command, metavar="FOLDER", help="LAMBDA_TASK_ROOT of the runtime; its unit hides /home")
    text = "Run this extension beside each runtime; may be given again"
    new.add_argument("--runtime-extension", type=a_command, action="append", default=[], metavar="PROGRAM", help=text)


def add_records(new: argparse.ArgumentParser) -> None:
    """The options of an add for who takes the records."""
    for side in SIDES:
        new.add_argument(f"--forward-{side}", type=a_url, metavar="URL", help=f"Post the records of {side} to this URL")
    for side in SIDES:
        text = f"Send the records of {side}, as AWS does, to a queue, a topic, a function or an event bus"
        new.add_argument(f"--on-{side}", type=an_arn(*RESOURCES), metavar="ARN", help=text)
    text = "Send the payloads of failed events to a queue or a topic, as a dead-letter queue"
    new.add_argument("--dead-letter", type=an_arn("sqs", "sns"), metavar="ARN", help=text)
    text = "Leave records to whoever collects them: each that is kept takes one of the --events places"
    new.add_argument("--keep-records", action="store_true", default=None, help=text)


def reader(doc: str | None) -> argparse.ArgumentParser:
    """What reads the words, and tells of each."""
    shape = argparse.RawDescriptionHelpFormatter
    top = argparse.ArgumentParser(prog="lambda-broker-ctl", description=doc, formatter_class=shape, allow_abbrev=False)
    top.add_argument("--root", default="", metavar="DIR", help="Put all files below DIR, and call no systemctl")
    top.add_argument("--program", default="/usr/bin/lambda_broker", metavar="PATH", help="The program lambda_broker")
    commands = top.add_subparsers(dest="command", required=True, metavar="COMMAND")

    def command(name: str, text: str) -> argparse.ArgumentParser:
        return commands.add_parser(name, help=text, description=text, allow_abbrev=False)

    new = command("add", "Set a function up and start it")
    new.add_argument("name", type=a_name, metavar="NAME")
    new.add_argument("--handler", required=True, help="Handler of the function")
    new.add_argument("--arn", required=True, help="ARN of the function")
    new.add_argument("--port", type=int, metavar="P", help=f"First of its {BLOCK} ports, else chosen from {FIRST} on")
    for add_some in add_disk, add_serving, add_runtime, add_records:
        add_some(new)
    new.add_argument("--new-disk", action="store_true", default=None, help="Make a new disk where that of before is gone")
    old = command("remove", "Stop a function and remove it; its disk stays")
    old.add_argument("name", type=a_name, metavar="NAME")
    command("list", "Tell the functions, their ports and disks, and which disk has to be migrated")
    command("status", "Tell whether each broker serves, and what it holds")
    newer = command("reload", "Start a new version of a function's code in each environment, with no attempt lost")
    newer.add_argument("name", type=a_name, metavar="NAME")
    hidden = commands.add_parser("unit")
    hidden.add_argument("step", choices=["free", "serving", "end", "walls"])
    return top
