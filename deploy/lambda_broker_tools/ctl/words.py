"""The words that it was called with."""
from __future__ import annotations

import dataclasses

# The options of `format`, in the order in which they are told, and of `serve`, but for those that stand alone.
FORMAT = "sectors retries age timeout concurrency environments events payload response".split()
SERVE = "dialect extensions threads body_memory clock_grace host discard".split()
SIDES = "success", "failure"


@dataclasses.dataclass
class Words:
    """The words of any command. Of an option that was not said there is None, or what stands for it here."""

    root: str = ""
    program: str = "/usr/bin/lambda_broker"
    command: str = ""
    step: str | None = None
    name: str = ""
    handler: str = ""
    arn: str = ""
    port: int | None = None
    sectors: int | None = None
    retries: int | None = None
    age: int | None = None
    timeout: int | None = None
    concurrency: int | None = None
    environments: int | None = None
    events: int | None = None
    payload: int | None = None
    response: int | None = None
    allocate: bool | None = None
    dialect: str | None = None
    extensions: int | None = None
    threads: int | None = None
    body_memory: int | None = None
    clock_grace: int | None = None
    discard: str | None = None
    watch: bool | None = None
    acts: bool | None = None
    address: str = "127.0.0.1"
    host: str | None = None
    runtime: str | None = None
    task_root: str | None = None
    runtime_extension: list[str] = dataclasses.field(default_factory=list)
    forward_success: str | None = None
    forward_failure: str | None = None
    on_success: str | None = None
    on_failure: str | None = None
    dead_letter: str | None = None
    keep_records: bool | None = None
    new_disk: bool | None = None

    def format_options(self) -> dict[str, int]:
        """What was said of the disk, but for how many sectors it has."""
        told = {option: getattr(self, option) for option in FORMAT[1:]}
        return {option: value for option, value in told.items() if value is not None}

    def serve_options(self) -> list[str]:
        """What was said of the serving, as the broker takes it."""
        told = {option: getattr(self, option) for option in SERVE}
        alone = [f"--{option}" for option in ("watch", "acts") if getattr(self, option)]
        return [f"--{option.replace('_', '-')} {value}" for option, value in told.items() if value is not None] + alone
