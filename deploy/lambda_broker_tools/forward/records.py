"""Records as they come."""
from __future__ import annotations

import json
from collections.abc import Iterator
from typing import Any

# How much of an error's message AWS puts beside a dead letter.
MOST_MESSAGE = 1024


class Record:
    """A record as it came, what it says, and the places that have taken it."""

    def __init__(self, content: bytes, told: dict[str, Any]) -> None:
        self.content, self.told = content, told
        self.takers: set[object] = set()
        self.event: str = told["requestContext"]["requestId"]

    def has_answer(self) -> bool:
        """Whether an attempt had an answer. Of one that had none the operator's port tells nothing."""
        return "responsePayload" in self.told

    def as_aws(self, seconds: int | None) -> str:
        """The record in AWS's words, which have an error in place of an answer that there is not. The operator's port has none."""
        text = self.content.decode()
        if self.has_answer():
            return text
        response = {"statusCode": 200, "executedVersion": "$LATEST", "functionError": "Unhandled"}
        more = {"responseContext": response, "responsePayload": {"errorMessage": self.unanswered(seconds)}}
        return f"{text.rstrip()[:-1]},{json.dumps(more, separators=(',', ':'))[1:]}"

    def unanswered(self, seconds: int | None) -> str:
        """What a broker tells callers in the dialect of AWS of an event whose attempts, of so many seconds at most, had no answer."""
        context = self.told["requestContext"]
        if not context["approximateInvokeCount"]:
            return f"RequestId: {self.event} Event expired before its first attempt"
        too_old = ", or the broker ended" if context["condition"] == "EventAgeExceeded" else ""
        return f"RequestId: {self.event} Process exited before completing request, or Task timed out after {seconds}.00 seconds{too_old}"

    def payload(self) -> str:
        """The event's own payload: what stands in the record, as it came."""
        text = self.content.decode()
        begin = text.index('"requestPayload":') + len('"requestPayload":')
        begin += len(text[begin:]) - len(text[begin:].lstrip(" \t\r\n"))
        return text[begin:json.JSONDecoder().raw_decode(text, begin)[1]]

    def message(self, seconds: int | None) -> str:
        """The message of its error."""
        if not self.has_answer():
            return self.unanswered(seconds)
        answer = self.told["responsePayload"]
        message = answer.get("errorMessage", "") if isinstance(answer, dict) else answer
        return message if isinstance(message, str) else json.dumps(message)


def records_of(body: bytes) -> Iterator[Record]:
    """Each record. A line ends each, but a payload may have further ones between its members."""
    text, place, reader = body.decode(), 0, json.JSONDecoder()
    while place < len(text):
        told, end = reader.raw_decode(text, place)
        yield Record(text[place:end].encode(), told)
        place = end + 1
