"""Replies, to the byte, and the exception that a denial is."""

from __future__ import annotations

import json
from collections.abc import Mapping, Sequence
from typing import Any

STATUSES = {
    "desk.key": "401 Unauthorized",
    "desk.caller": "403 Forbidden",
    "http.path": "404 Not Found",
    "desk.unknown": "404 Not Found",
    "http.method": "405 Method Not Allowed",
    "desk.number": "409 Conflict",
    "http.head": "400 Bad Request",
    "http.length": "400 Bad Request",
    "http.json": "400 Bad Request",
    "http.field": "400 Bad Request",
}
RULE_FAILED = "422 Unprocessable Entity"


class Denied(Exception):
    """The name of the first rule that fails; of a bad field also its name, of a bad method the one that is allowed."""

    def __init__(self, name: str, field: str | None = None, allow: str | None = None) -> None:
        super().__init__(name)
        self.name, self.field, self.allow = name, field, allow


def reply(status: str, kind: str, body: str, more: Sequence[str] = ()) -> bytes:
    lines = [
        f"HTTP/1.1 {status}",
        f"Content-Type: {kind}",
        f"Content-Length: {len(body.encode())}",
        *more,
        "Connection: close",
    ]
    return ("\r\n".join(lines) + "\r\n\r\n" + body).encode()


def told(fields: Mapping[str, Any]) -> bytes:
    return reply("200 OK", "application/json", in_json(fields))


def text(body: str) -> bytes:
    return reply("200 OK", "text/plain", body)


def csv(body: str) -> bytes:
    return reply("200 OK", "text/csv", body)


def denied(denial: Denied) -> bytes:
    fields = {"denied": denial.name, **({"field": denial.field} if denial.field else {})}
    more = ["WWW-Authenticate: Desk-Key"] if denial.name == "desk.key" else []
    more += [f"Allow: {denial.allow}"] if denial.allow else []
    return reply(STATUSES.get(denial.name, RULE_FAILED), "application/json", in_json(fields), more)


def in_json(fields: Mapping[str, Any]) -> str:
    return json.dumps(fields, separators=(",", ":"), sort_keys=True)


def done() -> bytes:
    return told({"done": True})
