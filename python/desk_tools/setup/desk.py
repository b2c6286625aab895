"""Writes to a desk over its API, each done once, though the line breaks or this program is stopped.

The folder's file moved.jsonl tells of each write before it is sent, and of its reply. A run that was broken off is run
again: a write that was accepted is not sent again, and one whose reply was not seen is sent as it was, with its number,
so that the desk does it once.
"""

from __future__ import annotations

import hashlib
import http.client
import json
import os
import ssl
import time
import urllib.parse
from collections.abc import Iterator
from typing import Any, NamedTuple

from desk_tools.setup import keys
from desk_tools.setup.limits import HIGHEST_NUMBER, NotAnswered, Wrong


class Reply(NamedTuple):
    """The desk's reply: its status, and its body as JSON has it."""

    status: int
    body: Any


SECONDS_OF_A_TRY, LONGEST_PAUSE, MOST_COLLISIONS = 60, 5, 5
# Statuses after which the same write is sent again: of a site that is asked too much, of a desk whose store or memory
# fails, and of a proxy that doesn't reach the desk.
TOO_MANY = 429
NO_ANSWER = {TOO_MANY, 502, 503, 504}
# Replies after which nothing more is sent, and what they say of a key.
STOPPING = {
    401: "nobody has the key",
    403: "this takes a caller of another role than that of the key",
    409: "somebody else writes at the same time with the key",
}
# A write that no caller of this program may make, so that its denial tells of the number alone.
HARMLESS = f"/riders/{HIGHEST_NUMBER}/entries", {"entry": "overturn"}


class Line:
    """The way to the desk at an address."""

    def __init__(self, url: str, certificate: Any = None, patience: int = 600) -> None:
        parts = urllib.parse.urlsplit(url)
        if parts.scheme not in ("http", "https") or not parts.hostname:
            raise Wrong(f"{url} is no address such as http://127.0.0.1:8437")
        self.parts, self.patience = parts, patience
        self.trusted = (
            ssl.create_default_context(cafile=certificate) if parts.scheme == "https" else None
        )

    def connection(self) -> http.client.HTTPConnection:
        host, port = str(self.parts.hostname), self.parts.port
        if self.trusted:
            return http.client.HTTPSConnection(
                host, port, timeout=SECONDS_OF_A_TRY, context=self.trusted
            )
        return http.client.HTTPConnection(host, port, timeout=SECONDS_OF_A_TRY)

    def asked_once(
        self, method: str, path: str, headers: dict[str, str], content: str | None
    ) -> Reply:
        connection = self.connection()
        try:
            connection.request(method, self.parts.path.rstrip("/") + path, content, headers)
            answer = connection.getresponse()
            text, is_json = (
                answer.read().decode(),
                answer.headers.get_content_type() == "application/json",
            )
            return Reply(answer.status, json.loads(text) if is_json else text)
        finally:
            connection.close()

    def ask(
        self,
        method: str,
        path: str,
        key: str,
        number: int | None = None,
        body: dict[str, Any] | None = None,
    ) -> Reply:
        """The reply, however often that takes, until the patience is at its end."""
        content = None if body is None else json.dumps(body, separators=(",", ":"))
        headers = {"Desk-Key": key, **({} if number is None else {"Desk-Number": str(number)})}
        end, pause = time.monotonic() + self.patience, 0.2
        while True:
            try:
                reply = self.asked_once(method, path, headers, content)
                if reply.status not in NO_ANSWER:
                    return reply
                said = f"status {reply.status}"
            except ssl.SSLCertVerificationError as error:
                raise Wrong(
                    f"the certificate of {self.parts.geturl()} is not trusted ({error.verify_message}); one "
                    "that you made yourself is named by --certificate"
                ) from None
            except (OSError, http.client.HTTPException, ValueError) as error:
                said = str(error) or type(error).__name__
            if time.monotonic() + pause > end:
                raise NotAnswered(
                    f"{self.parts.geturl()} does not answer ({said}); the same command goes on from here"
                )
            time.sleep(pause)
            pause = min(2 * pause, LONGEST_PAUSE)


def label_of(path: str, body: dict[str, Any], purpose: str) -> str:
    """What tells a write from others: what it asks, and what it is done for."""
    return json.dumps([path, body, purpose], separators=(",", ":"), sort_keys=True)


def record_of(label: str) -> tuple[str, int | None, str | None] | str:
    """What a write is the last one of: a record that later writes replace, or itself alone."""
    path, body, _ = json.loads(label)
    return (
        (path, body.get("id"), body.get("from_day")) if "id" in body or path == "/policy" else label
    )


class Journal:
    """What was sent to one desk, in a file to which lines are added.

    Of each caller, which is told by the beginning of its key's digest, it has the last accepted number, and the write
    whose reply was not seen.
    """

    def __init__(self, folder: str, url: str | None) -> None:
        self.path, self.url = f"{folder}/moved.jsonl", url
        self.accepted: dict[Any, tuple[str, Any]] = {}
        self.sent: set[tuple[str, str]] = set()
        self.last: dict[str, int] = {}
        self.open: dict[str, tuple[int, str]] = {}
        for entry in self.entries():
            if entry.get("url") == url:
                self.take(entry)

    def entries(self) -> Iterator[dict[str, Any]]:
        if not os.path.exists(self.path):
            return
        with open(self.path, "r+", encoding="utf-8") as file:
            text = file.read()
            if text and not text.endswith("\n"):
                # (a program that was stopped wrote half of a last line)
                file.truncate(len(text[: text.rfind("\n") + 1].encode()))
        for line in text[: text.rfind("\n") + 1].splitlines():
            try:
                yield json.loads(line)
            except ValueError:
                raise Wrong(
                    f"{self.path} has a line that is not one of this program's: {line[:60]}"
                ) from None

    def take(self, entry: dict[str, Any]) -> None:
        caller, number, label = entry["caller"], entry["number"], entry["write"]
        if "reply" not in entry:
            self.open[caller] = number, label
            self.sent.add((caller, label))
        else:
            self.open.pop(caller, None)
            if entry["status"] == 200:
                self.accepted[record_of(label)] = label, entry["reply"]
                self.last[caller] = number

    def reply_to(self, label: str) -> Any:
        """The reply to a write that was accepted and that no later one replaced, or None."""
        there, reply = self.accepted.get(record_of(label), (None, None))
        return Reply(200, reply) if there == label else None

    def add(self, caller: str, number: int, label: str, reply: Reply | None = None) -> None:
        entry = {"url": self.url, "caller": caller, "number": number, "write": label}
        entry |= {} if reply is None else {"status": reply.status, "reply": reply.body}
        self.take(entry)
        with open(
            os.open(self.path, os.O_WRONLY | os.O_APPEND | os.O_CREAT, 0o600), "a", encoding="utf-8"
        ) as file:
            file.write(json.dumps(entry, separators=(",", ":")) + "\n")
            file.flush()
            if reply is None:
                os.fsync(file.fileno())


def versions_put(folder: str) -> dict[int, set[str]]:
    """The first days of each vehicle's versions that this folder's file says the desk took, by the vehicle's number; of the desk that took most."""
    found: dict[int, dict[str, set[str]]] = {}
    for entry in Journal(folder, None).entries():
        path, body, _ = json.loads(entry["write"])
        if path == "/vehicles" and entry.get("status") == 200:
            found.setdefault(body["id"], {}).setdefault(entry["url"], set()).add(body["from_day"])
    return {vehicle: max(by_desk.values(), key=len) for vehicle, by_desk in found.items()}


def key_in(path: str) -> str:
    """The key that a file holds, without the newline at its end."""
    try:
        with open(path, encoding="ascii") as file:
            key = file.read().rstrip("\n")
    except (OSError, UnicodeDecodeError) as error:
        raise Wrong(f"the key in {path} can't be read: {error}") from None
    if not key or key != key.strip() or not key.isprintable():
        raise Wrong(f"{path} holds no key: a key is one line, with no blank at its ends")
    return keys.normalized(key)


class Caller:
    """One caller of the desk, whose writes have numbers that rise."""

    def __init__(self, line: Line, journal: Any, path: str) -> None:
        self.line, self.journal, self.path, self.key = line, journal, path, key_in(path)
        self.name = hashlib.sha256(self.key.encode()).hexdigest()[:16]
        self.last: int | None = None
        self.writes = 0

    def taken(self, reply: Reply) -> Reply:
        """The reply, unless it says that nothing more is to be sent with this key."""
        if reply.status in STOPPING:
            raise Wrong(f"{STOPPING[reply.status]} in {self.path}")
        return reply

    def get(self, path: str) -> Reply:
        return self.taken(self.line.ask("GET", path, self.key))

    def is_used(self, number: int) -> bool:
        """Whether the desk has taken this number, or a higher one, of this caller."""
        reply = self.line.ask("POST", HARMLESS[0], self.key, number, HARMLESS[1])
        if reply.status in (200, 409):
            return True
        if reply.body in ({"denied": "desk.caller"}, {"denied": "desk.unknown"}):
            return False
        self.taken(reply)
        raise Wrong(f"{self.journal.url} is no desk: it answers with status {reply.status}")

    def last_number(self, low: int) -> int:
        """The number of the caller's last accepted write, at least `low`: by steps that double, and then by halves."""
        step = 1
        while low + step <= HIGHEST_NUMBER and self.is_used(low + step):
            low, step = low + step, 2 * step
        high = min(low + step, HIGHEST_NUMBER + 1)
        while high - low > 1:
            middle = (low + high) // 2
            low, high = (middle, high) if self.is_used(middle) else (low, middle)
        return low

    def settle(self) -> bool:
        """Looks what the desk has of this caller's writes, before the first one of this run. Whether that is known."""
        last = self.journal.last.get(self.name, 0)
        if last and not self.is_used(last):
            raise Wrong(
                f"{self.journal.path} tells of writes which the desk at {self.journal.url} has not: it has "
                "another database, or a backup was put back. Move that file away and run the command again"
            )
        self.last = last if self.name in self.journal.open else self.last_number(last)
        return True

    def number_for(self, label: str) -> int:
        """The number of a write: the one that it was sent with, where its reply was not seen, else the next one."""
        if self.last is None:
            self.settle()
        number, sent = self.journal.open.get(self.name, (0, None))
        return int(number if sent == label else max(self.last or 0, number) + 1)

    def post(self, path: str, body: dict[str, Any], purpose: str = "") -> Reply:
        """The reply to a write, which is done once: one that was accepted before is told as it was then."""
        label = label_of(path, body, purpose)
        reply = self.journal.reply_to(label)
        for _ in range(0 if reply else MOST_COLLISIONS):
            number = self.number_for(label)
            self.journal.add(self.name, number, label)
            reply = self.line.ask("POST", path, self.key, number, body)
            self.journal.add(self.name, number, label, reply)
            if reply.status == 200:
                self.last, self.writes = number, self.writes + 1
            if reply.status != 409:
                break
            self.last = self.last_number(self.last or 0)
        return self.taken(reply)

    def was_sent(self, path: str, body: dict[str, Any], purpose: str) -> bool:
        """Whether this or an earlier run sent this write, whatever it saw of the reply."""
        return (self.name, label_of(path, body, purpose)) in self.journal.sent
