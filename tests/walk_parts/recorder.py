"""Stands between the site and the desk as tests/browser/middle.py does, and keeps each request with its reply."""

import json
import re
import threading
import time
from dataclasses import dataclass
from typing import Any

from middle import Middle

PROBES = ("/riders/4294967295/", "/days/2000-01-01/", "/vehicles/4294967295/")


@dataclass(frozen=True)
class Exchange:
    """A request that reached the desk. A reply that the desk did not give, or that got lost, has no status for the page."""

    method: str
    path: str
    key: str
    number: int
    fields: dict[str, Any]
    status: int
    reply: dict[str, Any]
    broken: str
    at: float

    @property
    def is_write(self) -> bool:
        """Whether the desk was asked to change something."""
        return self.method == "POST"

    @property
    def is_done(self) -> bool:
        """Whether the desk did it."""
        return self.is_write and self.status == 200

    @property
    def denied(self) -> str:
        """The name of the denial, or nothing."""
        return str(self.reply.get("denied", ""))


def object_in(text: bytes) -> dict[str, Any]:
    """The JSON object of a body, or an empty one."""
    try:
        found = json.loads(text)
    except ValueError:
        return {}
    return found if isinstance(found, dict) else {}


def header_of(head: bytes, name: str) -> str:
    """A header of a request by its name, or nothing."""
    found = re.search(rb"\r\n%b:[ \t]*([^\r\n]*)" % re.escape(name.encode()), head, re.I)
    return found[1].decode().strip() if found else ""


class Recorder(Middle):
    """The middle, with a list of what passed."""

    def __init__(self, port: int, desk_port: int) -> None:
        self.exchanges: list[Exchange] = []
        self.lock = threading.Lock()
        self.open = 0
        super().__init__(port, desk_port)

    def answer(self, connection: Any) -> None:
        """One connection; how many are under way is counted."""
        with self.lock:
            self.open += 1
        try:
            super().answer(connection)
        finally:
            with self.lock:
                self.open -= 1

    def reply_to(self, request: bytes, how: str | None) -> bytes:
        """Passes a request on and keeps what the desk said, also where that never arrives."""
        whole: bytes = super().reply_to(request, how)
        return whole

    def asked(self, request: bytes) -> bytes:
        """The desk's own reply, which is kept."""
        whole = self.passed_on(request)
        head, _, body = request.partition(b"\r\n\r\n")
        reply_head, _, reply_body = whole.partition(b"\r\n\r\n")
        words = head.split(b" ", 2)
        path = words[1].decode() if len(words) > 2 else ""
        if not path.startswith(PROBES) and header_of(head, "Desk-Number") != "4294967295":
            status = reply_head.split(b" ", 2)
            number = header_of(head, "Desk-Number")
            kept = Exchange(
                words[0].decode(),
                path,
                header_of(head, "Desk-Key"),
                int(number) if number.isdigit() else 0,
                object_in(body),
                int(status[1]) if len(status) > 1 else 0,
                object_in(reply_body) if b"application/json" in reply_head else {},
                "",
                time.time(),
            )
            with self.lock:
                self.exchanges.append(kept)
        return whole

    def passed_on(self, request: bytes) -> bytes:
        """The desk's own reply."""
        whole: bytes = super().asked(request)
        return whole

    def since(self, at: int) -> list[Exchange]:
        """What passed from this place of the list on."""
        with self.lock:
            return self.exchanges[at:]

    def of_key(self, key: str, since: float) -> list[Exchange]:
        """What a key was answered from a moment on, in seconds since 1970. The record is no page's, so no reload forgets any of it."""
        with self.lock:
            return [it for it in self.exchanges if it.key == key and it.at >= since]

    def count(self) -> int:
        """How many have passed."""
        with self.lock:
            return len(self.exchanges)
