"""What was sent for standing orders, in a file beside the tool: standing-orders.jsonl, to which lines are added.

A write stands there, on the disk, before it is sent. So a run that was killed knows what it may have asked, and asks
the same again, which the desk does once.
"""

from __future__ import annotations

import contextlib
import datetime
import fcntl
import json
import os
from collections.abc import Iterator
from typing import Any, NamedTuple

from desk_tools.setup import whole_file
from desk_tools.setup.limits import Wrong

# How long a booked trip is remembered: far longer than trips are booked ahead, so that no clock that is wrong by weeks
# makes it forgotten.
DAYS_KEPT = 400


class Done(NamedTuple):
    """A trip that an order has on a day."""

    rider: int
    trip: int


class Sent(NamedTuple):
    """A write whose reply was not seen."""

    number: int
    key: Any
    body: Any


class State:
    """The file, read and held by one run at a time."""

    def __init__(self, folder: str, url: str) -> None:
        self.path, self.url = f"{folder}/standing-orders.jsonl", url
        self.last: dict[str, int] = {}
        self.open: dict[str, Sent] = {}
        self.done: dict[tuple[str, str], Done] = {}
        self.claims: dict[int, str] = {}
        # Of each trip that was denied the path that tells the site so, or none once it has it.
        self.denials: dict[tuple[str, str], str | None] = {}
        for entry in self.entries():
            self.take(entry)

    def entries(self) -> Iterator[dict[str, Any]]:
        if not os.path.exists(self.path):
            return
        with open(self.path, "rb") as file:
            content = file.read()
        # (a program that was killed wrote a part of its last line, which tells of nothing that was sent)
        for line in content[: content.rfind(b"\n") + 1].splitlines():
            try:
                yield json.loads(line)
            except ValueError:
                raise Wrong(
                    f"{self.path} has a line that is none of this program's: {line[:60]!r}. Move the file "
                    "away and run the same again: it goes by the trips that the desk has"
                ) from None

    def take(self, entry: dict[str, Any]) -> None:
        kind, caller = entry["kind"], entry.get("caller", "")
        if kind == "send":
            self.open[caller] = Sent(entry["number"], entry["key"], entry["body"])
        elif kind == "last":
            self.last[caller] = entry["number"]
        elif kind == "closed":
            self.open.pop(caller, None)
        elif kind == "done":
            self.done[entry["key"], entry["day"]] = Done(entry["rider"], entry["trip"])
            self.claims[entry["trip"]] = entry["key"]
        elif kind == "denied":
            self.denials[entry["key"], entry["day"]] = entry["path"]

    def add(self, **entry: Any) -> None:
        """Takes an entry, once it is on the disk."""
        with open(os.open(self.path, os.O_WRONLY | os.O_APPEND | os.O_CREAT, 0o600), "ab") as file:
            file.write(json.dumps(entry, separators=(",", ":")).encode() + b"\n")
            file.flush()
            os.fsync(file.fileno())
        self.take(entry)

    def sending(self, caller: str, number: int, key: str, body: dict[str, Any]) -> None:
        self.add(kind="send", caller=caller, number=number, key=key, body=body)

    def closed(self, caller: str, number: int | None = None) -> None:
        """The reply to the open write was seen; it was accepted where a number is given."""
        if number is not None:
            self.add(kind="last", caller=caller, number=number)
        self.add(kind="closed", caller=caller)

    def has(self, key: str, day: str, rider: int, trip: int) -> None:
        self.add(kind="done", key=key, day=day, rider=rider, trip=trip)

    def was_denied(self, key: str, day: str, path: str) -> None:
        """A trip was denied: it counts the first time."""
        if (key, day) not in self.denials:
            self.add(kind="denied", key=key, day=day, path=path)

    def denial_told(self, key: str, day: str) -> None:
        self.add(kind="denied", key=key, day=day, path=None)

    def untold(self) -> dict[tuple[str, str], str]:
        """What the site is still to be told, by order and day."""
        return {it: path for it, path in self.denials.items() if path}

    def forget(self) -> None:
        """Nothing of what is known of writes and trips holds: the desk has another database."""
        self.last, self.open, self.done, self.claims = {}, {}, {}, {}
        self.rewrite()

    def shorten(self, today: datetime.date) -> None:
        """Leaves out of the file what is long past, and what later lines replaced."""
        oldest = (today - datetime.timedelta(days=DAYS_KEPT)).isoformat()
        self.done = {it: done for it, done in self.done.items() if it[1] >= oldest}
        self.denials = {it: path for it, path in self.denials.items() if it[1] >= oldest or path}
        self.rewrite()

    def rewrite(self) -> None:
        entries = [
            {"kind": "last", "caller": caller, "number": number}
            for caller, number in self.last.items()
        ]
        entries += [
            {"kind": "done", "key": key, "day": day, "rider": it.rider, "trip": it.trip}
            for (key, day), it in self.done.items()
        ]
        entries += [
            {"kind": "send", "caller": caller, "number": it.number, "key": it.key, "body": it.body}
            for caller, it in self.open.items()
        ]
        entries += [
            {"kind": "denied", "key": key, "day": day, "path": path}
            for (key, day), path in self.denials.items()
        ]
        whole_file.written(
            self.path, "".join(json.dumps(it, separators=(",", ":")) + "\n" for it in entries)
        )


@contextlib.contextmanager
def held(folder: str, url: str) -> Iterator[State]:
    """The state of a folder, which no other run has meanwhile."""
    number = os.open(folder, os.O_RDONLY | os.O_DIRECTORY)
    try:
        try:
            fcntl.flock(number, fcntl.LOCK_EX | fcntl.LOCK_NB)
        except BlockingIOError:
            raise Wrong(f"another run is under way in {folder}") from None
        yield State(folder, url)
    finally:
        os.close(number)
