"""The log of the site's requests, read as it grows."""

from __future__ import annotations

import datetime
import os
import re
from collections.abc import Iterator
from dataclasses import dataclass
from pathlib import Path

# The form `desk_access` of deploy/desk.nginx.
LINE = re.compile(
    r'\S+ - \S+ \[(?P<moment>[^\]]+)\] "(?P<method>[A-Z]+) (?P<path>/[^ "]*)[^"]*" (?P<status>\d{3}) \d+ '
    r'"[^"]*" "[^"]*" (?P<site>\S+) (?P<seconds>\d+\.\d+) \S+'
)
CLASSES = (
    "callers policy places routes vehicles riders trips days staff own drivers tally health"
).split()
# What is read of a log at the first look, in bytes: enough to find the last write of a working day's quiet hour.
FIRST_LOOK = 1 << 20


@dataclass(frozen=True)
class Request:
    """One line of the log. `moment` is in seconds since 1970, `seconds` is what it took."""

    site: str
    path_class: str
    status: int
    seconds: float
    moment: float
    is_write: bool


def request_of(line: str) -> Request | None:
    """The request that a line tells of; None for a line of another form."""
    found = LINE.match(line)
    if not found:
        return None
    try:
        moment = datetime.datetime.strptime(found["moment"], "%d/%b/%Y:%H:%M:%S %z").timestamp()
    except ValueError:
        return None
    first = found["path"].split("?")[0].split("/")[1]
    path_class = first if first in CLASSES else "pages"
    is_write = found["method"] == "POST" and path_class not in ("tally", "pages")
    status, seconds = int(found["status"]), float(found["seconds"])
    return Request(found["site"], path_class, status, seconds, moment, is_write)


class Follower:
    """Gives the lines that came since the last look, also after the log was turned over."""

    def __init__(self, path: Path) -> None:
        self.path = path
        self.file_number = self.place = 0
        self.rest = b""

    def requests(self) -> Iterator[Request]:
        """The new requests. Nothing where there is no log, or it may not be read."""
        try:
            with open(self.path, "rb") as file:
                self.find_place(file.fileno())
                file.seek(self.place)
                content = file.read()
                self.place += len(content)
        except OSError:
            return
        *lines, self.rest = (self.rest + content).split(b"\n")
        for line in lines:
            found = request_of(line.decode("utf-8", "replace"))
            if found:
                yield found

    def find_place(self, descriptor: int) -> None:
        """Where to go on: at the beginning of a new log, and near the end of one that is seen the first time."""
        told = os.fstat(descriptor)
        if told.st_ino == self.file_number and told.st_size >= self.place:
            return
        is_first = not self.file_number
        self.file_number, self.rest = told.st_ino, b""
        self.place = max(0, told.st_size - FIRST_LOOK) if is_first else 0
