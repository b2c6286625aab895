"""Reads the site's log of what it was told: a line for each event, which `events.json` describes.

A line is the time, the path, the query and whose keys the teller has, with tabs between them; older lines lack the last
part. A line that can't be read is named and passed over. One that came twice, by its id, counts once. A tap that its
driver took back counts no more.
"""

import datetime
import gzip
import re
import zlib
from collections.abc import Iterable, Iterator
from dataclasses import dataclass, field
from pathlib import Path

from desk_tools.events import EVENTS, PREFIX, Value, fields_of

LONGEST = 4_096
# Whose keys tell an event: as deploy/desk.nginx writes it.
TELLERS = ("office", "dispatcher", "vehicle", "other")
# How the site begins a line, and how one begins that was cut off at once.
BEGUN = re.compile(rb"20|2\d{4}-")
START = re.compile(rb"\d{4}-\d\d-\d\dT\d\d:\d\d:\d\d(?:[+-]\d\d:\d\d|Z)\t" + PREFIX.encode("ascii"))


# What a driver can take back.
TAKEN_BACK = ("stops", "no-shows", "notes")


class UnreadableLog(Exception):
    """A log that can't be read: one sentence."""


@dataclass(frozen=True)
class Told:
    """One event: when the site had it, by the site's clock, and its fields. `by` is empty where the line lacks it."""

    kind: str
    received: datetime.datetime
    by: str
    fields: dict[str, Value | None]

    @property
    def id(self) -> str:
        """What makes two lines one event."""
        return str(self.fields["id"])

    def number(self, name: str) -> int:
        """A field that is a number, and is there."""
        value = self.fields[name]
        if not isinstance(value, int):
            raise TypeError(f"{name} of {self.kind} is no number")
        return value

    def moment(self, name: str) -> datetime.datetime:
        """A field that is a moment, and is there."""
        value = self.fields[name]
        if not isinstance(value, datetime.datetime):
            raise TypeError(f"{name} of {self.kind} is no moment")
        return value

    def says_the_same(self, other: "Told") -> bool:
        """Whether two lines with one id tell one event."""
        return self.kind == other.kind and self.fields == other.fields


@dataclass
class Log:
    """The events of some logs, each once, in the order in which the site had them, and what could not be read."""

    events: list[Told] = field(default_factory=list)
    broken: list[str] = field(default_factory=list)

    def of(self, kind: str) -> list[Told]:
        """The events of a kind."""
        return [it for it in self.events if it.kind == kind]


def read(paths: Iterable[str | Path]) -> Log:
    """What logs hold, whatever their order. An UnreadableLog says which one can't be read, or is none at all."""
    found: list[tuple[int, int, Told]] = []
    broken: list[tuple[int, int, str]] = []
    names = [str(it) for it in paths]
    for at, name in enumerate(names):
        number, known_before = 0, len(found)
        for number, line in enumerate(lines_in(name), 1):
            for piece in apart(line):
                try:
                    found.append((at, number, whole_of(piece)))
                except ValueError as error:
                    broken.append((at, number, str(error)))
        # A log of one line may be that of a machine that lost its power there. More lines than one are another file.
        if number > 1 and len(found) == known_before:
            raise UnreadableLog(
                f"{name} is no log of a site: none of its {number:,} lines tells an event"
            )
    known: dict[str, Told] = {}
    for at, number, told in sorted(found, key=lambda it: it[2].received.timestamp()):
        if not known.setdefault(told.id, told).says_the_same(told):
            broken.append((at, number, f"the id {told.id} stands before with other words"))
    said = [f"{names[at]}, line {number}: {why}" for at, number, why in sorted(broken)]
    return Log(standing(known.values()), said)


def standing(events: Iterable[Told]) -> list[Told]:
    """The events that count: those that their driver took back do not, which is told by van, trip and moment."""
    found = [*events]
    undone = {_tapped(it, "tapped") for it in found if it.kind == "undone"}
    return [it for it in found if it.kind not in TAKEN_BACK or _tapped(it, "at") not in undone]


def _tapped(told: Told, moment: str) -> tuple[Value | None, ...]:
    return told.fields["vehicle"], told.fields["trip"], told.fields[moment]


def lines_in(path: str | Path) -> Iterator[bytes]:
    """The lines of a log with their ends. It may be packed by gzip. Of a line that is too long the beginning is enough."""
    try:
        with gzip.open(path, "rb") if str(path).endswith(".gz") else open(path, "rb") as file:
            while line := file.readline(LONGEST + 2):
                rest = line
                while len(rest) == LONGEST + 2 and not rest.endswith(b"\n"):
                    rest = file.readline(LONGEST + 2)
                yield line
    except (OSError, EOFError, zlib.error) as error:
        why = getattr(error, "strerror", None) or error
        raise UnreadableLog(f"{path} can't be read: {why}") from None


def apart(line: bytes) -> list[bytes]:
    """The lines that stand in one: where a line was cut off in the middle, the site wrote the next event behind it."""
    # (a line that begins otherwise was damaged, and all of it is in doubt)
    starts = [it.start() for it in START.finditer(line, 1)] if BEGUN.match(line) else []
    return [line[at:end] for at, end in zip([0, *starts], [*starts, len(line)])]


def whole_of(line: bytes) -> Told:
    """The event of a line with its end. One that is cut off is none: its last field may be, too."""
    told = told_of(line.rstrip(b"\r\n"))
    if not line.endswith(b"\n") and not told.by:
        raise ValueError("it is cut off")
    return told


def told_of(line: bytes) -> Told:
    """The event of a line, or a ValueError that says why it is none."""
    try:
        parts = line.decode("ascii").split("\t")
    except UnicodeDecodeError as error:
        raise ValueError(f"it has the byte {line[error.start]:#04x}") from None
    if len(parts) not in (3, 4) or len(line) > LONGEST:
        signs = len(line) if len(line) <= LONGEST else f"more than {LONGEST:,}"
        raise ValueError(
            f"it has {len(parts)} parts and {signs} signs, and a line has a time, a path and a query"
        )
    kind = parts[1].removeprefix(PREFIX)
    if kind not in EVENTS or not parts[1].startswith(PREFIX):
        names = ", ".join(PREFIX + it for it in EVENTS)
        raise ValueError(f"the path {parts[1][:60]!r} is none of {names}")
    by = parts[3] if len(parts) == 4 else ""
    if by not in ("", *TELLERS):
        raise ValueError(f"{by[:40]!r} is none who tells an event")
    return Told(kind, _time_of(parts[0]), by, fields_of(EVENTS[kind], parts[2]))


def _time_of(text: str) -> datetime.datetime:
    try:
        found = datetime.datetime.fromisoformat(text)
    except ValueError:
        raise ValueError(f"the time {text[:40]!r} is no time") from None
    if found.tzinfo is None:
        raise ValueError(f"the time {text[:40]!r} has no zone")
    return found
