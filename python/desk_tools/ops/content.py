"""What a database has: its counts of rows, its last numbers, its last days. The tables are those of docs/FORMATS.md."""

from __future__ import annotations

import contextlib
import dataclasses
import hashlib
import os
import sqlite3
import urllib.parse
from typing import Any

from .ending import Failure
from .pages import Malformed, in_memory
from desk_tools import days, tables

TABLES = [*tables.TABLES]
FIRST_TABLES = TABLES[: tables.FIRST_TABLES]


@dataclasses.dataclass(frozen=True)
class Content:
    """Two databases of the same writes have the same of all of this."""

    version: int
    counts: dict[str, Any]
    last_trip: int
    kept: str
    first_day: int | None
    last_day: int | None
    last_entry_day: int | None
    callers: frozenset[bytes]

    def told(self) -> str:
        """What a person knows an agency by."""
        counts = self.counts
        days = (
            f", trips of {day_of(self.first_day)} to {day_of(self.last_day)}"
            if self.last_day is not None
            else ""
        )
        return (
            f"version {self.version}; {counted(counts['callers'], 'caller')}, "
            f"{counted(counts['riders'], 'rider')}, "
            f"{counted(counts['trips'], 'trip')}, the last number is {self.last_trip}{days}"
        )


def mark_of(digest: Any) -> Any:
    """What tells the digest of a caller's key from others, and gives none away."""
    return hashlib.sha256(b"caller of a desk " + digest).hexdigest()[:16]


def identity_of(content: Any) -> Any:
    """By what the agency of a file is known: no two agencies have a caller of one key."""
    return {"callers": sorted(map(mark_of, content.callers))}


def counted(count: Any, word: str) -> str:
    return f"{count:,} {word}{'' if count == 1 else 's'}"


def day_of(number: Any) -> str:
    """A day as people write it."""
    return days.day_of(number).isoformat()


def one_value(connection: sqlite3.Connection, query: str) -> int | None:
    found: int | None = connection.execute(query).fetchone()[0]
    return found


def content_in(connection: sqlite3.Connection, name: str) -> Content:
    """The content of an open database."""
    try:
        found = {
            it
            for (it,) in connection.execute("SELECT name FROM sqlite_master WHERE type = 'table'")
        }
        missing = [it for it in FIRST_TABLES if it not in found]
        if missing:
            raise Failure(f"{name} is no desk's database: it has no table {missing[0]}")
        counts = {
            it: one_value(connection, f"SELECT count(*) FROM {it}") for it in TABLES if it in found
        }
        if counts["desk"] != 1:
            raise Failure(
                f"{name} is no desk's database: its table desk has {counted(counts['desk'], 'row')}"
            )
        version, last_trip = connection.execute("SELECT version, last_trip FROM desk").fetchone()
        kept = repr(
            connection.execute("SELECT caller, number FROM kept ORDER BY caller").fetchall()
        )
        callers = frozenset(bytes(it) for (it,) in connection.execute("SELECT digest FROM callers"))
        first, last = connection.execute("SELECT min(day), max(day) FROM trips").fetchone()
        entered = one_value(connection, "SELECT max(day) FROM entries")
    except sqlite3.Error as error:
        raise Malformed(f"{name} is malformed: {error}") from None
    return Content(
        version,
        counts,
        last_trip,
        hashlib.sha256(kept.encode()).hexdigest(),
        first,
        last,
        entered,
        callers,
    )


def content_of_pair(file: str) -> Content:
    """What a file and its log have, by their pages, in memory."""
    with contextlib.closing(in_memory(file)) as connection:
        return content_in(connection, file)


def opened(file: str) -> Any:
    """A connection that writes nothing, to a file that has no log and that nobody changes."""
    if not os.path.isfile(file):
        raise Failure(f"there is no file {file}")
    path = urllib.parse.quote(os.path.abspath(file))
    return contextlib.closing(sqlite3.connect(f"file:{path}?mode=ro&immutable=1", uri=True))


def content_of(file: str) -> Content:
    with opened(file) as connection:
        return content_in(connection, file)


def check_whole(file: str) -> None:
    """SQLite finds the one file sound as a whole, and each of its references."""
    try:
        with opened(file) as connection:
            found = [it for (it,) in connection.execute("PRAGMA integrity_check")]
            lost = connection.execute("PRAGMA foreign_key_check").fetchall()
    except sqlite3.Error as error:
        raise Malformed(f"{file} is malformed: {error}") from None
    if found != ["ok"]:
        raise Malformed(f"{file} is malformed: {' '.join(found[0].split())}")
    if lost:
        raise Malformed(
            f"{file} is malformed: row {lost[0][1]} of table {lost[0][0]} refers to no row of {lost[0][2]}"
        )


def check_same(wanted: Content, found: Content, label: str) -> None:
    """Both have the same rows by number, and the same last numbers."""
    if wanted == found:
        return
    for table in wanted.counts:
        if wanted.counts[table] != found.counts.get(table):
            raise Failure(
                f"{label}: table {table} has {found.counts.get(table)} rows for {wanted.counts[table]}"
            )
    raise Failure(f"{label}: the last numbers are others: {found.told()}, for {wanted.told()}")


def summary_in(connection: sqlite3.Connection, name: str) -> dict[str, Any]:
    """Counts of rows, and the number of each caller's last write, in what JSON can hold. Writes leave no other trace
    that is as short: two files of one desk with the same of these have the same writes."""
    content = content_in(connection, name)
    kept = {
        str(caller): number
        for caller, number in connection.execute("SELECT caller, number FROM kept")
    }
    return {"counts": content.counts, "last_trip": content.last_trip, "kept": kept}


def summary_of_pair(file: str) -> dict[str, Any]:
    with contextlib.closing(in_memory(file)) as connection:
        return summary_in(connection, file)


def summary_of(file: str) -> dict[str, Any]:
    with opened(file) as connection:
        return summary_in(connection, file)
