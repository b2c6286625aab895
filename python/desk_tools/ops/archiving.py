"""Trips of years ago in a file of their own, with all that they refer to, so that the desk opens both that file and the
other one.

The archive has all tables as they are, and of trips, stops and wheelchair marks those before a day. The desk's file
keeps the others, and of the days before that one the few vehicle days from which a visitor's year is counted (49 CFR
37.127(e)).
"""

from __future__ import annotations

import contextlib
import datetime
import os
import shutil
import sqlite3
import tempfile
import time
from collections.abc import Callable, Iterator
from typing import Any
from typing import TYPE_CHECKING

from . import interrupted
from .content import (
    TABLES,
    check_same,
    check_whole,
    content_of,
    content_of_pair,
    day_of,
    opened,
)
from .copying import (
    check_copy,
    check_folder_of,
    check_room,
    copied,
    folder_within,
    give_name,
    size_of,
    summed,
    synced,
)
from .ending import WRONG_WORDS, Failure
from .judge import judge
from .locking import locked
from .pages import in_memory
from .places import program_to_start
from desk_tools import law
from desk_tools.days import EPOCH, number_of
from desk_tools.setup import limits

if TYPE_CHECKING:
    from desk_tools.ops.content import Content
    from desk_tools.ops.places import Desk

# The last days that stay: those over which a pattern of missed trips may look back, the longest that a policy may have.
LAST_DAYS = limits.MOST_SPAN_DAYS
PERIOD = law.DAYS_OF_A_VISITORS_PERIOD
VISITOR, BOOKED, RIDDEN = 1, 0, 2
# Both files as they were, the one of both, the archive, what stays, and what the desk opens and throws away.
COPIES = 6
DATED = ("trips", "stops", "trip_chairs")


def latest_day(content: Content) -> int:
    """The latest day that an archive may be given. A clock that is ahead does not move it beyond what the file has."""
    # (nowhere is it an earlier day than twelve hours west of Greenwich)
    today = number_of((datetime.datetime.utcnow() - datetime.timedelta(hours=12)).date())
    newest = max(content.last_day or 0, content.last_entry_day or 0)
    return min(today, newest) - LAST_DAYS


def checked_day(text: str, content: Content) -> int:
    try:
        day = datetime.date.fromisoformat(text)
    except ValueError:
        raise Failure(f"{text!r} is no day; a day is YYYY-MM-DD", WRONG_WORDS) from None
    latest = latest_day(content)
    if number_of(day) > latest:
        raise Failure(
            f"the last {LAST_DAYS} days stay: give {EPOCH + datetime.timedelta(days=latest)} or a day "
            f"before it",
            WRONG_WORDS,
        )
    return number_of(day)


# What stays for visitors.


def openings(days: list[int]) -> list[int]:
    """The days that open a visitor's years: the first of use, and each time the first a period or more after that."""
    found: list[int] = []
    for day in days:
        if not found or day >= found[-1] + PERIOD:
            found.append(day)
    return found


def days_that_count(uses: dict[int, bool], cut: int) -> list[int]:
    """The days before the cut that a visitor's later years are counted from. `uses` has each day of use, and whether it
    was ridden.

    That is the day that opens the year in which the first later use lies. Where that day's trip may still turn out as
    missed, the next days too, up to one that was ridden.
    """
    days = sorted(uses)
    before, later = [it for it in days if it < cut], [it for it in days if it >= cut]
    if not before or not later:
        return []
    opening = openings(before)[-1]
    if opening + PERIOD <= later[0]:
        return []
    found: list[int] = []
    for day in (it for it in before if it >= opening):
        found.append(day)
        if uses[day]:
            break
    return found


def vehicle_days_that_stay(connection: sqlite3.Connection, cut: int) -> set[tuple[int, int]]:
    """The vehicles and days before the cut that stay, with all their trips."""
    uses: dict[int, dict[int, bool]] = {}
    trips: dict[tuple[int, int], set[int]] = {}
    query = (
        "SELECT trips.rider, day, vehicle, status FROM trips JOIN riders ON riders.id = trips.rider "
        "WHERE riders.kind = ? AND status IN (?, ?)"
    )
    for rider, day, vehicle, status in connection.execute(query, (VISITOR, BOOKED, RIDDEN)):
        days = uses.setdefault(rider, {})
        days[day] = days.get(day, False) or status == RIDDEN
        trips.setdefault((rider, day), set()).add(vehicle)
    return {
        (vehicle, day)
        for rider, days in uses.items()
        for day in days_that_count(days, cut)
        for vehicle in trips[rider, day]
    }


# What goes where.


class Division:
    """Which rows of the dated tables are the archive's, and which stay."""

    def __init__(self, connection: sqlite3.Connection, cut: int) -> None:
        self.cut, self.staying = cut, vehicle_days_that_stay(connection, cut)
        self.rows = {it: connection.execute(f"SELECT * FROM {it}").fetchall() for it in DATED}
        self.of_trip = {row[0]: (row[12], row[2]) for row in self.rows["trips"]}
        self.without_outcome = sum(
            1 for row in self.rows["trips"] if row[2] < cut and row[15] == BOOKED
        )

    def vehicle_day(self, table: str, row: tuple[int, ...]) -> tuple[int, int]:
        if table == "trip_chairs":
            return self.of_trip[row[0]]
        return (row[12], row[2]) if table == "trips" else (row[0], row[1])

    def is_archived(self, table: str, row: tuple[int, ...]) -> bool:
        return self.vehicle_day(table, row)[1] < self.cut

    def stays(self, table: str, row: tuple[int, int, int, int, int] | tuple[int, ...]) -> bool:
        at = self.vehicle_day(table, row)
        return at[1] >= self.cut or at in self.staying

    def counts(self) -> dict[str, tuple[int, int]]:
        """Of each dated table: the rows of the archive, and those that stay though they are old."""
        old = {it: [row for row in self.rows[it] if self.is_archived(it, row)] for it in DATED}
        return {
            it: (len(rows), sum(1 for row in rows if self.stays(it, row)))
            for it, rows in old.items()
        }

    def told(self) -> Iterator[str]:
        """What a dry run says."""
        named = {"trips": "trips", "stops": "stops", "trip_chairs": "wheelchair marks"}
        counts = self.counts()
        goes = ", ".join(f"{counts[it][0]:,} of {len(self.rows[it]):,} {named[it]}" for it in DATED)
        yield f"before {day_of(self.cut)}: {goes} go into the archive"
        kept = counts["trips"][1]
        if kept:
            yield f"{kept:,} of these trips stay too, since visitors' years are counted from days that they are on"
        if self.without_outcome:
            yield f"{self.without_outcome:,} of these trips have no outcome: none can be entered once they are archived"


def keep_before(database: sqlite3.Connection, division: Division) -> None:
    """The file becomes the archive."""
    database.execute("DELETE FROM stops WHERE day >= ?", (division.cut,))
    database.execute(
        "DELETE FROM trip_chairs WHERE trip IN (SELECT id FROM trips WHERE day >= ?)",
        (division.cut,),
    )
    database.execute("DELETE FROM trips WHERE day >= ?", (division.cut,))


def keep_after(database: sqlite3.Connection, division: Division) -> None:
    """The file becomes the one that stays."""
    database.execute(
        "CREATE TEMP TABLE staying (vehicle INTEGER, day INTEGER, PRIMARY KEY (vehicle, day))"
    )
    database.executemany("INSERT INTO staying VALUES (?, ?)", sorted(division.staying))
    goes = "day < ? AND (vehicle, day) NOT IN (SELECT vehicle, day FROM staying)"
    database.execute(f"DELETE FROM stops WHERE {goes}", (division.cut,))
    database.execute(
        f"DELETE FROM trip_chairs WHERE trip IN (SELECT id FROM trips WHERE {goes})",
        (division.cut,),
    )
    database.execute(f"DELETE FROM trips WHERE {goes}", (division.cut,))


def made(whole: str, path: str, change: Callable[..., Any], division: Division) -> str:
    """A copy of the whole file, with that change, and no larger than it has to be."""
    check_copy(path, copied(whole, path))
    with contextlib.closing(sqlite3.connect(path)) as database:
        with database:
            change(database, division)
        database.execute("VACUUM")
        database.execute("PRAGMA wal_checkpoint(TRUNCATE)").fetchone()
    drop_logs(path)
    return path


def drop_logs(path: str) -> None:
    if size_of(f"{path}-wal"):
        raise Failure(f"what {path}-wal has was not put into {path}")
    for end in ("-wal", "-shm"):
        with contextlib.suppress(FileNotFoundError):
            os.remove(f"{path}{end}")
    synced(path)


def check_rows(whole: str, path: str, belongs: Callable[..., Any]) -> None:
    """Each row that belongs there is there as it was, in its order, and no other row is."""
    with opened(whole) as before, opened(path) as after:
        for table in TABLES:
            wanted = before.execute(f"SELECT * FROM {table}")
            if table in DATED:
                wanted = (row for row in wanted if belongs(table, row))
            check_each(table, wanted, after.execute(f"SELECT * FROM {table}"), path)


def check_each(table: str, wanted: Any, found: sqlite3.Cursor, path: str) -> None:
    """Both have the same rows, one by one."""
    missing = object()
    for row in wanted:
        other = next(found, missing)
        if other != row:
            raise Failure(
                f"table {table} of {path} has {'no more rows' if other is missing else other} where {row} "
                f"belongs"
            )
    if next(found, missing) is not missing:
        raise Failure(f"table {table} of {path} has more rows than belong there")


class Archive:
    """Takes the trips before a day out of a stopped desk's file."""

    def __init__(self, desk: Desk, day: str, archive: str | None = None) -> None:
        self.desk, self.day, self.archive = desk, day, os.path.abspath(archive) if archive else ""
        self.division: Any = None
        self.kept: Any = None
        self.sizes: dict[str, int] = {}

    def dry_run(self) -> list[str]:
        with locked(self.desk.file), contextlib.closing(in_memory(self.desk.file)) as connection:
            self.division = Division(
                connection, checked_day(self.day, content_of_pair(self.desk.file))
            )
        return list(self.division.told())

    def make(self) -> list[str]:
        if os.path.exists(self.archive):
            raise Failure(f"{self.archive} is there already", WRONG_WORDS)
        check_folder_of(self.archive)
        before = os.umask(0o077)
        try:
            with interrupted.one_at_a_time(self.desk), locked(self.desk.file), folder_within(
                self.desk.folder, ".archived-"
            ) as folder:
                self.make_within(folder)
        finally:
            os.umask(before)
        return [
            *self.division.told(),
            f"{self.archive} has {self.sizes['archive'] // 1024:,} KiB, and {self.desk.file} "
            f"{self.sizes['stays'] // 1024:,} instead of {self.sizes['whole'] // 1024:,}",
            f"the earlier file is in {self.kept}",
        ]

    def make_within(self, folder: str) -> None:
        program = program_to_start()
        check_room(
            self.desk.folder,
            COPIES * (size_of(self.desk.file) + size_of(self.desk.log)),
            "an archive",
        )
        cut = checked_day(self.day, content_of_pair(self.desk.file))
        whole, sums = self.whole_in(folder)
        judge(program, whole)
        with opened(whole) as connection:
            self.division = Division(connection, cut)
        if not self.division.counts()["trips"][0]:
            raise Failure(f"there are no trips before {day_of(cut)}")
        old = made(whole, f"{folder}/archive.db", keep_before, self.division)
        new = made(whole, f"{folder}/stays.db", keep_after, self.division)
        for path, belongs in ((old, self.division.is_archived), (new, self.division.stays)):
            check_whole(path)
            check_rows(whole, path, belongs)
            judge(program, path)
        self.sizes = {"whole": size_of(whole), "archive": size_of(old), "stays": size_of(new)}
        self.replace(old, new, sums)

    def whole_in(self, folder: str) -> Any:
        """One file of the desk's two, and the sums of these."""
        part, sums = f"{folder}/desk.db", {}
        for end in ("", "-wal"):
            if os.path.exists(f"{self.desk.file}{end}"):
                sums[f"{self.desk.file}{end}"] = copied(f"{self.desk.file}{end}", f"{part}{end}")
                check_copy(f"{part}{end}", sums[f"{self.desk.file}{end}"])
        wanted = content_of_pair(part)
        with contextlib.closing(sqlite3.connect(part)) as connection:
            connection.execute("PRAGMA wal_checkpoint(TRUNCATE)").fetchone()
        drop_logs(part)
        check_same(wanted, content_of(part), part)
        return part, sums

    def replace(self, old: str, new: str, sums: dict[str, tuple[int, int]]) -> None:
        """The archive gets its name first; only then does the smaller file take the place of the other."""
        for path, (length, checksum) in sums.items():
            if summed(path)[0] != length or checksum not in (None, summed(path)[1]):
                raise Failure(f"{path} was changed meanwhile")
        place = os.path.dirname(self.archive)
        with folder_within(place, ".archive-") as folder:
            part = f"{folder}/archive.db"
            check_copy(part, copied(old, part))
            give_name(part, self.archive)
        owner = os.stat(self.desk.file)
        if os.geteuid() == 0:
            os.chown(new, owner.st_uid, owner.st_gid)
        self.kept = tempfile.mkdtemp(
            prefix=f"before-archive-{time.strftime('%Y%m%d-%H%M%S')}-", dir=self.desk.folder
        )
        moved = []
        try:
            for path in sums:
                os.rename(path, f"{self.kept}/{os.path.basename(path)}")
                moved.append(path)
            os.rename(new, self.desk.file)
            synced(self.desk.folder)
        except BaseException:
            for path in moved:
                os.rename(f"{self.kept}/{os.path.basename(path)}", path)
            shutil.rmtree(self.kept, ignore_errors=True)
            os.remove(self.archive)
            raise
