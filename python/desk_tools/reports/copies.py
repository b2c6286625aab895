"""A copy of a desk's file, read by SQLite and never written: its tables are those of docs/FORMATS.md."""

from __future__ import annotations

import collections
import contextlib
import datetime
import errno
import fcntl
import os
import pathlib
import re
import sqlite3
import stat
import struct
import urllib.parse
from collections.abc import Iterator
from typing import Any, BinaryIO, NamedTuple

from desk_tools import days, served_copy
from desk_tools.setup.limits import Wrong
from desk_tools.tables import ENTRIES


VERSIONS = (1, 2)
# In the order in which the tables count them, from 0.
STATUSES = ("booked", "cancelled", "ridden", "missed by the rider", "missed by the operator")
BOOKED, CANCELLED, RIDDEN, MISSED_BY_RIDER, MISSED_BY_OPERATOR = range(5)
NO_NUMBER = -1
FIRST_YEAR, LAST_YEAR = 2000, 2099
SIGN = b"SQLite format 3\0"
# The head of a file of SQLite: the size of a page (1 stands for 65,536), the counter of changes, how many pages there
# are, and the counter for which that holds.
HEAD = struct.Struct(">16x H 6x I I 60x I 4x")
# The bytes of a file that SQLite locks: one that waits to write, one that will, and those of readers.
FIRST_LOCKED, LOCKED = 0x40000000, 512
FLOCK = "hhqqi4x"
BACKUP = re.compile(r"desk-.*\.db")


class Entry(NamedTuple):
    """An entry of a rider's case file: its place in it, its kind, day and author, and what the kind
    needs."""

    place: int
    kind: str
    day: int
    author: int
    a: int
    b: int
    conditions: Any
    words: str


class Policy(NamedTuple):
    """What the policy says of a pattern of missed trips."""

    min_missed: int
    percent: int
    span_days: int


def day_of(number: int) -> datetime.date:
    """The day of a number of the tables."""
    try:
        day = days.day_of(number)
    except (ValueError, OverflowError, TypeError):
        day = None
    if day is None or not FIRST_YEAR <= day.year <= LAST_YEAR:
        raise Wrong(
            f"the copy has the day {number!r}, none of {FIRST_YEAR} to {LAST_YEAR}, and is not sound"
        )
    return day


def found(path: str) -> str:
    """The copy itself; of a folder of backups, the newest by name."""
    if not os.path.isdir(path):
        return path
    names = sorted(it for it in os.listdir(path) if BACKUP.fullmatch(it))
    if not names:
        raise Wrong(f"{path} has no backup named desk-*.db")
    return f"{path.rstrip('/')}/{names[-1]}"


# A desk's own file may be all but empty: what it wrote last is in the log beside it.
WITHOUT_LOG = "a desk's file was copied without the file beside it, whose name ends in -wal. Copy with deploy/backup"


class Copy:
    """A copy that is open. What can't be read ends with one sentence. The program, a path or None, is asked about it."""

    def __init__(self, path: str, program: pathlib.Path | None = None) -> None:
        self.path, self.program = path, program
        check_file(path)
        place = urllib.parse.quote(os.path.abspath(path))
        self.connection = sqlite3.connect(f"file:{place}?mode=ro&immutable=1", uri=True)
        self.check_whole()
        self.version: Any = self.read_version()
        self.policy = Policy(*self.rows("SELECT min_missed, percent, span_days FROM desk")[0])

    def __enter__(self) -> Copy:
        return self

    def __exit__(self, *_: Any) -> None:
        self.connection.close()

    def rows(self, query: str, *values: int) -> Any:
        """The rows of a query."""
        try:
            return self.connection.execute(query, values).fetchall()
        except (sqlite3.Error, OverflowError, UnicodeError) as error:
            raise self.unsound(error) from None

    @contextlib.contextmanager
    def asked(self) -> Iterator[served_copy.ServedCopy]:
        """A desk that serves a copy of this copy, and can be asked about it."""
        try:
            program = served_copy.program_of(self.program)
        except served_copy.Refused as error:
            raise Wrong(str(error)) from None
        try:
            with served_copy.served(program, pathlib.Path(self.path)) as desk:
                yield desk
        except served_copy.Refused as error:
            raise self.unsound(error) from None

    def unsound(self, said: Any) -> Wrong:
        return Wrong(f"{self.path} is no sound copy of a desk's file: {said}")

    def check_whole(self) -> None:
        """SQLite finds nothing wrong: no page is lost, no column is empty, and each has what its table asks for."""
        if not self.rows("SELECT count(*) FROM sqlite_master")[0][0]:
            raise Wrong(f"{self.path} has no tables: {WITHOUT_LOG}")
        said = self.rows("PRAGMA quick_check(1)")
        if said != [("ok",)]:
            raise self.unsound(str(said[0][0]).splitlines()[-1] if said else "it can't be checked")

    def read_version(self) -> int:
        versions = self.rows("SELECT version FROM desk")
        if len(versions) != 1:
            raise self.unsound(f"its table desk has {len(versions)} rows")
        if versions[0][0] not in VERSIONS:
            raise Wrong(
                f"{self.path} has tables of version {versions[0][0]!r}, and versions 1 and 2 are read here"
            )
        return int(versions[0][0])

    def status_of(self, trip: int, number: int) -> str:
        """How a trip ended, in words."""
        if number not in range(len(STATUSES)):
            raise self.unsound(f"trip {trip} has the status {number!r}")
        return STATUSES[number]

    def correct(self, outcomes: dict[int, int]) -> None:
        """Lets trips have other outcomes, in this program alone: a view stands before the table, and the file stays."""
        columns = [name for _, name, *_ in self.rows("PRAGMA main.table_info(trips)")]
        shown = [
            "coalesce((SELECT status FROM corrected WHERE trip = id), status) AS status"
            if it == "status"
            else f'"{it}"'
            for it in columns
        ]
        self.rows("CREATE TEMP TABLE corrected (trip INTEGER PRIMARY KEY, status INTEGER)")
        for pair in outcomes.items():
            self.rows("INSERT INTO corrected VALUES (?, ?)", *pair)
        self.rows(f"CREATE TEMP VIEW trips AS SELECT {', '.join(shown)} FROM main.trips")

    def check_days(self) -> None:
        """Each trip is of a day that the desk knows, so that those of all days are all trips."""
        first, last = (
            days.number_of(datetime.date(year, 1, 1)) for year in (FIRST_YEAR, LAST_YEAR + 1)
        )
        for (day,) in self.rows(
            "SELECT day FROM trips WHERE day < ? OR day >= ? LIMIT 1", first, last
        ):
            day_of(day)

    def made_on(self) -> datetime.date:
        """The day on which the file was last written, by this machine's clock."""
        return datetime.date.fromtimestamp(os.stat(self.path).st_mtime)

    def case_files(self, rider: int | None = None) -> dict[int, list[Entry]]:
        """The entries of each rider who has any, in their order."""
        only, values = ("", ()) if rider is None else ("WHERE rider = ?", (rider,))
        files = collections.defaultdict(list)
        for number, place, kind, *rest in self.rows(
            f"SELECT rider, place, kind, day, author, a, b, conditions, words FROM entries {only} "
            "ORDER BY rider, place",
            *values,
        ):
            if kind not in range(len(ENTRIES)):
                raise self.unsound(f"an entry of the kind {kind!r}")
            files[number].append(Entry(place, ENTRIES[kind], *rest))
        return files


def check_file(path: str) -> None:
    """The file is one of SQLite's, is whole without a log, and nobody has it open to write."""
    try:
        if not stat.S_ISREG(os.stat(path).st_mode):
            raise Wrong(f"{path} is no file")
        with open(path, "rb") as file:
            head, length = file.read(HEAD.size), os.fstat(file.fileno()).st_size
            holder = lock_of(file)
    except OSError as error:
        raise Wrong(f"{path} can't be read: {error.strerror}") from None
    if not head.startswith(SIGN):
        raise Wrong(f"{path} is no database of SQLite, and so no copy of a desk's file")
    if length < length_in(head):
        raise Wrong(f"{path} was cut: it has {length:,} bytes of {length_in(head):,}")
    if os.path.lexists(f"{path}-wal"):
        raise Wrong(
            f"{path} has a log, {path}-wal, beside it: this is a desk's own file. Give a backup of it"
        )
    if holder:
        raise Wrong(
            f"process {holder} has {path} open and locked: this is a desk's own file. Give a backup of it"
        )


def length_in(head: bytes) -> int:
    """How many bytes the file has by its head, at least the head itself."""
    if len(head) < HEAD.size:
        return HEAD.size
    size, changes, pages, valid_for = HEAD.unpack(head)
    whole = (65_536 if size == 1 else size) * pages
    return int(whole) if changes == valid_for else HEAD.size


def lock_of(file: BinaryIO) -> int:
    """The process that has locked the file as SQLite does, or 0."""
    asked = struct.pack(FLOCK, fcntl.F_WRLCK, os.SEEK_SET, FIRST_LOCKED, LOCKED, 0)
    try:
        kind, _, _, _, holder = struct.unpack(FLOCK, fcntl.fcntl(file, fcntl.F_GETLK, asked))
    except OSError as error:
        if error.errno in (errno.ENOTSUP, errno.EINVAL, errno.ENOLCK):
            return 0
        raise
    return 0 if kind == fcntl.F_UNLCK else int(holder)
