"""A copy's tables as CSV for a data warehouse: days, kinds and truth values as people write them, and never a key."""

import contextlib
import csv
import os
import sqlite3
import struct
import time
from collections.abc import Callable, Iterable, Iterator
from dataclasses import dataclass
from datetime import date, timedelta
from pathlib import Path

from desk_tools.tables import ENTRIES, FIRST_TABLES, LISTS, TABLES, Column, Form, Table

EPOCH, LAST_DAY, NONE = date(1970, 1, 1), date(2099, 12, 31), -1
POINT = struct.Struct(">ii")
DICTIONARY, LIST = "dictionary.csv", "tables.csv"
DICTIONARY_COLUMNS = ("table", "column", "form", "meaning", "key", "column_of_the_file")
LIST_COLUMNS = ("table", "file", "rows", "key", "meaning")
SECONDS_STILL = 2.0
# How many rows go by between two looks at the clock.
LOOKED = 10_000
Value = int | str | bytes


class Unsound(Exception):
    """A value that no desk writes, or a table that the copy lacks: one sentence."""


class Unwritable(Exception):
    """The folder takes no files: one sentence."""


@dataclass(frozen=True)
class Written:
    """A table and how many rows of it were written."""

    name: str
    table: Table
    rows: int


def shown(table: Table) -> tuple[Column, ...]:
    """The columns that are written: those without what belongs to keys."""
    return tuple(it for it in table.columns if it.form is not Form.SECRET)


def text_of(form: Form, value: Value) -> str:
    """A value as people read it. Raises ValueError for one that the form does not have."""
    if form is Form.TEXT:
        return str(value)
    if form is Form.POINTS:
        return points_in(value)
    if not isinstance(value, int):
        raise ValueError
    if form in (Form.SOME, Form.SOME_MINUTE, Form.SOME_DAY) and value == NONE:
        return ""
    if form is Form.SUBJECT:
        return str(value) if value else ""
    if form in (Form.DAY, Form.SOME_DAY):
        return day_of(value).isoformat()
    if form is Form.YES:
        return ("no", "yes")[one_of(value, 2)]
    if form is Form.WEEKDAYS:
        one_of(value, 1 << 7)
        return ";".join(str(at + 1) for at in range(7) if value >> at & 1)
    if form in LISTS:
        return LISTS[form][one_of(value, len(LISTS[form]))]
    return str(value)


def one_of(value: int, count: int) -> int:
    """The value, if it is a place in a list of so many."""
    if not 0 <= value < count:
        raise ValueError
    return value


def day_of(number: int) -> date:
    """The day of so many days since 1970."""
    if not 0 <= number <= (LAST_DAY - EPOCH).days:
        raise ValueError
    return EPOCH + timedelta(days=number)


def points_in(value: Value) -> str:
    """The points of a line, each as x and y."""
    if not isinstance(value, bytes) or len(value) % POINT.size:
        raise ValueError
    return ";".join(f"{x} {y}" for x, y in POINT.iter_unpack(value))


def row_of(
    name: str, columns: tuple[Column, ...], values: tuple[Value, ...], kind: int
) -> list[str]:
    """A row as it is written. `kind` is the place of the column that says which entry it is, or -1."""
    found = []
    for column, value in zip(columns, values):
        try:
            if column.only and ENTRIES[one_of(int(values[kind]), len(ENTRIES))] not in column.only:
                found.append("")
            else:
                found.append(text_of(column.form, value))
        except ValueError:
            key = ", ".join(map(str, values[: TABLES[name].keys]))
            raise Unsound(
                f"table {name}, row {key}: {column.source} is {value!r}, which no desk writes"
            ) from None
    return found


class Copy:
    """An open copy, of which the tables are read row by row. Raises Unsound where it lacks a table of its version."""

    def __init__(self, connection: sqlite3.Connection) -> None:
        self.connection = connection
        found = connection.execute("SELECT name FROM sqlite_master WHERE type = 'table'")
        self.names = {str(it) for it, in found}
        missing = [it for it in self.wanted() if it not in self.names]
        if missing:
            raise Unsound(
                f"the copy has no table {missing[0]}, which each desk's file has: take another copy"
            )

    def wanted(self) -> list[str]:
        """The tables of the copy's version, by the table desk; those of the newest where it does not say one."""
        names = [*TABLES]
        if "desk" not in self.names:
            return names
        version = self.connection.execute("SELECT version FROM desk").fetchone()
        return names[:FIRST_TABLES] if version == (1,) else names

    def count(self, name: str) -> int:
        """How many rows a table has; a table that the copy's version has not has none."""
        if name not in self.names:
            return 0
        return int(self.connection.execute(f"SELECT count(*) FROM {name}").fetchone()[0])

    def rows(self, name: str) -> Iterator[list[str]]:
        """The rows of a table by their key, as they are written. Raises Unsound."""
        if name not in self.names:
            return
        table, columns = TABLES[name], shown(TABLES[name])
        kind = next((at for at, it in enumerate(columns) if it.form is Form.ENTRY), NONE)
        order = ", ".join(it.source for it in table.columns[: table.keys])
        asked = f"SELECT {', '.join(it.source for it in columns)} FROM {name} ORDER BY {order}"
        try:
            for values in self.connection.execute(asked):
                yield row_of(name, columns, values, kind)
        except (sqlite3.Error, UnicodeError) as error:
            raise Unsound(f"table {name} can't be read: {error}") from None


class Progress:
    """Says how far a long work is, every two seconds."""

    def __init__(self, say: Callable[[str], None]) -> None:
        self.say, self.last = say, time.monotonic()

    def through(self, name: str, rows: Iterable[list[str]]) -> Iterator[list[str]]:
        """The rows themselves."""
        for at, row in enumerate(rows, 1):
            if at % LOOKED == 0 and time.monotonic() - self.last >= SECONDS_STILL:
                self.last = time.monotonic()
                self.say(f"{name}: {at:,} rows so far")
            yield row


def dictionary() -> Iterator[tuple[str, ...]]:
    """A row for each column, also for those that are not written."""
    for name, table in TABLES.items():
        for at, it in enumerate(table.columns):
            is_key = "yes" if at < table.keys else "no"
            yield name, it.name, it.form.value, it.meaning, is_key, it.source


def list_of(tables: list[Written]) -> Iterator[tuple[str, ...]]:
    """A row for each table."""
    for it in tables:
        keys = ";".join(column.name for column in it.table.columns[: it.table.keys])
        yield it.name, f"{it.name}.csv", str(it.rows), keys, it.table.meaning


class Folder:
    """A new or empty folder that only its owner reads. What was written goes away where the work fails."""

    def __init__(self, path: Path) -> None:
        self.path, self.files = path, list[Path]()
        try:
            self.is_made = not path.exists()
            if not self.is_made and (not path.is_dir() or any(path.iterdir())):
                raise Unwritable(f"{path} is there and is no empty folder: name another one")
            path.mkdir(mode=0o700, parents=True, exist_ok=True)
        except OSError as error:
            raise Unwritable(f"{path}: {error.strerror}") from None

    def write(self, name: str, rows: Iterable[Iterable[str]]) -> int:
        """Writes a file of these rows; how many there are."""
        path, count = self.path / name, 0
        self.files.append(path)
        flags = os.O_WRONLY | os.O_CREAT | os.O_EXCL
        with open(os.open(path, flags, 0o600), "w", encoding="utf-8", newline="") as file:
            # (these line ends, since a cell with any of them is quoted then)
            writer = csv.writer(file, lineterminator="\r\n")
            for row in rows:
                writer.writerow(row)
                count += 1
        return count

    def forget(self) -> None:
        """Takes away what was written."""
        for path in self.files:
            with contextlib.suppress(OSError):
                path.unlink()
        if self.is_made:
            with contextlib.suppress(OSError):
                self.path.rmdir()


def write(copy: Copy, path: Path, say: Callable[[str], None]) -> list[Written]:
    """Writes each table, the dictionary, and last the list of tables. Raises Unsound or Unwritable, and leaves nothing then."""
    folder, written, progress = Folder(path), list[Written](), Progress(say)
    try:
        for name, table in TABLES.items():
            names = [it.name for it in shown(table)]
            count = folder.write(
                f"{name}.csv", headed(names, progress.through(name, copy.rows(name)))
            )
            written.append(Written(name, table, count - 1))
        folder.write(DICTIONARY, headed(DICTIONARY_COLUMNS, dictionary()))
        folder.write(LIST, headed(LIST_COLUMNS, list_of(written)))
    except OSError as error:
        folder.forget()
        raise Unwritable(f"{error.filename or path}: {error.strerror}") from None
    except BaseException:
        folder.forget()
        raise
    return written


def headed(names: Iterable[str], rows: Iterable[Iterable[str]]) -> Iterator[Iterable[str]]:
    """The rows below their head."""
    yield names
    yield from rows
