"""Tables that an agency writes as CSV, a record a row. A row that can't be read is refused, and the others go on."""

from __future__ import annotations

import collections
import datetime
import pathlib
import re
from collections import Counter
from collections.abc import Callable
from collections.abc import Sequence
from typing import Any, NamedTuple

from desk_tools.setup.limits import (
    GREATEST_COORDINATE,
    HIGHEST_NUMBER,
    LAST_MINUTE,
    MOST_CHAIRS,
    MOST_SEATS,
    Wrong,
)
from desk_tools.tables import ROLES
from desk_tools.town import cells, conditional, sheets

WEEKDAY_PART = re.compile(r"([1-7])(?:-([1-7]))?")
WEEKDAY_NAMES = ["mon", "tue", "wed", "thu", "fri", "sat", "sun"]
WEEKDAY_NAME = re.compile(rf"(?i)\b({'|'.join(WEEKDAY_NAMES)})[a-z]*\b,?")
FIRST_DAY, LAST_DAY, MOST_SKIPPED = "2000-01-01", "2099-12-31", 366


class Column(NamedTuple):
    """A column: how its text is read, and what an empty text or no such column stands for; REQUIRED
    has to be there."""

    read: Callable[[str], Any]
    default: Any


class Refused(NamedTuple):
    """What was refused, and why."""

    what: str
    reason: str


class Rows(NamedTuple):
    """The cells of a table as they stand, by what a refusal names; and how a refusal by the desk
    names a record."""

    header: Sequence[str]
    cells: dict[str, list[str]]


LABELS = {
    "places": "place {number}",
    "vehicles": "vehicle {number} from {from_day}",
    "callers": "caller {number}",
    "riders": "rider {number}",
}
REQUIRED = object()
MODES = ("around", "not-before", "by")


def whole(low: int, high: int) -> Callable[..., Any]:
    def read(text: str) -> int:
        found = cells.WHOLE.fullmatch(text)
        if not found or not low <= int(found[1] + found[2]) <= high:
            raise ValueError(f"is no whole number from {low} to {high}")
        return int(found[1] + found[2])

    return read


def degrees(high: int) -> Callable[..., Any]:
    def read(text: str) -> float:
        if not re.fullmatch(r"[+-]?\d{1,3}(\.\d*)?", text) or abs(float(text)) > high:
            raise ValueError(f"is no number of degrees from -{high} to {high}")
        return float(text)

    return read


def yes_or_no(text: str) -> bool:
    found = {"yes": True, "true": True, "1": True, "no": False, "false": False, "0": False}.get(
        text.lower()
    )
    if found is None:
        raise ValueError("is neither yes nor no")
    return found


def day(text: str) -> Any:
    try:
        found = datetime.date.fromisoformat(text) if len(text) == 10 else None
    except ValueError:
        found = None
    if found is None or not 2000 <= found.year <= 2099:
        raise ValueError("is no day YYYY-MM-DD of 2000 to 2099")
    return text


def any_day(text: str) -> Any:
    """A day as a spreadsheet may have it; a plain error says YYYY-MM-DD, which is what the tools write."""
    try:
        return cells.day(text)[0]
    except cells.WrongCell:
        return day(text)


def minute(text: str) -> int:
    found = re.fullmatch(r"(\d{1,2}):([0-5]\d)", text)
    if not found or int(found[1]) > 23:
        raise ValueError("is no time HH:MM")
    return int(found[1]) * 60 + int(found[2])


def time_of_day(text: str) -> int:
    """A time of a 24-hour clock, or one with am or pm: 14:00, 2 pm, 2:30 p.m., noon."""
    # (a spreadsheet adds seconds)
    text = re.sub(r"^(\d{1,2}:\d\d):00\b", r"\1", text.strip())
    if text.lower() == "noon":
        return 720
    found = re.fullmatch(r"(\d{1,2})(?::([0-5]\d))?\s*([ap])\.?m\.?", text.lower())
    if not found:
        return minute(text)
    if not 1 <= int(found[1]) <= 12:
        raise ValueError("is no time such as 9:30 am")
    return int(found[1]) % 12 * 60 + int(found[2] or 0) + 720 * (found[3] == "p")


def days(text: str) -> frozenset[str]:
    """Days with blanks or semicolons between them, and from one to another by two points."""
    found = set()
    for part in filter(None, re.split(r"[\s;]+", text)):
        first, _, last = part.partition("..")
        at, end = (datetime.date.fromisoformat(any_day(it)) for it in (first, last or first))
        if (end - at).days not in range(MOST_SKIPPED):
            raise ValueError(f"are no days from one to another, {MOST_SKIPPED} at most")
        while at <= end:
            found.add(at.isoformat())
            at += datetime.timedelta(days=1)
    return frozenset(found)


def weekdays(text: str) -> list[int]:
    """Numbers from 1, Monday, to 7, or names, such as 1-5, 1 3 5 or Mon-Fri."""
    days = set()
    for part in WEEKDAY_NAME.sub(
        lambda it: str(WEEKDAY_NAMES.index(it[1].lower()) + 1), text
    ).split():
        found = WEEKDAY_PART.fullmatch(part)
        if not found or int(found[2] or found[1]) < int(found[1]):
            raise ValueError("are no weekdays such as 1-5, 1 3 7 or Mon-Fri, where 1 is Monday")
        days |= {*range(int(found[1]), int(found[2] or found[1]) + 1)}
    return sorted(days)


def whose(text: str) -> bool | int | list[int] | None:
    """Whose place it is: nobody's, for staff alone, or that of some riders with blanks or semicolons between them."""
    numbers = [it for it in re.split(r"[\s;]+", text) if it]
    if numbers and all(it.isdigit() for it in numbers):
        riders = sorted({NUMBER.read(it) for it in numbers})
        return riders if len(riders) > 1 else riders[0]
    found = {"yes": True, "true": True, "no": False, "false": False}.get(text.lower())
    if found is None:
        raise ValueError("is neither yes, no nor a rider's number")
    return found


def one_of(*words: str) -> Callable[..., Any]:
    def read(text: str) -> str:
        if text.lower() not in words:
            raise ValueError(f"is none of {', '.join(words)}")
        return text.lower()

    return read


def mode(text: str) -> str:
    """What matters of an order's time, as the pages call it."""
    found = re.sub(r"[\s_-]+", "-", text.lower())
    if found not in MODES:
        raise ValueError("is none of around, not before, by")
    return found


def text_of(text: str) -> str:
    return text


NUMBER = Column(whole(1, HIGHEST_NUMBER), REQUIRED)
NAME = Column(text_of, "")
COLUMNS = {
    "places": {
        "number": NUMBER,
        "name": NAME,
        "note": NAME,
        "latitude": Column(degrees(90), None),
        "longitude": Column(degrees(180), None),
        "x": Column(whole(-GREATEST_COORDINATE, GREATEST_COORDINATE), None),
        "y": Column(whole(-GREATEST_COORDINATE, GREATEST_COORDINATE), None),
        "core": Column(yes_or_no, False),
        "private": Column(whose, None),
    },
    "vehicles": {
        "number": NUMBER,
        "name": NAME,
        "from_day": Column(any_day, REQUIRED),
        "days": Column(weekdays, []),
        "depot": NUMBER,
        "capacity": Column(whole(1, MOST_SEATS), REQUIRED),
        "opens": Column(time_of_day, REQUIRED),
        "closes": Column(time_of_day, REQUIRED),
        "duration": Column(whole(1, LAST_MINUTE), REQUIRED),
        "chairs": Column(whole(0, MOST_CHAIRS), 0),
    },
    "callers": {
        "number": Column(whole(2, HIGHEST_NUMBER), REQUIRED),
        "name": NAME,
        "role": Column(one_of(*(it for it in ROLES if it != "admin")), REQUIRED),
        "subject": Column(whole(0, HIGHEST_NUMBER), 0),
    },
    "orders": {
        "order": NAME,
        "rider": NUMBER,
        "weekdays": Column(weekdays, REQUIRED),
        "wish": Column(time_of_day, REQUIRED),
        "by": Column(time_of_day, None),
        "from": NUMBER,
        "to": NUMBER,
        "companions": Column(whole(0, 255), 0),
        "attendant": Column(yes_or_no, False),
        "first_day": Column(any_day, FIRST_DAY),
        "last_day": Column(any_day, LAST_DAY),
        "skip_days": Column(days, frozenset()),
        "mode": Column(mode, MODES[0]),
    },
    "riders": {
        "number": NUMBER,
        "kind": Column(one_of("resident", "visitor"), REQUIRED),
        "attendant": Column(yes_or_no, False),
        "wheelchair": Column(yes_or_no, False),
        "until": Column(any_day, None),
        "conditions": Column(conditional.grant_in, [conditional.ALWAYS]),
        "home": Column(whole(1, HIGHEST_NUMBER), None),
    },
}


def value_of(name: str, column: Column, fields: dict[str, str]) -> Any:
    text = (fields.get(name) or "").strip()
    if not text:
        if column.default is REQUIRED:
            raise ValueError(f"{name} is missing")
        return column.default
    try:
        return column.read(text)
    except ValueError as error:
        raise ValueError(f"{name} {text!r} {error}") from None


def sheet_of(path: str, columns: dict[str, Column]) -> sheets.Sheet:
    """A table as somebody's spreadsheet saved it."""
    needed = [name for name, column in columns.items() if column.default is REQUIRED]
    names: dict[str, tuple[str, ...]] = {name: () for name in columns}
    try:
        sheet = sheets.read(pathlib.Path(path), names)
        sheets.require(sheet, needed, names)
    except sheets.Unreadable as error:
        raise Wrong(str(error)) from None
    return sheet


def records_in(
    path: str, kind: str, fault_of: Callable[..., Any], key: tuple[str, ...] = ("number",)
) -> tuple[list[dict[str, Any]], list[Refused], list[Any], Rows]:
    """The records of a table, the rows that are refused, how the table was read, and its rows as they stand.

    `fault_of` tells what is wrong with a record, or None. No two records have the same fields of `key`.
    """
    columns, forms = COLUMNS[kind], collections.Counter[tuple[str, str]]()
    records: list[dict[str, Any]] = []
    refused: list[Refused] = []
    known: dict[tuple[Any, ...], int] = {}
    sheet = sheet_of(path, columns)
    every: list[Any] = [*sheet.refused, *sheet.rows]
    rows = Rows(sheet.header, {f"line {it.number} of {path}": it.cells for it in every})
    for row in sheet.rows:
        try:
            record = {name: value_of(name, column, row.fields) for name, column in columns.items()}
            fault, there = fault_of(record), known.get(tuple(record[it] for it in key))
            if fault or there:
                raise ValueError(fault or f"line {there} has the same number")
            known[tuple(record[it] for it in key)] = row.number
            records.append(record)
            rows.cells[LABELS[kind].format_map(record)] = row.cells
            forms.update(forms_in(columns, row.fields))
        except ValueError as error:
            refused.append(Refused(f"line {row.number} of {path}", str(error)))
    refused += [Refused(f"line {it.number} of {path}", it.reason) for it in sheet.refused]
    return (
        records,
        refused,
        [
            *(f"the column {it} is not read" for it in sheet.header if it not in columns),
            *sheet.notes,
            *notes_of(forms),
        ],
        rows,
    )


def forms_in(columns: dict[str, Column], fields: dict[str, str]) -> list[tuple[str, str]]:
    """In which form the days of a row stand, by their columns."""
    return [
        (name, cells.day(fields[name])[1])
        for name, it in columns.items()
        if it.read is any_day and fields.get(name)
    ]


def notes_of(forms: Counter[tuple[str, str]]) -> list[str]:
    """How days were read that do not stand as YYYY-MM-DD."""
    return [
        f"{name}: {count} days were read as {form}"
        for (name, form), count in sorted(forms.items())
        if form != cells.ISO
    ]
