"""Who pays for whose trips: the table sponsors.csv, and the amounts of a month in whole cents.

docs/WORKLIST.md, "Invoices", defines the table. Each thing that is wrong is named by its row.
"""

import contextlib
import datetime
import re
from collections import Counter
from collections.abc import Callable, Collection, Iterable, Sequence
from dataclasses import dataclass, field
from decimal import Decimal
from pathlib import Path

from desk_tools.town import cells, sheets

COLUMNS = ("rider", "sponsor", "from", "to", "rate", "by")
TRIP, MILE, HOUR = "trip", "mile", "hour"
BY = (TRIP, MILE, HOUR)
MOST_DOLLARS, LONGEST_NAME = 10_000, 80
RATE = re.compile(r"\$?([0-9]{1,6})(?:\.([0-9]{1,2}))?", re.ASCII)
FEET_OF_A_MILE, SECONDS_OF_AN_HOUR = 5_280, 3_600
FIRST, LAST = datetime.date(2000, 1, 1), datetime.date(2099, 12, 31)
# What a spreadsheet would take for a formula.
FORMULA = ("=", "+", "-", "@", "\t", "\r")


class Unreadable(Exception):
    """A file that is no table of sponsors: one sentence."""


@dataclass(frozen=True)
class Row:
    """One row: who pays for the rider's trips of some days, and how much, in cents for each unit."""

    row: int
    rider: int
    sponsor: str
    first: datetime.date
    last: datetime.date
    cents: int
    by: str

    def is_on(self, day: datetime.date) -> bool:
        """Whether the row holds on a day."""
        return self.first <= day <= self.last


@dataclass
class Table:
    """The rows that are right, a sentence for each that is not, and how the file was read."""

    rows: list[Row] = field(default_factory=list)
    faults: list[str] = field(default_factory=list)
    notes: list[str] = field(default_factory=list)


@dataclass(frozen=True)
class Trip:
    """A trip that was ridden. `seconds` aboard is None where nobody reported it, and `feet` is the straight line.

    `named` has the numbers of the addresses that the booking named for its two ends, None where it named none.
    """

    number: int
    rider: int
    day: datetime.date
    origin: int
    goal: int
    feet: int | None
    seconds: int | None
    named: tuple[int | None, int | None] = (None, None)


@dataclass(frozen=True)
class Charge:
    """What a sponsor pays for a trip. `quantity` is in hundredths of a trip, a mile or an hour; `why` says why it is open."""

    trip: Trip
    row: Row
    quantity: int | None
    cents: int
    why: str = ""


def read(
    path: Path,
    riders: Collection[int],
    show: Callable[[int, int], None] = lambda done, total: None,
) -> Table:
    """The table of a file, as a spreadsheet saved it. A rider who is none at the desk, and rows of a rider that overlap, are faults.

    `show` gets how many rows are read, and of how many.
    """
    try:
        sheet = sheets.read(path, {it: () for it in COLUMNS})
        sheets.require(sheet, COLUMNS, {it: () for it in COLUMNS})
    except sheets.Unreadable as error:
        raise Unreadable(str(error)) from None
    table = Table([], [f"row {it.number}: {it.reason}" for it in sheet.refused], _notes(sheet))
    for at, row in enumerate(sheet.rows):
        show(at, len(sheet.rows))
        _take(table, row.number, {it: row.fields.get(it, "") for it in COLUMNS}, riders)
    _name_overlaps(table)
    return table


def _notes(sheet: sheets.Sheet) -> list[str]:
    """How the bytes and the days of a file were read, where they are no plain CSV."""
    forms: Counter[tuple[str, str]] = Counter()
    for row in sheet.rows:
        for name in ("from", "to"):
            with contextlib.suppress(cells.WrongCell):
                forms[name, cells.day(row.fields.get(name, ""))[1]] += 1
    read_as = [(name, form, it) for (name, form), it in sorted(forms.items()) if form != cells.ISO]
    return [*sheet.notes, *(f"{name}: {it} days were read as {form}" for name, form, it in read_as)]


def _take(table: Table, at: int, texts: dict[str, str], riders: Collection[int]) -> None:
    try:
        row = _row(at, texts)
        if row.rider not in riders:
            raise ValueError(f"rider {row.rider} is none at the desk")
    except ValueError as error:
        table.faults.append(f"row {at}: {error}")
    else:
        table.rows.append(row)


def _row(at: int, texts: dict[str, str]) -> Row:
    try:
        rider = cells.number(texts["rider"])
    except cells.WrongCell:
        said = f"rider {texts['rider'][:40]!r} is no number from 1 to {cells.HIGHEST_NUMBER}"
        raise ValueError(said) from None
    sponsor = " ".join(texts["sponsor"].split())
    if not sponsor or len(sponsor) > LONGEST_NAME or not sponsor.isprintable():
        raise ValueError(f"sponsor is no name of 1 to {LONGEST_NAME} characters")
    first, last = _day("from", texts["from"], FIRST), _day("to", texts["to"], LAST)
    if first > last:
        raise ValueError(f"from {first} is after to {last}")
    by = texts["by"].lower()
    if by not in BY:
        raise ValueError(f"by {by[:40]!r} is none of {', '.join(BY)}")
    return Row(at, rider, sponsor, first, last, cents_in(texts["rate"]), by)


def _day(name: str, text: str, empty: datetime.date) -> datetime.date:
    """A day as a spreadsheet may have it; an empty field is the first day of all, or the last."""
    if not text:
        return empty
    try:
        return datetime.date.fromisoformat(cells.day(text[:40])[0])
    except cells.WrongCell as error:
        raise ValueError(f"{name} {error}") from None


def cents_in(text: str) -> int:
    """Dollars as 12, 12.5 or 12.50, in cents."""
    found = RATE.fullmatch(text)
    cents = int(found[1]) * 100 + int((found[2] or "0").ljust(2, "0")) if found else -1
    if not 0 <= cents <= MOST_DOLLARS * 100:
        raise ValueError(
            f"rate {text[:40]!r} is no number of dollars from 0 to {MOST_DOLLARS} with at most two decimals"
        )
    return cents


def _name_overlaps(table: Table) -> None:
    """Names each row that has a day of an earlier row of the same rider."""
    known: dict[int, list[Row]] = {}
    for row in table.rows:
        before = known.setdefault(row.rider, [])
        other = next((it for it in before if it.first <= row.last and row.first <= it.last), None)
        if other:
            table.faults.append(
                f"row {row.row}: rider {row.rider} has {_shared(other, row)} in row {other.row} already"
            )
        before.append(row)
    table.faults.sort(key=lambda it: int(it.split(":")[0][4:]))


def _shared(one: Row, other: Row) -> str:
    first, last = max(one.first, other.first), min(one.last, other.last)
    return f"the day {first}" if first == last else f"the days from {first} to {last}"


# The amounts.


def charges_of(trips: Iterable[Trip], rows: Sequence[Row]) -> tuple[list[Charge], int]:
    """What sponsors pay for, in the order of the trips, and how many trips nobody pays for."""
    of: dict[int, list[Row]] = {}
    for row in rows:
        of.setdefault(row.rider, []).append(row)
    charges, without = [], 0
    for trip in trips:
        found = next((it for it in of.get(trip.rider, []) if it.is_on(trip.day)), None)
        if found is None:
            without += 1
        else:
            charges.append(charge_of(trip, found))
    return charges, without


def charge_of(trip: Trip, row: Row) -> Charge:
    """The amount of one trip: it is rounded to the cent here, and nowhere else.

    Miles are billed in hundredths. Hours are billed by the second: their quantity is rounded for the eye alone.
    """
    if row.by == TRIP:
        return Charge(trip, row, 100, row.cents)
    is_mile = row.by == MILE
    measure, unit = (trip.feet, FEET_OF_A_MILE) if is_mile else (trip.seconds, SECONDS_OF_AN_HOUR)
    if measure is None:
        said = "the places have no points" if is_mile else "Aboard or Dropped off was not tapped"
        return Charge(trip, row, None, 0, said)
    quantity = rounded(measure * 100, unit)
    cents = rounded(quantity * row.cents, 100) if is_mile else rounded(measure * row.cents, unit)
    return Charge(trip, row, quantity, cents)


def rounded(number: int, by: int) -> int:
    """A quotient as a whole number, halves up."""
    return (2 * number + by) // (2 * by)


def dollars(cents: int) -> str:
    """Cents as dollars."""
    return f"{Decimal(cents) / 100:.2f}"


def amount(charge: Charge) -> str:
    """The dollars of a charge, or nothing where it has no amount yet."""
    return "" if charge.quantity is None else dollars(charge.cents)


def units(quantity: int | None) -> str:
    """Hundredths as a number."""
    return "" if quantity is None else f"{Decimal(quantity) / 100:.2f}"


def by_sponsor(charges: Iterable[Charge]) -> dict[str, list[Charge]]:
    """The charges of each sponsor, by name."""
    found: dict[str, list[Charge]] = {}
    for it in charges:
        found.setdefault(it.row.sponsor, []).append(it)
    return dict(sorted(found.items()))


def file_name(at: int, sponsor: str) -> str:
    """A file's name without its end: a number makes it the sponsor's own."""
    plain = re.sub("[^a-z0-9]+", "-", sponsor.lower()).strip("-")[:40]
    return f"{at:02}-{plain}" if plain else f"{at:02}"


def cell(text: str) -> str:
    """A cell that a spreadsheet does not take for a formula."""
    return f"'{text}" if text.startswith(FORMULA) else text
