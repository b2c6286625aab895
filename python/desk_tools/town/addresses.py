"""addresses.csv: the addresses of a town, each at a place of the desk (docs/SITE-FILES.md).

Columns: id, street, place, latitude and longitude or x and y in feet, note, rider, core. A row with
`rider` is the home of those riders, and as private as a place that is theirs.
"""

import csv
import io
import re
from collections.abc import Callable, Iterable, Mapping, Sequence
from dataclasses import dataclass, field, replace
from pathlib import Path
from typing import Protocol, TypeVar

from desk_tools.town import cells, sheets
from desk_tools.town.cells import WrongCell
from desk_tools.town.corridor import Point
from desk_tools.town.sheets import Refusal, Row, Sheet

T = TypeVar("T")
MOST_ADDRESSES, SHOWN_EACH = 100_000, 1_000
COLUMNS = {
    "id": ("number", "no", "address_id", "address_number", "id_number"),
    "street": ("address", "street_address"),
    "place": ("place_id", "place_number"),
    "latitude": ("lat",),
    "longitude": ("lon", "lng", "long"),
    "x": (),
    "y": (),
    "note": ("notes", "comment", "comments"),
    "rider": ("riders", "home_of", "rider_id", "rider_number", "client", "client_id"),
    "core": (),
}
# What the file that the tools write has.
WRITTEN = ("id", "street", "place", "latitude", "longitude", "note", "rider", "core")


@dataclass(frozen=True)
class Address:
    """An address. `point` is None where the row has no position, and `place` where it has none."""

    number: int
    street: str
    point: Point | None = None
    position: tuple[float, float] | None = None
    place: int | None = None
    note: str = ""
    riders: tuple[int, ...] = ()
    core: bool = False
    row: int = 0


@dataclass(frozen=True)
class Others:
    """Columns that no tool knows: their names, and each address's cells by them."""

    names: Sequence[str] = ()
    cells: Mapping[int, Mapping[str, str]] = field(default_factory=dict)


def plain(street: str) -> str:
    """A street as it is compared: without case, commas and points."""
    return " ".join(re.sub(r"[.,#]", " ", street).lower().split())


def same(address: Address) -> tuple[str, Point | None]:
    """What two rows of one address have in common: the street and the point."""
    return plain(address.street), address.point


class Plane(Protocol):
    """The agency's plane (desk_tools/setup/plane.py)."""

    def point(self, latitude: float, longitude: float) -> Point:
        """The point of a position, in whole feet; an exception where it is too far away."""

    def position(self, x: int, y: int) -> tuple[float, float]:
        """The latitude and longitude of a point."""


def read(
    path: Path, plane: Plane | None, show: Callable[[int, int, str], None] | None = None
) -> tuple[list[Address], Sheet]:
    """The addresses of a file, and the sheet with the rows that are refused."""
    sheet = sheets.read(path, COLUMNS, MOST_ADDRESSES)
    sheets.require(sheet, ("id", "street"), COLUMNS)
    found: dict[int, Address] = {}

    def take(row: Row) -> None:
        if show and row.number % SHOWN_EACH == 0:
            show(row.number, len(sheet.rows), "addresses read")
        address = address_of(row, plane)
        there = found.setdefault(address.number, address)
        if there is not address:
            raise WrongCell(f"row {there.row} has the id {address.number} already")

    refuse_wrong(sheet, take)
    return list(found.values()), sheet


def refuse_wrong(sheet: Sheet, take: Callable[[Row], None]) -> None:
    """Gives each row to `take`, and refuses those whose cells are wrong."""
    for row in sheet.rows:
        try:
            take(row)
        except WrongCell as error:
            sheet.refused.append(Refusal(row.number, str(error), row.cells))
    sheet.refused.sort(key=lambda it: it.number)


def address_of(row: Row, plane: Plane | None) -> Address:
    """The address of a row."""
    fields = row.fields
    number = named("id", fields, cells.number)
    street = fields.get("street", "")
    if number is None or not street:
        raise WrongCell(f"{'street' if number else 'id'} is missing")
    address = Address(
        number,
        street,
        place=named("place", fields, cells.number),
        note=fields.get("note", ""),
        riders=tuple(named("rider", fields, cells.numbers) or ()),
        core=bool(named("core", fields, cells.yes_or_no)),
        row=row.number,
    )
    return with_point(address, fields, plane)


def named(name: str, fields: dict[str, str], read_cell: Callable[[str], T]) -> T | None:
    """What the cell of a column says, None where it is empty, an error that names the column."""
    text = fields.get(name, "")
    try:
        return read_cell(text) if text else None
    except WrongCell as error:
        raise WrongCell(f"{name} {error}") from None


def with_point(address: Address, fields: dict[str, str], plane: Plane | None) -> Address:
    """The address with its point and its position, where the row has either."""
    most = cells.GREATEST_COORDINATE
    x, y = (named(it, fields, lambda text: cells.whole(text, -most, most)) for it in "xy")
    latitude = named("latitude", fields, lambda text: cells.degrees(text, 90))
    longitude = named("longitude", fields, lambda text: cells.degrees(text, 180))
    if (x is None) != (y is None) or (latitude is None) != (longitude is None):
        raise WrongCell("one of its two coordinates is missing")
    if latitude is not None and longitude is not None:
        if plane is None:
            return replace(address, position=(latitude, longitude))
        try:
            point = plane.point(latitude, longitude)
        except Exception as error:
            raise WrongCell(str(error)) from None
        return replace(address, point=point, position=(latitude, longitude))
    if x is None or y is None:
        return address
    position = plane.position(x, y) if plane else None
    return replace(address, point=(x, y), position=position)


def text_of(addresses: Iterable[Address], others: Others | None = None) -> str:
    """The addresses as the CSV that the tools write, with columns of the agency's own behind."""
    text, kept = io.StringIO(), others or Others()
    writer = csv.writer(text, lineterminator="\n")
    is_core = ("", "yes")
    writer.writerow([*WRITTEN, *kept.names])
    for it in addresses:
        position = tuple(f"{part:.7f}" for part in it.position) if it.position else ("", "")
        riders = ";".join(map(str, it.riders))
        row = (it.number, it.street, it.place or "", *position, it.note, riders, is_core[it.core])
        cells_of = kept.cells.get(it.number, {})
        writer.writerow([*row, *(cells_of.get(name, "") for name in kept.names)])
    return text.getvalue()


def others_in(addresses: Iterable[Address], sheet: Sheet) -> Others:
    """The columns of a table that no tool knows, with their cells by the numbers of the addresses."""
    names = [it for it in sheet.header if it and it not in COLUMNS]
    number_of = {it.row: it.number for it in addresses}
    rows = {number_of[it.number]: it.fields for it in sheet.rows if it.number in number_of}
    return Others(names, rows)


def refused_text(sheet: Sheet) -> str:
    """The rows that were refused, whole, with the reason beside each."""
    text = io.StringIO()
    writer = csv.writer(text, lineterminator="\n")
    writer.writerow([*sheet.header, "row", "reason"])
    width = len(sheet.header)
    for it in sheet.refused:
        padded = [*it.cells, *[""] * (width - len(it.cells))]
        writer.writerow([*padded, it.number, it.reason])
    return text.getvalue()


def listed(refused: Sequence[Refusal], most: int = 20) -> list[str]:
    """A line for each refusal, the first ones where they are many."""
    lines = [f"row {it.number}: {it.reason}" for it in refused[:most]]
    return lines + ([f"and {len(refused) - most:,} rows more"] if len(refused) > most else [])
