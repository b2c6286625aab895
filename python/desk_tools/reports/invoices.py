"""The invoices of a month: a page and a CSV for each sponsor, and a summary whose sum is that of the trips."""

from __future__ import annotations

import math
import pathlib
from collections.abc import Iterator
from typing import Any, TYPE_CHECKING

from desk_tools import sponsors
from desk_tools.reports import copies, drawing
from desk_tools.days import number_of
from desk_tools.reports.copies import day_of
from desk_tools.reports.lists import Listed, Number
from desk_tools.reports.log_of_trips import LogOfTrips, Trip
from desk_tools.reports.trip_rows import MARK
from desk_tools.setup import carry, whole_file
from desk_tools.setup.limits import Wrong
from desk_tools.setup.tally_tables import csv_of

if TYPE_CHECKING:
    from desk_tools.reports.months import Period
    from desk_tools.reports.trip_rows import Names
    from desk_tools.setup.tally_log import Log

COLUMNS = ("trip", "day", "rider", "name", "from", "to", "by", "quantity", "rate", "amount", "note")
SUMMARY = ("sponsor", "trips", "open", "amount", "file")


def table_of(copy: copies.Copy, path: str) -> sponsors.Table:
    """The table of sponsors. A fault ends the command before anything is written: an invoice is whole, or it is none."""
    riders = {rider for rider, in copy.rows("SELECT id FROM riders")}
    progress = carry.Progress("rows of sponsors read", 1, after=2)

    def show(done: int, total: int) -> None:
        progress.total = total
        progress.show(done)

    try:
        table = sponsors.read(pathlib.Path(path), riders, show)
    except sponsors.Unreadable as error:
        raise Wrong(str(error)) from None
    progress.end()
    return table


def trips_of(copy: copies.Copy, log: Log | None, period: Period) -> Iterator[sponsors.Trip]:
    """The ridden trips of the period, with the straight line between their places and the seconds aboard."""
    of_log, points = LogOfTrips(log), {
        place: (x, y) for place, x, y in copy.rows("SELECT id, x, y FROM places")
    }
    for trip, rider, day, origin, goal in copy.rows(
        "SELECT id, rider, day, origin, goal FROM trips WHERE status = ? AND day BETWEEN ? AND ? ORDER BY day, id",
        copies.RIDDEN,
        *map(number_of, period),
    ):
        seconds = of_log.aboard(Trip(trip, day, 0, 0, 0, 0, 0, copies.RIDDEN))
        start, end = points.get(origin), points.get(goal)
        feet = round(math.dist(start, end)) if start and end else None
        yield sponsors.Trip(
            trip, rider, day_of(day), origin, goal, feet, seconds, of_log.addresses(trip, day)
        )


def ends_of(trip: sponsors.Trip, names: Names) -> tuple[str, str]:
    """Where a trip went from and to, as its sponsor may read it."""
    start, end = trip.named
    return names.for_sponsor(trip.rider, trip.origin, start), names.for_sponsor(
        trip.rider, trip.goal, end
    )


def row_of(it: sponsors.Charge, names: Names) -> list[int | str]:
    trip = it.trip
    return [
        trip.number,
        trip.day.isoformat(),
        trip.rider,
        sponsors.cell(names.rider(trip.rider)[0]),
        *map(sponsors.cell, ends_of(trip, names)),
        it.row.by,
        sponsors.units(it.quantity),
        sponsors.dollars(it.row.cents),
        sponsors.amount(it),
        it.why,
    ]


def page_row(it: sponsors.Charge, names: Names) -> tuple[Any, ...]:
    trip = it.trip
    return (
        trip.day,
        trip.number,
        trip.rider,
        names.rider(trip.rider)[0],
        *ends_of(trip, names),
        it.row.by,
        Number(sponsors.units(it.quantity)),
        Number(sponsors.dollars(it.row.cents)),
        Number(sponsors.amount(it)),
        it.why,
    )


def page_of(title: str, sponsor: str, charges: list[sponsors.Charge], names: Names) -> str:
    total, waiting = sum(it.cents for it in charges), sum(bool(it.why) for it in charges)
    rows = [page_row(it, names) for it in charges]
    listed = Listed(
        "trips",
        f"{len(charges)} trips",
        "",
        "",
        (
            "Day",
            "Trip",
            "Rider",
            "Name",
            "From",
            "To",
            "By",
            Number("Quantity"),
            Number("Rate ($)"),
            Number("Amount ($)"),
            "Note",
        ),
        rows,
    )
    sentences = [f"Amount due: ${sponsors.dollars(total)}."]
    sentences += [f"{waiting} trips have no amount yet: their note says why."] if waiting else []
    return drawing.page(
        f"{title}: {sponsor}",
        sentences,
        [listed],
        [],
        [
            "A mile is one of the straight line between the two places. An hour runs from Aboard to Dropped off and is billed by the second. Each amount is rounded once, to the cent."
        ],
    )


def write(
    folder: str, title: str, charges: list[sponsors.Charge], without: int, names: Names
) -> int:
    """Writes a new or empty folder, which is whole or as it was; the sum in cents."""
    with whole_file.folder_written(folder) as beside:
        return write_files(beside, title, charges, without, names)


def write_files(
    folder: str, title: str, charges: list[sponsors.Charge], without: int, names: Names
) -> int:
    """Writes each file into the folder; the sum in cents."""
    summary = []
    for at, (sponsor, those) in enumerate(sponsors.by_sponsor(charges).items(), 1):
        name = sponsors.file_name(at, sponsor)
        whole_file.written(
            f"{folder}/{name}.csv",
            MARK + csv_of([COLUMNS, *(row_of(it, names) for it in those)], "\r\n"),
        )
        whole_file.written(f"{folder}/{name}.html", page_of(title, sponsor, those, names))
        summary.append(
            [
                sponsors.cell(sponsor),
                len(those),
                sum(bool(it.why) for it in those),
                sponsors.dollars(sum(it.cents for it in those)),
                f"{name}.csv",
            ]
        )
    total = sum(it.cents for it in charges)
    summary += [
        ["all", len(charges), sum(bool(it.why) for it in charges), sponsors.dollars(total), ""],
        ["nobody pays", without, "", "", ""],
    ]
    whole_file.written(f"{folder}/summary.csv", MARK + csv_of([SUMMARY, *summary], "\r\n"))
    return total
