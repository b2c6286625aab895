"""The figures of the National Transit Database, from a copy of the desk's file."""

from __future__ import annotations

import collections
from collections.abc import Iterator
from typing import Any, TYPE_CHECKING

from desk_tools.reports import copies, transit_days
from desk_tools.days import number_of
from desk_tools.reports.copies import day_of
from desk_tools.reports.dues import dues_of
from desk_tools.reports.lists import Listed, Number

if TYPE_CHECKING:
    from desk_tools.reports.months import Period

# How a trip ended, in the words of the desk's exports.
EXPORTED = dict(
    zip(copies.STATUSES, ("booked", "cancelled", "ridden", "missed-rider", "missed-operator"))
)


def days_of(copy: copies.Copy, period: Period) -> list[dict[str, Any]]:
    """The figures of each day of the period that has trips."""
    trips, dues = collections.defaultdict(list), dues_of(copy, period)
    for trip, day, vehicle, companions, attendant, status in copy.rows(
        "SELECT id, day, vehicle, companions, attendant, status FROM trips WHERE day BETWEEN ? AND ? "
        "ORDER BY day, id",
        *map(number_of, period),
    ):
        ended = EXPORTED[copy.status_of(trip, status)]
        trips[day].append(transit_days.Trip(vehicle, dues[trip], companions, attendant, ended))
    return [
        transit_days.figures_of(day_of(day), those, copy.made_on()) for day, those in trips.items()
    ]


def table_of(days: list[dict[str, Any]]) -> tuple[list[str], list[list[float | str]]]:
    """The columns, and a row for each day, for all, and for the averages of weekdays, Saturdays and Sundays."""
    columns = [*transit_days.FEW, *transit_days.SUMS]
    rows = [*days, transit_days.total_of(days), *transit_days.averages_of(days)]
    return columns, [[row[it] for it in columns] for row in rows]


def lists_of(days: list[dict[str, Any]]) -> Iterator[Listed]:
    """The sums, and the days, as tables for a page."""
    total = transit_days.total_of(days)
    figures = [(label, Number(f"{total[name]:,}")) for name, label in transit_days.LABELS]
    yield Listed(
        "sums",
        "All days",
        "",
        "",
        ("Figure", Number("All")),
        [*figures, ("Days operated", Number(total["service"].split()[0]))],
    )
    if days:
        heads = ["Day", "Service", *(Number(name) for name, _ in transit_days.DAYS)]
        yield Listed(
            "days",
            "Day by day",
            "",
            "",
            heads,
            [
                (
                    it["day"],
                    it["service"],
                    *(Number(str(it[name])) for _, name in transit_days.DAYS),
                )
                for it in days
            ],
        )


SENTENCES = [
    "These are the figures that the National Transit Database asks of demand response, as far as the desk knows them.",
    "Trips without an outcome and trips to come count in no other figure.",
]
WITHOUT_MILES = "Vehicle miles and vehicle hours are not here: drivers report them to the site, and its log (--tally) was not given."
