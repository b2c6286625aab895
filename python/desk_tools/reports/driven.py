"""Vehicle miles and hours beside the figures of the National Transit Database: by day, and as lines of its forms."""

from __future__ import annotations

from collections.abc import Iterator
from typing import Any, TYPE_CHECKING

from desk_tools import miles
from desk_tools.reports import transit_days
from desk_tools.days import number_of
from desk_tools.reports.copies import day_of
from desk_tools.reports.months import ON_THE_ROAD
from desk_tools.setup import whole_file
from desk_tools.setup.tally_tables import csv_of

if TYPE_CHECKING:
    from desk_tools.reports.copies import Copy
    from desk_tools.reports.months import Period
    from desk_tools.setup.tally_log import Log

DAYS = """
    day vehicle_days vehicle_days_with_odometer vehicle_miles vehicle_hours
    vehicle_days_with_revenue_miles vehicle_revenue_miles deadhead_miles
    vehicle_days_with_revenue_hours vehicle_revenue_hours deadhead_hours
""".split()
UNREPORTED = ["day", "vehicle", "what nobody reported"]
FILES = {"MR-20": "mr-20.csv", "RR-20": "rr-20.csv", "S-10": "s-10.csv"}


def measured_of(copy: Copy, log: Log, period: Period) -> miles.Measured:
    """What the log says of the vehicles' days on which somebody was carried or awaited."""
    worked = {
        (day_of(day), vehicle): None
        for day, vehicle, status in copy.rows(
            "SELECT DISTINCT day, vehicle, status FROM trips WHERE day BETWEEN ? AND ?",
            *map(number_of, period),
        )
        if status in ON_THE_ROAD
    }
    of_period = [
        it
        for it in log.events
        if it.kind == "stops"
        or it.kind in miles.PULLS
        and period.first <= it.fields["day"] <= period.last
    ]
    return miles.measured(of_period, worked)


def day_rows(measured: miles.Measured) -> Iterator[list[int | str]]:
    """The figures by day. One of which nothing was reported is empty."""
    for day, it in sorted(measured.days.items()):
        yield [
            day.isoformat(),
            it.vans,
            it.vans_with_miles,
            *shown(it.vans_with_miles, it.miles, miles.hours(it.minutes)),
            it.vans_with_revenue_miles,
            *shown(it.vans_with_revenue_miles, it.revenue_miles, it.deadhead_miles),
            it.vans_with_revenue_hours,
            *shown(
                it.vans_with_revenue_hours,
                miles.hours(it.revenue_minutes),
                miles.hours(it.deadhead_minutes),
            ),
        ]


def shown(count: int, *figures: int | str) -> Any:
    return figures if count else [""] * len(figures)


def counted_of(service: str, days: list[dict[str, Any]], measured: miles.Measured) -> miles.Counted:
    """The figures of some days together."""
    sums = miles.Sums()
    for it in days:
        for day, those in measured.days.items():
            if day.isoformat() == it["day"]:
                sums.add(those)
    operated = [it for it in days if it["riders"] > 0]
    return miles.Counted(
        service,
        len(operated),
        sum(it["unlinked_passenger_trips"] for it in days),
        transit_days.most_vehicles(days),
        sums,
    )


def form_rows(
    form: str, days: list[dict[str, Any]], measured: miles.Measured
) -> list[tuple[str, ...]]:
    """The lines of a form: all days, and for S-10 those of each service too."""
    services = [("all", days)]
    if form == "S-10":
        services += [
            (it, [day for day in days if day["service"] == it]) for it in transit_days.SERVICES
        ]
    return [
        row
        for name, those in services
        if those or name == "all"
        for row in miles.rows_of(form, counted_of(name, those, measured))
    ]


def write(folder: str, days: list[dict[str, Any]], measured: miles.Measured) -> None:
    """Writes the forms, the days, and what nobody reported, into a new or empty folder."""
    with whole_file.folder_written(folder) as beside:
        for form, name in FILES.items():
            whole_file.written(
                f"{beside}/{name}", csv_of([miles.COLUMNS, *form_rows(form, days, measured)])
            )
        whole_file.written(f"{beside}/miles.csv", csv_of([DAYS, *day_rows(measured)]))
        whole_file.written(
            f"{beside}/unreported.csv",
            csv_of(
                [
                    UNREPORTED,
                    *(
                        [day.isoformat(), vehicle, said]
                        for day, vehicle, said in measured.unreported
                    ),
                ]
            ),
        )


def said_of(measured: miles.Measured) -> str:
    """What is missing, in one sentence."""
    vans = sum(it.vans for it in measured.days.values())
    out = {
        name: sum(getattr(it, name) for it in measured.days.values())
        for name in ("vans_with_miles", "vans_with_revenue_miles", "vans_with_revenue_hours")
    }
    return (
        f"Of {vans} vehicle days, {out['vans_with_miles']} have pull-out and pull-in, {out['vans_with_revenue_miles']} revenue miles, and "
        f"{out['vans_with_revenue_hours']} revenue hours: what nobody reported is in no figure."
    )
