"""What is counted in each month: trips and planned times from a copy of the desk's file, the rest from the site's
log."""

from __future__ import annotations

import collections
import datetime
from collections import Counter
from collections.abc import Iterator
from typing import Any, NamedTuple, TYPE_CHECKING

from desk_tools.reports import copies
from desk_tools.days import number_of
from desk_tools.reports.copies import day_of
from desk_tools.reports.log_of_trips import LogOfTrips, trips_of
from desk_tools.reports.plans import DROP, PICKUP, Plans

if TYPE_CHECKING:
    from desk_tools.reports.log_of_trips import Trip
    from desk_tools.setup.tally_log import Log

# A vehicle was on the road on a day where one of its trips ended so.
ON_THE_ROAD = {copies.RIDDEN, copies.MISSED_BY_RIDER}


class Period(NamedTuple):
    """The days that count, from the first to the last one; all days, where nobody asked for
    some."""

    first: datetime.date
    last: datetime.date


ALL_DAYS = Period(datetime.date(copies.FIRST_YEAR, 1, 1), datetime.date(copies.LAST_YEAR, 12, 31))


def month_of(day: datetime.date) -> str:
    return f"{day.year}-{day.month:02}"


def counts_of(
    copy: copies.Copy, log: Log | None, period: Period, late_minutes: int
) -> dict[str, Counter[str]]:
    """The counts of each month without a gap: of the months that were asked for, or from the first one that has any."""
    counts: dict[str, Counter[str]] = collections.defaultdict(collections.Counter)
    status = count_trips(copy, LogOfTrips(log), period, late_minutes, counts)
    count_plans(copy, period, status, counts)
    for it in log.denials if log else ():
        if period.first <= it.day <= period.last:
            counts[month_of(it.day)][f"denied {it.rule}"] += 1
    is_asked = period.first > ALL_DAYS.first and period.last < ALL_DAYS.last
    ends = [*map(month_of, period)] if is_asked else sorted(counts)
    return {month: counts[month] for month in (months_between(ends[0], ends[-1]) if ends else ())}


def months_between(month: str, last: str) -> Iterator[str]:
    while month <= last:
        yield month
        year, number = int(month[:4]), int(month[5:])
        month = f"{year + number // 12}-{number % 12 + 1:02}"


def count_trips(
    copy: copies.Copy, of_log: LogOfTrips, period: Period, late_minutes: int, counts: dict[Any, Any]
) -> dict[int, int]:
    """Counts the trips, and returns how each ended. A trip of the copy's day or later is to come."""
    status, made = {}, number_of(copy.made_on())
    for trip in trips_of(copy, *map(number_of, period)):
        count = counts[month_of(day_of(trip.day))]
        status[trip.number] = trip.status
        count["trips"] += 1
        is_to_come = trip.status == copies.BOOKED and trip.day >= made
        count["to_come" if is_to_come else copy.status_of(trip.number, trip.status)] += 1
        if trip.status == copies.CANCELLED:
            count[f"cancelled_{of_log.cancellation(trip, late_minutes)}"] += 1
        elif trip.status in ON_THE_ROAD:
            count_times(count, trip, of_log)
    return status


def count_times(count: Counter[str], trip: Trip, of_log: LogOfTrips) -> None:
    """When the vehicle came, and for how long the rider was aboard. The window's last minute is in time."""
    arrived = of_log.arrived(trip)
    count[f"pickups_{when(arrived, trip.window_from, trip.window_to)}"] += 1
    if trip.latest != copies.NO_NUMBER and trip.status == copies.RIDDEN:
        count[f"appointments_{when(of_log.tapped(trip, 'dropped'), 0, trip.latest)}"] += 1
    seconds = of_log.aboard(trip) if trip.status == copies.RIDDEN else None
    if seconds is not None:
        count["rides_timed"] += 1
        count["driven_seconds"] += seconds
        count["rides_over_limit"] += seconds > 60 * trip.ride


def when(seconds: int | None, first: int, last: int) -> str:
    """How a moment of a day, in seconds, lies to a first and a last minute, both of which are in time."""
    if seconds is None:
        return "untold"
    return "early" if seconds < 60 * first else "late" if seconds >= 60 * (last + 1) else "on_time"


def count_plans(
    copy: copies.Copy, period: Period, status: dict[int, int], counts: dict[str, Counter[str]]
) -> None:
    """Planned minutes of rides, and of vehicles from their first pickup to the end of their last drop."""
    for _, day, stops in Plans(copy).between(*map(number_of, period)):
        if not any(status.get(it.trip) in ON_THE_ROAD for it in stops):
            continue
        count = counts[month_of(day_of(day))]
        count["vehicle_minutes"] += stops[-1].minute + stops[-1].service - stops[0].minute
        aboard = {it.trip: it.minute + it.service for it in stops if it.kind == PICKUP}
        count["planned_minutes"] += sum(
            it.minute - aboard[it.trip]
            for it in stops
            if it.kind == DROP and status.get(it.trip) == copies.RIDDEN
        )
