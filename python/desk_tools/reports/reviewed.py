"""A month of a copy of the desk's file, as desk_tools.review takes it: with the site's log, and a feed's timetable."""

from __future__ import annotations

import datetime
import itertools
import math
from collections.abc import Iterable, Iterator
from typing import Any, TYPE_CHECKING

from desk_tools.reports import copies
from desk_tools.days import number_of
from desk_tools.reports.copies import day_of
from desk_tools.reports.log_of_trips import LogOfTrips, seconds_into, trips_of
from desk_tools.reports.plans import DROP, PICKUP, Plans
from desk_tools.review import fixed_route, month
from desk_tools.setup import feed as feeds, plane as geometry
from desk_tools.setup.limits import Wrong
from desk_tools.setup.tally_log import AGENCY

if TYPE_CHECKING:
    from desk_tools.reports.log_of_trips import Trip
    from desk_tools.reports.months import Period
    from desk_tools.reports.plans import Stop
    from desk_tools.reports.trip_rows import Names
    from desk_tools.setup.tally_log import Log

STATES = (month.OPEN, month.CANCELED, month.RIDDEN, month.NO_SHOW, month.MISSED)
ENDED_BY = {month.NO_SHOW: "no-show-rider", month.MISSED: "no-show-agency"}
FEET_OF_A_MILE = 5_280
# How many minutes a driver waits, where agency.json does not say it.
USUAL_WAIT = 5


def month_of(
    copy: copies.Copy,
    log: Log | None,
    period: Period,
    names: Names,
    wait_due: int = USUAL_WAIT,
    buses: Buses | None = None,
) -> month.Month:
    """The month. `wait_due` is how many minutes a driver waits, and `buses` are a feed's timetables, or None."""
    of_log, days = LogOfTrips(log), [*map(number_of, period)]
    plans = Plans(copy)
    planned = {(it.trip, it.kind): it for _, _, stops in plans.between(*days) for it in stops}
    points = {number: (x, y) for number, x, y in copy.rows("SELECT id, x, y FROM places")}
    asked = {
        number: rest
        for number, *rest in copy.rows(
            "SELECT id, rider, origin, goal FROM trips WHERE day BETWEEN ? AND ?", *days
        )
    }
    waits = {(it.trip, it.day): it for it in log.of["no-shows"]} if log else {}
    trips = [
        trip_of(
            copy,
            it,
            asked[it.number],
            of_log,
            waits,
            plans,
            planned,
            points,
            names,
            wait_due,
            buses,
        )
        for it in trips_of(copy, *days)
    ]
    denials = [
        month.Denial(
            it.day,
            it.minute,
            it.mode or "",
            it.rule,
            month.channel_of(it.channel, it.told_by),
            it.leg or "",
        )
        for it in (log.denials if log else ())
        if period.first <= it.day <= period.last
    ]
    denials.sort(key=lambda it: (it.day, it.minute, it.channel))
    notes = [*notes_of_log(log, period), *(buses.notes if buses else ())]
    return month.Month(
        f"{period.first:%Y-%m}",
        trips,
        denials,
        tells_of(log, period),
        buses is not None,
        notes,
        begins_within(log, period),
    )


def tells_of(log: Log | None, period: Period) -> bool:
    """Whether the log has anything of the month: one that is empty, or begins after it, tells no figure."""
    return log is not None and any(day <= period.last for day in days_told(log))


def days_told(log: Log) -> Iterable[Any]:
    """The day on which the site had each event."""
    return (it.received.date() for those in log.of.values() for it in those)


def begins_within(log: Log | None, period: Period) -> Any:
    """The day on which the log begins, where that is after the month's first; else None."""
    first = None if log is None else min(days_told(log), default=None)
    return first if first is not None and period.first < first <= period.last else None


def notes_of_log(log: Log | None, period: Period) -> Iterator[Any]:
    """Where the log begins within the month, and what of it could not be read."""
    if log is None:
        return
    first = min(days_told(log), default=None)
    if first is None:
        yield "The site's log is empty."
    elif first > period.first:
        yield f"The site's log begins on {first}, and says nothing of what came before."
    if log.broken:
        yield f"{len(log.broken)} lines of the site's log could not be read, and are not counted."


def trip_of(
    copy: copies.Copy,
    trip: Trip,
    asked: list[int],
    of_log: LogOfTrips,
    waits: dict[tuple[int, datetime.date], Any],
    plans: Plans,
    planned: dict[tuple[int, int], Stop],
    points: dict[int, tuple[int, int]],
    names: Names,
    wait_due: int,
    buses: Buses | None,
) -> month.Trip:
    """One trip with all that is known of it."""
    rider, origin, goal = asked
    copy.status_of(trip.number, trip.status)
    state = STATES[trip.status]
    told, day = of_log.requested(trip.number, trip.day), day_of(trip.day)
    wait = waits.get((trip.number, day))
    arrived = of_log.arrived(trip)
    if arrived is None and wait is not None and wait.arrived is not None:
        arrived = 60 * wait.arrived
    ended = of_log.tapped(trip, ENDED_BY[state]) if state in ENDED_BY else None
    if ended is None and wait is not None and state == month.NO_SHOW:
        ended = seconds_into(trip.day, wait.at)
    pickup, drop = (planned.get((trip.number, kind)) for kind in (PICKUP, DROP))
    ends = points[origin], points[goal]
    return month.Trip(
        trip.number,
        day,
        rider,
        names.place(origin),
        names.place(goal),
        names.vehicle(trip.vehicle),
        state,
        told.mode if told else "",
        told.minute if told else None,
        (told.window_from, told.window_to) if told else None,
        (trip.window_from, trip.window_to),
        None if trip.latest == copies.NO_NUMBER else trip.latest,
        arrived,
        of_log.tapped(trip, "aboard"),
        of_log.tapped(trip, "dropped"),
        ended,
        wait.wait if wait and state == month.NO_SHOW else None,
        drop.minute - pickup.minute - pickup.service if pickup and drop else None,
        plans.drives_on(trip.day).between(origin, goal),
        buses.minutes(day, *ends, trip.window_from) if buses else None,
        round(math.dist(*ends) / FEET_OF_A_MILE, 1),
        canceled_by(of_log, trip) if state == month.CANCELED else "",
        wait_due,
    )


def canceled_by(of_log: LogOfTrips, trip: Trip) -> str:
    said = of_log.cancelled.get(trip.number)
    return "not known" if said is None else "agency" if said.by == AGENCY else "rider"


class Buses:
    """The timetables of a feed, a day at a time, on the plane of plane.json in an agency's folder."""

    def __init__(self, path: str, folder: str, period: Period) -> None:
        plane = geometry.kept_plane(folder)
        if plane is None:
            raise Wrong(
                f"{folder} has no plane.json, by which move-in laid the feed's stops out: name its folder by --plane"
            )
        self.notes: list[str] = []
        self.known: dict[Any, fixed_route.Timetable] = {}
        with feeds.checked(feeds.opened(path), path) as archive:
            tables = feeds.tables_of(archive, path)
            try:
                self.services = feeds.services_of(tables, *period)
            except feeds.NothingRuns as error:
                self.notes.append(f"The timetable tells nothing of the month: {error}.")
                self.services = {}
            self.trips = feeds.trips_of(tables["trips"], self.services)
            self.visits = feeds.visits_of(tables["stop_times"], self.trips)
            self.repeats = feeds.repeats_of(tables["frequencies"]) if tables["frequencies"] else {}
            wanted = {stop for those in self.visits.values() for _, stop, _, _ in those}
            self.stops = {
                key: plane.point(it.latitude, it.longitude)
                for key, it in feeds.stops_of(tables["stops"], wanted).items()
            }

    def minutes(
        self, day: datetime.date, origin: tuple[int, int], goal: tuple[int, int], minute: int
    ) -> Any:
        """The minutes of the same trip by bus from the minute on, or None where no bus serves it."""
        if day not in self.known:
            hops = itertools.chain.from_iterable(
                hops_of(key, self.visits.get(key, []), self.repeats.get(key))
                for key, trip in self.trips.items()
                if day in self.services[trip["service_id"]]
            )
            self.known[day] = fixed_route.Timetable([*hops], self.stops)
        found = self.known[day].journey(origin, goal, 60 * minute)
        return found.minutes if found else None


def hops_of(
    key: str, visits: list[tuple[float, str, int | None, int | None]], repeats: Any
) -> Iterator[fixed_route.Hop]:
    """The hops of a trip of the feed from each stop that has a time to the next, once or as often as it is repeated."""
    timed = [
        (it[1], *clocks)
        for it in sorted(visits, key=lambda it: it[0])
        if (clocks := clocks_of(*it[2:]))
    ]
    if len(timed) < 2:
        return
    begins = timed[0][1]
    # (who leaves out how often a trip is repeated has it once)
    starts = (
        [
            it
            for first, last, pause in repeats
            for it in range(first, max(first + 1, last), pause or last)
        ]
        if repeats
        else [begins]
    )
    for start in starts:
        later = start - begins
        for (origin, _, leaves), (goal, arrives, _) in itertools.pairwise(timed):
            yield fixed_route.Hop(leaves + later, arrives + later, origin, goal, f"{key} {start}")


def clocks_of(arrives: int | None, leaves: int | None) -> tuple[int, int] | None:
    """When a bus is at a stop and when it leaves, or None where the feed leaves both open."""
    if arrives is None:
        return None if leaves is None else (leaves, leaves)
    return arrives, arrives if leaves is None else leaves
