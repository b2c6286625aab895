"""What the site's log says of a copy's trips: when a vehicle came, for how long a rider was aboard, and when a trip was
cancelled."""

from __future__ import annotations

import collections
import datetime
from typing import Any, NamedTuple, TYPE_CHECKING

from desk_tools.reports.copies import CANCELLED, day_of
from desk_tools.setup.tally_log import AGENCY

if TYPE_CHECKING:
    from desk_tools.reports.copies import Copy
    from desk_tools.setup.tally_log import Log

# A tap counts for a trip from the midnight of its day until the noon after it.
MOST_SECONDS = 36 * 3_600


class Trip(NamedTuple):
    """A trip as the desk planned it, and how it ended."""

    number: int
    day: int
    vehicle: int
    window_from: int
    window_to: int
    latest: int
    ride: int
    status: int


def trips_of(copy: Copy, first: int, last: int) -> list[Trip]:
    """The trips of the days from first to last, which are numbers."""
    return [
        Trip(*it)
        for it in copy.rows(
            "SELECT id, day, vehicle, window_from, window_to, latest, ride, status FROM trips "
            "WHERE day BETWEEN ? AND ? ORDER BY day, id",
            first,
            last,
        )
    ]


class LogOfTrips:
    """What a log says of trips. Without a log it says nothing."""

    def __init__(self, log: Log | None) -> None:
        self.taps: dict[int, list[Any]] = collections.defaultdict(list)
        self.cancelled: dict[int, Any] = {}
        # What was asked for a trip is what was asked last: a change is told under the same number.
        self.booked = {(it.trip, it.day): it for it in log.of["bookings"]} if log else {}
        for it in log.stops if log else ():
            self.taps[it.trip].append(it)
        for it in log.cancellations if log else ():
            self.cancelled.setdefault(it.trip, it)

    def tapped(self, trip: Trip, event: str) -> int | None:
        """When this was first tapped for a trip, in seconds of the trip's day, or None."""
        if trip.number not in self.taps:
            return None
        seconds = [
            seconds_into(trip.day, it.at) for it in self.taps[trip.number] if it.event == event
        ]
        return min((it for it in seconds if 0 <= it < MOST_SECONDS), default=None)

    def arrived(self, trip: Trip) -> int | None:
        """When the vehicle was there: Arrived, or where nobody tapped that, Aboard."""
        found = self.tapped(trip, "arrived")
        return self.tapped(trip, "aboard") if found is None else found

    def aboard(self, trip: Trip) -> int | None:
        """For how many seconds the rider was aboard, or None."""
        begin, end = self.tapped(trip, "aboard"), self.tapped(trip, "dropped")
        return None if begin is None or end is None or end < begin else end - begin

    def requested(self, number: int, day: int) -> Any:
        """The event of what was asked for a trip, or None where no log has it."""
        return self.booked.get((number, day_of(day)))

    def addresses(self, number: int, day: int) -> tuple[None, int | None]:
        """The numbers of the addresses that a trip's booking named for its two ends, None where it named none."""
        asked = self.requested(number, day)
        return (None, None) if asked is None else (asked.from_address, asked.to_address)

    def cancellation(self, trip: Trip, late_minutes: int) -> str:
        """How a trip was cancelled: for the agency, early, late, or untold."""
        said = self.cancelled.get(trip.number)
        if said is None or trip.status != CANCELLED:
            return "untold"
        if said.by == AGENCY:
            return "by_agency"
        is_late = 60 * trip.window_from - seconds_into(trip.day, said.at) < 60 * late_minutes
        return "late" if is_late else "early"


def seconds_into(number: int, moment: datetime.datetime) -> int:
    """The seconds from the midnight of a day to a moment by the same clock."""
    return int(
        (moment - datetime.datetime.combine(day_of(number), datetime.time())).total_seconds()
    )
