"""The trips of a period for a spreadsheet: clock times, dollars, and names where the agency gives them."""

from __future__ import annotations

import datetime
import re
from collections.abc import Iterator
from typing import Any, TYPE_CHECKING

from desk_tools.reports import copies
from desk_tools.days import clock, number_of
from desk_tools.reports.copies import day_of
from desk_tools.reports.dues import dues_of
from desk_tools.reports.log_of_trips import LogOfTrips, trips_of
from desk_tools.reports.plans import DROP, PICKUP, Plans
from desk_tools.town import site_addresses

if TYPE_CHECKING:
    from desk_tools.reports.months import Period
    from desk_tools.setup.tally_log import Log

# A spreadsheet reads a file as UTF-8 where this sign leads it.
MARK = "\ufeff"
# What a spreadsheet would take for a formula.
FORMULA = re.compile(r"[=+\-@\t\r]")
COLUMNS = (
    "Trip",
    "Rider",
    "Name",
    "Telephone",
    "Day",
    "Requested",
    "Requested time",
    "Sent to the desk",
    "Promised from",
    "Promised to",
    "From",
    "To",
    "By",
    "Vehicle",
    "Attendant",
    "Companions",
    "Wheelchair",
    "Fare ($)",
    "Due ($)",
    "State",
    "Pickup planned",
    "Drop planned",
    "Arrived",
    "Aboard",
    "Dropped",
)


def rows_of(
    copy: copies.Copy, log: Log | None, period: Period, names: Names
) -> Iterator[list[datetime.date | int | str]]:
    """A row for each trip, by day and number. Times that no log says are empty."""
    of_log, days = LogOfTrips(log), [*map(number_of, period)]
    dues = dues_of(copy, period)
    told = {
        it.number: [time_of(of_log.tapped(it, event)) for event in ("arrived", "aboard", "dropped")]
        for it in trips_of(copy, *days)
    }
    planned = {
        (it.trip, it.kind): clock(it.minute)
        for _, _, stops in Plans(copy).between(*days)
        for it in stops
    }
    chairs = (
        {trip for trip, in copy.rows("SELECT trip FROM trip_chairs")} if copy.version > 1 else ()
    )
    for (
        trip,
        rider,
        day,
        wish,
        origin,
        goal,
        latest,
        attendant,
        companions,
        fare,
        vehicle,
        begins,
        ends,
        status,
    ) in copy.rows(
        "SELECT id, rider, day, wish, origin, goal, latest, attendant, companions, fare, vehicle, "
        "window_from, window_to, status FROM trips WHERE day BETWEEN ? AND ? ORDER BY day, id",
        *days,
    ):
        start, end = of_log.addresses(trip, day)
        yield [
            trip,
            rider,
            *map(text, names.rider(rider)),
            day_of(day),
            *requested_words(of_log.requested(trip, day)),
            clock(wish),
            clock(begins),
            clock(ends),
            text(names.where(rider, origin, start)),
            text(names.where(rider, goal, end)),
            "" if latest == copies.NO_NUMBER else clock(latest),
            text(names.vehicle(vehicle)),
            yes(attendant),
            companions,
            yes(trip in chairs),
            dollars(fare),
            dollars(dues[trip]),
            copy.status_of(trip, status),
            planned.get((trip, PICKUP), ""),
            planned.get((trip, DROP), ""),
            *told[trip],
        ]


# How people say what they asked for.
MODES = {"around": "around", "not-before": "not before", "by": "be there by"}


def requested_words(asked: Any) -> tuple[str, str]:
    """How a trip was asked for, and the minute that was named; empty where no log says."""
    return ("", "") if asked is None else (MODES[asked.mode], clock(asked.minute))


class Names:
    """The names of riders, places and vehicles, where the agency gives them. Without them all goes by numbers."""

    def __init__(
        self,
        agency: dict[str, Any],
        riders: list[dict[str, str]],
        addresses: site_addresses.Known | None = None,
    ) -> None:
        self.addresses = addresses or site_addresses.Known([])
        self.private = {it["id"]: it.get("private", False) for it in agency.get("places", [])}
        self.riders = {int(it["rider"]): it for it in riders}
        self.places, self.vehicles = (
            {it["id"]: it["name"] for it in agency.get(kind, []) if it.get("name")}
            for kind in ("places", "vehicles")
        )

    def rider(self, number: int) -> tuple[str, str]:
        """A rider's name and telephone number."""
        rider = self.riders.get(number, {})
        return rider.get("name", ""), rider.get("telephone", "")

    def place(self, number: int) -> str:
        return self.places.get(number, str(number))

    def where(self, rider: int, place: int, named: int | None) -> str:
        """Where an end of a trip is, as its rider reads it; a place without a name of its own goes by its number."""
        end = site_addresses.End(rider, place)
        return self.addresses.read_by_rider(end, self.places.get(place, ""), named) or str(place)

    def for_sponsor(self, rider: int, place: int, named: int | None) -> str:
        """The same for who is neither staff nor the rider: what is private to others goes by the place's number."""
        meant, whose = self.addresses.meant(
            site_addresses.End(rider, place), named
        ), self.private.get(place, False)
        homes = meant.get("riders") if meant else None
        is_own = whose is False or (
            whose is not True and rider in (whose if isinstance(whose, list) else [whose])
        )
        return (
            self.where(rider, place, named)
            if is_own and (not homes or rider in homes)
            else str(place)
        )

    def vehicle(self, number: int) -> str:
        return self.vehicles.get(number, str(number))


def text(value: str) -> str:
    return f"'{value}" if FORMULA.match(value) else value


def yes(value: int) -> str:
    return "yes" if value else "no"


def dollars(cents: int) -> str:
    return f"{cents // 100}.{cents % 100:02}"


def time_of(seconds: int | None) -> str:
    """A time of a trip's day; one after midnight has more than 24 hours."""
    return (
        "" if seconds is None else f"{seconds // 3600:02}:{seconds // 60 % 60:02}:{seconds % 60:02}"
    )
