"""The rules of a booking, in their order, and what is settled where all hold."""

from __future__ import annotations

import datetime
from typing import TYPE_CHECKING, Any, NamedTuple

from second import (
    case_files,
    conditions,
    corridors,
    days,
    insertion,
    parties,
    travel,
    vehicles,
    visitors,
)
from second.replies import Denied

if TYPE_CHECKING:
    from second.desk import Desk
    from second.insertion import Found

MINUTES_FROM_WISH, MINUTES_PROMISED, DAYS_AHEAD = 60, 15, 14


class Wish(NamedTuple):
    """What a rider asks for."""

    day: datetime.date
    wish: int
    origin: int
    goal: int
    by: int | None
    attendant: bool
    companions: int


class Trip(NamedTuple):
    """A trip, with all that is settled."""

    number: int
    rider: int
    wish: Wish
    fare: int
    service: int
    ride: int
    vehicle: int
    window: tuple[int, int]
    status: str
    wheelchair: bool


# A stop of a route: whose it is, and whether it is the pickup or the drop.
Stop = tuple[Trip, int]


def wish_in(values: dict[str, Any]) -> Wish:
    names = ["day", "wish", "from", "to", "by", "attendant", "companions"]
    return Wish(*(values[name] for name in names))


def days_of_use(desk: Desk, rider: int) -> list[datetime.date]:
    """The days of the trips of a rider that are booked or were ridden."""
    return [
        it.wish.day
        for it in desk.trips.values()
        if it.rider == rider and it.status in ("booked", "ridden")
    ]


def allow_rider(
    desk: Desk, number: int, wish: Wish, today: datetime.date, used: list[datetime.date]
) -> None:
    """Denies what the rider's rights do not cover."""
    rider, file = desk.riders[number], desk.files.get(number, [])
    has_standing = case_files.standing(file, wish.day, today)
    if rider.kind == "resident" and has_standing == "none":
        raise Denied("37.125")
    if rider.kind == "visitor" and not visitors.may(used, wish.day):
        raise Denied("37.127(e)")
    if case_files.is_suspended(file, wish.day):
        raise Denied("37.125(h)")
    grant = case_files.last_grant(file)
    if (
        has_standing == "granted"
        and grant
        and not conditions.qualifies(desk, grant["conditions"], wish)
    ):
        raise Denied("37.123(b)")
    parties.allow(rider, wish)


def allow_service(desk: Desk, wish: Wish, today: datetime.date) -> None:
    """Denies days that are not booked today, and ends that are not served."""
    if not 1 <= (wish.day - today).days <= DAYS_AHEAD:
        raise Denied("37.131(b)")
    ends = [desk.places[wish.origin], desk.places[wish.goal]]
    for name, routes in (
        ("37.131(a)", desk.routes.values()),
        ("37.131(e)", corridors.running(desk, wish.day, wish.wish)),
    ):
        if not all(corridors.is_served(end, routes) for end in ends):
            raise Denied(name)


def routes_without(desk: Desk, day: datetime.date, left_out: int) -> dict[int, list[Stop]]:
    """The stops of the day by vehicles, without those of a trip."""
    return {
        number: [(desk.trips[trip], kind) for trip, kind in stops if trip != left_out]
        for (number, its_day), stops in desk.stops.items()
        if its_day == day
    }


def planned(desk: Desk, number: int, rider: int, wish: Wish) -> tuple[Trip, Found]:
    """The trip in its best place, with all that is settled, and that place."""
    times = travel.Times(desk, wish.day)
    direct = times.between(wish.origin, wish.goal)
    wide = max(0, wish.wish - MINUTES_FROM_WISH), min(
        days.LAST_MINUTE, wish.wish + MINUTES_FROM_WISH
    )
    ride = (direct or 0) + desk.policy["extra_ride"]
    trip = Trip(
        number,
        rider,
        wish,
        parties.fare(desk, wish),
        desk.policy["service"],
        ride,
        0,
        wide,
        "booked",
        desk.riders[rider].wheelchair,
    )
    found = insertion.best(
        vehicles.on_duty(desk, wish.day), routes_without(desk, wish.day, number), trip, times
    )
    if found is None:
        raise Denied("no vehicle")
    pickup = found.minutes[found.pickup + 1]
    window = max(wide[0], pickup - MINUTES_PROMISED), min(wide[1], pickup + MINUTES_PROMISED)
    return trip._replace(vehicle=found.vehicle, window=window), found


def remove_stops(desk: Desk, trip: int) -> None:
    for route, stops in list(desk.stops.items()):
        left = [stop for stop in stops if stop[0] != trip]
        desk.stops[route] = left
        if not left:
            del desk.stops[route]


def book(desk: Desk, number: int, rider: int, wish: Wish, today: datetime.date) -> Trip:
    """Books the trip under its number, also in place of itself; a denial changes nothing."""
    old = desk.trips.get(number)
    used = days_of_use(desk, rider)
    if old and old.status == "booked":
        used.remove(old.wish.day)
    allow_rider(desk, rider, wish, today, used)
    allow_service(desk, wish, today)
    trip, found = planned(desk, number, rider, wish)
    remove_stops(desk, number)
    desk.trips[number] = trip
    desk.stops[trip.vehicle, wish.day] = [(it.number, kind) for it, kind in found.route]
    return trip
