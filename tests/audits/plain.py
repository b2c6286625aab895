"""What the plain second desk answers where `desk explain` and `desk audit` are asked: the denial, or the facts of a refusal."""

from __future__ import annotations

import datetime
from collections.abc import Sequence

from audits import logs
from second import booking, callers, fields, parties, places, riders, travel, vehicles
from second.desk import Desk
from second.replies import Denied
from second.service_times import DROP


def wish_in(words: Sequence[str]) -> tuple[int, booking.Wish]:
    """The rider and the wish of a question, whose words stand behind the key."""
    rider, day, minute, origin, goal, latest, attendant, companions = words
    by = None if latest == "none" else int(latest)
    return int(rider), booking.Wish(
        datetime.date.fromisoformat(day),
        int(minute),
        int(origin),
        int(goal),
        by,
        attendant == "1",
        int(companions),
    )


def allow(desk: Desk, today: datetime.date, key: str, number: int, wish: booking.Wish) -> None:
    """Denies what a dispatcher may not ask, and what would not be booked whatever the vehicles do."""
    if desk.callers[callers.caller_with(desk, key)].role != "dispatcher":
        raise Denied("desk.caller")
    riders.need(desk, number)
    places.need(desk, wish.origin, wish.goal)
    if desk.last_trip >= fields.LAST_NUMBER:
        raise Denied("desk.full")
    booking.allow_rider(desk, number, wish, today, booking.days_of_use(desk, number))
    booking.allow_service(desk, wish, today)


def stop_of(desk: Desk, number: int, kind: int) -> logs.Stop:
    """A stop of a route, as logs know it."""
    trip = desk.trips[number]
    seats, chairs = parties.load(trip)
    both = logs.stops_of(
        number,
        trip.wish.origin,
        trip.wish.goal,
        trip.window,
        trip.wish.by,
        service=trip.service,
        ride=trip.ride,
        seats=seats,
        chairs=chairs,
    )
    return both[kind == DROP]


def vehicle_of(
    desk: Desk, number: int, version: vehicles.Version, day: datetime.date
) -> logs.Vehicle:
    stops = [stop_of(desk, *stop) for stop in desk.stops.get((number, day), [])]
    return logs.Vehicle(
        number,
        version.depot,
        version.opens,
        version.closes,
        version.duration,
        version.capacity,
        version.chairs,
        stops,
    )


def asked_of(desk: Desk, number: int, wish: booking.Wish, minutes: logs.Minutes) -> logs.Both:
    """The pickup and the drop of the trip that is asked for."""
    chairs = int(desk.riders[number].wheelchair)
    ride = (minutes(wish.origin, wish.goal) or 0) + desk.policy["extra_ride"]
    return logs.stops_of(
        desk.last_trip + 1,
        wish.origin,
        wish.goal,
        logs.wished_window(wish.wish),
        wish.by,
        service=desk.policy["service"],
        ride=ride,
        seats=parties.persons(wish) - chairs,
        chairs=chairs,
    )


def facts(
    desk: Desk, moment: str, words: Sequence[str]
) -> tuple[list[logs.Vehicle], logs.Both, logs.Minutes]:
    """The vehicles on duty, the trip's two stops and the driving times, for a question that no rule before denies."""
    key, *question = words
    number, wish = wish_in(question)
    allow(desk, datetime.date.fromisoformat(moment), key, number, wish)
    minutes = travel.Times(desk, wish.day).between
    on_duty = [vehicle_of(desk, *it, wish.day) for it in vehicles.on_duty(desk, wish.day).items()]
    return on_duty, asked_of(desk, number, wish, minutes), minutes


def audited(desk: Desk, moment: str, words: Sequence[str], text: bytes) -> str:
    """What `desk audit` says of a text."""
    try:
        logs.read(text)
        return logs.answer(text, *facts(desk, moment, words))
    except logs.OutOfForm as fault:
        return f"fault 50 row {fault.row}"
    except Denied as denial:
        return denial.name
