"""Trips: booked, changed, cancelled, ended, and told to riders."""

from __future__ import annotations

import datetime
from typing import TYPE_CHECKING, Any

from second import booking, fields, parties, places, riders
from second.booking import Trip
from second.replies import Denied

if TYPE_CHECKING:
    from second.desk import Desk


def need(desk: Desk, number: int) -> Trip:
    if number not in desk.trips:
        raise Denied("desk.unknown")
    return desk.trips[number]


def confirmation(trip: Trip) -> dict[str, Any]:
    return {
        "due": parties.due(trip),
        "fare": trip.fare,
        "trip": trip.number,
        "vehicle": trip.vehicle,
        "window_from": trip.window[0],
        "window_to": trip.window[1],
    }


def book(desk: Desk, values: dict[str, Any], today: datetime.date) -> dict[str, Any]:
    riders.need(desk, values["rider"])
    wish = booking.wish_in(values)
    places.need(desk, wish.origin, wish.goal)
    if desk.last_trip >= fields.LAST_NUMBER:
        raise Denied("desk.full")
    trip = booking.book(desk, desk.last_trip + 1, values["rider"], wish, today)
    desk.last_trip = trip.number
    return confirmation(trip)


def change(desk: Desk, values: dict[str, Any], today: datetime.date) -> dict[str, Any]:
    trip = need(desk, values["trip"])
    wish = booking.wish_in(values)
    places.need(desk, wish.origin, wish.goal)
    if trip.status != "booked" or today >= trip.wish.day:
        raise Denied("desk.over")
    return confirmation(booking.book(desk, trip.number, trip.rider, wish, today))


def cancel(desk: Desk, values: dict[str, Any], now: tuple[datetime.date, int]) -> None:
    """Gives up a booked trip, until its promised window begins."""
    trip = need(desk, values["trip"])
    if trip.status != "booked" or now >= (trip.wish.day, trip.window[0]):
        raise Denied("desk.over")
    booking.remove_stops(desk, trip.number)
    desk.trips[trip.number] = trip._replace(status="cancelled")


def end(desk: Desk, values: dict[str, Any], today: datetime.date) -> None:
    trip = need(desk, values["trip"])
    if trip.status != "booked":
        raise Denied("desk.over")
    if today < trip.wish.day:
        raise Denied("desk.early")
    desk.trips[trip.number] = trip._replace(status=values["outcome"])


def told(trip: Trip) -> dict[str, Any]:
    wish = trip.wish
    asked = {
        "attendant": wish.attendant,
        "by": wish.by,
        "companions": wish.companions,
        "day": str(wish.day),
        "wish": wish.wish,
    }
    return {
        **confirmation(trip),
        **asked,
        "from": wish.origin,
        "to": wish.goal,
        "status": trip.status,
    }


def of_rider(desk: Desk, number: int) -> dict[str, Any]:
    riders.need(desk, number)
    return {"trips": [told(trip) for _, trip in sorted(desk.trips.items()) if trip.rider == number]}
