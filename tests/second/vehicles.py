"""Vehicles and their versions: which is in force, and which are on duty."""

from __future__ import annotations

import datetime
from typing import TYPE_CHECKING, Any, NamedTuple

from second import places
from second.replies import Denied

if TYPE_CHECKING:
    from second.desk import Desk

MOST_VEHICLES, MOST_VERSIONS = 50, 20


class Version(NamedTuple):
    """What a vehicle is from a day on."""

    days: list[int]
    depot: int
    capacity: int
    opens: int
    closes: int
    duration: int
    chairs: int


def put(desk: Desk, values: dict[str, Any]) -> None:
    number, first = values["id"], values["from_day"]
    places.need(desk, values["depot"])
    if any(
        it.vehicle == number and it.wish.day >= first and it.status != "cancelled"
        for it in desk.trips.values()
    ):
        raise Denied("desk.booked")
    earlier = {
        day: version for day, version in desk.vehicles.get(number, {}).items() if day < first
    }
    if (
        len(earlier) >= MOST_VERSIONS
        or number not in desk.vehicles
        and len(desk.vehicles) >= MOST_VEHICLES
    ):
        raise Denied("desk.full")
    desk.vehicles[number] = {**earlier, first: Version(*(values[name] for name in Version._fields))}


def in_force(desk: Desk, number: int, day: datetime.date) -> Version | None:
    """The version of the vehicle with the greatest first day that is not after the day, or None."""
    versions = desk.vehicles.get(number, {})
    first = max((it for it in versions if it <= day), default=None)
    return versions[first] if first else None


def on_duty(desk: Desk, day: datetime.date) -> dict[int, Version]:
    """The numbers of the vehicles on duty, rising, with their versions."""
    found = {number: in_force(desk, number, day) for number in sorted(desk.vehicles)}
    return {number: it for number, it in found.items() if it and day.weekday() in it.days}
