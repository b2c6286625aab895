"""What drivers and dispatchers carry: manifests, day sheets, and the export of a day's trips."""

from __future__ import annotations

import datetime
from collections.abc import Iterable
from typing import TYPE_CHECKING

from second import parties, service_times, travel, vehicles
from second.days import clock
from second.replies import Denied

if TYPE_CHECKING:
    from second.desk import Desk
    from second.service_times import Visit
    from second.vehicles import Version


def line_of(version: Version, visit: Visit, minute: int, load: tuple[int, int]) -> str:
    if visit.trip is None:
        return f"{clock(minute)} DEPOT {visit.place}"
    trip, is_pickup = visit.trip, visit.kind == service_times.PICKUP
    window = f" window {clock(trip.window[0])}-{clock(trip.window[1])}" if is_pickup else ""
    return (
        f"{clock(minute)} {'PICK' if is_pickup else 'DROP'} trip {trip.number} rider {trip.rider} place {visit.place} "
        f"load {load[0]}{f' chairs {load[1]}' if version.chairs else ''}{window}"
    )


def lines(desk: Desk, number: int, day: datetime.date) -> list[str]:
    version = vehicles.on_duty(desk, day).get(number)
    stops = [(desk.trips[trip], kind) for trip, kind in desk.stops.get((number, day), [])]
    if not version or not stops:
        return ["NO STOPS"]
    visits = service_times.visits_of(version, stops)
    legs = service_times.drives(visits, travel.Times(desk, day))
    minutes = service_times.least(visits, legs, version.duration) if legs else None
    assert minutes, "what was booked can be driven"
    return [
        line_of(version, *it)
        for it in zip(visits, minutes, service_times.loads(visits, parties.load))
    ]


def manifest_lines(desk: Desk, number: int, day: datetime.date) -> list[str]:
    return [f"VEHICLE {number} DAY {day}", *lines(desk, number, day)]


def in_lines(found: Iterable[str]) -> str:
    return "".join(f"{line}\n" for line in found)


def manifest(desk: Desk, number: int, day: datetime.date) -> str:
    if number not in desk.vehicles:
        raise Denied("desk.unknown")
    return in_lines(manifest_lines(desk, number, day))


def sheet(desk: Desk, day: datetime.date) -> str:
    found = [
        line for number in vehicles.on_duty(desk, day) for line in manifest_lines(desk, number, day)
    ]
    standing = [it for it in desk.trips.values() if it.wish.day == day and it.status != "cancelled"]
    return in_lines([*found, f"TRIPS {len(standing)}"])


def export(desk: Desk, day: datetime.date) -> str:
    found = ["trip,rider,day,wish,from,to,vehicle,window_from,window_to,due,status"]
    for number, trip in sorted(desk.trips.items()):
        wish = trip.wish
        if wish.day == day:
            row = [
                number,
                trip.rider,
                day,
                wish.wish,
                wish.origin,
                wish.goal,
                trip.vehicle,
                *trip.window,
                parties.due(trip),
                trip.status,
            ]
            found.append(",".join(map(str, row)))
    return in_lines(found)
