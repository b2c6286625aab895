"""The rows that a database has of a desk, by the names of the tables."""

from __future__ import annotations

import struct
from typing import TYPE_CHECKING, Any

from second import requests
from second.days import bits, number_of

if TYPE_CHECKING:
    from second.case_files import Entry
    from second.desk import Desk

# Rows of a table, as SQLite gives them.
Rows = list[tuple[Any, ...]]

RIDERS = ["resident", "visitor"]
STATUSES = ["booked", "cancelled", "ridden", "missed-rider", "missed-operator"]
NONE = -1

# What is read of each table. How a request and a reply are spelled in `kept` is no part of docs/FORMATS.md.
QUERIES = {
    table: f"SELECT {'caller, number' if table == 'kept' else '*'} FROM {table}"
    for table in """
        desk callers kept places fixed vehicles riders entries trips stops travel rider_chairs
        vehicle_chairs trip_chairs
    """.split()
}


def desk(it: Desk) -> Rows:
    return [(1, 2, *it.policy.values(), it.last_trip)]


def callers(it: Desk) -> Rows:
    return [
        (number, requests.ROLES.index(one.role), one.subject, one.digest)
        for number, one in it.callers.items()
    ]


def kept(it: Desk) -> Rows:
    return [(caller, write.number) for caller, write in it.kept.items()]


def places(it: Desk) -> Rows:
    return [(number, place.x, place.y, place.core) for number, place in it.places.items()]


def fixed(it: Desk) -> Rows:
    return [
        (
            number,
            one.width,
            b"".join(struct.pack(">2i", *point) for point in one.points),
            one.accessible,
            bits(one.days),
            one.first,
            one.last,
        )
        for number, one in it.routes.items()
    ]


def vehicles(it: Desk) -> Rows:
    return [
        (number, number_of(day), bits(one.days), *one[1:-1])
        for number, versions in it.vehicles.items()
        for day, one in versions.items()
    ]


def riders(it: Desk) -> Rows:
    return [
        (number, RIDERS.index(rider.kind), rider.attendant) for number, rider in it.riders.items()
    ]


def entry_row(rider: int, place: int, entry: Entry) -> tuple[Any, ...]:
    values = entry.values
    first = next((values[name] for name in ("until", "against", "starts") if name in values), NONE)
    words = values.get("reasons", values.get("basis", ""))
    a, b = (
        it if isinstance(it, int) else number_of(it) for it in (first, values.get("ends", NONE))
    )
    kind = list(requests.ENTRIES).index(entry.kind)
    return (
        rider,
        place,
        kind,
        number_of(entry.day),
        entry.author,
        a,
        b,
        ";".join(values.get("conditions", [])),
        words,
    )


def entries(it: Desk) -> Rows:
    return [
        entry_row(rider, place, entry)
        for rider, file in it.files.items()
        for place, entry in enumerate(file)
    ]


def trips(it: Desk) -> Rows:
    return [
        (
            trip.number,
            trip.rider,
            number_of(wish.day),
            wish.wish,
            wish.origin,
            wish.goal,
            NONE if wish.by is None else wish.by,
            wish.attendant,
            wish.companions,
            trip.fare,
            trip.service,
            trip.ride,
            trip.vehicle,
            *trip.window,
            STATUSES.index(trip.status),
        )
        for trip in it.trips.values()
        for wish in [trip.wish]
    ]


def stops(it: Desk) -> Rows:
    return [
        (vehicle, number_of(day), place, trip, kind)
        for (vehicle, day), route in it.stops.items()
        for place, (trip, kind) in enumerate(route)
    ]


def travel(it: Desk) -> Rows:
    return [
        (number_of(day), *row)
        for day, table in it.tables.items()
        for row in [(0, 0, 0), *((*pair, least) for pair, least in table.items())]
    ]


def rider_chairs(it: Desk) -> Rows:
    return [(number,) for number, rider in it.riders.items() if rider.wheelchair]


def vehicle_chairs(it: Desk) -> Rows:
    return [
        (number, number_of(day), one.chairs)
        for number, versions in it.vehicles.items()
        for day, one in versions.items()
        if one.chairs
    ]


def trip_chairs(it: Desk) -> Rows:
    return [(trip.number,) for trip in it.trips.values() if trip.wheelchair]


MAKERS = [
    desk,
    callers,
    kept,
    places,
    fixed,
    vehicles,
    riders,
    entries,
    trips,
    stops,
    travel,
    rider_chairs,
    vehicle_chairs,
    trip_chairs,
]


def rows(it: Desk) -> dict[str, Rows]:
    return {make.__name__: sorted(make(it)) for make in MAKERS}
