"""The place of a trip: every vehicle on duty, and every pair of places in its route, is tried."""

from __future__ import annotations

from collections.abc import Iterator, Mapping
from typing import TYPE_CHECKING, NamedTuple

from second import parties, service_times
from second.service_times import DROP, PICKUP

if TYPE_CHECKING:
    from second.booking import Stop, Trip
    from second.travel import Times
    from second.vehicles import Version

MOST_STOPS = 100


class Found(NamedTuple):
    """A place of a trip, in the order in which places are better, and the route and its minutes with the trip in it."""

    added: int
    vehicle: int
    pickup: int
    drop: int
    route: list[Stop]
    minutes: list[int]


def pairs_of_places(stops: list[Stop], trip: Trip) -> Iterator[tuple[int, int, list[Stop]]]:
    """Each route that has the trip's stops among the others, with how many old stops come before them."""
    for pickup in range(len(stops) + 1):
        for drop in range(pickup, len(stops) + 1):
            yield pickup, drop, [
                *stops[:pickup],
                (trip, PICKUP),
                *stops[pickup:drop],
                (trip, DROP),
                *stops[drop:],
            ]


def tried(version: Version, stops: list[Stop], times: Times) -> tuple[list[int], int] | None:
    """The minutes and the driving of a route, or None where it breaks a limit."""
    visits = service_times.visits_of(version, stops)
    if any(
        seats > version.capacity or chairs > version.chairs
        for seats, chairs in service_times.loads(visits, parties.load)
    ):
        return None
    legs = service_times.drives(visits, times)
    minutes = None if legs is None else service_times.least(visits, legs, version.duration)
    return None if legs is None or minutes is None else (minutes, sum(legs))


def places_in(
    number: int, version: Version, stops: list[Stop], trip: Trip, times: Times
) -> Iterator[Found]:
    """What is possible in one vehicle's route."""
    if len(stops) + 2 > MOST_STOPS:
        return
    driven = sum(service_times.drives(service_times.visits_of(version, stops), times) or [])
    for pickup, drop, route in pairs_of_places(stops, trip):
        fits = tried(version, route, times)
        if fits:
            yield Found(fits[1] - driven, number, pickup, drop, route, fits[0])


def best(
    vehicles: Mapping[int, Version], routes: Mapping[int, list[Stop]], trip: Trip, times: Times
) -> Found | None:
    """The best of all that is possible: the least added driving, the lower number, the earlier pickup, the earlier drop."""
    if times.between(trip.wish.origin, trip.wish.goal) is None:
        return None
    possible = [
        found
        for number, version in vehicles.items()
        for found in places_in(number, version, routes.get(number, []), trip, times)
    ]
    if not possible:
        return None
    return min(possible, key=lambda it: (it.added, it.vehicle, it.pickup, it.drop))
