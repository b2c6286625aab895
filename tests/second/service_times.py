"""Service times of a route: all limits are raised until nothing changes, or a time passes its window."""

from __future__ import annotations

from collections.abc import Callable
from typing import TYPE_CHECKING, NamedTuple

from second import days

if TYPE_CHECKING:
    from second.booking import Stop, Trip
    from second.travel import Times
    from second.vehicles import Version


class Visit(NamedTuple):
    """A visit of a vehicle: where, within which minutes, how long it takes, and whose it is. A depot's has no trip."""

    place: int
    opens: int
    closes: int
    service: int
    trip: Trip | None
    kind: int | None


PICKUP, DROP = 0, 1


def visit_of(trip: Trip, kind: int) -> Visit:
    """The pickup or the drop of a trip, with its promised window or its latest minute."""
    wish = trip.wish
    if kind == PICKUP:
        return Visit(wish.origin, *trip.window, trip.service, trip, kind)
    latest = days.LAST_MINUTE if wish.by is None else wish.by
    return Visit(wish.goal, 0, latest, trip.service, trip, kind)


def visits_of(version: Version, stops: list[Stop]) -> list[Visit]:
    """The whole route: the depot, the visits of the stops in their order, and the depot."""
    depot = Visit(version.depot, version.opens, version.closes, 0, None, None)
    return [depot, *(visit_of(trip, kind) for trip, kind in stops), depot]


def drives(visits: list[Visit], times: Times) -> list[int] | None:
    """The minutes of each drive, or None where there is no way."""
    legs = [times.between(here.place, there.place) for here, there in zip(visits, visits[1:])]
    found = [it for it in legs if it is not None]
    return found if len(found) == len(legs) else None


def limits_of(visits: list[Visit], legs: list[int], duration: int) -> list[tuple[int, int, int]]:
    """Each limit: the time at the second place is at least so many minutes after the time at the first."""
    limits = [(at, at + 1, visits[at].service + leg) for at, leg in enumerate(legs)]
    for at, visit in enumerate(visits):
        if visit.kind == PICKUP and visit.trip:
            drop = next(
                it
                for it in range(at, len(visits))
                if visits[it].trip is visit.trip and visits[it].kind == DROP
            )
            limits.append((drop, at, -visit.service - visit.trip.ride))
    return [*limits, (len(visits) - 1, 0, -duration)]


def least(visits: list[Visit], legs: list[int], duration: int) -> list[int] | None:
    """The least minute of each visit that keeps all limits, or None where none do."""
    minutes = [visit.opens for visit in visits]
    limits = limits_of(visits, legs, duration)
    is_changed = True
    while is_changed:
        is_changed = False
        for first, second, gap in limits:
            if minutes[first] + gap > minutes[second]:
                minutes[second], is_changed = minutes[first] + gap, True
                if minutes[second] > visits[second].closes:
                    return None
    return minutes


def loads(visits: list[Visit], load: Callable[[Trip], tuple[int, int]]) -> list[tuple[int, int]]:
    """The seats and the wheelchair places that are taken after each visit."""
    seats, chairs = 0, 0
    found = []
    for visit in visits:
        if visit.trip:
            more, places = load(visit.trip)
            sign = 1 if visit.kind == PICKUP else -1
            seats, chairs = seats + sign * more, chairs + sign * places
        found.append((seats, chairs))
    return found
