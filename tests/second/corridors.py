"""Fixed routes, their corridors and hours: who is served, when, and without a transfer."""

from __future__ import annotations

import datetime
from collections.abc import Iterable
from typing import TYPE_CHECKING, Any, NamedTuple

from second.replies import Denied

if TYPE_CHECKING:
    from second.desk import Desk
    from second.places import Place

MOST_ROUTES = 50


class FixedRoute(NamedTuple):
    """A fixed route, and when it runs."""

    width: int
    points: list[tuple[int, int]]
    accessible: bool
    days: list[int]
    first: int
    last: int


def put(desk: Desk, values: dict[str, Any]) -> None:
    if values["id"] not in desk.routes and len(desk.routes) >= MOST_ROUTES:
        raise Denied("desk.full")
    desk.routes[values["id"]] = FixedRoute(*(values[name] for name in FixedRoute._fields))


def is_near_segment(place: Place, start: tuple[int, int], end: tuple[int, int], feet: int) -> bool:
    """Whether the segment has a point at most so many feet from the place, with no rounding."""
    along, up = end[0] - start[0], end[1] - start[1]
    east, north = place.x - start[0], place.y - start[1]
    length_squared = along * along + up * up
    shadow = east * along + north * up
    if shadow <= 0:
        return east * east + north * north <= feet * feet
    if shadow >= length_squared:
        return (place.x - end[0]) ** 2 + (place.y - end[1]) ** 2 <= feet * feet
    return (east * up - north * along) ** 2 <= feet * feet * length_squared


def is_near(place: Place, route: FixedRoute, feet: int) -> bool:
    return any(
        is_near_segment(place, start, end, feet)
        for start, end in zip(route.points, route.points[1:])
    )


def is_in_corridor(place: Place, route: FixedRoute) -> bool:
    return place.core or is_near(place, route, route.width)


def running(desk: Desk, day: datetime.date, minute: int) -> list[FixedRoute]:
    return [
        it
        for it in desk.routes.values()
        if day.weekday() in it.days and it.first <= minute <= it.last
    ]


def is_served(place: Place, routes: Iterable[FixedRoute]) -> bool:
    return any(is_in_corridor(place, route) for route in routes)


def is_one_route(places: list[Place], routes: Iterable[FixedRoute]) -> bool:
    """Whether one of the routes has all the places in its corridor."""
    return any(all(is_in_corridor(place, route) for place in places) for route in routes)
