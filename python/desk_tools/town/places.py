"""A place of the desk, as the grouping of addresses sees it."""

import math
from dataclasses import dataclass

from desk_tools.town.corridor import Point


@dataclass(frozen=True)
class Place:
    """A place: its number, name and point, whose it is, and whether it is new."""

    number: int
    name: str
    point: Point
    core: bool = False
    private: tuple[int, ...] | bool = ()
    is_new: bool = False


def riders_of(place: Place) -> tuple[int, ...]:
    """The riders to whom a place is private."""
    return place.private if isinstance(place.private, tuple) else ()


def feet_between(one: Point | None, other: Point) -> float:
    """How far two points are from each other; nothing where one is not known."""
    return math.hypot(one[0] - other[0], one[1] - other[1]) if one else 0.0
