"""Conditions of grants: whether a trip qualifies."""

from __future__ import annotations

from collections.abc import Sequence
from typing import TYPE_CHECKING

from second import corridors
from second.places import Place

if TYPE_CHECKING:
    from second.booking import Wish
    from second.desk import Desk


def holds(desk: Desk, condition: str, wish: Wish, ends: list[Place]) -> bool:
    kind, _, rest = condition.partition(":")
    routes = corridors.running(desk, wish.day, wish.wish)
    if kind == "months":
        return wish.day.month in [int(it) for it in rest.split(",")]
    if kind == "farther":
        return any(
            all(not corridors.is_near(end, route, int(rest)) for route in routes) for end in ends
        )
    if kind == "nolift":
        return not corridors.is_one_route(ends, [route for route in routes if route.accessible])
    return kind == "always"


def qualifies(desk: Desk, conditions: Sequence[str], wish: Wish) -> bool:
    ends = [desk.places[wish.origin], desk.places[wish.goal]]
    return any(holds(desk, condition, wish, ends) for condition in conditions)
