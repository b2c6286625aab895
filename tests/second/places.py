"""Places: made once, and never replaced."""

from __future__ import annotations

from typing import TYPE_CHECKING, Any, NamedTuple

from second.replies import Denied

if TYPE_CHECKING:
    from second.desk import Desk

MOST_PLACES = 100


class Place(NamedTuple):
    """A place, in feet, and whether it lies in a core area."""

    x: int
    y: int
    core: bool


def put(desk: Desk, values: dict[str, Any]) -> None:
    if values["id"] in desk.places:
        raise Denied("desk.exists")
    if len(desk.places) >= MOST_PLACES:
        raise Denied("desk.full")
    desk.places[values["id"]] = Place(values["x"], values["y"], values["core"])


def need(desk: Desk, *numbers: int) -> None:
    if any(number not in desk.places for number in numbers):
        raise Denied("desk.unknown")
