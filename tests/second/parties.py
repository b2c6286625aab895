"""Who travels along, and what is paid."""

from __future__ import annotations

from typing import TYPE_CHECKING

from second import corridors
from second.replies import Denied

if TYPE_CHECKING:
    from second.booking import Trip, Wish
    from second.desk import Desk
    from second.riders import Rider


def allow(rider: Rider, wish: Wish) -> None:
    if wish.companions > 1 or wish.attendant and not rider.attendant:
        raise Denied("37.123(f)")


def persons(wish: Wish) -> int:
    return 1 + wish.companions + wish.attendant


def load(trip: Trip) -> tuple[int, int]:
    """The seats and the wheelchair places that the party takes."""
    return persons(trip.wish) - trip.wheelchair, int(trip.wheelchair)


def fare(desk: Desk, wish: Wish) -> int:
    """The fare of one person in cents: the agency's, but at most twice that of fixed routes."""
    ends = [desk.places[wish.origin], desk.places[wish.goal]]
    is_direct = corridors.is_one_route(ends, corridors.running(desk, wish.day, wish.wish))
    fixed_fare = desk.policy["base"] + (0 if is_direct else desk.policy["transfer"])
    return min(desk.policy["fare"], 2 * fixed_fare)


def due(trip: Trip) -> int:
    return trip.fare * (1 + trip.wish.companions)
