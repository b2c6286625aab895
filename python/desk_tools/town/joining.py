"""A new address at one of the places that stand: what bin/address does."""

from collections.abc import Sequence
from dataclasses import dataclass, replace

from desk_tools.town.addresses import Address
from desk_tools.town.conditional import line_that_denies
from desk_tools.town.corridor import Line, feet_missing, is_served_alike, lines_at, nearest
from desk_tools.town.places import Place, feet_between, riders_of


class NoPlace(Exception):
    """Why no place that stands is right for an address: one sentence."""


@dataclass(frozen=True)
class Joined:
    """An address at its place, and how far it is."""

    address: Address
    place: Place
    feet: float


def joined(
    address: Address, places: Sequence[Place], lines: Sequence[Line], conditions: Sequence[str] = ()
) -> Joined:
    """The address at the nearest place that lies in the corridors of at least its lines.

    A rider's home goes to a place that is the rider's own, where that is right; and only to one where
    a grant with these conditions holds as at the home.
    """
    if address.point is None:
        raise NoPlace("it has no position: latitude and longitude, or x and y")
    mask = lines_at(address.point, address.core, lines)
    if not mask:
        feet, name = nearest(address.point, lines) if lines else (0, "")
        missing = f": {feet:,} feet are missing to that of {name}" if lines else ""
        raise NoPlace(f"{address.street} lies outside every corridor{missing}")
    right = [
        it
        for it in places
        if is_served_alike(mask, lines_at(it.point, it.core, lines))
        and it.core == address.core
        and is_open_to(it, address)
    ]
    if not right:
        names = [it.name for it in lines if feet_missing(address.point, it) <= 0]
        raise NoPlace(
            f"no place lies in the corridors of all its lines ({', '.join(names)}): it takes a new place"
        )
    right = [it for it in right if not line_that_denies(address.point, it.point, conditions, lines)]
    if not right:
        raise NoPlace(
            f"at no place that is right for {address.street} does the grant ({'; '.join(conditions)}) "
            "hold as at the home: it takes a new place"
        )
    own = [it for it in right if set(riders_of(it)) & set(address.riders)]
    place = min(own or right, key=lambda it: feet_between(address.point, it.point))
    return Joined(
        replace(address, place=place.number), place, feet_between(address.point, place.point)
    )


def is_open_to(place: Place, address: Address) -> bool:
    """Whether an address may be at a place: a private one is for its own riders."""
    if place.private is True:
        return False
    riders = riders_of(place)
    return not riders or bool(address.riders) and set(address.riders) <= set(riders)


def with_row(addresses: Sequence[Address], new: Address) -> list[Address]:
    """The addresses with the new one, which replaces one of its number."""
    others = [it for it in addresses if it.number != new.number]
    return sorted([*others, new], key=lambda it: it.number)
