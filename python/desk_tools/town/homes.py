"""Homes of riders whose grant holds of some trips alone (37.123(b)): at which places it holds as at the home.

Such a home is only ever at a right one: a place in the corridors of at least its lines, open to who lives there, where
no more lines count against a condition of the grant than at the home.
"""

from collections.abc import Sequence
from dataclasses import dataclass, replace

import numpy as np
from numpy.typing import NDArray

from desk_tools.town import conditional, grouping
from desk_tools.town.addresses import Address
from desk_tools.town.corridor import Line, Point
from desk_tools.town.joining import is_open_to
from desk_tools.town.many_points import counted_of
from desk_tools.town.medoids import Masks, Points
from desk_tools.town.places import Place

Flags = NDArray[np.bool_]
NO_POINT = (0, 0)
# So many points at most are tried for a place of several homes, and of so many homes the trips are counted.
MOST_TRIED, MOST_HOMES = 1_000, 1_000


@dataclass(frozen=True)
class Own:
    """A place that is made for such homes alone."""

    point: Point
    homes: tuple[Address, ...]

    @property
    def riders(self) -> tuple[int, ...]:
        """Those who live there."""
        return tuple(sorted({rider for it in self.homes for rider in it.riders}))


def points_of(homes: Sequence[Address], lines: Sequence[Line]) -> Points:
    """The points of homes, with their lines."""
    at = np.array([it.point or NO_POINT for it in homes], dtype=np.int64).reshape(-1, 2)
    return grouping.points_of(at, np.array([it.core for it in homes], dtype=bool), lines)


def conditional_homes(addresses: Sequence[Address], grants: conditional.Grants) -> list[int]:
    """The indexes of the homes for which it matters at which place they are."""
    return [
        at
        for at, it in enumerate(addresses)
        if it.point is not None and conditional.conditions_of(it.riders, grants)
    ]


def right_places(
    homes: Sequence[Address],
    places: Sequence[Place],
    lines: Sequence[Line],
    grants: conditional.Grants,
) -> Flags:
    """For each home (row) and each place (column) whether it is a right one."""
    here = points_of(homes, lines)
    at = np.array([it.point for it in places], dtype=np.int64).reshape(-1, 2)
    there = grouping.points_of(at, np.array([it.core for it in places], dtype=bool), lines)
    found: Flags = (here.masks[:, None] & ~there.masks[None, :]) == 0
    for column, place in enumerate(places):
        if place.private:
            found[:, column] &= [is_open_to(place, it) for it in homes]
    return found & ~held_less(homes, here, there, lines, grants)


def held_less(
    homes: Sequence[Address],
    here: Points,
    there: Points,
    lines: Sequence[Line],
    grants: conditional.Grants,
) -> Flags:
    """For each home and each point whether some condition of its grant holds there less than at the home."""
    conditions = [set(conditional.conditions_of(it.riders, grants)) for it in homes]
    found = np.zeros((len(here), len(there)), dtype=bool)
    for kind in conditional.kinds_of(grants):
        rows = np.flatnonzero([kind in it for it in conditions])
        if len(rows):
            counted = counted_of(here.at[rows], lines, [kind])[:, 0]
            at_points = counted_of(there.at, lines, [kind])[:, 0]
            found[rows] |= (at_points[None, :] & ~counted[:, None]) != 0
    return found


@dataclass(frozen=True)
class Trips:
    """Trips between such homes and addresses: those for which the grant holds at both, and how many of them not at their places."""

    owed: int
    denied: int
    riders: tuple[int, ...]


def trips_of(
    addresses: Sequence[Address],
    here: Masks,
    there: Masks,
    kinds: Sequence[str],
    grants: conditional.Grants,
) -> Trips:
    """The trips between the homes of the first riders and all addresses.

    `here` has for each address, and each of the conditions `kinds`, the lines that count against it, and `there` the same
    for its place. Hours are not looked at: each line counts as if it always ran.
    """
    owed = denied = 0
    whose: set[int] = set()
    for home in conditional_homes(addresses, grants)[:MOST_HOMES]:
        conditions = conditional.conditions_of(addresses[home].riders, grants)
        at_address = np.zeros(len(addresses), dtype=bool)
        at_place = at_address.copy()
        for column, kind in enumerate(kinds):
            if kind in conditions:
                at_address |= held(here[home, column], here[:, column], kind)
                at_place |= held(there[home, column], there[:, column], kind)
        owed += int(at_address.sum())
        lost = int((at_address & ~at_place).sum())
        denied += lost
        whose |= {
            it for it in addresses[home].riders if lost and conditional.matters(grants.get(it, ()))
        }
    return Trips(owed, denied, tuple(sorted(whose)))


def held(one: np.uint64, others: Masks, kind: str) -> Flags:
    """Whether a condition holds for trips between one point and others, by the lines that count against it."""
    found: Flags = (
        (one & others) == 0 if kind == conditional.NO_LIFT else (others == 0) | (one == 0)
    )
    return found


def feet_between(homes: Sequence[Address], points: NDArray[np.int64]) -> NDArray[np.float64]:
    """How far each home is from each point."""
    at = np.array([it.point or NO_POINT for it in homes], dtype=np.float64).reshape((-1, 1, 2))
    away = at - points.reshape((1, -1, 2))
    found: NDArray[np.float64] = np.hypot(away[:, :, 0], away[:, :, 1])
    return found


def at_right_places(
    addresses: list[Address],
    places: Sequence[Place],
    lines: Sequence[Line],
    grants: conditional.Grants,
) -> set[int]:
    """Moves homes that are at a wrong place to the nearest right one, and returns the rows of those that have none."""
    indexes = conditional_homes(addresses, grants)
    homes = [addresses[it] for it in indexes]
    if not homes:
        return set()
    right = right_places(homes, places, lines, grants)
    feet = feet_between(homes, np.array([it.point for it in places], dtype=np.int64))
    nearest = np.where(right, feet, np.inf).argmin(axis=1)
    column = {it.number: at for at, it in enumerate(places)}
    denied: set[int] = set()
    for row, (at, home) in enumerate(zip(indexes, homes)):
        if not right[row].any():
            denied.add(home.row)
        elif not right[row, column[home.place or 0]]:
            addresses[at] = replace(home, place=places[nearest[row]].number)
    return denied


def own_places(
    homes: Sequence[Address],
    lines: Sequence[Line],
    grants: conditional.Grants,
    most_feet: float,
    most: int,
) -> list[Own]:
    """Places for homes that no other one fits, so many at most: first those that fit several homes within so many feet.

    A place of several homes is at no home's point, and one of a single home at its point.
    """
    if not homes:
        return []
    here = points_of(homes, lines)
    is_home = np.ones(len(homes), dtype=bool)
    wanted = grouping.Wanted(here, is_home, here.some(is_home[:0]), 0, 1.0)
    near = grouping.candidates_of(wanted, lines)
    # (a point that had no right one near it is the home's own: nobody else may be there)
    points = {it.point for it in homes}
    free = np.flatnonzero([(x, y) not in points for x, y in near.at.tolist()])
    near = near.some(free[:: len(free) // MOST_TRIED + 1])
    feet = feet_between(homes, near.at)
    right: Flags = ((here.masks[:, None] & ~near.masks[None, :]) == 0) & (feet <= most_feet)
    right &= ~held_less(homes, here, near, lines, grants)
    left, found = is_home.copy(), list[Own]()
    while len(found) < most and left.any() and len(near):
        best = int((right & left[:, None]).sum(axis=0).argmax())
        group = np.flatnonzero(right[:, best] & left)
        if len(group) < 2:
            break
        left[group] = False
        x, y = (int(it) for it in near.at[best])
        found.append(Own((x, y), tuple(homes[it] for it in group)))
    alone = [homes[it] for it in np.flatnonzero(left)]
    return found + [Own(it.point or NO_POINT, (it,)) for it in alone[: most - len(found)]]
