"""Addresses at places: the agency's own, and as many new ones as there is room for.

Many addresses are first put together by cells of a net; the places are chosen for the cells, and
then moved for the addresses themselves.
"""

from collections.abc import Sequence
from dataclasses import dataclass

import numpy as np
from numpy.typing import NDArray

from desk_tools.town import medoids
from desk_tools.town.corridor import Line
from desk_tools.town.many_points import counted_of, masks_of
from desk_tools.town.medoids import Floats, Indexes, Masks, Points, Show

Flags = NDArray[np.bool_]
# A core place serves every line at all hours; so core addresses are at core places alone, and others
# at others. Two bits beside those of the lines keep them apart.
CORE, NOT_CORE = np.uint64(1 << 63), np.uint64(1 << 62)
LINES = np.uint64((1 << 62) - 1)
# So many cells at most; the first side of a cell, and roundings of a home's point, in feet.
MOST_CELLS, CELL, ROUNDINGS = 2_000, 100, (500, 100, 20)
MOST_ROUNDS, MOST_TRIED, MOST_LATTICE = 6, 400, 20_000
BLOCK = 20_000


@dataclass(frozen=True)
class Wanted:
    """What is grouped: addresses, which of them are homes, own places, and how many are free."""

    addresses: Points
    is_home: Flags
    own: Points
    free: int
    minutes_a_foot: float
    conditions: Sequence[str] = ()


@dataclass
class Grouped:
    """The places, own ones first, for each address the index of its place, and the sum of the minutes."""

    places: Points
    of: Indexes
    cost: float


def points_of(
    at: NDArray[np.int64],
    is_core: Flags,
    lines: Sequence[Line],
    is_place: bool = False,
    conditions: Sequence[str] = (),
) -> Points:
    """Points with their masks. Of a place outside every corridor no address is in need."""
    masks = masks_of(at, np.zeros(len(at), dtype=bool), lines)
    every = np.uint64((1 << len(lines)) - 1)
    kinds = np.where(is_core, every | CORE, masks | NOT_CORE)
    if is_place:
        kinds = np.where(kinds & LINES == 0, np.uint64(0), kinds)
    counted = counted_of(at, lines, conditions) if conditions else None
    return Points(at, kinds.astype(np.uint64), counted)


def grouped_at(wanted: Wanted, lines: Sequence[Line], show: Show) -> Grouped:
    """Addresses at places, with the least sum of minutes that was found."""
    near = candidates_of(wanted, lines)
    kept, weights = cells_of(wanted.addresses)
    cells = wanted.addresses.some(kept)
    start, candidates = covered(cells, wanted, near.some(kept), lines)
    count = len(wanted.own)
    matrix = np.asfortranarray(
        medoids.costs(cells, medoids.joined(wanted.own, candidates), wanted.minutes_a_foot)
    )
    chosen = [*range(count), *(count + it for it in start)]
    chosen = medoids.started(matrix, weights, chosen, count + wanted.free)
    chosen = medoids.swapped(matrix, weights, chosen, count, show)
    new = candidates.some(np.array([it - count for it in chosen[count:]], dtype=np.int64))
    return refined(wanted, near, new)


def cells_of(addresses: Points) -> tuple[Indexes, Floats]:
    """One address for each cell of a net and each mask, and how many it stands for."""
    side = 1
    while True:
        keys = np.column_stack([addresses.at // side, addresses.masks.view(np.int64)])
        _, inverse, counts = np.unique(keys, axis=0, return_inverse=True, return_counts=True)
        if len(counts) <= MOST_CELLS or side > 50_000:
            break
        side = CELL if side == 1 else side * 5 // 4
    sums = np.column_stack([np.bincount(inverse, addresses.at[:, it]) for it in (0, 1)])
    away = addresses.at - (sums / counts[:, None])[inverse]
    order = np.lexsort((np.hypot(away[:, 0], away[:, 1]), inverse))
    first = np.concatenate([[True], np.diff(inverse[order]) != 0])
    return order[first], counts.astype(np.float32)


def candidates_of(wanted: Wanted, lines: Sequence[Line]) -> Points:
    """Where places may be: at addresses, and near homes, whose own point nobody else may know."""
    addresses = wanted.addresses
    at, left = addresses.at.copy(), wanted.is_home.copy()
    masks = addresses.masks.copy()
    for step in ROUNDINGS:
        where = np.flatnonzero(left)
        if not len(where):
            break
        moved = (addresses.at[where] + step // 2) // step * step
        there = points_of(moved, (addresses.masks[where] & CORE) != 0, lines).masks
        is_right = (addresses.masks[where] & ~there) == 0
        at[where[is_right]], masks[where[is_right]] = moved[is_right], there[is_right]
        left[where[is_right]] = False
    counted = counted_of(at, lines, wanted.conditions) if wanted.conditions else None
    return Points(at, masks, counted)


def covered(
    cells: Points, wanted: Wanted, candidates: Points, lines: Sequence[Line]
) -> tuple[list[int], Points]:
    """Candidates that leave no address without a place, and all candidates."""
    is_open = np.ones(len(cells), dtype=bool)
    for mask in np.unique(wanted.own.masks):
        is_open &= (cells.masks & ~mask) != 0
    needed = cells.masks[is_open]
    try:
        return medoids.covering(needed, candidates.masks, wanted.free), candidates
    except medoids.TooFewPlaces:
        more = medoids.joined(candidates, lattice(cells.at, lines, wanted.conditions))
        return medoids.covering(needed, more.masks, wanted.free), more


def lattice(at: NDArray[np.int64], lines: Sequence[Line], conditions: Sequence[str]) -> Points:
    """Points of a net over the town, one for each group of lines that meets there."""
    low, high = at.min(axis=0), at.max(axis=0)
    step = max(660, int(np.ceil(np.sqrt(float(np.prod((high - low + 1).astype(float))) / 141))))
    axes = [np.arange(low[it], high[it] + step, step) for it in (0, 1)]
    net = np.stack(np.meshgrid(*axes), axis=-1).reshape(-1, 2)[:MOST_LATTICE]
    is_core = np.zeros(len(net), dtype=bool)
    found = points_of(net.astype(np.int64), is_core, lines, conditions=conditions)
    _, first = np.unique(found.masks, return_index=True)
    return found.some(first)


def nearest_of(wanted: Wanted, places: Points) -> Grouped:
    """Each address at the best place where it may be."""
    of: list[Indexes] = []
    cost = 0.0
    for at in range(0, len(wanted.addresses), BLOCK):
        block = wanted.addresses.some(np.arange(at, min(at + BLOCK, len(wanted.addresses))))
        found = medoids.costs(block, places, wanted.minutes_a_foot)
        of.append(found.argmin(axis=1))
        cost += float(found.min(axis=1).sum(dtype=np.float64))
    return Grouped(places, np.concatenate(of), cost)


def refined(wanted: Wanted, near: Points, new: Points) -> Grouped:
    """The places moved to the middle of their own addresses, as long as that saves minutes.

    `near` has for each address where a place for it may be.
    """
    best = nearest_of(wanted, medoids.joined(wanted.own, new))
    for _ in range(MOST_ROUNDS):
        tried = nearest_of(wanted, moved_places(wanted, near, best))
        if tried.cost >= best.cost * (1 - medoids.LEAST_GAIN):
            break
        best = tried
    return best


def moved_places(wanted: Wanted, near: Points, grouped: Grouped) -> Points:
    """The places, each new one at the best of its own addresses."""
    places, rest = grouped.places, np.arange(len(grouped.places))
    order = np.argsort(grouped.of, kind="stable")
    edges = np.searchsorted(grouped.of[order], np.arange(len(places) + 1))
    both = medoids.joined(places, near)
    for place in range(len(wanted.own), len(places)):
        members = order[edges[place] : edges[place + 1]]
        if len(members) < 2:
            continue
        best = middle_of(wanted, members, near)
        if best is not None:
            rest[place] = len(places) + best
    return both.some(rest)


def middle_of(wanted: Wanted, members: Indexes, candidates: Points) -> int | None:
    """The candidate of a group that is best for all of it, where one is allowed."""
    group = wanted.addresses.some(members)
    away = group.at - group.at.mean(axis=0)
    tried = members[np.argsort(np.hypot(away[:, 0], away[:, 1]), kind="stable")[:MOST_TRIED]]
    tried = tried[(np.bitwise_or.reduce(group.masks) & ~candidates.masks[tried]) == 0]
    if not len(tried):
        return None
    sums = medoids.costs(group, candidates.some(tried), wanted.minutes_a_foot).sum(axis=0)
    return int(tried[int(sums.argmin())])


def is_allowed(addresses: Masks, places: Masks) -> Flags:
    """Whether each address may be at the place beside it."""
    found: Flags = (addresses & ~places) == 0
    return found
