"""Few places for many addresses: k-medoids by the sum of the driving minutes (FasterPAM).

An address may be at a place alone that lies in the corridors of at least its lines. What is not
allowed has the cost FORBIDDEN, more than all drives together; some choice without it is found
first, so that none of the later steps takes it.
"""

from collections.abc import Sequence
from dataclasses import dataclass
from typing import Protocol

import numpy as np
from numpy.typing import NDArray

Floats = NDArray[np.float32]
Indexes = NDArray[np.int64]
Masks = NDArray[np.uint64]
FORBIDDEN = np.float32(1e7)
# A place where a grant may hold less than at the address costs as much as so many minutes of driving.
MORE_COUNTED = np.float32(3)
# An improvement of less than this share of the sum is none: floating numbers are no better.
LEAST_GAIN = 1e-6


class Show(Protocol):
    """Shows how far the work is."""

    def __call__(self, done: int, total: int, what: str = "places tried") -> None:
        ...


class TooFewPlaces(Exception):
    """Groups of lines that need a place each are more than the places that are left."""

    def __init__(self, needed: int) -> None:
        super().__init__(needed)
        self.needed = needed


@dataclass(frozen=True)
class Points:
    """Points with the lines that serve each.

    `counted` has a column for each condition of some grant: the lines that count against it there.
    """

    at: NDArray[np.int64]
    masks: Masks
    counted: Masks | None = None

    def __len__(self) -> int:
        return len(self.at)

    def some(self, chosen: Indexes | NDArray[np.bool_]) -> "Points":
        """Some of the points."""
        counted = None if self.counted is None else self.counted[chosen]
        return Points(self.at[chosen], self.masks[chosen], counted)


def joined(one: Points, other: Points) -> Points:
    """The points of both."""
    counted = None
    if one.counted is not None and other.counted is not None:
        counted = np.vstack([one.counted, other.counted])
    return Points(np.vstack([one.at, other.at]), np.concatenate([one.masks, other.masks]), counted)


def is_more_counted(addresses: Points, places: Points) -> NDArray[np.bool_]:
    """Whether more lines count against some condition at each place than at each address."""
    found = np.zeros((len(addresses), len(places)), dtype=bool)
    if addresses.counted is not None and places.counted is not None:
        for here, there in zip(addresses.counted.T, places.counted.T):
            found |= (there[None, :] & ~here[:, None]) != 0
    return found


def costs(addresses: Points, places: Points, minutes_a_foot: float) -> Floats:
    """The minutes from each address to each place, and more where a grant may hold less."""
    away = addresses.at[:, None, :].astype(np.float32) - places.at[None, :, :].astype(np.float32)
    found: Floats = np.hypot(away[:, :, 0], away[:, :, 1]) * np.float32(minutes_a_foot)
    if addresses.counted is not None:
        found[is_more_counted(addresses, places)] += MORE_COUNTED
    found[(addresses.masks[:, None] & ~places.masks[None, :]) != 0] = FORBIDDEN
    return found


def covering(needed: Masks, candidates: Masks, most: int) -> list[int]:
    """Candidates that allow each of the needed masks, few of them; an error where `most` are less."""
    unique = np.unique(needed)
    is_below = (unique[:, None] & ~unique[None, :]) == 0
    greatest = unique[is_below.sum(axis=1) == 1]
    allows = (greatest[:, None] & ~candidates[None, :]) == 0
    chosen: list[int] = []
    left = np.ones(len(greatest), dtype=bool)
    while left.any():
        counts = allows[left].sum(axis=0)
        best = int(counts.argmax())
        if counts[best] == 0:
            raise TooFewPlaces(len(chosen) + int(left.sum()))
        chosen.append(best)
        left &= ~allows[:, best]
    if len(chosen) > most:
        raise TooFewPlaces(len(chosen))
    return chosen


def started(matrix: Floats, weights: Floats, chosen: list[int], count: int) -> list[int]:
    """The choice with those candidates added, one after the other, that save most."""
    nearest = matrix[:, chosen].min(axis=1) if chosen else np.full(len(matrix), FORBIDDEN)
    while len(chosen) < count:
        saved = weights @ np.maximum(nearest[:, None] - matrix, 0)
        best = int(saved.argmax())
        if saved[best] <= 0:
            break
        chosen = [*chosen, best]
        nearest = np.minimum(nearest, matrix[:, best])
    return chosen


@dataclass
class Choice:
    """The chosen columns, and for each address its nearest and second nearest of them."""

    matrix: Floats
    chosen: Indexes
    near: Indexes
    first: Floats
    second: Floats

    @classmethod
    def of(cls, matrix: Floats, chosen: Sequence[int]) -> "Choice":
        """The choice of these columns."""
        columns = np.array(chosen, dtype=np.int64)
        part = matrix[:, columns]
        near = part.argmin(axis=1)
        rows = np.arange(len(part))
        first = part[rows, near].copy()
        part[rows, near] = np.inf
        second = part.min(axis=1) if len(columns) > 1 else np.full(len(part), FORBIDDEN)
        return cls(matrix, columns, near, first, np.minimum(second, FORBIDDEN))


def swapped(
    matrix: Floats, weights: Floats, chosen: list[int], fixed: int, show: Show
) -> list[int]:
    """The choice after all swaps that make the sum less; the first `fixed` columns stay."""
    choice, unchanged, at, columns = Choice.of(matrix, chosen), 0, fixed, matrix.shape[1]
    total = float(weights @ choice.first)
    passes = 0
    while unchanged < columns - fixed and len(chosen) > fixed and passes < 40:
        gain, place = best_swap(choice, weights, at, fixed)
        if gain > LEAST_GAIN * max(total, 1.0):
            chosen[place] = at
            choice, unchanged = Choice.of(matrix, chosen), 0
            total = float(weights @ choice.first)
        else:
            unchanged += 1
        at += 1
        if at == columns:
            at, passes = fixed, passes + 1
        show(unchanged, columns - fixed)
    return chosen


def best_swap(choice: Choice, weights: Floats, column: int, fixed: int) -> tuple[float, int]:
    """What the column saves in the place of the chosen one that is best to leave, and its place."""
    there = choice.matrix[:, column]
    is_nearer = there < choice.first
    saved = float(weights[is_nearer] @ (choice.first - there)[is_nearer])
    # What each chosen one's addresses lose where it goes: they come to the second or to the column.
    lost = np.where(is_nearer, choice.first, np.minimum(there, choice.second)) - choice.first
    by_place = np.bincount(choice.near, lost * weights, minlength=len(choice.chosen))
    by_place[:fixed] = np.inf
    place = int(by_place.argmin())
    return saved - float(by_place[place]), place
