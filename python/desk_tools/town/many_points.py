"""The corridors of many points at once: what is sure by floating numbers, and the exact test else."""

from collections.abc import Sequence

import numpy as np
from numpy.typing import NDArray

from desk_tools.town.conditional import NO_LIFT, feet_in
from desk_tools.town.corridor import Line, feet_from_line

Masks = NDArray[np.uint64]
Floats = NDArray[np.float64]
# Floating numbers are off by far less than a foot: nearer than that to an edge the exact test asks.
UNSURE = 1.0
# Fewer points than these are tried with all segments of a line at once.
FEW = 4_000
FARTHEST = 10_000_000


def masks_of(points: NDArray[np.int64], is_core: NDArray[np.bool_], lines: Sequence[Line]) -> Masks:
    """For each point the lines in whose corridors it lies, a bit for each line."""
    found: Masks = reached(points, lines, [[it.width for it in lines]])[:, 0]
    found[is_core] = np.uint64((1 << len(lines)) - 1)
    return found


def counted_of(
    points: NDArray[np.int64], lines: Sequence[Line], conditions: Sequence[str]
) -> Masks:
    """For each point, and each condition of a grant, the lines that count against it, a bit for each line.

    Against `nolift` accessible lines in whose corridors the point lies, against `farther` lines within so many feet.
    """
    lifts = np.uint64(sum(1 << at for at, it in enumerate(lines) if it.accessible))
    feet = [
        [it.width for it in lines] if one == NO_LIFT else [feet_in(one)] * len(lines)
        for one in conditions
    ]
    found = reached(points, lines, feet)
    for column, one in enumerate(conditions):
        if one == NO_LIFT:
            found[:, column] &= lifts
    return found


def reached(
    points: NDArray[np.int64], lines: Sequence[Line], feet: Sequence[Sequence[int]]
) -> Masks:
    """For each point, and each row of `feet`, the lines of which some point is within the line's feet in that row."""
    order = np.argsort(points[:, 0], kind="stable")
    ordered = points[order]
    found = np.zeros((len(points), len(feet)), dtype=np.uint64)
    for at, line in enumerate(lines):
        widths = [row[at] for row in feet]
        away = feet_to(ordered, line, max(widths, default=0))
        for column, width in enumerate(widths):
            is_inside = away <= width - UNSURE
            for row in np.flatnonzero(np.abs(away - width) < UNSURE):
                point = (int(ordered[row, 0]), int(ordered[row, 1]))
                is_inside[row] = feet_from_line(point, line.points) <= width
            found[order[is_inside], column] |= np.uint64(1 << at)
    return found


def nearest_lines(points: NDArray[np.int64], lines: Sequence[Line]) -> list[Line]:
    """For each point the line to whose corridor the fewest feet are missing."""
    order = np.argsort(points[:, 0], kind="stable")
    missing = np.empty((len(points), len(lines)))
    for at, line in enumerate(lines):
        missing[order, at] = feet_to(points[order], line, FARTHEST) - line.width
    return [lines[at] for at in missing.argmin(axis=1)]


def feet_to(ordered: NDArray[np.int64], line: Line, reach: int) -> Floats:
    """How far each of the points, ordered from west to east, is from a line; infinite for some that are beyond the reach."""
    found = np.full(len(ordered), np.inf)
    spots = np.array(line.points, dtype=np.float64)
    if len(ordered) <= FEW:
        low, high = spots[:, 0].min() - reach - UNSURE, spots[:, 0].max() + reach + UNSURE
        part = slice(*np.searchsorted(ordered[:, 0], [low, high]))
        found[part] = distances(ordered[part], spots[:-1], spots[1:]).min(axis=1)
        return found
    wests = np.ascontiguousarray(ordered[:, 0])
    for start, end in zip(spots, spots[1:]):
        low, high = min(start[0], end[0]) - reach - UNSURE, max(start[0], end[0]) + reach + UNSURE
        part = slice(*np.searchsorted(wests, [low, high]))
        away = distances(ordered[part], start[None], end[None])[:, 0]
        np.minimum(found[part], away, out=found[part])
    return found


def distances(points: NDArray[np.int64], starts: Floats, ends: Floats) -> Floats:
    """How far each point (row) is from each segment (column), as near as floating numbers say it."""
    along = ends - starts
    square = (along * along).sum(axis=1)
    x = points[:, 0, None] - starts[None, :, 0]
    y = points[:, 1, None] - starts[None, :, 1]
    with np.errstate(invalid="ignore", divide="ignore"):
        share = (x * along[:, 0] + y * along[:, 1]) / square
    share = np.where(square > 0, np.minimum(np.maximum(share, 0), 1), 0)
    found: Floats = np.hypot(x - share * along[:, 0], y - share * along[:, 1])
    return found
