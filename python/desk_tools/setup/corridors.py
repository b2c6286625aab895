"""One line for several: a walk along all of them, so that its corridor is theirs, or a little larger.

A corridor does not care which way a line is walked, nor how often. So lines that meet become one that walks along the
first, turns into each branch where it begins, and comes back. Nothing that any of them serves is lost, and the corridor
reaches farther by a few feet alone: where lines are simplified to the points that the desk takes, and where the walk
crosses a gap between two lines.
"""

from __future__ import annotations

import collections
import math
from collections.abc import Iterator
from typing import Any, NamedTuple

from desk_tools.setup import plane as geometry
from desk_tools.setup.limits import LEAST_WIDTH, MOST_POINTS

Point = tuple[int, int]


class Walk(NamedTuple):
    """A walk, in how many feet each line lies from it, and by how many feet its corridor reaches
    farther than theirs."""

    points: list[tuple[int, int]]
    moved: int
    reach: int


class Foot(NamedTuple):
    """A point of a walk that is near to another point: in how many feet, behind which of its
    places, and where."""

    feet: float
    place: int
    point: tuple[int, int]


# How near a shorter form of a line stays to it; how long the parts are by which lines are compared; and the side of the
# cells by which what is near is found.
LIGHTER, PART, CELL = 10, 200, 2_000
# Lines so near to the walk are walked already, and the feet that are tried. Gaps are crossed that are no longer.
NEAR, STEPS, MOST_GAP = (30, 120, 400), (10, 20, 30, 40, 60, 80, 120, 180, 250, 350, 500, 1000), 500


def walked(
    parts: list[list[tuple[int, int]]],
    light: list[tuple[list[tuple[int, int]], int]],
    most_reach: int,
) -> Walk | None:
    """The walk along all of these parts, or None where none is right within so many feet.

    `light` are all lines that the walk stands for, each in a shorter form, with the feet by which that lies aside. The
    parts lie along them, within LIGHTER feet.
    """
    ordered, best = sorted(parts, key=lambda it: -geometry.length_of(it)), None
    for near in NEAR:
        made = walk_along(ordered, near)
        if made is None or near > most_reach:
            break
        walk, gap = made
        points, aside = geometry.simplified(walk, MOST_POINTS, 1)
        moved = feet_beside(light, points, most_reach)
        # (a piece that the walk goes along is a shorter form of a part)
        reach = (moved or 0) + aside + 2 * LIGHTER + notch(gap)
        if moved is not None and reach <= most_reach and (best is None or reach < best.reach):
            best = Walk(points, moved, reach)
        if best and best.reach <= 4 * near:
            break
    return best


def walk_along(
    lines: list[list[tuple[int, int]]], near: int
) -> tuple[list[tuple[int, int]], float] | None:
    """A walk along the lines, and the longest gap that it crosses; None where a line is too far from all others."""
    walk, gap, waiting, turns = lines[0], 0.0, collections.deque(lines[1:]), 0
    while waiting:
        line = waiting.popleft()
        with_line = with_pieces(walk, gap, line, near)
        # (a line may meet the walk by way of another one alone, so it waits for those that are left)
        turns = 0 if with_line else turns + 1
        if with_line:
            walk, gap = with_line
        elif turns > len(waiting):
            return None
        else:
            waiting.append(line)
    return walk, gap


def with_pieces(walk: Any, gap: Any, line: Any, near: Any) -> Any:
    """The walk along a line too, with the longest gap, or None where a piece of it does not meet the walk."""
    for piece in pieces_beside(line, walk, near):
        joined = joined_to(walk, piece)
        if joined is None:
            return None
        walk, gap = joined[0], max(gap, joined[1])
    return walk, gap


def pieces_beside(line: Any, walk: Any, near: Any) -> Iterator[Any]:
    """The parts of a line that lie farther from the walk, with the point before and after each."""
    points, cells = in_parts(line), cells_of(walk, near)
    is_far = [not has_near(cells, it, near) for it in points]
    at = 0
    while at < len(points):
        if is_far[at]:
            end = at
            while end < len(points) and is_far[end]:
                end += 1
            piece = points[max(0, at - 1) : end + 1]
            if len(piece) > 1:
                yield geometry.simplified(piece, MOST_POINTS, LIGHTER)[0]
            at = end
        at += 1


def cells_of(
    walk: list[tuple[int, int]], near: int
) -> dict[tuple[int, int], list[tuple[tuple[int, int], tuple[int, int]]]]:
    """The segments of the walk by the square cells through which a point so near to them may lie."""
    cells = collections.defaultdict(list)
    for segment in geometry.segments(walk):
        low_x, low_y, high_x, high_y, _ = geometry.boxed(segment, near)
        for x in range(int(low_x // CELL), int(high_x // CELL) + 1):
            for y in range(int(low_y // CELL), int(high_y // CELL) + 1):
                cells[x, y].append(segment)
    return cells


def has_near(
    cells: dict[tuple[int, int], list[tuple[tuple[int, int], tuple[int, int]]]],
    point: tuple[int, int],
    near: int,
) -> bool:
    there = cells.get((point[0] // CELL, point[1] // CELL), ())
    return any(geometry.distance(point, *it) <= near for it in there)


def in_parts(line: Any) -> Any:
    """The line's points, and others between them, so that no part is long."""
    points = []
    for (ax, ay), (bx, by) in geometry.segments(line):
        count = max(1, math.ceil(math.dist((ax, ay), (bx, by)) / PART))
        points += [
            (round(ax + (bx - ax) * at / count), round(ay + (by - ay) * at / count))
            for at in range(count)
        ]
    return [*points, line[-1]]


def foot(walk: Any, point: Any) -> Any:
    """The point of the walk that is nearest."""
    px, py = point
    best = Foot(math.inf, 0, walk[0])
    for place, ((ax, ay), (bx, by)) in enumerate(zip(walk, walk[1:])):
        low, high = (ax, bx) if ax < bx else (bx, ax)
        if px < low - best.feet or px > high + best.feet:
            continue
        dx, dy = bx - ax, by - ay
        square = dx * dx + dy * dy
        share = min(1.0, max(0.0, ((px - ax) * dx + (py - ay) * dy) / square)) if square else 0.0
        x, y = ax + share * dx, ay + share * dy
        feet = math.hypot(px - x, py - y)
        if feet < best.feet:
            best = Foot(feet, place, (round(x), round(y)))
    return best


def joined_to(walk: Any, piece: Any) -> Any:
    """The walk that goes along the piece too, with the fewest points, and the gap that it crosses."""
    found = []
    for part in (piece, piece[::-1]):
        at = foot(walk, part[0])
        if at.feet > MOST_GAP:
            continue
        if at.point == walk[-1]:
            found.append(([*walk, *part], at.feet))
        elif at.point == walk[0]:
            found.append(([*part[::-1], *walk], at.feet))
        else:
            there_and_back = [at.point, *part, *part[-2::-1], at.point]
            found.append(([*walk[: at.place + 1], *there_and_back, *walk[at.place + 1 :]], at.feet))
    if not found:
        return None
    made, gap = min(found, key=lambda it: len(it[0]))
    return geometry.without_repeats(made), gap


def notch(gap: float) -> int:
    """How far a corridor reaches into the notch between two others whose lines end so many feet from each other."""
    return math.ceil(LEAST_WIDTH - math.sqrt(LEAST_WIDTH**2 - (gap / 2) ** 2))


def feet_beside(
    light: list[tuple[list[tuple[int, int]], int]], points: list[tuple[int, int]], most: int
) -> int | None:
    """In how many feet of the points each line surely lies, or None where those are too many."""
    aside, left = max(it for _, it in light), [line for line, _ in light]
    for feet in (it for it in STEPS if it <= most):
        left = [it for it in left if not geometry.lies_within(it, points, feet)]
        if not left:
            return feet + aside
    return None


def is_near(line: list[tuple[int, int]], other: list[tuple[int, int]], gap: int = MOST_GAP) -> bool:
    """Whether two lines cross, or come so near to each other."""
    boxes = [geometry.boxed(it, gap) for it in geometry.segments(other)]
    low_x, low_y, high_x, high_y = box_of(line)
    boxes = [
        it
        for it in boxes
        if it[0] <= high_x and it[1] <= high_y and it[2] >= low_x and it[3] >= low_y
    ]
    for start, end in geometry.segments(line) if boxes else ():
        low_x, low_y, high_x, high_y, _ = geometry.boxed((start, end), 0)
        for it in boxes:
            if it[0] <= high_x and it[1] <= high_y and it[2] >= low_x and it[3] >= low_y:
                if do_cross((start, end), it[4]) or ends_feet((start, end), it[4]) <= gap:
                    return True
    return False


def box_of(line: list[tuple[int, int]]) -> tuple[int, int, int, int]:
    xs, ys = zip(*line)
    return min(xs), min(ys), max(xs), max(ys)


def do_cross(one: tuple[Point, Point], two: tuple[Point, Point]) -> bool:
    def side(a: Point, b: Point, c: Point) -> int:
        return (b[0] - a[0]) * (c[1] - a[1]) - (b[1] - a[1]) * (c[0] - a[0])

    (a, b), (c, d) = one, two
    return side(a, b, c) * side(a, b, d) < 0 and side(c, d, a) * side(c, d, b) < 0


def ends_feet(one: Any, two: Any) -> Any:
    return min(
        *(geometry.distance(it, *two) for it in one), *(geometry.distance(it, *one) for it in two)
    )


def area_of(length: float, width: int) -> float:
    """The area of a corridor so wide round a line so long, where it does not overlap itself."""
    return 2 * length * width + math.pi * width * width
