"""The outline of corridors: what lies within a width of lines, as rings of points in feet.

The distance to the lines is taken at the points of a net, and the outline runs where it is the width. So a ring never
crosses itself, whatever the lines do. Between the points of the net it is off by some feet along a line, and by half a
cell's diagonal at most where corridors meet.
"""

import math
from collections.abc import Iterable, Sequence
from dataclasses import dataclass

CELL = 400
Point = tuple[float, float]
Node = tuple[int, int]


@dataclass(frozen=True)
class Line:
    """A fixed route's line and the width of its corridor to each side, in feet."""

    points: tuple[Point, ...]
    width: int


def distance(at: Point, one: Point, other: Point) -> float:
    """From a point to a straight piece."""
    along_x, along_y = other[0] - one[0], other[1] - one[1]
    length = along_x * along_x + along_y * along_y
    part = ((at[0] - one[0]) * along_x + (at[1] - one[1]) * along_y) / length if length else 0.0
    part = min(1.0, max(0.0, part))
    return math.hypot(at[0] - one[0] - part * along_x, at[1] - one[1] - part * along_y)


def field_of(lines: Iterable[Line]) -> dict[Node, float]:
    """How far each point of the net is outside all corridors; inside it is less than zero."""
    found: dict[Node, float] = {}
    for line in lines:
        reach = line.width + 2 * CELL
        for one, other in zip(line.points, line.points[1:] or line.points):
            columns = _span(one[0], other[0], reach)
            for row in _span(one[1], other[1], reach):
                for column in columns:
                    at = column, row
                    away = distance((column * CELL, row * CELL), one, other) - line.width
                    # (a point of the net that is on the outline would be in two cells' corners)
                    away = away or 1e-6
                    if away < found.get(at, math.inf):
                        found[at] = away
    return found


def _span(one: float, other: float, reach: float) -> range:
    return range(
        math.floor((min(one, other) - reach) / CELL),
        math.ceil((max(one, other) + reach) / CELL) + 1,
    )


def rings_of(lines: Sequence[Line]) -> list[list[Point]]:
    """The rings of the outline, each closed: those around an area turn left, and those of holes turn right."""
    field = field_of(lines)
    after: dict[tuple[Node, Node], tuple[Node, Node]] = {}
    for column, row in field:
        after.update(_steps(field, column, row))
    rings = []
    while after:
        start = edge = next(iter(after))
        ring = []
        while edge in after:
            ring.append(_crossing(field, *edge))
            edge = after.pop(edge)
        assert edge == start
        rings.append([*ring, ring[0]])
    return rings


def _steps(
    field: dict[Node, float], column: int, row: int
) -> Iterable[tuple[tuple[Node, Node], tuple[Node, Node]]]:
    """How the outline goes through the cell above and right of a node: from an edge to an edge, with the inside on its left."""
    corners = [(column, row), (column + 1, row), (column + 1, row + 1), (column, row + 1)]
    values = [field.get(it, math.inf) for it in corners]
    inner = [it < 0 for it in values]
    if all(inner) or not any(inner):
        return
    edges = [(corners[at], corners[(at + 1) % 4]) for at in range(4)]
    # (round the cell to the left: where it comes out of the area the outline leaves, and where it goes in it enters)
    leaves = [at for at in range(4) if inner[at] and not inner[(at + 1) % 4]]
    enters = [at for at in range(4) if not inner[at] and inner[(at + 1) % 4]]
    is_joined = len(leaves) == 2 and sum(values) < 0
    for out in leaves:
        order = sorted(enters, key=lambda it: (it - out) % 4)
        to = order[0] if is_joined or len(order) == 1 else order[-1]
        yield _edge(*edges[out]), _edge(*edges[to])


def _edge(one: Node, other: Node) -> tuple[Node, Node]:
    return (one, other) if one < other else (other, one)


def _crossing(field: dict[Node, float], one: Node, other: Node) -> Point:
    low, high = field.get(one, math.inf), field.get(other, math.inf)
    part = 0.5 if math.isinf(low) or math.isinf(high) else low / (low - high)
    return tuple(CELL * (a + part * (b - a)) for a, b in zip(one, other))  # type: ignore[return-value]


def area(ring: Sequence[Point]) -> float:
    """Twice the area of a ring; less than zero where it turns right."""
    return sum(a[0] * b[1] - b[0] * a[1] for a, b in zip(ring, ring[1:]))


def holds(ring: Sequence[Point], at: Point) -> bool:
    """Whether a point lies inside a ring."""
    inside = False
    for (x, y), (u, v) in zip(ring, ring[1:]):
        if (y > at[1]) != (v > at[1]) and at[0] < (u - x) * (at[1] - y) / (v - y) + x:
            inside = not inside
    return inside


def polygons_of(lines: Sequence[Line]) -> list[list[list[Point]]]:
    """The polygons, each its ring and then its holes."""
    rings = rings_of(lines)
    outer = sorted((it for it in rings if area(it) > 0), key=area)
    polygons = [[it] for it in outer]
    for hole in (it for it in rings if area(it) < 0):
        around = next((it for it in polygons if holds(it[0], hole[0])), None)
        if around:
            around.append(hole)
    return polygons
