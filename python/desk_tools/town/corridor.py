"""The exact test of a corridor, and the lines that serve a point (docs/RULES.md, "Corridors").

Points are whole feet on the agency's plane. A point lies in a line's corridor where its distance to
some segment of the line is at most the line's width, without rounding.
"""

import math
from collections.abc import Iterable, Mapping, Sequence
from dataclasses import dataclass
from typing import Any

Point = tuple[int, int]


@dataclass(frozen=True)
class Line:
    """A fixed route that runs on some weekday, as agency.json has it."""

    number: int
    name: str
    width: int
    points: tuple[Point, ...]
    accessible: bool

    def segments(self) -> Iterable[tuple[Point, Point]]:
        """The line's segments, in order."""
        return zip(self.points, self.points[1:])


def feet_from(point: Point, start: Point, end: Point) -> int:
    """The least whole number of feet within which the segment has a point."""
    dx, dy = end[0] - start[0], end[1] - start[1]
    px, py = point[0] - start[0], point[1] - start[1]
    along, square = px * dx + py * dy, dx * dx + dy * dy
    if along <= 0 or square == 0:
        area, square = px * px + py * py, 1
    elif along >= square:
        area, square = (px - dx) ** 2 + (py - dy) ** 2, 1
    else:
        area = (px * dy - py * dx) ** 2
    feet = math.isqrt(area // square)
    return feet if feet * feet * square >= area else feet + 1


def feet_from_line(point: Point, line: Sequence[Point]) -> int:
    """The least whole number of feet within which the line has a point."""
    return min(feet_from(point, *it) for it in zip(line, line[1:]))


def feet_missing(point: Point, line: Line) -> int:
    """How many feet are missing to the line's corridor: zero or less inside of it."""
    return feet_from_line(point, line.points) - line.width


def lines_at(point: Point, is_core: bool, lines: Sequence[Line]) -> int:
    """The lines in whose corridors the point lies, a bit for each. A core place lies in all."""
    if is_core:
        return (1 << len(lines)) - 1
    return sum(1 << at for at, it in enumerate(lines) if feet_missing(point, it) <= 0)


def nearest(point: Point, lines: Sequence[Line]) -> tuple[int, str]:
    """How many feet are missing to the nearest corridor, and the name of its line."""
    return min((feet_missing(point, it), it.name) for it in lines)


def is_served_alike(address: int, place: int) -> bool:
    """Whether a place lies in the corridors of at least the lines that an address has."""
    return address & ~place == 0


def lines_of(routes: Mapping[str, Mapping[str, Any]]) -> list[Line]:
    """The lines that run on some weekday, of agency.json's fixed routes by their numbers."""
    return [
        Line(
            int(number),
            it.get("name", ""),
            it["width"],
            tuple((x, y) for x, y in it["points"]),
            bool(it.get("accessible", False)),
        )
        for number, it in sorted(routes.items(), key=lambda it: int(it[0]))
        if it.get("days") != []
    ]
