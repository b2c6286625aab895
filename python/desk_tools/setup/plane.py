"""The plane of an agency, in whole feet, and lines on it.

A plane is the transverse Mercator projection of the ellipsoid WGS 84 round a middle, by Krueger's series to the third
power: a length along the middle's meridian is exact, and the error of others grows with the square of the distance from
that meridian. One foot is 0.3048 metres.
"""

from __future__ import annotations

import heapq
import json
import math
import os
import statistics
from pathlib import Path
from typing import Any

from desk_tools.setup.limits import GREATEST_COORDINATE, Wrong
from desk_tools.town import corridor

FOOT, AXIS, FLATTENING = 0.3048, 6378137.0, 1 / 298.257223563
GREATEST_ERROR, FARTHEST_DEGREES = 0.001, 5
THIRD = FLATTENING / (2 - FLATTENING)
RADIUS = AXIS / (1 + THIRD) * (1 + THIRD**2 / 4 + THIRD**4 / 64)
SERIES = (
    THIRD / 2 - 2 * THIRD**2 / 3 + 5 * THIRD**3 / 16,
    13 * THIRD**2 / 48 - 3 * THIRD**3 / 5,
    61 * THIRD**3 / 240,
)
ECCENTRICITY = math.sqrt(FLATTENING * (2 - FLATTENING))
PROJECTION = "transverse Mercator, WGS 84, feet of 0.3048 metres"


def meters(latitude: float, east: float) -> tuple[float, float]:
    """Metres east of the meridian and north of the equator, of a latitude and of what lies east in radians."""
    conformal = math.sinh(
        math.atanh(math.sin(latitude))
        - ECCENTRICITY * math.atanh(ECCENTRICITY * math.sin(latitude))
    )
    xi, eta = math.atan2(conformal, math.cos(east)), math.asinh(
        math.sin(east) / math.hypot(conformal, math.cos(east))
    )
    turns = [(2 * at * xi, 2 * at * eta, factor) for at, factor in enumerate(SERIES, 1)]
    x = eta + sum(factor * math.cos(a) * math.sinh(b) for a, b, factor in turns)
    y = xi + sum(factor * math.sin(a) * math.cosh(b) for a, b, factor in turns)
    return RADIUS * x, RADIUS * y


class Plane:
    """The plane round a middle, given in degrees."""

    def __init__(self, latitude: float, longitude: float) -> None:
        self.latitude, self.longitude = latitude, longitude
        self.north_of_equator = meters(math.radians(latitude), 0.0)[1]

    def feet(self, latitude: float, longitude: float) -> tuple[float, float]:
        """The point of a position, not rounded."""
        east, north = meters(math.radians(latitude), math.radians(longitude - self.longitude))
        return east / FOOT, (north - self.north_of_equator) / FOOT

    def point(self, latitude: float, longitude: float) -> tuple[int, int]:
        """The point of a position, in whole feet."""
        if (
            max(abs(latitude - self.latitude), abs(longitude - self.longitude))
            < 2 * FARTHEST_DEGREES
        ):
            x, y = (round(it) for it in self.feet(latitude, longitude))
            if max(abs(x), abs(y)) <= GREATEST_COORDINATE:
                return x, y
        raise Wrong(
            f"{latitude}, {longitude} is farther than {GREATEST_COORDINATE:,} feet from the plane's middle, "
            f"{self.latitude}, {self.longitude}"
        )

    def position(self, x: float, y: float) -> tuple[float, float]:
        """The latitude and longitude of a point: the point is brought nearer until it is the one."""
        latitude, longitude = self.latitude, self.longitude
        for _ in range(20):
            there = self.feet(latitude, longitude)
            latitude += (y - there[1]) * FOOT / 111_000
            longitude += (x - there[0]) * FOOT / (111_320 * math.cos(math.radians(latitude)))
        return latitude, longitude

    def error_at(self, latitude: float, longitude: float, step: float = 1e-4) -> float:
        """By what part a short length there differs from the ellipsoid's, along the meridian or across it."""
        bend = 1 - (ECCENTRICITY * math.sin(math.radians(latitude))) ** 2
        along = AXIS * (1 - ECCENTRICITY**2) / bend**1.5
        across = AXIS * math.cos(math.radians(latitude)) / math.sqrt(bend)
        moved = [(0.5 * step, 0.0, along), (0.0, 0.5 * step, across)]
        errors = []
        for north, east, radius in moved:
            ends = self.feet(latitude - north, longitude - east), self.feet(
                latitude + north, longitude + east
            )
            errors.append(abs(math.dist(*ends) * FOOT / (radius * math.radians(step)) - 1))
        return float(max(errors))

    def greatest_error(self, positions: list[tuple[float, float]], feet_around: int) -> float:
        """The greatest error over the box round these positions and so many feet more, by a net of 81 points."""
        margin = feet_around * FOOT / 111_000
        wide = margin / math.cos(math.radians(self.latitude))
        latitudes, longitudes = zip(*positions)
        low, high = (min(latitudes) - margin, min(longitudes) - wide), (
            max(latitudes) + margin,
            max(longitudes) + wide,
        )
        return max(
            self.error_at(low[0] + (high[0] - low[0]) * i / 8, low[1] + (high[1] - low[1]) * j / 8)
            for i in range(9)
            for j in range(9)
        )


def plane_round(positions: list[tuple[float, float]]) -> Plane:
    """A plane round the middle of the box that holds these positions, but for those that are far out of place."""
    usual = [statistics.median(it) for it in zip(*positions)]
    near = [
        it
        for it in positions
        if max(abs(it[0] - usual[0]), abs(it[1] - usual[1])) < FARTHEST_DEGREES
    ]
    return Plane(*(round((min(it) + max(it)) / 2, 4) for it in zip(*near)))


def kept_plane(folder: str) -> Plane | None:
    """The plane of the folder's plane.json, or None where there is no such file."""
    path = f"{folder}/plane.json"
    if not os.path.exists(path):
        return None
    try:
        kept = json.loads(Path(path).read_text("utf-8"))
        return Plane(float(kept["latitude"]), float(kept["longitude"]))
    except (ValueError, KeyError, TypeError):
        raise Wrong(f"{path} is no plane: it has to have a latitude and a longitude") from None


def keep_plane(folder: str, plane: Plane, error: float) -> None:
    kept = {
        "projection": PROJECTION,
        "latitude": plane.latitude,
        "longitude": plane.longitude,
        "greatest_error": round(error, 7),
    }
    Path(f"{folder}/plane.json").write_text(json.dumps(kept, indent=1) + "\n", "utf-8")


# Lines and distances on the plane. What is said of a distance is exact: the coordinates are whole numbers.

feet_from, feet_from_line = corridor.feet_from, corridor.feet_from_line


def segments(line: list[tuple[int, int]]) -> list[tuple[tuple[int, int], tuple[int, int]]]:
    return list(zip(line, line[1:]))


def length_of(line: list[tuple[int, int]]) -> float:
    return sum(math.dist(*it) for it in segments(line))


def without_repeats(points: list[tuple[int, int]]) -> list[tuple[int, int]]:
    """The points, each once where it stood twice in a row; a single point is a line from itself to itself."""
    line = [it for at, it in enumerate(points) if at == 0 or it != points[at - 1]]
    return line * 2 if len(line) == 1 else line


def distance(point: tuple[int, int], start: tuple[int, int], end: tuple[int, int]) -> float:
    """How far the point is from the segment, as near as floating numbers say it."""
    dx, dy, px, py = end[0] - start[0], end[1] - start[1], point[0] - start[0], point[1] - start[1]
    square = dx * dx + dy * dy
    share = min(1.0, max(0.0, (px * dx + py * dy) / square)) if square else 0.0
    return math.hypot(px - share * dx, py - share * dy)


def part_of(line: list[tuple[int, int]], low: int, high: int) -> tuple[float, int, int, int]:
    """The part of a line between two of its points, that which lies farthest aside of their segment first."""
    between = ((distance(line[at], line[low], line[high]), at) for at in range(low + 1, high))
    feet, place = max(between, default=(-1.0, low))
    return -feet, place, low, high


def simplified(
    line: list[tuple[int, int]], most: int, enough: int = 0
) -> tuple[list[tuple[int, int]], int]:
    """At most so many points of the line, and within how many feet of them it lies; `enough` feet are left as they are.

    Douglas and Peucker's way: the point that lies farthest aside is taken next. Between two points that are taken the
    line lies no farther aside than its points do: what lies so near to a segment is convex.
    """
    taken, waiting = {0, len(line) - 1}, [part_of(line, 0, len(line) - 1)]
    while len(taken) < most and waiting and -waiting[0][0] > enough:
        _, place, low, high = heapq.heappop(waiting)
        taken.add(place)
        heapq.heappush(waiting, part_of(line, low, place))
        heapq.heappush(waiting, part_of(line, place, high))
    places = sorted(taken)
    parts = zip(places, places[1:])
    aside = (
        feet_from(line[at], line[low], line[high])
        for low, high in parts
        for at in range(low + 1, high)
    )
    return [line[it] for it in places], max(aside, default=0)


def boxed(
    segment: tuple[tuple[int, int], tuple[int, int]], feet: int
) -> tuple[int, int, int, int, tuple[tuple[int, int], tuple[int, int]]]:
    """The box of points that may be so near to the segment: its least and greatest coordinates; and the segment."""
    (ax, ay), (bx, by) = segment
    return min(ax, bx) - feet, min(ay, by) - feet, max(ax, bx) + feet, max(ay, by) + feet, segment


def lies_within(line: list[tuple[int, int]], other: list[tuple[int, int]], feet: int) -> bool:
    """Whether each point of the line surely lies within so many feet of the other.

    A part of the line does where both its ends are so near to one segment of the other; else its halves are looked at.
    """
    roads, bound = [boxed(it, feet) for it in segments(other)], feet - 0.001
    parts: list[tuple[Any, Any]] = [(it, roads) for it in segments(line)]
    while parts:
        part, near = parts.pop()
        low_x, low_y, high_x, high_y, (start, end) = boxed(part, 0)
        near = [
            it
            for it in near
            if it[0] <= high_x and it[1] <= high_y and it[2] >= low_x and it[3] >= low_y
        ]
        if any(distance(start, *it[4]) <= bound and distance(end, *it[4]) <= bound for it in near):
            continue
        if not near or math.dist(start, end) < 30:
            return False
        # (halves of whole numbers: floating numbers hold them as they are)
        middle = ((start[0] + end[0]) / 2, (start[1] + end[1]) / 2)
        parts += [((start, middle), near), ((middle, end), near)]
    return True
