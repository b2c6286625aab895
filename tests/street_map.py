"""A map of a whole metropolis as OpenStreetMap has it, for tests: a grid of streets by class, with points between the crossings.

`street_map.py FILE SIDE` writes one (by Debian's Python, which has pyosmium), and prints how many nodes it has. plain_minutes is a second search of
its own, from crossing to crossing.
"""

from __future__ import annotations

import heapq
import math
import os
import sys
from collections.abc import Callable, Iterable

SOUTH, WEST, STEP = 44.75, -93.55, 0.0008
# Of so many crossings along each side; each street has so many points between two crossings.
BETWEEN = 2
CLASSES = (
    (64, "motorway", "60 mph"),
    (16, "primary", "45 mph"),
    (4, "tertiary", None),
    (1, "residential", None),
)
# Miles an hour: four fifths of a sign, else by class.
SPEEDS = {"motorway": 48, "primary": 36, "tertiary": 30, "residential": 25}
FEET_A_DEGREE = 364_567.0
Crossing = tuple[int, int]
# From each crossing the next ones, with the minutes.
Edges = dict[Crossing, list[tuple[Crossing, float]]]
# A part of a street: its nodes, and its tags.
Way = tuple[list[int], dict[str, str]]


def position_of(row: float, column: float) -> tuple[float, float]:
    """The latitude and longitude of a crossing, or of a point between two."""
    wave = 0.2 * math.sin(column / 7)
    return SOUTH + (row + wave) * STEP, WEST + column * STEP * 1.4


def class_of(at: int) -> tuple[str, str | None]:
    """The class of the street of a number, and its sign."""
    return next((name, sign) for every, name, sign in CLASSES if at % every == 0)


def written(path: str | os.PathLike[str], side: int) -> int:
    """Writes a map of so many crossings a side, and returns how many nodes it has.

    Every fifth residential street is one-way, and no way is longer than forty crossings, as mappers split them.
    """
    import osmium

    writer, count = osmium.SimpleWriter(str(path)), 0
    ways: list[Way] = []

    def node(row: float, column: float) -> int:
        nonlocal count
        count += 1
        latitude, longitude = position_of(row, column)
        writer.add_node(osmium.osm.mutable.Node(id=count, location=(longitude, latitude)))
        return count

    crossings = [[node(row, column) for column in range(side)] for row in range(side)]
    for at in range(side):
        for ends in ([(at, it) for it in range(side)], [(it, at) for it in range(side)]):
            ways += streets_of(ends, crossings, node, at)
    for number, (nodes, tags) in enumerate(ways, 1):
        writer.add_way(osmium.osm.mutable.Way(id=number, nodes=nodes, tags=tags))
    writer.close()
    return count


def oneway_of(at: int) -> str | None:
    """The one-way tag of the street of a number, or None."""
    name, _ = class_of(at)
    if name == "residential" and at % 5 == 0:
        return "yes" if at % 2 else "-1"
    return "no" if name == "motorway" else None


def streets_of(
    ends: list[Crossing], crossings: list[list[int]], node: Callable[[float, float], int], at: int
) -> list[Way]:
    """One street as the ways of its parts: nodes and tags."""
    name, sign = class_of(at)
    named = {"highway": name, "maxspeed": sign, "oneway": oneway_of(at)}
    tags = {key: it for key, it in named.items() if it}
    nodes = []
    for (row, column), (next_row, next_column) in zip(ends, ends[1:]):
        nodes.append(crossings[row][column])
        for part in range(1, BETWEEN + 1):
            share = part / (BETWEEN + 1)
            nodes.append(
                node(row + (next_row - row) * share, column + (next_column - column) * share)
            )
    nodes.append(crossings[ends[-1][0]][ends[-1][1]])
    step = 40 * (BETWEEN + 1)
    return [(nodes[it : it + step + 1], tags) for it in range(0, len(nodes) - 1, step)]


def feet_between(one: Crossing, other: Crossing) -> float:
    """The feet along a street from a crossing to the next one, over the points between."""
    total, spots = 0.0, [
        position_of(*(a + (b - a) * part / (BETWEEN + 1) for a, b in zip(one, other)))
        for part in range(BETWEEN + 2)
    ]
    for (north, east), (next_north, next_east) in zip(spots, spots[1:]):
        wide = math.cos(math.radians((north + next_north) / 2))
        total += math.hypot(next_north - north, (next_east - east) * wide) * FEET_A_DEGREE
    return total


def edges_of(side: int) -> Edges:
    """From each crossing the next ones that a van may drive to, with the minutes."""
    edges: Edges = {}
    for at in range(side):
        minutes_a_foot, oneway = 1 / (SPEEDS[class_of(at)[0]] * 88), oneway_of(at)
        for ends in ([(at, it) for it in range(side)], [(it, at) for it in range(side)]):
            for one, other in zip(ends, ends[1:]):
                took = feet_between(one, other) * minutes_a_foot
                edges.setdefault(one, []).extend([(other, took)] * (oneway != "-1"))
                edges.setdefault(other, []).extend([(one, took)] * (oneway != "yes"))
    return edges


def plain_minutes(
    edges: Edges, start: Crossing, goals: Iterable[Crossing]
) -> dict[Crossing, float]:
    """The least minutes from a crossing to others."""
    found: dict[Crossing, float] = {}
    open_, left = [(0.0, start)], set(goals)
    while open_ and left:
        took, at = heapq.heappop(open_)
        if at not in found:
            found[at] = took
            left.discard(at)
            for other, more in edges.get(at, ()):
                heapq.heappush(open_, (took + more, other))
    return found


if __name__ == "__main__":
    print(written(sys.argv[1], int(sys.argv[2])))
