"""Fewer fixed routes, where a feed becomes more of them than the desk takes.

First the lines of each route become one walk (corridors.py). Then two fixed routes at a time become one: of the same
lines, whose weekdays come together with the longer hours; or of lines that meet. Of all that is possible that is taken
next which promises least beyond what is owed, in area times minutes, until all have room. Nothing that is owed is lost.
"""

from __future__ import annotations

import collections
import heapq
import itertools
from typing import Any, NamedTuple, TYPE_CHECKING

from desk_tools.setup import corridors, plane as geometry
from desk_tools.setup.carry import Progress
from desk_tools.setup.limits import GREATEST_WIDTH, MOST_POINTS

if TYPE_CHECKING:
    from desk_tools.setup.fixed import Kept


class Record(NamedTuple):
    """A fixed route in the making: the keys of its routes, its weekdays, its first and last minute,
    the minutes that each of its routes owes within it by weekday, and whether all of its buses take
    a wheelchair."""

    keys: Any
    days: Any
    first: int
    last: int
    owed: Any
    accessible: bool


class Shape(NamedTuple):
    """The line of one or several routes: a walk, its width, by how many feet it reaches farther,
    and the lines walked along."""

    points: Any
    width: int
    reach: int
    lines: Any


# Two routes in one count as one for fares and lifts, so that is worth so much of what is promised.
WORTH_OF_ROUTES = 0.02
# So many minutes a day beyond what is owed weigh twice as much as few of them do.
LONG = 30
# A stop so near to its line lies in each corridor that holds the line.
NEAR_STOP = 1_000

# A route of the feed and one of its lines.
Key = tuple[str, int]


class Fitting:
    """The routes of a feed while they are put together."""

    def __init__(self, least: int, most_reach: int) -> None:
        self.least, self.most_reach = least, most_reach
        self.lines: dict[Key, list[Kept]] = {}
        self.light: dict[Key, list[Any]] = {}
        self.aside: dict[Key, Any] = {}
        self.shapes: dict[frozenset[Key], Shape | None] = {}
        self.near: dict[Any, bool] = {}
        self.areas: dict[Key, float] = {}
        self.lengths: dict[Key, float] = {}

    def add(self, key: Key, lines: list[Kept]) -> bool:
        """Takes a route with its lines. Whether there is one line that is right for them."""
        self.lines[key], self.aside[key] = lines, stops_aside(lines)
        self.light[key] = [
            geometry.simplified(it.points, MOST_POINTS, corridors.LIGHTER) for it in lines
        ]
        shape = self.shape([key])
        if shape is None:
            return False
        self.lengths[key] = sum(map(geometry.length_of, shape.lines))
        self.areas[key] = corridors.area_of(self.lengths[key], self.least)
        return True

    def shape(self, keys: Any) -> Shape | None:
        """The one line of these routes, or None where there is none that is right."""
        keys = frozenset(keys)
        if keys not in self.shapes:
            self.shapes[keys] = self.made_shape(keys)
        return self.shapes[keys]

    def known_shape(self, keys: Any) -> Shape:
        """The one line of routes that have one."""
        shape = self.shape(keys)
        if shape is None:
            raise LookupError(f"no line is right for {sorted(keys)}")
        return shape

    def made_shape(self, keys: Any) -> Shape | None:
        if len(keys) > 1:
            alone = [self.shape([it]) for it in keys]
            whole = [it for it in alone if it is not None]
            if len(whole) < len(alone):
                return None
            parts = [it for shape in whole for it in shape.lines]
        else:
            parts = kept_parts([it for it, _ in self.light[min(keys)]])
        walk = corridors.walked(
            parts, [it for key in keys for it in self.light[key]], self.most_reach
        )
        if walk is None and len(keys) == len(self.lines[min(keys)]) == 1:
            # (a line alone is right as it is, however wide that makes it)
            line = self.lines[min(keys)][0]
            walk = corridors.Walk(line.points, 0, line.moved)
        if walk is None:
            return None
        width = self.least + walk.moved + max(it.moved for key in keys for it in self.lines[key])
        width = max(
            [
                width,
                *(
                    geometry.feet_from_line(it, walk.points)
                    for key in keys
                    for it in self.aside[key]
                ),
            ]
        )
        reach = walk.reach + width - self.least - walk.moved
        return Shape(walk.points, width, reach, parts) if width <= GREATEST_WIDTH else None

    def are_near(self, one: frozenset[tuple[str, int]], other: frozenset[tuple[str, int]]) -> bool:
        """Whether some line of the one routes meets some line of the others."""
        return any(self.is_pair_near(a, b) for a in one for b in other)

    def is_pair_near(self, a: tuple[str, int], b: tuple[str, int]) -> bool:
        pair = min(a, b), max(a, b)
        if pair not in self.near:
            lines = [self.known_shape([it]).lines for it in pair]
            self.near[pair] = any(corridors.is_near(*it) for it in itertools.product(*lines))
        return self.near[pair]

    def excess(self, record: Any) -> Any:
        """What a record promises beyond what is owed: area times minutes of a week, where long minutes weigh more."""
        a_day, beyond = record.last - record.first + 1, 0.0
        minutes = len(record.days) * a_day
        for key in record.keys:
            for day in record.days:
                longer = a_day - record.owed[key].get(day, 0)
                beyond += self.areas[key] * longer * (1 + longer / LONG)
        shape = self.shapes.get(record.keys)
        area = sum(self.areas[it] for it in record.keys)
        reach = shape.reach if shape else max(self.known_shape([it]).reach for it in record.keys)
        beyond += area * minutes * reach / self.least
        return beyond + (area * minutes * WORTH_OF_ROUTES if len(record.keys) > 1 else 0)

    def share_of_reach(self, keys: Any) -> Any:
        """The share of the corridors' area that a record reaches beyond them, at most."""
        length = sum(self.lengths[it] for it in keys)
        wider = self.least + self.known_shape(keys).reach
        return corridors.area_of(length, wider) / corridors.area_of(length, self.least) - 1


def stops_aside(lines: list[Kept]) -> list[Any]:
    """The stops of a route that lie so far from its lines that a corridor might not hold them."""
    found = {}
    for line in lines:
        cells = corridors.cells_of(line.points, NEAR_STOP)
        found.update(
            {
                key: it
                for key, it in line.stops.items()
                if not corridors.has_near(cells, it, NEAR_STOP)
            }
        )
    return list(found.values())


def kept_parts(lines: list[list[tuple[int, int]]]) -> list[list[tuple[int, int]]]:
    """The lines without those that lie along others."""
    kept: list[list[tuple[int, int]]] = []
    for line in sorted(lines, key=lambda it: -geometry.length_of(it)):
        if not any(geometry.lies_within(line, it, 4 * corridors.LIGHTER) for it in kept):
            kept.append(line)
    return kept


def merged(one: Any, other: Any) -> Any:
    owed = {key: collections.Counter(one.owed.get(key, {})) for key in one.keys | other.keys}
    for key, minutes in other.owed.items():
        owed[key].update(minutes)
    return Record(
        one.keys | other.keys,
        tuple(sorted({*one.days, *other.days})),
        min(one.first, other.first),
        max(one.last, other.last),
        owed,
        one.accessible and other.accessible,
    )


def fitted(fitting: Fitting, records: list[Record], most: int) -> list[Record]:
    """At most so many records that hold all of these, or as few as there can be."""
    made, progress = [*records], Progress("fixed routes put together", len(records), after=2)
    heap: list[tuple[float, int, int]] = []
    alive = {*range(len(made))}
    for one, other in itertools.combinations(range(len(made)), 2):
        offer(fitting, heap, made, one, other)
    while len(alive) > most and heap:
        worth, one, other = heapq.heappop(heap)
        if one not in alive or other not in alive:
            continue
        record = merged(made[one], made[other])
        if fitting.shape(record.keys) is None:
            continue
        now = worth_of(fitting, made[one], made[other])
        if now > worth * 1.000001 + 1:
            heapq.heappush(heap, (now, one, other))
            continue
        alive -= {one, other}
        made.append(record)
        for there in alive:
            offer(fitting, heap, made, there, len(made) - 1)
        alive.add(len(made) - 1)
        progress.show(len(records) - len(alive))
    progress.end()
    return [made[it] for it in sorted(alive)]


def worth_of(fitting: Any, one: Any, other: Any) -> Any:
    return fitting.excess(merged(one, other)) - fitting.excess(one) - fitting.excess(other)


def offer(fitting: Fitting, heap: list[Any], made: list[Record], one: int, other: int) -> None:
    """Puts two records that may become one into the heap, by what that promises beyond what is owed."""
    first, second = made[one], made[other]
    if first.keys == second.keys or fitting.are_near(first.keys, second.keys):
        heapq.heappush(heap, (worth_of(fitting, first, second), one, other))
