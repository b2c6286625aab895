"""What a feed becomes where it is more fixed routes than the desk takes, and what that adds to what is owed."""

from __future__ import annotations

import collections
from collections.abc import Iterator
from typing import Any, TYPE_CHECKING

from desk_tools.setup import fixed
from desk_tools.setup.carry import Progress
from desk_tools.setup.fitting import fitted, Fitting, Record
from desk_tools.setup.limits import GREATEST_WIDTH, Wrong

if TYPE_CHECKING:
    from desk_tools.setup.feed import Route
    from desk_tools.setup.feed import Run
    from desk_tools.setup.plane import Plane

# What is tried where the fixed routes have no room: lines that lie farther from each other are put together.
TOLERANCES = (1_000, 2_000)


class Feed:
    """The feed's routes, each as one route of the fitting, or as several where its lines do not meet."""

    def __init__(self, feed: Any, plane: Plane, making: fixed.Making) -> None:
        self.feed, self.making, self.fitting = feed, making, Fitting(making.width, making.tolerance)
        self.names: dict[Any, str] = {}
        self.records: list[Record] = []
        self.refused: list[tuple[str, str]] = []
        stops, progress = fixed.projected(feed, plane), Progress(
            "lines of routes", len(feed.routes), after=2
        )
        for at, route in enumerate(feed.routes):
            progress.show(at)
            keys = dict.fromkeys(run.line for run in route.runs)
            self.add(route, [fixed.kept_line(it, feed, plane, stops) for it in keys])
        progress.end()
        self.owed = collections.defaultdict(list)
        for record in self.records:
            for key in record.keys:
                for day in record.days:
                    self.owed[key, day].append((record.first, record.last))

    def add(self, route: Route, lines: list[fixed.Kept]) -> None:
        """Takes a route, whose lines become one where that is right."""
        key = route.key, 0
        groups = (
            [lines]
            if self.fitting.add(key, lines)
            else [[it] for it in fixed.put_together(lines, self.making)]
        )
        for at, group in enumerate(groups):
            key = route.key, at
            if len(groups) > 1 and not self.fitting.add(key, group):
                width, told = fixed.width_of(group[0], self.making.width)
                reason = f"it would be {width:,} feet wide, and {GREATEST_WIDTH:,} is the most: {'; '.join(told)}"
                self.refused.append((f"route {route.key} {route.name}", reason))
                return
            self.names[key] = route.name
            held = {it for line in group for it in line.keys}
            self.add_records(key, [it for it in route.runs if it.line in held])

    def add_records(self, key: tuple[str, int], runs: list[Run]) -> None:
        for spans in fixed.hours_of(runs, self.making):
            first, last = min(it.first for it in spans), max(it.last for it in spans)
            days = tuple(sorted(it.weekday for it in spans))
            minutes = {it.weekday: it.last - it.first + 1 for it in spans}
            accessible = self.making.all_accessible or all(it.accessible for it in spans)
            self.records.append(
                Record(frozenset([key]), days, first, last, {key: minutes}, accessible)
            )

    def longer(self, record: Any) -> Iterator[Any]:
        """For each route of a record, by how many minutes a day it is promised longer than its buses run, at most."""
        for key in sorted(record.keys):
            promised = {*range(record.first, record.last + 1)}
            minutes = max(
                len(
                    promised.difference(
                        *(range(first, last + 1) for first, last in self.owed[key, day])
                    )
                )
                for day in record.days
            )
            if minutes:
                yield self.names[key], minutes

    def told(self, record: Any) -> Iterator[Any]:
        """What is said of a record."""
        shape, lines = self.fitting.known_shape(record.keys), sum(
            len(self.fitting.lines[it]) for it in record.keys
        )
        routes = len({route for route, _ in record.keys})
        if routes > 1:
            yield f"the lines of {routes} routes that meet are one; for fares they count as one route"
            if not self.making.all_accessible:
                yield "so it counts as not accessible; if each bus takes a wheelchair, say --all-accessible"
        elif lines > 1:
            yield f"it goes along {lines} lines of the feed"
        yield (
            f"it reaches at most {shape.reach:,} feet farther than their corridors, "
            f"{self.fitting.share_of_reach(record.keys):.1%} of their area"
        )
        for name, minutes in self.longer(record):
            yield f"its hours are up to {minutes} minutes a day longer than those of {name}"

    def fixed_route(self, record: Any) -> Any:
        shape, names = self.fitting.known_shape(record.keys), dict.fromkeys(
            self.names[it] for it in sorted(record.keys)
        )
        keys = tuple(dict.fromkeys(route for route, _ in sorted(record.keys)))
        accessible = record.accessible and (len(keys) == 1 or self.making.all_accessible)
        return fixed.Fixed(
            keys,
            " + ".join(names),
            shape.width,
            shape.points,
            list(record.days),
            record.first,
            record.last,
            accessible,
            list(self.told(record)),
        )

    def summary(self, records: Any) -> str:
        """What is said of all of them."""
        areas = self.fitting.areas
        owed = sum(
            areas[key] * sum(it.values())
            for record in self.records
            for key, it in record.owed.items()
        )
        promised = sum(
            areas[key]
            * len(it.days)
            * (it.last - it.first + 1)
            * (1 + self.fitting.share_of_reach(it.keys))
            for it in records
            for key in it.keys
        )
        joint = sum(len({route for route, _ in it.keys}) > 1 for it in records)
        minutes = max((minutes for it in records for _, minutes in self.longer(it)), default=0)
        reach = max((self.fitting.known_shape(it.keys).reach for it in records), default=0)
        return (
            f"the feed would be {len(self.records)} fixed routes, so some became one, by which nothing is lost: "
            f"{joint} hold several routes, hours are up to {minutes} minutes a day longer, corridors reach at most "
            f"{reach:,} feet farther; in all {promised / owed - 1:.1%} more is promised than is owed, in area "
            "times minutes"
        )


def fewer(feed: Any, plane: Plane, making: fixed.Making, most: int) -> Any:
    """At most so many fixed routes of the feed, the routes that are refused, and what is said of it."""
    made = Feed(feed, plane, making)
    records = fitted(made.fitting, made.records, most)
    if len(records) > most:
        helps = help_of(feed, plane, making, most, len(records))
        raise Wrong(
            f"the feed becomes {len(made.records)} fixed routes, which come down to {len(records)} where lines "
            f"meet, and there is room for {most}{helps}; leave routes out with --leave-out, such as those "
            "along which nothing is owed"
        )
    order = {route.key: at for at, route in enumerate(feed.routes)}
    records.sort(key=lambda it: (min(order[route] for route, _ in it.keys), it.days, it.first))
    return [made.fixed_route(it) for it in records], made.refused, made.summary(records)


def help_of(feed: Any, plane: Plane, making: fixed.Making, most: int, count: int) -> str:
    """What makes them fewer, as it was tried."""
    for tolerance in (it for it in TOLERANCES if it > making.tolerance):
        made = Feed(feed, plane, making._replace(tolerance=tolerance))
        found = len(fitted(made.fitting, made.records, most))
        if found < count:
            return f"; with --tolerance {tolerance} they are {found}"
    return ""
