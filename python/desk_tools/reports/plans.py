"""Planned times: the desk's own sheet of each day, asked of a desk that serves the copy. And direct drives, which no sheet
has (docs/RULES.md, Vehicles and travel tables)."""

from __future__ import annotations

import bisect
import collections
import heapq
from typing import NamedTuple

from desk_tools import served_copy
from desk_tools.reports import copies
from desk_tools.reports.copies import day_of
from desk_tools.setup.limits import LAST_MINUTE

PICKUP, DROP = served_copy.PICKUP, served_copy.DROP


class Stop(NamedTuple):
    """A stop of a plan: at which minute it begins, and how long it takes."""

    trip: int
    kind: int
    minute: int
    service: int


class Drives:
    """The driving times of one travel table: the least total of a chain of its rows."""

    def __init__(self, rows: dict[int, dict[int, int]]) -> None:
        self.rows = rows
        self.known: dict[int, dict[int, int]] = {}

    def between(self, origin: int, goal: int) -> int | None:
        """The minutes, or None where there is no way."""
        if origin not in self.known:
            self.known[origin] = self.least_from(origin)
        return self.known[origin].get(goal)

    def least_from(self, origin: int) -> dict[int, int]:
        least, waiting = {}, [(0, origin)]
        while waiting:
            minutes, place = heapq.heappop(waiting)
            if place in least or minutes > LAST_MINUTE:
                continue
            least[place] = minutes
            for goal, more in self.rows.get(place, {}).items():
                if goal not in least:
                    heapq.heappush(waiting, (minutes + more, goal))
        return least


class Plans:
    """The plans of a copy's vehicles on its days."""

    def __init__(self, copy: copies.Copy) -> None:
        self.copy = copy
        tables: dict[int, dict[int, dict[int, int]]] = collections.defaultdict(
            lambda: collections.defaultdict(dict)
        )
        for from_day, start, goal, minutes in copy.rows(
            "SELECT from_day, a, b, minutes FROM travel"
        ):
            tables[from_day][start][goal] = minutes
        self.days = sorted(tables)
        self.tables = {day: Drives(rows) for day, rows in tables.items()}

    def between(self, first: int, last: int) -> list[tuple[int, int, list[Stop]]]:
        """The plan of each vehicle and day that has stops, as its stops in their order."""
        days = dict(
            self.copy.rows(
                "SELECT day, count(*) FROM stops WHERE day BETWEEN ? AND ? GROUP BY day ORDER BY day",
                first,
                last,
            )
        )
        if not days:
            return []
        service = {
            trip: (vehicle, minutes)
            for trip, vehicle, minutes in self.copy.rows(
                "SELECT id, vehicle, service FROM trips WHERE day BETWEEN ? AND ? AND status <> ?",
                first,
                last,
                copies.CANCELLED,
            )
        }
        with self.copy.asked() as desk:
            return [
                it
                for day, count in days.items()
                for it in self.plans_of(day, count, desk.sheet(day_of(day)), service)
            ]

    def plans_of(
        self,
        day: int,
        count: int,
        sheet: list[served_copy.Stop],
        service: dict[int, tuple[int, int]],
    ) -> list[tuple[int, int, list[Stop]]]:
        """The plans of a day by the desk's sheet of it, which has so many stops."""
        if len(sheet) != count:
            raise self.copy.unsound(
                f"the desk's sheet of {day_of(day)} has {len(sheet)} of {count} stops"
            )
        routes = collections.defaultdict(list)
        for stop in sheet:
            if stop.trip not in service:
                raise self.copy.unsound(
                    f"the sheet of {day_of(day)} has trip {stop.trip}, which no table has"
                )
            vehicle, minutes = service[stop.trip]
            routes[vehicle].append(Stop(stop.trip, stop.kind, stop.minute, minutes))
        return [(vehicle, day, route) for vehicle, route in sorted(routes.items())]

    def drives_on(self, day: int) -> Drives:
        at = bisect.bisect_right(self.days, day)
        return self.tables[self.days[at - 1]] if at else Drives({})
