"""Travel tables and driving times: the least total of any chain of rows."""

from __future__ import annotations

import datetime
from typing import TYPE_CHECKING

from second import days, places
from second.replies import Denied

if TYPE_CHECKING:
    from second.desk import Desk

# The minutes by pairs of places.
Rows = dict[tuple[int, int], int]

MOST_TABLES = 50


def rows_in(text: str) -> Rows:
    """The minutes by pairs of places of a table's CSV that has no fault."""
    header, *lines = text.splitlines()
    assert header == "from,to,minutes"
    rows = [[int(it) for it in line.split(",")] for line in lines]
    return {(start, goal): minutes for start, goal, minutes in rows}


def put(desk: Desk, first: datetime.date, rows: Rows) -> None:
    for pair in rows:
        places.need(desk, *pair)
    if any(it.wish.day >= first and it.status != "cancelled" for it in desk.trips.values()):
        raise Denied("desk.booked")
    earlier = {day: table for day, table in desk.tables.items() if day < first}
    if len(earlier) >= MOST_TABLES:
        raise Denied("desk.full")
    desk.tables = {**earlier, first: rows}


def table_on(desk: Desk, day: datetime.date) -> Rows:
    """The rows that hold on the day: those of the greatest first day that is not after it."""
    first = max((it for it in desk.tables if it <= day), default=None)
    return desk.tables[first] if first else {}


def least_from(start: int, rows: Rows) -> dict[int, int]:
    """The least minutes from a place to each that can be reached: rows are tried until nothing changes."""
    least = {start: 0}
    is_changed = True
    while is_changed:
        is_changed = False
        for (origin, goal), minutes in rows.items():
            total = least[origin] + minutes if origin in least else None
            if total is not None and total < least.get(goal, total + 1):
                least[goal], is_changed = total, True
    return least


class Times:
    """The driving times of one day, each worked out when it is first asked for."""

    def __init__(self, desk: Desk, day: datetime.date) -> None:
        self.rows = table_on(desk, day)
        self.known: dict[int, dict[int, int]] = {}

    def between(self, origin: int, goal: int) -> int | None:
        """The driving time, or None where there is no way or it takes longer than a day."""
        if origin not in self.known:
            self.known[origin] = least_from(origin, self.rows)
        minutes = self.known[origin].get(goal)
        return None if minutes is None or minutes > days.LAST_MINUTE else minutes
