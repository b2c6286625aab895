"""How many trips of a time of day standing orders may take (49 CFR 37.133(b)), as docs/STANDING-ORDERS.md explains.

A time of day is an hour of the clock: of an order by its wish, of a trip by the end of its pickup window. What is available in it is at least what was carried there: the most
trips that stood in that hour on the day itself, or on the same weekday of one of the last four weeks. The agency may
say more, in a table of its own.
"""

from __future__ import annotations

import collections
import csv
import datetime
import io
from collections import Counter
from typing import TYPE_CHECKING

from desk_tools.setup import tables
from desk_tools.setup.limits import Wrong

if TYPE_CHECKING:
    from desk_tools.setup.desk import Caller

WEEKS = 4
NUMBER = tables.whole(0, 100_000)
CAPACITY = {
    "weekday": tables.Column(tables.weekdays, tables.REQUIRED),
    "hour": tables.Column(tables.whole(0, 23), tables.REQUIRED),
    "trips": tables.Column(NUMBER, tables.REQUIRED),
}


def hour_of(minute: int) -> int:
    return minute // 60


def capacity_in(path: str) -> dict[tuple[int, int], int]:
    """What the agency says is available, by weekday and hour."""
    found = {}
    sheet = tables.sheet_of(path, CAPACITY)
    if sheet.refused:
        raise Wrong(f"line {sheet.refused[0].number} of {path}: {sheet.refused[0].reason}")
    for line in sheet.rows:
        try:
            row = {
                name: tables.value_of(name, column, line.fields)
                for name, column in CAPACITY.items()
            }
        except ValueError as error:
            raise Wrong(f"line {line.number} of {path}: {error}") from None
        found.update({(weekday, row["hour"]): row["trips"] for weekday in row["weekday"]})
    return found


class Share:
    """The share of standing orders; without a percentage nothing is counted."""

    def __init__(
        self,
        percent: int | None,
        today: datetime.date,
        reader: Caller | None = None,
        capacity: dict[tuple[int, int], int] | None = None,
    ) -> None:
        self.percent, self.today, self.reader, self.capacity = percent, today, reader, capacity
        self.exports: dict[datetime.date, Counter[int]] = {}
        self.booked: Counter[tuple[datetime.date, int]] = collections.Counter()

    def trips_on(self, day: datetime.date) -> Counter[int]:
        """How many trips stand on a day, by the hour in which the window ends, as the desk's export tells it."""
        if self.reader is None:
            return collections.Counter()
        if day not in self.exports:
            reply = self.reader.get(f"/days/{day}/trips.csv")
            if reply.status != 200 or not isinstance(reply.body, str):
                raise Wrong(f"the desk does not tell the trips of {day}: status {reply.status}")
            rows = csv.DictReader(io.StringIO(reply.body))
            standing = [it for it in rows if it["status"] != "cancelled"]
            self.exports[day] = collections.Counter(
                hour_of(int(it["window_to"])) for it in standing
            )
        return self.exports[day]

    def available(self, day: datetime.date, hour: int) -> int:
        """What is surely available in an hour of a day, with one trip more booked there."""
        now = self.trips_on(day)[hour] + self.booked[day, hour] + 1
        # (the last four of this weekday that are not after today)
        back = ((day - self.today).days + 6) // 7
        weeks = [day - datetime.timedelta(days=7 * it) for it in range(back, back + WEEKS)]
        said = (self.capacity or {}).get((day.isoweekday(), hour), 0)
        return max(now, said, *(self.trips_on(it)[hour] for it in weeks))

    def fault(self, day: datetime.date, minute: int, standing: int) -> str | None:
        """Why no standing order more may be booked there, or None; `standing` are those that are there."""
        if self.percent is None:
            return None
        available = self.available(day, hour_of(minute))
        if (standing + 1) * 100 <= self.percent * available:
            return None
        return (
            f"{standing} standing orders are in the hour from {hour_of(minute):02}:00 already, of {available} "
            f"trips that are available, and {self.percent} % is the most"
        )

    def took(self, day: datetime.date, hour: int) -> None:
        """A standing order was booked."""
        self.booked[day, hour] += 1
