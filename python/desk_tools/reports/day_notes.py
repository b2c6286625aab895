"""Notes of the day, as drivers and dispatchers wrote them: out of the site's log, by day and time."""

from __future__ import annotations

import datetime
from typing import TYPE_CHECKING

from desk_tools.reports.lists import Listed
from desk_tools.reports.trip_rows import text

if TYPE_CHECKING:
    from desk_tools.reports.months import Period
    from desk_tools.reports.trip_rows import Names
    from desk_tools.setup.tally_log import Log

COLUMNS = ("Day", "Time", "Vehicle", "Trip", "Note")
TITLE, MEANING = (
    "Notes of the day",
    "What drivers and dispatchers wrote about a vehicle or a trip. The site's log has them.",
)


def rows_of(log: Log | None, period: Period, names: Names) -> list[list[int | datetime.date | str]]:
    """A row for each note of the days of a period. Without a log there is none."""
    notes = [it for it in log.of["notes"] if period.first <= it.day <= period.last] if log else []
    return [
        [it.day, f"{it.at:%H:%M}", text(names.vehicle(it.vehicle)), it.trip or "", text(it.text)]
        for it in sorted(notes, key=lambda it: (it.day, it.at, it.vehicle, it.trip))
    ]


def list_of(log: Log | None, period: Period, names: Names) -> Listed:
    """The same as a list of a page."""
    return Listed("notes", TITLE, "", MEANING, COLUMNS, rows_of(log, period, names))
