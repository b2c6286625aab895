"""What is due of each trip: the desk says it in its exports, asked of a desk that serves the copy."""

from __future__ import annotations

from typing import TYPE_CHECKING

from desk_tools.days import number_of
from desk_tools.reports import copies
from desk_tools.reports.copies import day_of

if TYPE_CHECKING:
    from desk_tools.reports.months import Period


def dues_of(copy: copies.Copy, period: Period) -> dict[int, int]:
    """What the rider of each trip of the period pays, with the companions, in cents."""
    days = copy.rows(
        "SELECT DISTINCT day FROM trips WHERE day BETWEEN ? AND ? ORDER BY day",
        *map(number_of, period),
    )
    if not days:
        return {}
    with copy.asked() as desk:
        return {trip: due for day, in days for trip, due in desk.dues(day_of(day)).items()}
