"""A visitor's days: at most 21 days of use in a period of 365 days."""

from __future__ import annotations

import datetime

from second import days

DAYS_OF_USE, DAYS_OF_PERIOD = 21, 365


def periods(days_of_use: list[datetime.date]) -> list[list[datetime.date]]:
    """The days of use, in rising order, by the periods that they open."""
    found: list[list[datetime.date]] = []
    for day in sorted({*days_of_use}):
        if not found or day >= days.plus(found[-1][0], DAYS_OF_PERIOD):
            found.append([])
        found[-1].append(day)
    return found


def may(days_of_use: list[datetime.date], day: datetime.date) -> bool:
    """Whether the visitor may use the day, beside the days of use that there are."""
    tried = [it for it in days_of_use if it <= day] + [day]
    counted = [*days_of_use, day]
    last = periods(tried)[-1][0]
    return (
        len({it for it in counted if last <= it < days.plus(last, DAYS_OF_PERIOD)}) <= DAYS_OF_USE
    )
