"""Days, minutes and weekdays, as they are written and kept."""

from __future__ import annotations

import datetime
import re
from collections.abc import Iterable

FIRST_DAY, LAST_DAY = datetime.date(2000, 1, 1), datetime.date(2099, 12, 31)
EPOCH = datetime.date(1970, 1, 1)
LAST_MINUTE = 1439


def day_in(text: object) -> datetime.date | None:
    """The day that the text is, or None."""
    if not isinstance(text, str) or not re.fullmatch(r"[0-9]{4}-[0-9]{2}-[0-9]{2}", text):
        return None
    try:
        day = datetime.date.fromisoformat(text)
    except ValueError:
        return None
    return day if FIRST_DAY <= day <= LAST_DAY else None


def number_of(day: datetime.date) -> int:
    return (day - EPOCH).days


def plus(day: datetime.date, count: int) -> datetime.date:
    return day + datetime.timedelta(days=count)


def clock(minute: int) -> str:
    return f"{minute // 60:02}:{minute % 60:02}"


def bits(weekdays: Iterable[int]) -> int:
    """A set of weekdays, 0 for Monday, as one number."""
    return sum(1 << weekday for weekday in weekdays)
