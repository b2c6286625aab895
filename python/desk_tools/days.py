"""Days as the desk's file counts them, and minutes as clocks show them."""

from __future__ import annotations

import datetime
import zoneinfo
from typing import Any

EPOCH = datetime.date(1970, 1, 1)


def number_of(day: datetime.date) -> int:
    """How many days lie between 1 January 1970 and a day."""
    return (day - EPOCH).days


def day_of(number: int) -> datetime.date:
    """The day of such a number."""
    return EPOCH + datetime.timedelta(days=number)


def clock(minute: int) -> str:
    """A minute of a day on a clock of 24 hours; one after midnight has more."""
    return f"{minute // 60:02}:{minute % 60:02}"


def clock_of_twelve(minute: int) -> str:
    """A minute of a day on a clock of twelve hours."""
    return f"{minute // 60 % 12 or 12}:{minute % 60:02} {'AM' if minute % 1440 < 720 else 'PM'}"


def now_in(agency: dict[str, Any]) -> datetime.datetime:
    """Now by the agency's clock, or by this machine's where its file has no zone."""
    zone = zoneinfo.ZoneInfo(agency["zone"]) if "zone" in agency else None
    return datetime.datetime.now(zone).replace(microsecond=0, tzinfo=None)
