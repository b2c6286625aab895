"""Which copies of the second machine are kept.

The last twelve, one an hour for a day, one a day for a week, one a week for a month.
"""

from __future__ import annotations

import datetime
import functools
import re
from typing import Any

NAME = re.compile(r"desk-(\d{8}T\d{6})Z\.db")
FORM = "%Y%m%dT%H%M%S"
HOUR, DAY = datetime.timedelta(hours=1), datetime.timedelta(days=1)
# So many of the last are kept: those of an hour, where one comes each five minutes.
LAST = 12
# How old others may be, and how long the time is of which one is kept.
LADDER = ((DAY, HOUR), (7 * DAY, DAY), (31 * DAY, 7 * DAY))
BEGIN = datetime.datetime(2000, 1, 3)


def name_at(moment: datetime.datetime) -> str:
    """The name of a copy that was made at this moment of UTC."""
    return f"desk-{moment.strftime(FORM)}Z.db"


@functools.lru_cache(maxsize=1000)
def moment_of(name: str) -> Any:
    """When the copy of this name was made, or None where it is none."""
    found = NAME.fullmatch(name)
    try:
        return datetime.datetime.strptime(found[1], FORM) if found else None
    except ValueError:
        return None


def copies_in(names: list[str]) -> list[str]:
    """The names of copies, the newest first."""
    return sorted((it for it in names if moment_of(it)), reverse=True)


def name_after(names: list[str], now: datetime.datetime) -> str:
    """The name of a copy that comes now. It is the newest by name, also where the clock was ahead as others came."""
    newest = copies_in(names)[:1]
    return name_at(max([now, *(moment_of(it) + datetime.timedelta(seconds=1) for it in newest)]))


def kept_of(names: list[str], now: datetime.datetime) -> set[str]:
    """The names that are kept. The newest are, whatever their age."""
    copies = copies_in(names)
    kept = set(copies[:LAST])
    now = max([now, *(moment_of(it) for it in copies[:1])])
    for oldest, span in LADDER:
        taken = set()
        # (of each time the first copy is kept, so that it stays the one as others come)
        for name in reversed(copies):
            moment = moment_of(name)
            turn = (moment - BEGIN) // span
            if now - moment < oldest and turn not in taken:
                taken.add(turn)
                kept.add(name)
    return kept
