"""What pages write into the desk's record in a fixed form, read again: a notice's trips and days, a grant in part.

`pages/words/on-record.js` has the words, and `pages/parts/notices.js` and `pages/parts/partial.js` write them.
"""

import re
from dataclasses import dataclass

_DAY = r"(\d{4}-\d{2}-\d{2})"
_NOTICE = re.compile(
    rf"Missed trips \(no-shows\): (.+?)\. Proposed suspension: {_DAY} through {_DAY}\.(?: (.*))?",
    re.S,
)
_TIME = r"(\d{1,2}:\d{2} [AP]M)"
# One missed trip: the day, the promised window as 0905-0935, and where it began where that is known.
_SHORT = re.compile(rf"{_DAY} (\d\d)(\d\d)-(\d\d)(\d\d)(?: (.+))?")
# Notices of before have it in longer words.
_LONG = re.compile(rf"{_DAY}, pickup window {_TIME} to {_TIME}(?:, from (.+))?")
_PART = re.compile(rf"Granted in part through {_DAY} for ([^.]+)\. Not granted: (.+)", re.S)


@dataclass(frozen=True)
class Notice:
    """The missed trips of a notice in words, the days that are proposed (YYYY-MM-DD), and what else was written."""

    missed: tuple[str, ...]
    first: str
    last: str
    more: str


@dataclass(frozen=True)
class Missed:
    """One missed trip: its day (YYYY-MM-DD), the window as "9:05 AM", and where it began, empty where that is not known."""

    day: str
    begins: str
    ends: str
    place: str


@dataclass(frozen=True)
class Part:
    """What is to be granted in part: the last day (YYYY-MM-DD), the desk's conditions, and why no more is."""

    until: str
    conditions: tuple[str, ...]
    reasons: str


def notice_in(basis: str) -> Notice | None:
    """What a basis says, or None where it is in other words than the pages'."""
    found = _NOTICE.fullmatch(basis)
    if found is None:
        return None
    return Notice(tuple(found[1].split("; ")), found[2], found[3], found[4] or "")


def missed_in(words: str) -> Missed | None:
    """What a missed trip of a notice says, or None where it is in other words."""
    if short := _SHORT.fullmatch(words):
        day, *clock, place = short.groups()
        return Missed(day, _time(*clock[:2]), _time(*clock[2:]), place or "")
    if long := _LONG.fullmatch(words):
        return Missed(long[1], long[2], long[3], long[4] or "")
    return None


def _time(hours: str, minutes: str) -> str:
    """ "9:05 AM" of 09 and 05."""
    return f"{int(hours) % 12 or 12}:{minutes} {'AM' if int(hours) < 12 else 'PM'}"


def part_in(reasons: str) -> Part | None:
    """What the reasons of a refusal say of a grant in part, or None where it is a whole refusal."""
    found = _PART.fullmatch(reasons)
    if found is None:
        return None
    return Part(found[1], tuple(found[2].split("; ")), found[3])
