"""The fields of bodies: each reader gives the value of one, or raises `Bad`."""

from __future__ import annotations

import datetime
import re
from collections.abc import Callable
from typing import Any

from second import days

LAST_NUMBER = 4_294_967_295


class Bad(Exception):
    """A field that is missing, of another kind or out of range."""


def whole(low: int, high: int) -> Callable[[Any], int]:
    def read(value: Any) -> Any:
        if isinstance(value, bool) or not isinstance(value, int) or not low <= value <= high:
            raise Bad
        return value

    return read


number = whole(1, LAST_NUMBER)
minute = whole(0, days.LAST_MINUTE)


def one_of(*words: str) -> Callable[[Any], str]:
    def read(value: Any) -> Any:
        if not isinstance(value, str) or value not in words:
            raise Bad
        return value

    return read


def truth(value: Any) -> bool:
    if not isinstance(value, bool):
        raise Bad
    return value


def truth_if_any(value: Any) -> bool:
    return value is not None and truth(value)


def whole_if_any(low: int, high: int) -> Callable[[Any], int]:
    """A whole number, or 0 where there is none."""
    return lambda value: 0 if value is None else whole(low, high)(value)


def day(value: Any) -> datetime.date:
    found = days.day_in(value)
    if found is None:
        raise Bad
    return found


def minute_or_none(value: Any) -> int | None:
    return None if value is None else minute(value)


def digest(value: Any) -> bytes:
    if not isinstance(value, str) or not re.fullmatch(r"[0-9A-Fa-f]{64}", value):
        raise Bad
    return bytes.fromhex(value)


def listed(value: Any, least: int, most: int) -> list[Any]:
    if not isinstance(value, list) or not least <= len(value) <= most:
        raise Bad
    return value


def points(value: Any) -> list[tuple[int, int]]:
    coordinate = whole(-1_000_000, 1_000_000)
    pairs = [listed(point, 2, 2) for point in listed(value, 2, 200)]
    return [(coordinate(x), coordinate(y)) for x, y in pairs]


def weekdays(value: Any) -> list[int]:
    """Weekdays from 0, Monday, each once."""
    if not isinstance(value, list):
        raise Bad
    return sorted({whole(1, 7)(it) - 1 for it in value})


def words(value: Any) -> str:
    if not isinstance(value, str) or not re.fullmatch(r"[ -~]{1,500}", value):
        raise Bad
    return value


def condition(value: Any) -> str:
    """A text of a condition: `always`, `nolift`, `months:..` or `farther:..`."""
    if not isinstance(value, str):
        raise Bad
    if value in ("always", "nolift"):
        return value
    kind, _, rest = value.partition(":")
    if kind == "farther" and re.fullmatch(r"[1-9][0-9]{0,5}", rest) and int(rest) <= 100_000:
        return value
    if kind == "months" and re.fullmatch(r"[1-9][0-9]?(,[1-9][0-9]?)*", rest):
        months = [int(it) for it in rest.split(",")]
        if months == sorted({*months}) and months[-1] <= 12:
            return value
    raise Bad


def conditions(value: Any) -> list[str]:
    return [condition(it) for it in listed(value, 1, 4)]
