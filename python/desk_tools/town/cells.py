"""What a cell says: numbers with leading zeros, days as Excel saves them, words in any case."""

import calendar
import datetime
import re

HIGHEST_NUMBER, GREATEST_COORDINATE = 4_294_967_295, 1_000_000
FIRST_YEAR, LAST_YEAR = 2000, 2099
# Excel counts days from here; its day 60 was none, and all days of this century come after it.
EXCEL_BEGINS = datetime.date(1899, 12, 30)
AMERICAN = re.compile(r"(\d{1,2})[/.-](\d{1,2})[/.-](\d{4}|\d{2})(?: 0?0:00(?::00)?)?", re.ASCII)
SERIAL = re.compile(r"(\d{5})(?:\.0+)?", re.ASCII)
WHOLE = re.compile(r"([+-]?)0*(\d{1,10})(?:\.0+)?", re.ASCII)
YES = {"yes": True, "y": True, "true": True, "1": True, "x": True}
NO = {"no": False, "n": False, "false": False, "0": False}
ISO, MONTH_FIRST, COUNTED = "YYYY-MM-DD", "M/D/YYYY", "Excel's count of days"
NAMED = "a day with the month's name"
MONTHS = {it.lower(): at for at, it in enumerate(calendar.month_name) if it}
NAMED_FIRST = re.compile(r"([a-z]{3,9})\.? (\d{1,2}),? (\d{4})", re.ASCII)
NAMED_SECOND = re.compile(r"(\d{1,2})[- ]([a-z]{3,9})\.?[- ](\d{4}|\d{2})", re.ASCII)


class WrongCell(ValueError):
    """What is wrong with a cell."""


def whole(text: str, low: int, high: int) -> int:
    """A whole number; leading zeros and a `.0` of a spreadsheet are nothing."""
    found = WHOLE.fullmatch(text.strip())
    if not found or not low <= int(found[1] + found[2]) <= high:
        raise WrongCell(f"{text!r} is no whole number from {low:,} to {high:,}")
    return int(found[1] + found[2])


def number(text: str) -> int:
    """A number of the desk."""
    return whole(text, 1, HIGHEST_NUMBER)


def degrees(text: str, high: int) -> float:
    """A latitude or a longitude."""
    if not re.fullmatch(r"[+-]?\d{1,3}(\.\d*)?", text, re.ASCII) or abs(float(text)) > high:
        raise WrongCell(f"{text!r} is no number of degrees from -{high} to {high}")
    return float(text)


def yes_or_no(text: str) -> bool:
    """Yes or no, in any case."""
    found = {**YES, **NO}.get(text.strip().lower())
    if found is None:
        raise WrongCell(f"{text!r} is neither yes nor no")
    return found


def numbers(text: str) -> list[int]:
    """Numbers with blanks or semicolons between them, each once."""
    return sorted({number(it) for it in re.split(r"[\s;]+", text) if it})


def named_day(text: str) -> datetime.date | None:
    """A day such as June 30, 2027 or 30-Jun-27, or None; a ValueError where there is no such day."""
    first, second = NAMED_FIRST.fullmatch(text), NAMED_SECOND.fullmatch(text)
    if not first and not second:
        return None
    name, of_month, year = (
        first.groups() if first else (second[2], second[1], second[3]) if second else ("", "", "")
    )
    month = next(
        (
            at
            for it, at in MONTHS.items()
            if it == name or it[:3] == name or name == "sept" == it[:4]
        ),
        0,
    )
    return datetime.date(int(year) + 2000 * (len(year) == 2), month, int(of_month))


def day(text: str) -> tuple[str, str]:
    """A day as YYYY-MM-DD, and the form in which it stood."""
    plain = text.strip()
    found, form = None, ISO
    try:
        if american := AMERICAN.fullmatch(plain):
            month, of_month, year = map(int, american.groups())
            found, form = datetime.date(year + 2000 * (year < 100), month, of_month), MONTH_FIRST
        elif serial := SERIAL.fullmatch(plain):
            found, form = EXCEL_BEGINS + datetime.timedelta(days=int(serial[1])), COUNTED
        elif by_name := named_day(plain.lower()):
            found, form = by_name, NAMED
        elif re.fullmatch(r"\d{4}-\d\d-\d\d(?:[T ]00:00(?::00)?)?", plain, re.ASCII):
            found = datetime.date.fromisoformat(plain[:10])
    except ValueError:
        found = None
    if found is None or not FIRST_YEAR <= found.year <= LAST_YEAR:
        raise WrongCell(
            f"{text!r} is no day such as 2027-06-30 or 6/30/2027 of {FIRST_YEAR} to {LAST_YEAR}"
        )
    return found.isoformat(), form
