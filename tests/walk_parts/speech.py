"""Days, times and places as the pages write them, made a second time so that the pages are held against something."""

import datetime
import re

DASH = "–"
CONDITION = re.compile(r"(?<![\w:])(always|nolift|months:[\d,]+|farther:\d+)(;|$)")
MONTHS = """
    January February March April May June July August September October November December
""".split()
MONTHS_ES = """
    enero febrero marzo abril mayo junio julio agosto septiembre octubre noviembre diciembre
""".split()


def clock(minute: int, halves: tuple[str, str] = ("AM", "PM")) -> str:
    """9:15 AM."""
    return f"{minute // 60 % 12 or 12}:{minute % 60:02} {halves[0] if minute % 1440 < 720 else halves[1]}"


def window(start: int, end: int, halves: tuple[str, str] = ("AM", "PM")) -> str:
    """9:15–9:30 AM, with both halves of the day where they differ."""
    one, other = clock(start, halves), clock(end, halves)
    same = (start % 1440 < 720) == (end % 1440 < 720)
    return f"{one.split(' ')[0] if same else one}{DASH}{other}"


def in_words(between: str) -> tuple[str, ...]:
    """The ways in which a window stands in a sentence; Spanish has its article before the second time: y las 12:15, y la 1:15."""
    article = "la" if between.partition(DASH)[2].startswith("1:") else "las"
    return tuple(between.replace(DASH, it) for it in (DASH, " and ", " y ", f" y {article} "))


def day_short(day: str) -> str:
    """Mon, Mar 10."""
    it = datetime.date.fromisoformat(day)
    return f"{it:%a}, {it:%b} {it.day}"


def day_long(day: str) -> str:
    """Monday, March 10, 2025."""
    it = datetime.date.fromisoformat(day)
    return f"{it:%A}, {it:%B} {it.day}, {it.year}"


def day_of_year(day: str) -> str:
    """Mar 10, 2025."""
    it = datetime.date.fromisoformat(day)
    return f"{it:%b} {it.day}, {it.year}"


def day_of(day: str, language: str) -> str:
    """A day in full; in Spanish without the day of the week: 10 de marzo de 2025."""
    it = datetime.date.fromisoformat(day)
    return (
        day_long(day) if language == "en" else f"{it.day} de {MONTHS_ES[it.month - 1]} de {it.year}"
    )


def condition(text: str) -> str:
    """What a condition of a grant says, as in months:1,2."""
    kind, _, rest = text.partition(":")
    if kind == "months":
        months = [MONTHS[int(it) - 1] for it in rest.split(",")]
        return "trips in " + (
            " and ".join(months)
            if len(months) < 3
            else f"{', '.join(months[:-1])}, and {months[-1]}"
        )
    if kind == "farther":
        return f"trips with one end more than {int(rest):,} feet from any bus line that is running"
    return (
        "every trip"
        if kind == "always"
        else "trips that no bus with a lift or a ramp makes from end to end"
    )


def conditions(text: str) -> str:
    """A text with its conditions in words."""
    return CONDITION.sub(lambda it: condition(it[1]) + ("; " if it[2] else ""), text).replace(
        ";  ", "; "
    )


def minute_typed(minute: int, way: int) -> str:
    """One of the ways in which people write a time; some leave open which half of the day is meant."""
    hour, rest = minute // 60, minute % 60
    ways = [
        clock(minute),
        f"{hour:02}:{rest:02}",
        f"{hour:02}{rest:02}",
        f"{hour % 12 or 12}:{rest:02}{'a' if hour < 12 else 'p'}",
        f"{hour % 12 or 12}" if rest == 0 else f"{hour % 12 or 12}:{rest:02}",
        "noon" if minute == 720 else clock(minute).lower(),
    ]
    return ways[way % len(ways)]
