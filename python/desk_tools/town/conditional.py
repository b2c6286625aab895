"""Riders whose grant holds of some trips alone (37.123(b)), and whether a place would deny what the address would not.

The desk counts from the place: `nolift` by the accessible lines whose corridors hold it, and `farther` by the feet to
each line. A home of such a rider is right at a place that no accessible line serves more than the home, and that is
no nearer to a line than the grant says, where the home is not.
"""

import re
from collections import Counter
from collections.abc import Mapping, Sequence

from desk_tools.town.corridor import Line, Point, feet_from_line, feet_missing

ALWAYS, NO_LIFT = "always", "nolift"
FARTHER = re.compile(r"farther:([1-9]\d*)")
CONDITION = re.compile(r"always|nolift|farther:[1-9]\d*|months:[1-9]\d?(,[1-9]\d?)*", re.ASCII)
MOST_CONDITIONS, FARTHEST = 4, 100_000
Grants = Mapping[int, Sequence[str]]


def grant_in(text: str) -> list[str]:
    """One to four conditions of a grant, with a semicolon between two; a ValueError says what is wrong."""
    found = parts_of(text)
    if not all(map(is_condition, found)):
        raise ValueError("are none such as always, nolift, months:1,2,12 (rising) or farther:5280")
    if len(found) > MOST_CONDITIONS:
        raise ValueError("are more than four conditions")
    return found


def parts_of(text: str) -> list[str]:
    """What stands between semicolons, as the desk spells it: `No Lift` is nolift, and `farther: 5280` is farther:5280."""
    return [re.sub(r"[\s_-]+", "", it) for it in text.lower().split(";")]


def is_condition(text: str) -> bool:
    """Whether the desk takes it as a condition of a grant."""
    if not CONDITION.fullmatch(text):
        return False
    kind, _, rest = text.partition(":")
    numbers = [int(it) for it in rest.split(",") if it]
    if kind == "months":
        return numbers == sorted({*numbers}) and numbers[-1] <= 12
    return kind != "farther" or numbers[0] <= FARTHEST


def matters(conditions: Sequence[str]) -> bool:
    """Whether it matters for such a grant at which place the home is."""
    is_some = any(it == NO_LIFT or FARTHER.fullmatch(it) for it in conditions)
    return is_some and ALWAYS not in conditions


def conditions_in(text: str) -> tuple[str, ...]:
    """The conditions of a cell, with ; between two."""
    return tuple(it for it in parts_of(text) if it)


def conditions_of(riders: Sequence[int], grants: Grants) -> tuple[str, ...]:
    """All conditions of those who live at an address for which the place matters."""
    found = {it for rider in riders if matters(grants.get(rider, ())) for it in grants[rider]}
    return tuple(sorted(found))


def feet_in(condition: str) -> int:
    """The feet of a condition such as farther:5280."""
    return int(condition.rpartition(":")[2])


def kinds_of(grants: Grants) -> list[str]:
    """The conditions of all grants for which the place matters, those of most riders first."""
    often = Counter(
        it
        for conditions in grants.values()
        if matters(conditions)
        for it in conditions
        if it == NO_LIFT or FARTHER.fullmatch(it)
    )
    return [it for it, _ in often.most_common()]


def line_that_denies(
    home: Point, place: Point, conditions: Sequence[str], lines: Sequence[Line]
) -> Line | None:
    """The first line because of which the grant would hold at the home and not at the place, or None."""
    feet = [int(found[1]) for it in conditions if (found := FARTHER.fullmatch(it))]
    for line in lines:
        is_more = line.accessible and feet_missing(place, line) <= 0 < feet_missing(home, line)
        if NO_LIFT in conditions and is_more:
            return line
        if feet:
            there, here = feet_from_line(place, line.points), feet_from_line(home, line.points)
            if any(there <= it < here for it in feet):
                return line
    return None
