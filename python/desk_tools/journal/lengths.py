"""How long each kind of record is kept: the field `retention` of agency.json, with its defaults and their reasons."""

import re

# Each kind with its default in days and why.
DEFAULTS = {
    "journal": (
        1827,
        "five years, as the record of complaints (49 CFR 27.121(b)) and what is owed for trips",
    ),
    "tally": (3653, "ten years: counts of denials and of service, for reviews"),
    "exports": (1827, "five years: the sheets and reports that answered a reviewer or a court"),
    "backups": (35, "five weeks: they are there to restore, and not to look things up"),
}
LEAST = {"journal": 365, "tally": 365, "exports": 365, "backups": 7}
# The field that stops all removing, with its reason: a lawsuit or an audit that is to be expected.
HOLD, LONGEST_HOLD = "hold", 200
LENGTH = re.compile(r"(\d{1,5}) (day|week|month|year)s?")
DAYS = {"day": 1.0, "week": 7.0, "month": 30.44, "year": 365.25}


def days_of(kind: str, value: object) -> int:
    """How many days a text such as "5 years" says; ValueError says in words that it is none."""
    found = LENGTH.fullmatch(value) if isinstance(value, str) else None
    days = round(int(found[1]) * DAYS[found[2]] + 0.49) if found else 0
    if days < LEAST[kind]:
        raise ValueError(
            f'{value!r} is no time such as "5 years" or "35 days", of at least {LEAST[kind]} days'
        )
    return days


def hold_of(value: object) -> str:
    """The reason why nothing is removed; ValueError says in words that it is none."""
    said = " ".join(value.split()) if isinstance(value, str) else ""
    if not said or len(said) > LONGEST_HOLD:
        raise ValueError(
            f'{value!r} is no reason of 1 to {LONGEST_HOLD} signs, such as "claim of 2026-11-30"; to end a hold, take it out'
        )
    return said
