"""What a method, a path, a number and a body ask, or the first fault in them."""

from __future__ import annotations

import json
import re
from collections.abc import Sequence
from typing import Any, NamedTuple

from second import days, fields
from second.replies import Denied


class Request(NamedTuple):
    """What is asked, and its values by their names. Two requests with the same of both are the same write."""

    kind: str
    values: dict[str, Any]


ROLES = ["rider", "clerk", "examiner", "officer", "dispatcher", "driver", "admin"]
# A field by its name, and what reads it.
Field = tuple[str, Any]
WISH: list[Field] = [
    ("day", fields.day),
    ("wish", fields.minute),
    ("from", fields.number),
    ("to", fields.number),
    ("by", fields.minute_or_none),
    ("attendant", fields.truth),
    ("companions", fields.whole(0, 255)),
]
CENTS = fields.whole(0, 100_000)
# The fields of each kind of write, in the order in which they are looked at.
FIELDS: dict[str, list[Field]] = {
    "caller": [
        ("id", fields.number),
        ("role", fields.one_of(*ROLES)),
        ("subject", None),
        ("digest", fields.digest),
    ],
    "policy": [
        ("base", CENTS),
        ("transfer", CENTS),
        ("fare", CENTS),
        ("service", fields.whole(0, 30)),
        ("extra_ride", fields.whole(0, 240)),
        ("min_missed", fields.whole(1, 1000)),
        ("percent", fields.whole(1, 100)),
        ("span_days", fields.whole(1, 366)),
    ],
    "place": [
        ("id", fields.number),
        ("x", fields.whole(-1_000_000, 1_000_000)),
        ("y", fields.whole(-1_000_000, 1_000_000)),
        ("core", fields.truth),
    ],
    "route": [
        ("id", fields.number),
        ("width", fields.whole(3960, 7920)),
        ("points", fields.points),
        ("accessible", fields.truth),
        ("days", fields.weekdays),
        ("first", fields.minute),
        ("last", fields.minute),
        ("first", "last"),
    ],
    "vehicle": [
        ("id", fields.number),
        ("from_day", fields.day),
        ("days", fields.weekdays),
        ("depot", fields.number),
        ("capacity", fields.whole(1, 30)),
        ("opens", fields.minute),
        ("closes", fields.minute),
        ("opens", "closes"),
        ("duration", fields.whole(1, 1439)),
        ("chairs", fields.whole_if_any(0, 10)),
    ],
    "rider": [
        ("id", fields.number),
        ("kind", fields.one_of("resident", "visitor")),
        ("attendant", fields.truth),
        ("wheelchair", fields.truth_if_any),
    ],
    "book": [("rider", fields.number), *WISH],
    "change": WISH,
    "cancel": [],
    "outcome": [("outcome", fields.one_of("ridden", "missed-rider", "missed-operator"))],
}
GRANT: list[Field] = [("until", fields.day), ("conditions", fields.conditions)]
REASONS: list[Field] = [("reasons", fields.words)]
# The kinds of entries, in the order in which they are counted, and their further fields.
ENTRIES: dict[str, list[Field]] = {
    "complete": [],
    "grant": GRANT,
    "refuse": REASONS,
    "appeal": [("against", fields.whole(0, 199))],
    "heard": [],
    "appeal-granted": GRANT,
    "appeal-denied": REASONS,
    "overturn": [],
    "notice": [("basis", fields.words)],
    "notice-heard": [],
    "suspend": [("starts", fields.day), ("ends", fields.day), ("reasons", fields.words)],
}
# The paths: a name in braces is a number or a day of the request.
PATHS = [
    ("/callers", "POST", "caller"),
    ("/policy", "POST", "policy"),
    ("/places", "POST", "place"),
    ("/routes", "POST", "route"),
    ("/riders", "POST", "rider"),
    ("/vehicles", "POST", "vehicle"),
    ("/riders/{rider}/entries", "POST", "entry"),
    ("/trips", "POST", "book"),
    ("/trips/{trip}/change", "POST", "change"),
    ("/trips/{trip}/cancel", "POST", "cancel"),
    ("/trips/{trip}/outcome", "POST", "outcome"),
    ("/riders/{rider}/standing/{day}", "GET", "standing"),
    ("/riders/{rider}/trips", "GET", "trips"),
    ("/riders/{rider}/letters/{entry}", "GET", "letter"),
    ("/vehicles/{vehicle}/manifest/{day}", "GET", "manifest"),
    ("/days/{day}/sheet", "GET", "sheet"),
    ("/days/{day}/trips.csv", "GET", "export"),
]


def number_in(text: str, low: int, high: int) -> int | None:
    """The number that these one to ten digits are, or None."""
    return int(text) if re.fullmatch(r"[0-9]{1,10}", text) and low <= int(text) <= high else None


def value_in_path(name: str, text: str) -> Any:
    if name == "day":
        return days.day_in(text)
    return number_in(text, 0, 199) if name == "entry" else number_in(text, 1, fields.LAST_NUMBER)


def values_in_path(pattern: str, path: str) -> dict[str, Any] | None:
    """The values that the path has in the pattern's places, or None."""
    parts, pieces = pattern.split("/"), path.split("/")
    if len(parts) != len(pieces):
        return None
    values: dict[str, Any] = {}
    for part, piece in zip(parts, pieces):
        if part.startswith("{"):
            values[part[1:-1]] = value_in_path(part[1:-1], piece)
        elif part != piece:
            return None
    return None if None in values.values() else values


def found_path(path: str) -> tuple[str, str, dict[str, Any]]:
    for pattern, method, kind in PATHS:
        values = values_in_path(pattern, path.partition("?")[0])
        if values is not None:
            return method, kind, values
    raise Denied("http.path")


def members_of(body: str) -> dict[str, Any]:
    try:
        members = json.loads(body) if body else {}
    except ValueError:
        members = None
    if not isinstance(members, dict):
        raise Denied("http.json")
    return members


def reader_of(name: str, reader: Any, values: dict[str, Any]) -> Any:
    """A caller's subject is a number for a rider and a driver, and 0 for others."""
    if name == "subject":
        return fields.number if values["role"] in ("rider", "driver") else fields.whole(0, 0)
    return reader


def read_fields(wanted: Sequence[Field], members: dict[str, Any]) -> dict[str, Any]:
    values: dict[str, Any] = {}
    for name, reader in wanted:
        # (a text in a reader's place names the field that this one may not pass)
        if isinstance(reader, str):
            if values[name] > values[reader]:
                raise Denied("http.field", name)
            continue
        try:
            values[name] = reader_of(name, reader, values)(members.get(name))
        except fields.Bad:
            raise Denied("http.field", name) from None
    return values


def entry_in(members: dict[str, Any]) -> dict[str, Any]:
    kind = read_fields([("entry", fields.one_of(*ENTRIES))], members)["entry"]
    return {"entry": kind, **read_fields(ENTRIES[kind], members)}


def write_number(text: str | None) -> int:
    """The number of a write, which the header Desk-Number has."""
    number = None if text is None else number_in(text, 0, fields.LAST_NUMBER)
    if number is None:
        raise Denied("http.field", "Desk-Number")
    return number


def read(method: str, path: str, number: str | None, body: str) -> tuple[Request, int | None]:
    """The request, and the number of a write or None."""
    allowed, kind, values = found_path(path)
    if method != allowed:
        raise Denied("http.method", allow=allowed)
    if method == "GET":
        return Request(kind, values), None
    members = members_of(body)
    of_write = write_number(number)
    values.update(entry_in(members) if kind == "entry" else read_fields(FIELDS[kind], members))
    return Request(kind, values), of_write
