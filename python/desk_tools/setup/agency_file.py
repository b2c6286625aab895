"""agency.json: what an agency says of itself, and the names of its places, fixed routes and vehicles.

docs/SITE-FILES.md defines the file. It is read here and nowhere else among the tools: what is wrong in it is named with
its place, and what is right is used.
"""

from __future__ import annotations

import datetime
import json
import pathlib
import re
import zoneinfo
from collections.abc import Callable, Iterable, Mapping
from typing import Any, NamedTuple

from desk_tools import brand as brands
from desk_tools.journal import lengths
from desk_tools.setup import whole_file
from desk_tools.setup.limits import (
    DAYS_TO_APPEAL,
    GREATEST_COORDINATE,
    GREATEST_WIDTH,
    HIGHEST_NUMBER,
    LAST_MINUTE,
    LEAST_WIDTH,
    MOST_POINTS,
    Wrong,
)

# What the file holds by the names of its fields, and a record of one of its lists: each value is as its reader leaves it.
Agency = dict[str, Any]
Record = dict[str, Any]
# A reader takes a value, its place and the list of faults; it returns the value or raises a fault.
Reader = Callable[[Any, str, list[str]], Any]
# Two fields that go together, whether two values of them fit, and what is said where they do not.
Pair = tuple[str, str, Callable[[Any, Any], bool], str]
LANGUAGE = re.compile(r"[a-z]{2,3}(-[A-Za-z0-9]{2,8})*")
ZONE = re.compile(r"[A-Za-z_]+(/[A-Za-z0-9_+-]+)+|UTC|GMT")
# Files of the zone data that are no zones to a browser.
NO_ZONES = {"localtime", "posixrules", "Factory"}


class Read(NamedTuple):
    """What a file holds, as far as it is right, and a sentence for each thing that is wrong, led by its place."""

    agency: Agency
    faults: list[str]


class Fault(Exception):
    """What is wrong with one value."""


def shown(value: object) -> str:
    """A value as the file has it, cut where it is long."""
    text = json.dumps(value, ensure_ascii=False)
    return text if len(text) <= 60 else f"{text[:57]}..."


# Values.


def text(value: object, *_: object) -> str:
    """A text of one line."""
    return lines(value, others="")


def lines(value: object, *_: object, others: str = "\n") -> str:
    """A text that may have line ends."""
    if not isinstance(value, str):
        raise Fault(f"{shown(value)} is not a text")
    wrong = next(
        (it for it in value if ord(it) < 32 and it not in others or 0xD800 <= ord(it) < 0xE000),
        None,
    )
    if wrong is not None:
        raise Fault(f"the sign {ord(wrong):#06x} can't be in it")
    return value


def telephone(value: object, *_: object) -> str:
    number = text(value)
    if number and not any(it.isdigit() for it in number):
        raise Fault(f"{shown(value)} has no digits")
    return number


def whole(low: int, high: int) -> Callable[..., int]:
    def read(value: Any, *_: object) -> int:
        if type(value) is not int or not low <= value <= high:
            raise Fault(f"{shown(value)} is no whole number from {low} to {high}")
        return int(value)

    return read


def degrees(high: int) -> Callable[..., float]:
    def read(value: Any, *_: object) -> float:
        if type(value) not in (int, float) or not -high <= value <= high:
            raise Fault(f"{shown(value)} is no number of degrees from -{high} to {high}")
        found: float = value
        return found

    return read


def yes_or_no(value: object, *_: object) -> bool:
    if not isinstance(value, bool):
        raise Fault(f"{shown(value)} is neither true nor false")
    return value


def zone(value: object, *_: object) -> str:
    # (without the machine's zone data none can be looked up, and the form alone is)
    if (
        isinstance(value, str)
        and value not in NO_ZONES
        and not value.startswith(("posix/", "right/"))
        and (has_zone(value) or not has_zone("America/New_York") and ZONE.fullmatch(value))
    ):
        return value
    raise Fault(f'{shown(value)} is not an IANA zone, such as "America/New_York"')


def has_zone(name: str) -> bool:
    """Whether the machine has data of the zone."""
    try:
        return bool(zoneinfo.ZoneInfo(name))
    except (ValueError, OSError, zoneinfo.ZoneInfoNotFoundError):
        return False


def clock(value: Any, *_: object) -> Any:
    if value not in (12, 24) or isinstance(value, bool):
        raise Fault(f"{shown(value)} is neither 12 nor 24")
    return value


def share(value: object, *_: object) -> int | None:
    """A share in percent, or null where there is no limit."""
    return None if value is None else whole(0, 100)(value)


def time_kept(kind: str) -> Reader:
    """For how long a kind of record is kept."""

    def read(value: Any, *_: object) -> Any:
        try:
            lengths.days_of(kind, value)
        except ValueError as error:
            raise Fault(str(error)) from None
        return value

    return read


def hold(value: object, *_: object) -> str:
    """Why no record is removed now."""
    try:
        return lengths.hold_of(value)
    except ValueError as error:
        raise Fault(str(error)) from None


def mark(value: Any, *_: object) -> str:
    if not brands.is_mark(value):
        raise Fault(
            f'{shown(value)} is no mark of 1 to {brands.LONGEST_MARK} characters, such as "LT"'
        )
    return str(value)


def color(value: Any, *_: object) -> str:
    if not brands.is_color(value):
        raise Fault(f'{shown(value)} is no color, such as "#0a5c69"')
    return str(value).lower()


def colors_of(theme: str) -> Reader:
    """The colors of the agency, of which accent is needed; a text in them can be read on each ground of the pages."""

    def read(value: Any, where: str, faults: list[str]) -> dict[str, str]:
        found = fields_of(value, {it: color for it in brands.TOKENS}, where, faults)
        if "accent" not in found:
            raise Fault(
                f"it is left out, since accent is {'wrong' if 'accent' in value else 'missing'}"
            )
        colors = brands.whole_of(theme, found)
        wrong = brands.faults_of(theme, colors)
        if wrong:
            faults.extend(f"{where}: {it}" for it in wrong)
            raise Fault("it is left out, and the pages keep their own color")
        return colors

    return read


def days_to_appeal(value: object, *_: object) -> int:
    if type(value) is not int or value != DAYS_TO_APPEAL:
        raise Fault(
            f"{shown(value)} is not {DAYS_TO_APPEAL}, the days within which the desk takes an appeal"
        )
    return value


def is_rider(value: object) -> bool:
    return type(value) is int and 1 <= value <= HIGHEST_NUMBER


def private(value: Any, where: str, faults: list[str]) -> bool | int | list[int]:
    """Whose place it is: a rider's number, or a list of the riders who share it. Where that is wrong, nobody but staff
    may read it."""
    if isinstance(value, bool):
        return value
    if is_rider(value):
        return int(value)
    if isinstance(value, list) and value and all(map(is_rider, value)):
        riders = sorted(set(value))
        return riders if len(riders) > 1 else riders[0]
    faults.append(
        f"{where}: {shown(value)} is neither true, false, a rider's number nor a list of such, "
        "so only staff may read it"
    )
    return True


def parts(one: Reader, value: object, where: str, faults: list[str]) -> list[Any]:
    """The members of a list that are right."""
    if not isinstance(value, list):
        raise Fault("not a list")
    kept = []
    for at, it in enumerate(value):
        try:
            kept.append(one(it, f"{where}[{at}]", faults))
        except Fault as fault:
            faults.append(f"{where}[{at}]: {fault}")
    return kept


def several(one: Reader, least: int = 0) -> Reader:
    """A list of values, each once."""

    def read_all(value: object, where: str, faults: list[str]) -> list[Any]:
        kept = list(dict.fromkeys(parts(one, value, where, faults)))
        if len(kept) < least:
            raise Fault("it holds none that is right")
        return kept

    return read_all


def language(value: object, *_: object) -> str:
    if not isinstance(value, str) or not LANGUAGE.fullmatch(value):
        raise Fault(f'{shown(value)} is no language, such as "en" or "es"')
    return value


def point(value: object, *_: object) -> list[int]:
    if not isinstance(value, list) or len(value) != 2:
        raise Fault(f"{shown(value)} is no point [x, y]")
    return [COORDINATE(it) for it in value]


def points(value: Any, where: str, faults: list[str]) -> list[list[int]]:
    """The points of a line, which is drawn whole or not at all."""
    found = parts(point, value, where, faults)
    if len(found) < len(value):
        raise Fault("so its line can't be drawn")
    if not 2 <= len(found) <= MOST_POINTS:
        raise Fault(f"{len(found)} points, and a line has 2 to {MOST_POINTS}")
    return found


def closed_days(value: object, where: str, faults: list[str]) -> list[dict[str, str]]:
    """Days on which nobody is served, each once, with the word that people read of it."""
    kept: dict[str, dict[str, str]] = {}

    def read_one(it: object, at: str, inner: list[str]) -> None:
        found = fields_of(it, {"day": day, "name": text}, at, inner)
        if "day" not in found:
            raise Fault("it is left out, since its day is missing or wrong")
        if found["day"] in kept:
            raise Fault(f"it is left out, since {found['day']} stands above already")
        kept[found["day"]] = found

    parts(read_one, value, where, faults)
    return [kept[it] for it in sorted(kept)]


def day(value: object, *_: object) -> str:
    try:
        if isinstance(value, str) and datetime.date.fromisoformat(value).isoformat() == value:
            return value
    except ValueError:
        pass
    raise Fault(f'{shown(value)} is no day, such as "2026-12-25"')


# Objects and lists of them.


def fields_of(
    value: object, fields: Mapping[str, Reader], where: str, faults: list[str]
) -> dict[str, Any]:
    """The fields of an object that are right."""
    if not isinstance(value, dict):
        raise Fault("not an object")
    found: dict[str, Any] = {}
    for name, it in value.items():
        at = f"{where}.{name}" if where else name
        try:
            if name not in fields:
                raise Fault("there is no such field")
            found[name] = fields[name](it, at, faults)
        except Fault as fault:
            faults.append(f"{at}: {fault}")
    return found


def obj(fields: Mapping[str, Reader]) -> Reader:
    return lambda value, where, faults: fields_of(value, fields, where, faults)


def records(fields: Mapping[str, Reader], needed: list[str], pairs: list[Pair]) -> Reader:
    """A list of records, each with a number of its own, which have all the needed fields."""

    def read(value: object, where: str, faults: list[str]) -> list[Record]:
        kept: dict[int, Record] = {}

        def read_one(it: Any, at: str, inner: list[str]) -> None:
            add_record(kept, record_of(it, fields, needed, pairs, at, inner))

        parts(read_one, value, where, faults)
        return list(kept.values())

    return read


def record_of(
    value: Any,
    fields: Mapping[str, Reader],
    needed: list[str],
    pairs: list[Pair],
    where: str,
    faults: list[str],
) -> Record:
    """One record; of two fields that go together neither is kept where one is wrong."""
    found = fields_of(value, fields, where, faults)
    missing = next((it for it in needed if it not in found), None)
    if missing:
        raise Fault(
            f"it is left out, since {missing} is {'wrong' if missing in value else 'missing'}"
        )
    for first, second, is_right, said in pairs:
        if (
            (first in found) != (second in found)
            or first in found
            and not is_right(found[first], found[second])
        ):
            faults.append(f"{where}: {said}")
            found.pop(first, None)
            found.pop(second, None)
    if "private" in fields and any(
        it.lower().startswith("priv") for it in value if it not in fields
    ):
        # (who misspells the field means to hide the place)
        found["private"] = True
    return {"id": found["id"], **found}


def add_record(kept: dict[int, Record], record: Record) -> None:
    """Adds a record whose number is new. Of two with one number a private one hides the other."""
    there = kept.setdefault(record["id"], record)
    if there is not record:
        if record.get("private"):
            there["private"] = there.get("private") or True
        raise Fault(f"it is left out, since its id {record['id']} stands above already")


NUMBER, COORDINATE = whole(1, HIGHEST_NUMBER), whole(-GREATEST_COORDINATE, GREATEST_COORDINATE)
MINUTE, WEEKDAYS = whole(0, LAST_MINUTE), several(whole(1, 7))
PLACE: dict[str, Reader] = {
    "id": NUMBER,
    "name": text,
    "note": lines,
    "x": COORDINATE,
    "y": COORDINATE,
    "core": yes_or_no,
    "private": private,
    "latitude": degrees(90),
    "longitude": degrees(180),
}
ROUTE: dict[str, Reader] = {
    "id": NUMBER,
    "name": text,
    "width": whole(LEAST_WIDTH, GREATEST_WIDTH),
    "points": points,
    "accessible": yes_or_no,
    "days": WEEKDAYS,
    "first": MINUTE,
    "last": MINUTE,
}
VEHICLE: dict[str, Reader] = {"id": NUMBER, "name": text}
APPEAL: dict[str, Reader] = {
    "to": text,
    "address": lines,
    "telephone": telephone,
    "days": days_to_appeal,
}


def both(*_: object) -> bool:
    return True


def rising(first: int, last: int) -> bool:
    return first <= last


PLACE_PAIRS: list[Pair] = [
    ("x", "y", both, "x and y go together"),
    ("latitude", "longitude", both, "latitude and longitude go together"),
]
ROUTE_PAIRS: list[Pair] = [
    ("first", "last", rising, "first and last go together, and first is not later")
]
# All fields, in the order in which they are written.
FIELDS: dict[str, Reader] = {
    "name": text,
    "brand": obj({"mark": mark, **{it: colors_of(it) for it in brands.THEMES}}),
    "telephone": telephone,
    "address": lines,
    "zone": zone,
    "first_weekday": whole(1, 7),
    "place_word": text,
    "clock": clock,
    "languages": several(language, 1),
    "wait_minutes": whole(0, 60),
    "lead": whole(0, 60),
    "idle_minutes": whole(0, LAST_MINUTE),
    "board_minutes": whole(0, LAST_MINUTE + 1),
    "board_names": yes_or_no,
    "manifest_telephone": yes_or_no,
    "lock_minutes": whole(5, 720),
    "appeal": obj(APPEAL),
    "subscription_share": share,
    "closed": closed_days,
    "unproved": yes_or_no,
    "retention": obj({**{it: time_kept(it) for it in lengths.DEFAULTS}, lengths.HOLD: hold}),
    "places": records(PLACE, ["id"], PLACE_PAIRS),
    "routes": records(ROUTE, ["id", "width", "points"], ROUTE_PAIRS),
    "vehicles": records(VEHICLE, ["id"], []),
}
LISTS = ("places", "routes", "vehicles")


# The file.


def read(path: str | pathlib.Path) -> Read:
    """What the file holds. It ends with a sentence where the file is no JSON object at all."""
    try:
        return of_bytes(pathlib.Path(path).read_bytes(), path)
    except OSError as error:
        raise Wrong(f"{path} can't be read: {error.strerror}") from None


def of_bytes(content: bytes, path: str | pathlib.Path) -> Read:
    """What these bytes of a file hold."""
    repeated: list[str] = []

    def pairs(those: Iterable[tuple[str, Any]]) -> dict[str, Any]:
        found: dict[str, Any] = {}
        for name, value in those:
            repeated.extend([f'"{name}" stands twice in one object'] if name in found else [])
            found[name] = True if name in found and name == "private" else value
        return found

    def constant(name: str) -> None:
        raise ValueError(f"{name} is no number of JSON")

    try:
        value = json.loads(
            content.decode("utf-8-sig"), object_pairs_hook=pairs, parse_constant=constant
        )
    except UnicodeDecodeError as error:
        raise Wrong(
            f"{path} is not UTF-8: its byte {error.start + 1} is {content[error.start]:#04x}"
        ) from None
    except (ValueError, RecursionError) as error:
        raise Wrong(f"{path} is not JSON: {error}") from None
    faults = list(dict.fromkeys(repeated))
    try:
        found = fields_of(of_old_form(value), FIELDS, "", faults)
    except Fault:
        raise Wrong(f"{path} is not a JSON object") from None
    return Read({name: found[name] for name in FIELDS if name in found}, faults)


def of_old_form(value: Any) -> Any:
    """The file as it is defined, where an earlier move-in wrote its records by their numbers."""
    if not isinstance(value, dict) or not any(isinstance(value.get(it), dict) for it in LISTS):
        return value
    found = {name: it for name, it in value.items() if name != "first_day_of_week"}
    if value.get("first_day_of_week"):
        found.setdefault("first_weekday", value["first_day_of_week"])
    for name in LISTS:
        those = found.get(name)
        if isinstance(those, dict):
            found[name] = [
                {"id": int(number), **it}
                if number.isascii() and number.isdigit() and isinstance(it, dict)
                else it
                for number, it in those.items()
            ]
    return found


def text_of(agency: Mapping[str, Any]) -> str:
    """The file's text: a line for each field, and for each record."""
    return (
        "{\n"
        + ",\n".join(f"{as_json(name)}: {group_text(it)}" for name, it in agency.items())
        + "\n}\n"
    )


def group_text(value: object) -> str:
    if not isinstance(value, list) or not any(isinstance(it, dict) for it in value):
        return as_json(value)
    return "[\n" + ",\n".join(f" {as_json(it)}" for it in value) + "\n]"


def as_json(value: object) -> str:
    return json.dumps(value, ensure_ascii=False)


def write(path: str, agency: Agency) -> None:
    """Writes the file whole, or leaves it as it was. It may hold where riders live, so only its owner reads it."""
    whole_file.written(path, text_of({name: agency[name] for name in FIELDS if name in agency}))
