"""Checks a GTFS-Flex feed: required, forbidden and conditional fields, forms, references and zones.

Its tables were written from memory of the GTFS Schedule reference, and nobody has compared them: Debian has neither that text nor a validator. This is
no replacement for the validator of the reference's authors.
"""

import csv
import io
import json
import re
import zoneinfo
from collections.abc import Callable, Iterator, Mapping
from typing import Any

from desk_tools.flex.outline import area

TIME, DATE = re.compile(r"[0-9]{2,3}:[0-5][0-9]:[0-5][0-9]"), re.compile(
    r"20[0-9]{2}[01][0-9][0-3][0-9]"
)
ID, TEXT, NUMBER = re.compile(r"[\x20-\x7e]+"), re.compile(r"[^\x00-\x1f]+"), re.compile(r"[0-9]+")
URL, PHONE = re.compile(r"https?://[^\s/]+\S*"), re.compile(r"[^\x00-\x1f]*[0-9][^\x00-\x1f]*")
Form = re.Pattern[str]


def _one_of(*words: str) -> Form:
    return re.compile("|".join(words))


# Of each file the required fields and the optional ones, with their forms.
FILES: dict[str, tuple[dict[str, Form], dict[str, Form]]] = {
    "agency.txt": (
        {"agency_name": TEXT, "agency_url": URL, "agency_timezone": TEXT},
        {"agency_id": ID, "agency_phone": PHONE, "agency_lang": ID},
    ),
    "routes.txt": (
        {"route_id": ID, "route_type": _one_of("[0-7]", "11", "12")},
        {"agency_id": ID, "route_short_name": TEXT, "route_long_name": TEXT, "route_desc": TEXT},
    ),
    "trips.txt": ({"route_id": ID, "service_id": ID, "trip_id": ID}, {"trip_headsign": TEXT}),
    "stop_times.txt": (
        {
            "trip_id": ID,
            "stop_sequence": NUMBER,
            "location_id": ID,
            "start_pickup_drop_off_window": TIME,
            "end_pickup_drop_off_window": TIME,
        },
        # (with windows, a regular pickup or drop-off is forbidden, and so is a pickup that the driver is asked for)
        {
            "pickup_type": _one_of("1", "2"),
            "drop_off_type": _one_of("1", "2", "3"),
            "pickup_booking_rule_id": ID,
            "drop_off_booking_rule_id": ID,
        },
    ),
    "calendar.txt": (
        {
            "service_id": ID,
            **{
                f"{it}day": _one_of("0", "1")
                for it in "mon tues wednes thurs fri satur sun".split()
            },
            "start_date": DATE,
            "end_date": DATE,
        },
        {},
    ),
    "calendar_dates.txt": (
        {"service_id": ID, "date": DATE, "exception_type": _one_of("1", "2")},
        {},
    ),
    "booking_rules.txt": (
        {
            "booking_rule_id": ID,
            "booking_type": _one_of("2"),
            "prior_notice_last_day": NUMBER,
            "prior_notice_last_time": TIME,
        },
        {
            "prior_notice_start_day": NUMBER,
            "prior_notice_start_time": TIME,
            "message": TEXT,
            "phone_number": PHONE,
            "info_url": URL,
            "booking_url": URL,
        },
    ),
    "feed_info.txt": (
        {"feed_publisher_name": TEXT, "feed_publisher_url": URL, "feed_lang": ID},
        {"feed_start_date": DATE, "feed_end_date": DATE},
    ),
}
OPTIONAL_FILES = {"calendar_dates.txt"}
KEYS = {
    "routes.txt": "route_id",
    "trips.txt": "trip_id",
    "calendar.txt": "service_id",
    "booking_rules.txt": "booking_rule_id",
}
REFERENCES = [
    ("trips.txt", "route_id", "routes.txt"),
    ("trips.txt", "service_id", "calendar.txt"),
    ("stop_times.txt", "trip_id", "trips.txt"),
    ("stop_times.txt", "pickup_booking_rule_id", "booking_rules.txt"),
    ("stop_times.txt", "drop_off_booking_rule_id", "booking_rules.txt"),
    ("calendar_dates.txt", "service_id", "calendar.txt"),
]
Tables = dict[str, list[dict[str, str]]]


def faults_of(files: Mapping[str, str]) -> list[str]:
    """What is wrong with a feed: a sentence for each thing, led by the file and the row."""
    tables: Tables = {}
    said = [
        f"{name} is no file of this feed"
        for name in files
        if name not in (*FILES, "locations.geojson")
    ]
    for name in FILES:
        if name in files:
            tables[name] = list(csv.DictReader(io.StringIO(files[name])))
            said += _faults_of_rows(name, tables[name])
        elif name not in OPTIONAL_FILES:
            said.append(f"{name} is missing")
    zones = _zones(files.get("locations.geojson", ""), said)
    checks: list[Callable[[Tables, set[str]], Iterator[str]]] = [
        _keys,
        _references,
        _times,
        _booking,
        _dates,
    ]
    for check in checks:
        said += check(tables, zones)
    return said


def _faults_of_rows(name: str, rows: list[dict[str, str]]) -> Iterator[str]:
    required, optional = FILES[name]
    if not rows:
        yield f"{name} has no rows"
    for at, row in enumerate(rows, 2):
        for field in (it for it in row if it not in required and it not in optional):
            yield f"{name}, row {at}: {field} is forbidden here, or no field of the reference"
        for field, form in {**required, **optional}.items():
            value = row.get(field) or ""
            if not value and field in required:
                yield f"{name}, row {at}: {field} is required"
            elif value and not form.fullmatch(value):
                yield f"{name}, row {at}: {field} {value[:40]!r} is not of its form"


def _keys(tables: Tables, _zones_: set[str]) -> Iterator[str]:
    for name, field in KEYS.items():
        seen: set[str] = set()
        for at, row in enumerate(tables.get(name, []), 2):
            if row.get(field, "") in seen:
                yield f"{name}, row {at}: {field} stands twice"
            seen.add(row.get(field, ""))


def _references(tables: Tables, zones: set[str]) -> Iterator[str]:
    for name, field, other in REFERENCES:
        known = {it.get(KEYS[other], "") for it in tables.get(other, [])}
        for at, row in enumerate(tables.get(name, []), 2):
            if row.get(field) and row[field] not in known:
                yield f"{name}, row {at}: {field} {row[field]!r} is not in {other}"
    for at, row in enumerate(tables.get("stop_times.txt", []), 2):
        if row.get("location_id") not in zones:
            yield f"stop_times.txt, row {at}: location_id {row.get('location_id')!r} is not in locations.geojson"


def _times(tables: Tables, _zones_: set[str]) -> Iterator[str]:
    counts: dict[str, list[int]] = {}
    for at, row in enumerate(tables.get("stop_times.txt", []), 2):
        low, high = row.get("start_pickup_drop_off_window", ""), row.get(
            "end_pickup_drop_off_window", ""
        )
        if TIME.fullmatch(low) and TIME.fullmatch(high) and low >= high:
            yield f"stop_times.txt, row {at}: the window ends before it begins"
        if NUMBER.fullmatch(row.get("stop_sequence", "")):
            counts.setdefault(row.get("trip_id", ""), []).append(int(row["stop_sequence"]))
    for trip in (it.get("trip_id", "") for it in tables.get("trips.txt", [])):
        order = counts.get(trip, [])
        if len(order) < 2 or order != sorted(set(order)):
            yield f"stop_times.txt: trip {trip!r} has not two stops or more in rising order"


def _booking(tables: Tables, _zones_: set[str]) -> Iterator[str]:
    for at, row in enumerate(tables.get("booking_rules.txt", []), 2):
        start, last = row.get("prior_notice_start_day", ""), row.get("prior_notice_last_day", "")
        if bool(start) != bool(row.get("prior_notice_start_time")):
            yield f"booking_rules.txt, row {at}: prior_notice_start_day and _time go together"
        if NUMBER.fullmatch(start) and NUMBER.fullmatch(last) and int(start) < int(last):
            yield f"booking_rules.txt, row {at}: booking would begin after it has ended"


def _dates(tables: Tables, _zones_: set[str]) -> Iterator[str]:
    for name, low, high in (
        ("calendar.txt", "start_date", "end_date"),
        ("feed_info.txt", "feed_start_date", "feed_end_date"),
    ):
        for at, row in enumerate(tables.get(name, []), 2):
            if row.get(low, "") > row.get(high, ""):
                yield f"{name}, row {at}: {low} is after {high}"
    for at, row in enumerate(tables.get("agency.txt", []), 2):
        if row.get("agency_timezone") not in zoneinfo.available_timezones():
            yield f"agency.txt, row {at}: agency_timezone is no zone"


def _zones(text: str, said: list[str]) -> set[str]:
    """The zones' ids; what is wrong in the file is added to `said`."""
    ids: set[str] = set()
    try:
        held = json.loads(text)
        if held["type"] != "FeatureCollection" or not held["features"]:
            raise ValueError("it is no collection of zones")
        for feature in held["features"]:
            said += [f"locations.geojson, {feature['id']}: {it}" for it in _faults_of_zone(feature)]
            if feature["id"] in ids:
                said.append(f"locations.geojson, {feature['id']}: the id stands twice")
            ids.add(feature["id"])
    except (ValueError, KeyError, TypeError) as error:
        said.append(f"locations.geojson: {error!r}")
    return ids


def _faults_of_zone(feature: dict[str, Any]) -> Iterator[str]:
    if feature["type"] != "Feature" or not isinstance(feature["properties"], dict):
        yield "it is no feature with properties"
    geometry = feature["geometry"]
    if geometry["type"] != "MultiPolygon" or not geometry["coordinates"]:
        yield "it is no MultiPolygon with an area"
        return
    for rings in geometry["coordinates"]:
        for at, ring in enumerate(rings):
            if len(ring) < 4 or ring[0] != ring[-1]:
                yield "a ring is not closed, or has fewer than four points"
            elif not all(-180 <= it[0] <= 180 and -90 <= it[1] <= 90 for it in ring):
                yield "a point is not longitude and latitude in degrees"
            elif (area([(it[0], it[1]) for it in ring]) > 0) != (at == 0):
                yield "a ring turns the wrong way: RFC 7946 has an area on its left"
