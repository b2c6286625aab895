"""A small agency's files, to try moving in with.

feed.zip is a GTFS feed of five routes: Main Street goes straight north and back, River Road winds along some hundreds
of points, the Crosstown has no shape and runs in the morning and the evening, the Owl runs past midnight, and the
Market Bus has exceptions of its calendar. Beside it stand the tables of the agency and its policy.
"""

from __future__ import annotations

import argparse
import contextlib
import csv
import datetime
import io
import json
import math
import os
import zipfile
from typing import Any

from desk_tools.setup import feed, whole_file
from desk_tools.setup.limits import DONE

LATITUDE, LONGITUDE = 44.9778, -93.2650
# Degrees of a foot, near enough for a feed.
NORTH, EAST = 1 / 364_600, 1 / 258_700
EACH_DAY, WORKDAYS, SATURDAY = "1111111", "1111100", "0000010"
# The routes' names, and the stops along each, in feet east and north of the middle.
ROUTES = {
    "main": "1 Main Street",
    "river": "2 River Road",
    "cross": "3 Crosstown",
    "owl": "4 Owl",
    "market": "5 Market Bus",
}
STOPS = {
    "main": [(0, y) for y in range(-20_000, 20_001, 8_000)],
    "river": [(x, round(1_500 * math.sin(x / 900))) for x in range(-24_000, 24_001, 6_000)],
    "cross": [
        (-24_000, -12_000),
        (-9_000, -9_000),
        (3_000, -12_000),
        (16_000, -6_000),
        (24_000, -9_000),
    ],
    "owl": [(-15_000, 12_000), (-4_000, 15_000), (8_000, 12_000), (20_000, 14_000)],
    "market": [(6_000, -18_000), (12_000, -16_000), (18_000, -18_500)],
}
PLACES = [
    (1, "Garage", 500, -2_000, "no"),
    (2, "Main and River", 200, 100, "no"),
    (3, "North End Clinic", 1_500, 19_000, "no"),
    (4, "Mill Street Homes", -18_000, 2_500, "no"),
    (5, "Market Hall", 12_000, -17_000, "no"),
    (6, "Hilltop", -24_000, 18_000, "no"),
    (7, "Old Town", 2_000, 24_500, "yes"),
]


def position(x: float, y: float) -> tuple[float, float]:
    return round(LATITUDE + y * NORTH, 7), round(LONGITUDE + x * EAST, 7)


def shape_of(route: str) -> Any:
    """The points of a route's line, or none where the feed has no shape of it."""
    if route == "main":
        return [(0, y) for y in range(-20_000, 20_001, 500)]
    if route == "river":
        return [(x, 1_500 * math.sin(x / 900)) for x in range(-24_000, 24_001, 60)]
    return STOPS[route] if route in ("owl", "market") else []


# Trips: a route, a service, the hours at which they begin, minutes from end to end, and whether they go the other way.
TRIPS = [
    ("main", "every", range(5, 23), 40, False),
    ("main", "every", range(6, 23), 40, True),
    ("river", "week", range(6, 20), 50, False),
    ("river", "saturday", range(8, 18), 50, False),
    ("cross", "week", [6, 7, 8, 15, 16, 17], 45, False),
    ("owl", "every", [22, 23, 24, 25], 35, False),
    ("market", "market", [9, 11, 13], 30, False),
]


def tables(today: datetime.date) -> dict[str, list[Any]]:
    """The files of the feed, each as its rows, the header first."""
    start, end = (today + datetime.timedelta(days=it) for it in (-30, 330))
    found: dict[str, list[tuple[object, ...]]] = {
        "agency": [
            ("agency_id", "agency_name", "agency_url", "agency_timezone", "agency_phone"),
            ("a", "Lake Town Transit", "https://example.org", "America/Chicago", "612-555-0100"),
        ],
        "routes": [("route_id", "agency_id", "route_short_name", "route_long_name", "route_type")],
        "trips": [("route_id", "service_id", "trip_id", "shape_id", "wheelchair_accessible")],
        "stop_times": [("trip_id", "arrival_time", "departure_time", "stop_id", "stop_sequence")],
        "stops": [("stop_id", "stop_name", "stop_lat", "stop_lon")],
        "calendar": [("service_id", *feed.WEEKDAYS, "start_date", "end_date")],
        "calendar_dates": [("service_id", "date", "exception_type")],
        "shapes": [("shape_id", "shape_pt_lat", "shape_pt_lon", "shape_pt_sequence")],
    }
    found["calendar"] += [
        (name, *days, f"{start:%Y%m%d}", f"{end:%Y%m%d}")
        for name, days in (
            ("every", EACH_DAY),
            ("week", WORKDAYS),
            ("saturday", SATURDAY),
            ("market", WORKDAYS),
        )
    ]
    found["calendar_dates"] += exceptions(today)
    for route, name in ROUTES.items():
        found["routes"].append((route, "a", *name.split(" ", 1), "3"))
        found["stops"] += [
            (f"{route}{at}", f"{name} stop {at}", *position(*it))
            for at, it in enumerate(STOPS[route])
        ]
        for shape, points in ((route, shape_of(route)), (f"{route} back", shape_of(route)[::-1])):
            found["shapes"] += [(shape, *position(*it), at) for at, it in enumerate(points)]
    for route, service, hours, minutes, is_back in TRIPS:
        for hour in hours:
            add_trip(found, route, service, hour, minutes, is_back)
    return found


def exceptions(today: datetime.date) -> list[tuple[str, str, int]]:
    """The Market Bus runs on no Friday and on the next Sunday; all else rests on the second Monday from today."""
    days = [today + datetime.timedelta(days=it) for it in range(40)]
    fridays = [it for it in days if it.isoweekday() == 5]
    monday, sunday = [it for it in days if it.isoweekday() == 1][1], next(
        it for it in days if it.isoweekday() == 7
    )
    return [
        *(("market", f"{it:%Y%m%d}", 2) for it in fridays),
        ("market", f"{sunday:%Y%m%d}", 1),
        *((it, f"{monday:%Y%m%d}", 2) for it in ("every", "week")),
    ]


def add_trip(
    found: dict[str, list[Any]], route: str, service: str, hour: int, minutes: int, is_back: bool
) -> None:
    trip, stops = f"{route}-{service}-{hour}{'-back' if is_back else ''}", list(
        range(len(STOPS[route]))
    )
    shape = (f"{route} back" if is_back else route) if shape_of(route) else ""
    found["trips"].append((route, service, trip, shape, 2 if route == "owl" else 1))
    for at, stop in enumerate(reversed(stops) if is_back else stops):
        minute = hour * 60 + minutes * at // (len(stops) - 1)
        time = f"{minute // 60:02}:{minute % 60:02}:00"
        found["stop_times"].append((trip, time, time, f"{route}{stop}", at + 1))


def text_of(rows: list[Any]) -> str:
    text = io.StringIO()
    csv.writer(text, lineterminator="\n").writerows(rows)
    return text.getvalue()


def write_feed(path: str, found: dict[str, list[Any]]) -> None:
    with zipfile.ZipFile(path, "w", zipfile.ZIP_DEFLATED) as archive:
        for name, rows in found.items():
            archive.writestr(f"{name}.txt", text_of(rows))


def records(today: datetime.date) -> dict[str, list[Any]]:
    """The agency's own tables by their names."""
    until = [today + datetime.timedelta(days=it) for it in (30, 200, 365)]
    riders = [
        (
            number,
            "resident",
            "no" if number % 5 else "yes",
            "no" if number % 4 else "yes",
            until[number % 3],
            "always" if number % 6 else "months:1,2,3,11,12; farther:5280",
        )
        for number in range(101, 113)
    ]
    return {
        "places": [
            ("number", "name", "latitude", "longitude", "core"),
            *((number, name, *position(x, y), core) for number, name, x, y, core in PLACES),
        ],
        "vehicles": [
            "number name from_day days depot capacity opens closes duration chairs".split(),
            (1, "Van 12", today, "1-7", 1, 4, "05:00", "23:00", 900, 1),
            (2, "Van 14", today, "1-5", 1, 8, "06:00", "20:00", 840, 2),
        ],
        "callers": [
            ("number", "name", "role", "subject"),
            (2, "Ana Ruiz", "clerk", ""),
            (3, "Bo Lind", "dispatcher", ""),
            (4, "Cy Odum", "examiner", ""),
            (5, "Di Park", "officer", ""),
        ],
        "riders": [
            ("number", "kind", "attendant", "wheelchair", "until", "conditions"),
            *riders,
            (113, "visitor", "no", "no", "", ""),
        ],
    }


POLICY = {
    "base": 175,
    "transfer": 50,
    "fare": 350,
    "service": 3,
    "extra_ride": 30,
    "min_missed": 3,
    "percent": 10,
    "span_days": 30,
}


def write_agency(folder: str, today: datetime.date) -> None:
    os.makedirs(folder, exist_ok=True)
    try:
        write_feed(f"{folder}/feed.zip", tables(today))
    except OSError as error:
        # (a full disk names no file, and an empty feed is none)
        with contextlib.suppress(OSError):
            os.remove(f"{folder}/feed.zip")
        error.filename = error.filename or f"{folder}/feed.zip"
        raise
    texts = {f"{name}.csv": text_of(rows) for name, rows in records(today).items()}
    for name, text in {**texts, "policy.json": json.dumps(POLICY) + "\n"}.items():
        whole_file.written(f"{folder}/{name}", text, 0o644)


def example(words: argparse.Namespace) -> int:
    """Writes the files of a small agency into a folder."""
    write_agency(words.into, datetime.date.today())
    print(f"{words.into} has the files of a small agency")
    return DONE
