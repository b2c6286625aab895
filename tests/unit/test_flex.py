"""GTFS-Flex: zones are the corridors to some feet, trips join zones in the hours that they share, and the checks find each fault."""

import datetime
import json
import math
import random
from collections.abc import Callable

import pytest
from hypothesis import given, settings
from hypothesis import strategies as some

from desk_tools.flex import checking, feed, outline
from desk_tools.flex.feed import Corridor, Hours, Service
from desk_tools.flex.outline import Line

COORDINATE = some.integers(-30_000, 30_000)
LINE = some.builds(
    Line,
    some.lists(some.tuples(COORDINATE, COORDINATE), min_size=2, max_size=5).map(tuple),
    some.integers(3_960, 7_920),
)
HOURS = some.builds(
    Hours,
    some.sets(some.integers(1, 7), min_size=1).map(lambda it: tuple(sorted(it))),
    some.integers(0, 700),
    some.integers(700, 1_439),
)
SERVICE = Service(
    "Town",
    "555-0100",
    "https://town.example/rides",
    "America/Chicago",
    datetime.date(2026, 12, 1),
    datetime.date(2027, 11, 30),
    1_020,
    (datetime.date(2026, 12, 25),),
)


def inside(lines: list[Line], at: tuple[float, float]) -> float:
    return min(
        outline.distance(at, one, other) - it.width
        for it in lines
        for one, other in zip(it.points, it.points[1:])
    )


@settings(max_examples=25)
@given(some.lists(LINE, min_size=1, max_size=3), some.integers(0, 1_000))
def test_a_zone_is_the_corridor_to_half_a_cell(lines: list[Line], seed: int) -> None:
    polygons, chance = outline.polygons_of(lines), random.Random(seed)
    bound = 60 if len(lines) == 1 and len(lines[0].points) == 2 else outline.CELL * math.sqrt(2) / 2
    for _ in range(60):
        at = chance.uniform(-40_000, 40_000), chance.uniform(-40_000, 40_000)
        away = inside(lines, at)
        is_in = any(
            outline.holds(it[0], at) and not any(outline.holds(hole, at) for hole in it[1:])
            for it in polygons
        )
        assert abs(away) < bound or is_in == (away < 0)
    assert all(ring[0] == ring[-1] and len(ring) > 3 for it in polygons for ring in it)
    assert all(
        outline.area(it[0]) > 0 and all(outline.area(hole) < 0 for hole in it[1:])
        for it in polygons
    )


def files(corridors: list[Corridor]) -> dict[str, str]:
    zones = feed.zones_of(corridors)
    return feed.files_of(
        feed.tables_of(zones, SERVICE),
        feed.geojson_of(zones, lambda x, y: (44 + y / 364_000, -93 + x / 262_000)),
    )


def test_who_waits_sees_how_many_zones_are_drawn() -> None:
    hours = [feed.Hours((1,), first, 1_200) for first in (300, 360, 420)]
    lines = Line(((0.0, 0.0), (9_000.0, 0.0)), 3_960)
    shown: list[int] = []
    feed.geojson_of({it: [lines] for it in hours}, lambda x, y: (x, y), shown.append)
    assert shown == [0, 1, 2]


@settings(max_examples=25)
@given(some.lists(some.builds(Corridor, LINE, HOURS), min_size=1, max_size=4))
def test_each_feed_passes_its_checks(corridors: list[Corridor]) -> None:
    assert not checking.faults_of(files(corridors))


@given(HOURS, HOURS, some.integers(1, 7), some.integers(0, 1_439))
def test_a_trip_is_there_where_both_zones_are_served(
    one: Hours, other: Hours, day: int, minute: int
) -> None:
    both = feed.shared(one, other)
    served = all(day in it.days and it.first <= minute <= it.last for it in (one, other))
    if both is None:
        assert not served or max(one.first, other.first) == min(one.last, other.last)
    else:
        assert served == (day in both.days and both.first <= minute <= both.last)


SOUND = files(
    [
        Corridor(Line(((0, 0), (20_000, 0)), 3_960), Hours((1, 2, 3), 300, 1_320)),
        Corridor(Line(((0, 9_000), (20_000, 9_000)), 3_960), Hours((3, 5, 6), 360, 1_439)),
    ]
)


def changed(name: str, old: str, new: str) -> Callable[[dict[str, str]], dict[str, str]]:
    def change(held: dict[str, str]) -> dict[str, str]:
        assert old in held[name]
        return {**held, name: held[name].replace(old, new, 1)}

    return change


def reversed_ring(held: dict[str, str]) -> dict[str, str]:
    found = json.loads(held["locations.geojson"])
    found["features"][0]["geometry"]["coordinates"][0][0].reverse()
    return {**held, "locations.geojson": json.dumps(found)}


@pytest.mark.parametrize(
    "change, said",
    [
        (
            lambda it: {key: value for key, value in it.items() if key != "agency.txt"},
            "agency.txt is missing",
        ),
        (lambda it: {**it, "stops.csv": ""}, "stops.csv is no file"),
        (changed("stop_times.txt", ",2,1,ada", ",0,1,ada"), "pickup_type '0' is not of its form"),
        (
            changed("stop_times.txt", "trip-1-1,zone-1,1,", "trip-1-1,zone-9,1,"),
            "location_id 'zone-9' is not in",
        ),
        (
            changed("stop_times.txt", "location_id", "arrival_time"),
            "arrival_time is forbidden here",
        ),
        (
            changed("stop_times.txt", "05:00:00,22:00:00", "22:00:00,05:00:00"),
            "the window ends before",
        ),
        (changed("stop_times.txt", "trip-1-1,zone-1,2", "trip-1-1,zone-1,1"), "has not two stops"),
        (changed("booking_rules.txt", "17:00:00", ""), "prior_notice_last_time is required"),
        (changed("booking_rules.txt", "00:00:00", ""), "go together"),
        (changed("booking_rules.txt", ",1,17", ",15,17"), "booking would begin after"),
        (changed("calendar.txt", "20271130", "20251130"), "start_date is after end_date"),
        (changed("trips.txt", "days-123", "days-7"), "service_id 'days-7' is not in calendar.txt"),
        (changed("trips.txt", "trip-1-2", "trip-1-1"), "trip_id stands twice"),
        (changed("agency.txt", "America/Chicago", "Chicago"), "agency_timezone is no zone"),
        (changed("agency.txt", "https://", ""), "agency_url"),
        (
            changed("locations.geojson", '"FeatureCollection"', '"Features"'),
            "no collection of zones",
        ),
        (changed("locations.geojson", "zone-2", "zone-1"), "the id stands twice"),
        (reversed_ring, "turns the wrong way"),
    ],
)
def test_each_fault_is_found(change: Callable[[dict[str, str]], dict[str, str]], said: str) -> None:
    assert not checking.faults_of(SOUND)
    found = checking.faults_of(change(dict(SOUND)))
    assert any(said in it for it in found), found


def test_a_closed_day_is_no_day_of_service() -> None:
    rows = SOUND["calendar_dates.txt"].splitlines()
    # (Christmas Day of 2026 is a Friday)
    assert rows == ["service_id,date,exception_type", "days-356,20261225,2"]
