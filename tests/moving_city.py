"""A feed of a whole city, for tests: so many bus lines, most of them through one middle, on a grid of streets.

Each line has two directions, on streets of their own near the middle; some have a branch, some turn short, some run
past midnight. Weekdays, Saturdays and Sundays have hours of their own, and no two lines the same.
"""

from __future__ import annotations

import datetime
import math
import random
from typing import Any

from desk_tools.setup import example

BLOCK, POINT_EVERY, STOP_EVERY, MOST_FEET = 2_640, 260, 1_300, 55_000
WEEK, SATURDAY, SUNDAY = "week", "saturday", "sunday"
Point = tuple[float, float]
# The files of a feed, each as its rows.
Files = dict[str, list[Any]]


def street_way(chance: random.Random, start: Point, heading: float, feet: int) -> list[Point]:
    """A way along streets: straight, with a turn now and then, never back."""
    way, at, went = [start], start, 0
    while went < feet:
        length = BLOCK * chance.randint(2, 6)
        turn = heading + chance.choice([0, 0, 0, math.pi / 2, -math.pi / 2])
        at = (at[0] + length * math.cos(turn), at[1] + length * math.sin(turn))
        way.append(at)
        went += length
    return way


def drawn(chance: random.Random, way: list[Point]) -> list[Point]:
    """The way as a shape has it: a point every some feet, each a little aside."""
    points: list[Point] = []
    for (ax, ay), (bx, by) in zip(way, way[1:]):
        count = max(1, round(math.dist((ax, ay), (bx, by)) / POINT_EVERY))
        parts = [(ax + (bx - ax) * at / count, ay + (by - ay) * at / count) for at in range(count)]
        points += [(x + chance.randint(-8, 8), y + chance.randint(-8, 8)) for x, y in parts]
    return [*points, way[-1]]


def other_street(points: list[Point], feet: int) -> list[Point]:
    """The same way back, on the next street where the line is near the middle."""
    moved = [(x + 300, y - 300) if math.hypot(x, y) < feet else (x, y) for x, y in points]
    return moved[::-1]


def patterns_of(chance: random.Random, number: int) -> dict[str, list[Point]]:
    """The shapes of a line: out and back, and where it has them a branch and a short turn, both ways."""
    heading = chance.uniform(0, 2 * math.pi)
    is_cross = number % 5 == 4
    aside = (chance.randint(-8, 8) * BLOCK, chance.randint(-8, 8) * BLOCK)
    start = aside if is_cross else (chance.randint(-150, 150), 0)
    way = street_way(chance, start, heading, chance.randint(18_000, MOST_FEET))
    out = drawn(chance, way)
    shapes = {"out": out, "in": other_street(out, 6_000)}
    if number % 3 == 0:
        fork = len(way) // 2
        branch = drawn(
            chance, [*way[: fork + 1], *street_way(chance, way[fork], heading + 1, 9_000)[1:]]
        )
        shapes |= {"branch-out": branch, "branch-in": other_street(branch, 6_000)}
    if number % 4 == 1:
        short = out[: len(out) * 2 // 3]
        shapes |= {"short-out": short, "short-in": other_street(short, 6_000)}
    return shapes


def hours_of(chance: random.Random, number: int) -> dict[str, tuple[int, int]]:
    """From when to when a line runs, in minutes, by its service."""
    first, last = 300 + 5 * chance.randint(0, 18), 1_140 + 5 * chance.randint(0, 60)
    hours = {
        WEEK: (first, last),
        SATURDAY: (first + 5 * chance.randint(6, 18), last - 5 * chance.randint(0, 18)),
    }
    if number % 4 != 2:
        hours[SUNDAY] = (
            hours[SATURDAY][0] + 5 * chance.randint(6, 18),
            hours[SATURDAY][1] - 5 * chance.randint(6, 24),
        )
    return hours


def city(lines: int, today: datetime.date, seed: int = 20261128, trips: float = 1) -> Files:
    """The files of the feed, each as its rows, the header first; with a share of the trips, the last among them."""
    chance, found = random.Random(seed), example.tables(today)
    for name in ("routes", "trips", "stop_times", "stops", "calendar", "shapes"):
        found[name] = found[name][:1]
    found.pop("calendar_dates")
    start, end = (f"{today + datetime.timedelta(days=it):%Y%m%d}" for it in (-30, 330))
    for service, days in ((WEEK, "1111100"), (SATURDAY, "0000010"), (SUNDAY, "0000001")):
        found["calendar"].append((service, *days, start, end))
    for number in range(lines):
        add_line(found, chance, number, trips)
    return found


def add_line(found: Files, chance: random.Random, number: int, trips: float) -> None:
    route, shapes, hours = f"r{number}", patterns_of(chance, number), hours_of(chance, number)
    street = chance.choice(["Oak", "Mill", "Lake", "Hill"])
    found["routes"].append((route, "a", str(number + 1), f"{street} {number}", "3"))
    for name, points in shapes.items():
        shape = f"{route}-{name}"
        found["shapes"] += [(shape, *example.position(*it), at) for at, it in enumerate(points)]
        stops = points[:: max(1, STOP_EVERY // POINT_EVERY)] + [points[-1]]
        found["stops"] += [
            (f"{shape}-{at}", f"stop {at}", *example.position(*it)) for at, it in enumerate(stops)
        ]
        for service, (first, last) in hours.items():
            add_trips(found, chance, route, name, service, first, last, len(stops), trips)


def add_trips(
    found: Files,
    chance: random.Random,
    route: str,
    name: str,
    service: str,
    first: int,
    last: int,
    stops: int,
    trips: float,
) -> None:
    """The trips of one shape: a branch runs on weekdays by day alone, a short turn in the early morning too."""
    minutes, every = 3 + 2 * stops, chance.choice([20, 30, 30, 60])
    if name.startswith("branch"):
        if service != WEEK:
            return
        first, last = first + 60, last - 120
    # (never a pause so long that it parts the hours of a line)
    step = min(110, round((every if service == WEEK else 2 * every) / trips))
    for at in sorted({*range(first, last - minutes + 1, step), last - minutes}):
        trip = f"{route}-{name}-{service}-{at}"
        found["trips"].append((route, service, trip, f"{route}-{name}", 1))
        for stop in range(stops):
            minute = at + minutes * stop // (stops - 1)
            time = f"{minute // 60:02}:{minute % 60:02}:00"
            found["stop_times"].append((trip, time, time, f"{route}-{name}-{stop}", stop + 1))
