"""A town for tests: so many lines of moving_city, and addresses round them, some of them homes, some outside every corridor."""

from __future__ import annotations

import csv
import datetime
import json
import random
from collections.abc import Iterable, Sequence
from typing import Any

import moving_city
from desk_tools.setup import commands, example, feed as feeds, fixed, plane as geometry

EXCEL_BEGINS = datetime.date(1899, 12, 30)
STREETS = ["Oak", "Mill", "Lake", "Hill", "Peña", "Main", "River", "Elm"]


def write_feed(path: str, today: datetime.date, lines: int = 12, share: float = 0.02) -> None:
    """A feed of so many lines, with a small share of their trips."""
    example.write_feed(path, moving_city.city(lines, today, trips=share))


def fixed_routes_of(path: str, today: datetime.date) -> tuple[geometry.Plane, dict[str, Any]]:
    """What `move-in routes` makes of a feed: the plane, and the fixed routes as the desk takes them."""
    feed = feeds.read_feed(path, today, 28)
    plane = geometry.plane_round([it[1:] for it in feed.stops.values()])
    made, _, _ = commands.made_routes(feed, plane, fixed.Making(3_960, 500, 120, 0, False), 50)
    return plane, {
        str(at): {"name": it.name, **fixed.body_of(at, it)} for at, it in enumerate(made, 1)
    }


def points_near(
    routes: dict[str, Any], count: int, seed: int = 20261130, spread: int = 2_500
) -> list[tuple[int, int]]:
    """Points round the lines."""
    chance, lines = random.Random(seed), [it["points"] for it in routes.values()]
    points: list[tuple[int, int]] = []
    for _ in range(count):
        line = chance.choice(lines)
        at, share = chance.randrange(len(line) - 1), chance.random()
        (ax, ay), (bx, by) = line[at : at + 2]
        points.append(
            (
                round(ax + (bx - ax) * share + chance.gauss(0, spread)),
                round(ay + (by - ay) * share + chance.gauss(0, spread)),
            )
        )
    return points


def rows_of(points: Sequence[tuple[int, int]], riders: int = 0) -> list[tuple[Any, ...]]:
    """Rows of addresses.csv at these points; the last ones are the homes of so many riders."""
    first = len(points) - riders
    return [
        (
            at + 1,
            f"{at + 1} {STREETS[at % len(STREETS)]} St",
            *point,
            "",
            1_001 + at - first if at >= first else "",
        )
        for at, point in enumerate(points)
    ]


def write_addresses(path: str, rows: Iterable[Sequence[Any]]) -> None:
    with open(path, "w", encoding="utf-8", newline="") as file:
        csv.writer(file).writerows([("id", "street", "x", "y", "note", "rider"), *rows])


# A whole town's files, as its people save them.

# (one rider in sixteen has a grant for which it matters where the home is)
CONDITIONS = [*[""] * 20, "always", "Always", *["months:1,2,11,12"] * 8, "nolift", "farther:2640"]
CLINICS, EACH_DAY_OF_WEEK = 12, "Mon-Sun"


def write_forms(
    folder: str, today: datetime.date, lines: int, count: int, riders: int, vans: int
) -> None:
    """The feed, and the tables in the forms of spreadsheets: addresses with semicolons in Windows-1252, riders with days as M/D/YYYY and
    as Excel's count, in one table."""
    write_feed(f"{folder}/feed.zip", today, lines)
    plane, routes = fixed_routes_of(f"{folder}/feed.zip", today)
    chance, points = random.Random(20261130), points_near(routes, count)
    position = [plane.position(*it) for it in points]
    homes = chance.sample(range(count), riders)
    street = [f"{at + 1} {STREETS[at % len(STREETS)]} St" for at in range(count)]
    whose = {home: 1_001 + at for at, home in enumerate(homes)}
    rows: list[Sequence[Any]] = [("ID", "Street", "Lat", "Lon", "Rider", "Note")]
    rows += [
        (
            at + 1,
            street[at],
            f"{position[at][0]:.6f}",
            f"{position[at][1]:.6f}",
            whose.get(at, ""),
            "",
        )
        for at in range(count)
    ]
    write_table(f"{folder}/addresses.csv", rows, ";", "cp1252")
    until = [
        f"{today.month}/{min(today.day, 28)}/{today.year + 2}",
        str((today.replace(year=today.year + 2, day=1) - EXCEL_BEGINS).days),
    ]
    rows = [
        (
            "Number",
            "Name",
            "Phone",
            "Home Address",
            "Type",
            "Until",
            "Conditions",
            "PCA",
            "Wheelchair",
        )
    ]
    rows += [
        (
            f"{rider:06}",
            f"Núñez {rider}",
            f"555-{rider:04}",
            street[home],
            "Resident",
            until[rider % 2],
            CONDITIONS[rider % len(CONDITIONS)],
            "YES" if rider % 7 == 0 else "no",
            "Yes" if rider % 11 == 0 else "",
        )
        for home, rider in whose.items()
    ]
    write_table(f"{folder}/people.csv", rows, ",", "cp1252")
    middle = sorted(range(count), key=lambda at: abs(points[at][0]) + abs(points[at][1]))[
        : CLINICS * 20 : 20
    ]
    rows = [("number", "name", "latitude", "longitude"), (1, "Garage", *position[middle[0]])]
    rows += [(at, f"Clinic {at}", *position[it]) for at, it in enumerate(middle, 2)]
    write_table(f"{folder}/places.csv", rows)
    first = today.isoformat()
    rows = [tuple("number name from_day days depot capacity opens closes duration chairs".split())]
    write_table(
        f"{folder}/vehicles.csv",
        [
            *rows,
            *(
                (at, f"Van {at}", first, EACH_DAY_OF_WEEK, 1, 6, "05:00", "23:00", 1_000, 2)
                for at in range(1, vans + 1)
            ),
        ],
    )
    roles = ("clerk", "dispatcher", "examiner", "officer")
    write_table(
        f"{folder}/callers.csv",
        [
            ("number", "name", "role", "subject"),
            *((at, it, it, "") for at, it in enumerate(roles, 2)),
        ],
    )
    for name, held in (
        (
            "policy",
            {
                "base": 175,
                "transfer": 50,
                "fare": 350,
                "service": 3,
                "extra_ride": 60,
                "min_missed": 3,
                "percent": 10,
                "span_days": 30,
            },
        ),
        ("share", {"subscription_share": None}),
    ):
        with open(f"{folder}/{name}.json", "w", encoding="utf-8") as file:
            json.dump(held, file)


def write_orders(folder: str, day: datetime.date) -> None:
    """A standing order for each rider with a home: in the middle of the day to a clinic."""
    chance = random.Random(7)
    with open(f"{folder}/cut-riders.csv", encoding="utf-8", newline="") as file:
        homes = [
            (it["number"], it["home"], it["attendant"]) for it in csv.DictReader(file) if it["home"]
        ]
    rows: list[Sequence[Any]] = [
        ("order", "rider", "weekdays", "wish", "from", "to", "first_day", "last_day")
    ]
    rows += [
        (
            f"{rider} out",
            rider,
            EACH_DAY_OF_WEEK,
            f"{chance.randint(9, 15)}:{chance.choice(['00', '15', '30', '45'])}:00",
            home,
            chance.randint(2, CLINICS + 1),
            f"{day.month}/{day.day}/{day.year}",
            f"{day.month}/{day.day}/{day.year}",
        )
        for rider, home, _ in homes
    ]
    write_table(f"{folder}/orders.csv", rows, ";", "utf-16")


def write_table(
    path: str, rows: Iterable[Sequence[Any]], delimiter: str = ",", encoding: str = "utf-8"
) -> None:
    with open(path, "w", encoding=encoding, newline="") as file:
        csv.writer(file, delimiter=delimiter).writerows(rows)
