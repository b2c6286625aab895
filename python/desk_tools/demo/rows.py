"""Writes the made office as rows of the desk's tables (docs/FORMATS.md). The desk judges them at its opening."""

from __future__ import annotations

import datetime
import sqlite3
import struct
from collections.abc import Iterable
from contextlib import closing
from typing import Any

from desk_tools.days import day_of, number_of
from desk_tools.demo import past, town
from desk_tools.demo.keys import digest_of
from desk_tools.tables import ROLES

PICKUP, DROP = 0, 1


def bits_of(weekdays: list[int]) -> int:
    return sum(1 << (it - 1) for it in weekdays)


def insert(
    database: sqlite3.Connection, table: str, rows: list[tuple[int, ...]] | Iterable[Any]
) -> None:
    rows = list(rows)
    if rows:
        database.executemany(f"INSERT INTO {table} VALUES ({', '.join('?' * len(rows[0]))})", rows)


def write_callers(database: sqlite3.Connection, keys: dict[str, str]) -> None:
    named = {who: (number, role, 0) for who, (number, role) in past.STAFF.items()}
    named |= {who: (number, "driver", van) for who, (number, van) in past.DRIVERS.items()}
    named |= {
        who: (number, "rider", rider) for who, (number, rider) in past.RIDERS_WITH_KEYS.items()
    }
    database.execute("DELETE FROM callers")
    insert(
        database,
        "callers",
        (
            (number, ROLES.index(role), subject, bytes.fromhex(digest_of(keys[who])))
            for who, (number, role, subject) in named.items()
        ),
    )


def write_agency(database: sqlite3.Connection, first_day: int) -> None:
    """The policy, places, fixed routes, vans and driving times, which hold from a day on."""
    settings = ", ".join(f"{name} = {value}" for name, value in town.POLICY.items())
    database.execute(f"UPDATE desk SET {settings}")
    insert(
        database, "places", ((number, x, y, int(core)) for number, _, _, x, y, core in town.PLACES)
    )
    insert(
        database,
        "fixed",
        (
            (
                number,
                town.WIDTH,
                b"".join(struct.pack(">ii", *it) for it in points),
                int(accessible),
                bits_of(days),
                first,
                last,
            )
            for number, _, points, accessible, days, first, last in town.LINES
        ),
    )
    insert(
        database,
        "vehicles",
        (
            (number, first_day, bits_of(days), depot, seats, opens, closes, duration)
            for number, _, days, depot, seats, _, opens, closes, duration in town.VANS
        ),
    )
    insert(
        database,
        "vehicle_chairs",
        ((number, first_day, chairs) for number, _, _, _, _, chairs, *_ in town.VANS),
    )
    times = [tuple(map(int, line.split(","))) for line in town.driving_times().splitlines()[1:]]
    insert(database, "travel", [(first_day, 0, 0, 0), *((first_day, *it) for it in times)])


def write_riders(database: sqlite3.Connection, people: list[town.Rider], today: int) -> None:
    insert(
        database, "riders", ((it.id, int(it.kind == "visitor"), int(it.attendant)) for it in people)
    )
    insert(database, "rider_chairs", ((it.id,) for it in people if it.wheelchair))
    for rider in people:
        if rider.kind == "resident":
            insert(
                database,
                "entries",
                (
                    entry_row(rider.id, place, it, today)
                    for place, it in enumerate(past.entries_of(rider.id, day_of(today)))
                ),
            )


def entry_row(rider: int, place: int, entry: past.Entry, today: int) -> tuple[str | int, ...]:
    are_days = entry.kind in ("grant", "appeal granted", "suspend")
    a, b = (-1 if it is None else it + today * are_days for it in (entry.a, entry.b))
    return (
        rider,
        place,
        past.KINDS[entry.kind],
        today + entry.day,
        entry.author,
        a,
        b,
        entry.conditions,
        entry.words,
    )


def write_trips(
    database: sqlite3.Connection, trips: list[tuple[past.Trip, datetime.date, int]] | Iterable[Any]
) -> None:
    """Adds trips, each with its stops, under the numbers that follow the last one given."""
    number = database.execute("SELECT last_trip FROM desk").fetchone()[0]
    stops: dict[tuple[int, int], list[Any]] = {}
    for number, (it, day, status) in enumerate(trips, number + 1):
        by = -1 if it.by is None else it.by
        insert(
            database,
            "trips",
            [
                (
                    number,
                    it.rider,
                    number_of(day),
                    it.wish,
                    it.origin,
                    it.goal,
                    by,
                    it.attendant,
                    it.companions,
                    it.fare,
                    it.service,
                    it.ride,
                    it.vehicle,
                    it.window_from,
                    it.window_to,
                    status,
                )
            ],
        )
        insert(database, "trip_chairs", [(number,)] if it.chair else [])
        if it.pickup is not None:
            route = stops.setdefault((it.vehicle, number_of(day)), [])
            route += [(it.pickup, number, PICKUP), (it.drop, number, DROP)]
    for (vehicle, day), route in stops.items():
        insert(
            database,
            "stops",
            (
                (vehicle, day, place, trip, kind)
                for place, (_, trip, kind) in enumerate(sorted(route))
            ),
        )
    database.execute("UPDATE desk SET last_trip = ?", (number,))


def write_office(
    file: str,
    people: list[town.Rider],
    keys: dict[str, str],
    today: datetime.date,
    trips: Iterable[Any],
    first_offset: int,
) -> None:
    """Fills an empty desk of this file. The agency begins some weeks before today."""
    with closing(sqlite3.connect(file)) as database, database:
        write_callers(database, keys)
        write_agency(database, number_of(today) + first_offset)
        write_riders(database, people, number_of(today))
        write_trips(database, trips)


def end_trips(database: sqlite3.Connection, today: datetime.date, minute: int) -> None:
    """Says of each trip that is over that it was ridden, where nobody said how it ended."""
    database.execute(
        "UPDATE trips SET status = ? WHERE status = ? AND (day < ? OR day = ? AND window_to + 40 <= ?)",
        (past.RIDDEN, past.BOOKED, number_of(today), number_of(today), minute),
    )
