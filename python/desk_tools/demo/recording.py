"""Records the two weeks of trips that the made past repeats: a desk books them, and they are kept in weeks.csv.

  PYTHONPATH=python python3 -m desk_tools.demo.recording PROGRAM

It takes a minute with a proved program. Run it again where the town or the rules of booking have changed.
"""

from __future__ import annotations

import datetime
import random
import sqlite3
import sys
import tempfile
from collections.abc import Iterator
from contextlib import closing
from typing import Any

from desk_tools.days import day_of
from desk_tools.demo import building, past, rows, town
from desk_tools.demo.serving import Desk

DAYS = 14


def wishes_on(people: Any, day: Any) -> Any:
    """The trips that riders wish on a day, in the order in which they ask."""
    chance, wishes = random.Random(day.toordinal() // 7 * 10 + day.isoweekday()), []
    for rider in people:
        for it in rider.outings:
            if day.isoweekday() in it.days and (it.by or chance.random() < 0.8):
                party = {
                    "attendant": rider.attendant and chance.random() < 0.5,
                    "companions": int(chance.random() < 0.08),
                }
                shared = {"rider": rider.id, "day": day.isoformat(), **party}
                wishes.append(
                    {**shared, "wish": it.out, "from": rider.home, "to": it.place, "by": it.by}
                )
                wishes.append(
                    {**shared, "wish": it.back, "from": it.place, "to": rider.home, "by": None}
                )
    chance.shuffle(wishes)
    return wishes


def book(desk: Any, key: Any, people: Any, today: Any) -> None:
    """Books each wish of the two weeks, and cancels some trips. The write's number, as all of one caller."""
    number, chance = 0, random.Random(town.SEED)
    for offset in range(1, DAYS + 1):
        day = today + datetime.timedelta(days=offset)
        for wish in wishes_on(people, day):
            reply = desk.ask("POST", "/trips", key, number + 1, wish)
            number += reply.status == 200
            if reply.status == 200 and chance.random() < 0.04:
                desk.ask("POST", f"/trips/{reply.body['trip']}/cancel", key, number + 1, {})
                number += 1
        print(f"{day}: {number} writes", flush=True)


def trips_in(file: Any) -> Iterator[Any]:
    """Each trip of a file as a row of weeks.csv."""
    with closing(sqlite3.connect(file)) as database:
        places = {
            (trip, kind): place
            for trip, kind, place in database.execute("SELECT trip, kind, place FROM stops")
        }
        chairs = {trip for trip, in database.execute("SELECT trip FROM trip_chairs")}
        for number, rider, day, wish, origin, goal, by, *rest, _ in database.execute(
            "SELECT * FROM trips ORDER BY day, id"
        ):
            day = day_of(day)
            yield past.Trip._make(
                [
                    (day.toordinal() - 1) // 7 % 2,
                    day.isoweekday(),
                    rider,
                    wish,
                    origin,
                    goal,
                    None if by < 0 else by,
                    *rest,
                    int(number in chairs),
                    places.get((number, rows.PICKUP)),
                    places.get((number, rows.DROP)),
                ]
            )


def write_weeks(file: Any) -> None:
    building.write_rows(past.WEEKS, [past.Trip._fields, *trips_in(file)])


def main(program: str) -> None:
    people, today = town.riders(), datetime.date.today()
    with tempfile.TemporaryDirectory() as folder:
        file, keys = f"{folder}/desk.db", {who: who for who in building.CALLERS}
        building.make_database(program, file)
        rows.write_office(file, people, keys, today, [], -63)
        with Desk(program, file, building.noon_zone(today), f"{folder}/said") as desk:
            book(desk, keys["clerk"], people, today)
        write_weeks(file)


if __name__ == "__main__":
    main(sys.argv[1])
