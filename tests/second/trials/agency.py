"""A small agency as calls: who is there, what it has, and forty days of its riders' pasts."""

from __future__ import annotations

import datetime
from collections.abc import Iterable
from typing import TYPE_CHECKING, Any

from second.days import plus

if TYPE_CHECKING:
    from second.trials.chance import Trial

# What is sent, by the names of its fields.
Body = dict[str, Any]

CLERK, DISPATCHER, EXAMINER, OFFICERS, ADMIN = "hello", "radio", "panel", ["bench", "judge"], "abc"
EACH_DAY, WORKDAYS = [1, 2, 3, 4, 5, 6, 7], [1, 2, 3, 4, 5]
CALLERS: list[Body] = [
    {"id": 2, "role": "clerk", "subject": 0, "key": CLERK},
    {"id": 3, "role": "dispatcher", "subject": 0, "key": DISPATCHER},
    {"id": 4, "role": "examiner", "subject": 0, "key": EXAMINER},
    {"id": 5, "role": "officer", "subject": 0, "key": OFFICERS[0]},
    {"id": 6, "role": "officer", "subject": 0, "key": OFFICERS[1]},
]
POLICIES: list[Body] = [
    {
        "base": 175,
        "transfer": 50,
        "fare": 400,
        "service": 2,
        "extra_ride": 20,
        "min_missed": 1,
        "percent": 50,
        "span_days": 60,
    },
    {
        "base": 200,
        "transfer": 0,
        "fare": 350,
        "service": 0,
        "extra_ride": 45,
        "min_missed": 2,
        "percent": 30,
        "span_days": 30,
    },
    {
        "base": 150,
        "transfer": 75,
        "fare": 450,
        "service": 5,
        "extra_ride": 10,
        "min_missed": 1,
        "percent": 100,
        "span_days": 7,
    },
]
# The second lies on the edge of the first route's corridor, the fifth a foot past it, and the sixth in a core area.
PLACES: list[Body] = [
    {"id": 1, "x": 0, "y": 0, "core": False},
    {"id": 2, "x": 10_000, "y": 3_960, "core": False},
    {"id": 3, "x": 20_000, "y": 1_000, "core": False},
    {"id": 4, "x": 25_000, "y": 15_000, "core": False},
    {"id": 5, "x": 10_000, "y": 3_961, "core": False},
    {"id": 6, "x": 60_000, "y": 60_000, "core": True},
]
LINES: list[Body] = [
    {
        "id": 1,
        "width": 3960,
        "points": [[0, 0], [9_000, 0], [20_000, 0]],
        "accessible": False,
        "days": [1, 2, 3, 4, 5, 6],
        "first": 420,
        "last": 1200,
    },
    {
        "id": 2,
        "width": 5280,
        "points": [[20_000, 0], [20_000, 20_000], [40_000, 24_000]],
        "accessible": True,
        "days": EACH_DAY,
        "first": 480,
        "last": 1080,
    },
]
# With "from_day" as days from the first day of the trial. The first vehicle has another version later.
VEHICLES: list[Body] = [
    {
        "id": 1,
        "from_day": -50,
        "days": EACH_DAY,
        "depot": 1,
        "capacity": 3,
        "opens": 480,
        "closes": 1080,
        "duration": 420,
        "chairs": 1,
    },
    {
        "id": 1,
        "from_day": 4,
        "days": WORKDAYS,
        "depot": 4,
        "capacity": 2,
        "opens": 400,
        "closes": 1000,
        "duration": 540,
    },
    {
        "id": 2,
        "from_day": -50,
        "days": [1, 2, 3, 4, 5, 6],
        "depot": 4,
        "capacity": 4,
        "opens": 420,
        "closes": 1200,
        "duration": 600,
        "chairs": 2,
    },
    {
        "id": 3,
        "from_day": -50,
        "days": [1, 3, 5, 7],
        "depot": 6,
        "capacity": 2,
        "opens": 0,
        "closes": 1439,
        "duration": 1439,
    },
    {
        "id": 4,
        "from_day": -50,
        "days": EACH_DAY,
        "depot": 3,
        "capacity": 1,
        "opens": 540,
        "closes": 660,
        "duration": 90,
        "chairs": 1,
    },
]
RIDERS = {
    **dict.fromkeys([1, 2, 3, 4, 5, 6, 10], "resident"),
    **dict.fromkeys([7, 8, 9], "visitor"),
}
WITH_ATTENDANT, IN_WHEELCHAIR = [2, 4, 9], [3, 4, 8]


def times_of(rows: str) -> list[tuple[int, int, int]]:
    """Driving times, each as from, to and minutes."""
    return [
        (int(start), int(goal), int(took)) for start, goal, took in map(str.split, rows.split(","))
    ]


# Between the depot, which is place 1, and the places 2, 3 and 4.
TIMES = times_of("1 2 20, 1 3 40, 2 1 20, 2 3 30, 2 4 10, 3 1 40, 3 2 30, 3 4 25, 4 2 10, 4 3 25")
# Driving times from a day on, as days from the first day of the trial; later there is no way back from place 4 to place 2.
TABLES = {
    -50: TIMES + times_of("6 1 50, 1 6 50, 6 3 15, 3 6 15, 5 2 1, 2 5 1, 4 4 7"),
    5: times_of("1 2 12, 2 3 12, 3 4 12, 4 6 12, 6 1 12, 2 1 35, 3 2 35, 6 4 3"),
}
CSV_HEADER = "from,to,minutes"


def own_key(rider: int) -> str:
    return f"own-{rider}"


def drivers_key(vehicle: int) -> str:
    return f"wheel-{vehicle}"


def csv_of(rows: Iterable[tuple[int, int, int]]) -> str:
    return "\n".join([CSV_HEADER, *(",".join(map(str, row)) for row in rows), ""])


def put_all(trial: Trial, begin: datetime.date) -> None:
    """What the agency has from the first day on."""
    for it in CALLERS:
        trial.post("/callers", ADMIN, it)
    trial.post("/policy", ADMIN, POLICIES[0])
    for it in PLACES:
        trial.post("/places", ADMIN, it)
    for it in LINES:
        trial.post("/routes", ADMIN, it)
    for it in VEHICLES:
        trial.post("/vehicles", DISPATCHER, {**it, "from_day": plus(begin, it["from_day"])})
    for vehicle in (1, 2, 3):
        trial.post(
            "/callers",
            ADMIN,
            {"id": 20 + vehicle, "role": "driver", "subject": vehicle, "key": drivers_key(vehicle)},
        )
    for rider, kind in RIDERS.items():
        body = {
            "id": rider,
            "kind": kind,
            "attendant": rider in WITH_ATTENDANT,
            "wheelchair": rider in IN_WHEELCHAIR,
        }
        trial.post("/riders", CLERK, body)
        trial.post(
            "/callers",
            ADMIN,
            {"id": 30 + rider, "role": "rider", "subject": rider, "key": own_key(rider)},
        )


def enter(trial: Trial, rider: int, key: str, entry: str, **values: Any) -> None:
    trial.post(f"/riders/{rider}/entries", key, {"entry": entry, **values})


def trip(rider: int, day: datetime.date, wish: int) -> Body:
    return {
        "rider": rider,
        "day": day,
        "wish": wish,
        "from": 3,
        "to": 3,
        "attendant": False,
        "companions": 0,
    }


def grant(trial: Trial, rider: int, until: datetime.date, *conditions: str) -> None:
    enter(trial, rider, CLERK, "complete")
    enter(trial, rider, EXAMINER, "grant", until=until, conditions=conditions)


def use_days(trial: Trial, rider: int, count: int) -> None:
    """So many days of use of a visitor, from tomorrow on."""
    for ahead in range(1, count + 1):
        trial.post("/trips", CLERK, trip(rider, plus(trial.day, ahead), 600))


def miss(trial: Trial, rider: int) -> None:
    """The rider's first trip was missed, and so there is a notice, and a hearing on it."""
    number = next(it.number for it in trial.desk.trips.values() if it.rider == rider)
    trial.post(f"/trips/{number}/outcome", DISPATCHER, {"outcome": "missed-rider"})
    enter(trial, rider, CLERK, "notice", basis="missed a trip")
    enter(trial, rider, OFFICERS[0], "notice-heard")


def apply(trial: Trial, begin: datetime.date) -> None:
    """Four grants, an application that waits, and an appeal against a refusal."""
    until = plus(begin, 200)
    grant(trial, 1, until, "always")
    grant(trial, 2, until, "farther:3000", "nolift")
    grant(trial, 3, until, "months:1,3,5,7,9,11", "farther:9000")
    grant(trial, 4, until, "always")
    enter(trial, 5, CLERK, "complete")
    enter(trial, 6, CLERK, "complete")
    enter(trial, 6, EXAMINER, "refuse", reasons="walks to the stop")
    enter(trial, 6, own_key(6), "appeal", against=1)


def set_up(trial: Trial, begin: datetime.date, has_tables: bool) -> None:
    """All of it, day by day: rider 4 is suspended from the first day on, and rider 8 has used 21 days."""
    trial.day, trial.minute = plus(begin, -45), 480
    put_all(trial, begin)
    for first, rows in TABLES.items() if has_tables else ():
        trial.give_table(plus(begin, first), DISPATCHER, csv_of(rows))
    apply(trial, begin)
    trial.day = plus(begin, -31)
    enter(trial, 6, OFFICERS[0], "heard")
    trial.post("/trips", own_key(4), trip(4, plus(begin, -30), 540))
    trial.day = plus(begin, -30)
    use_days(trial, 8, 14)
    trial.day = plus(begin, -29)
    miss(trial, 4)
    trial.day = plus(begin, -16)
    use_days(trial, 8, 7)
    trial.day = plus(begin, -2)
    enter(
        trial,
        4,
        OFFICERS[0],
        "suspend",
        starts=begin,
        ends=plus(begin, 29),
        reasons="missed each trip",
    )
    trial.day, trial.minute = begin, 0
