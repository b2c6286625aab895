"""The made past of the demonstration: who applied, what was decided, which trips were booked, and how they ended.

Days are counted from today. The trips are those of two weeks that a desk booked once (recording.py, weeks.csv). Here
they come again week after week. The desk judges all of it when it opens the file: it refuses rows of no sound state.
"""

from __future__ import annotations

import csv
import datetime
import os
import random
from collections.abc import Iterator
from typing import Any, NamedTuple

from desk_tools import law
from desk_tools.tables import ENTRIES
from desk_tools.days import clock_of_twelve as clock
from desk_tools.demo import town

HERE = os.path.dirname(os.path.realpath(__file__))
WEEKS = f"{HERE}/weeks.csv"
FIRST_TRIPS, LAST_TRIPS = -21, 10

# The callers: number and role, or number and what they are of.
STAFF = {
    "admin": (1, "admin"),
    "clerk": (2, "clerk"),
    "examiner": (3, "examiner"),
    "officer": (4, "officer"),
    "second officer": (5, "officer"),
    "dispatcher": (6, "dispatcher"),
}
DRIVERS = {f"driver {van}": (10 + van, van) for van, *_ in town.VANS}
RIDERS_WITH_KEYS = {
    f"rider {rider}": (number, rider) for number, rider in ((21, 104), (22, 108), (23, 110))
}
CLERK, EXAMINER, OFFICER = 2, 3, 4

# Riders with a story of their own.
OVERDUE, GRANTED_ON_APPEAL, UNHEARD, REFUSED, HEARD = 110, 116, 122, 126, 131
SUSPENDED, NOTICED, MISSING = 106, 120, 134
WAITING = {
    279: -28,
    280: -law.DAYS_UNTIL_PRESUMED,
    281: -law.DAYS_UNTIL_PRESUMED,
    282: -14,
    283: -13,
    284: -10,
    285: -7,
    286: -6,
    287: -5,
    288: -2,
    289: 0,
    290: 0,
}
ENDED = {140: -5, 145: -12, 150: -3}
REASONS = {
    OVERDUE: "You told us that you board buses by the lift, and you named the lines that you take to work.",
    GRANTED_ON_APPEAL: "You wrote that you walk to the bus stop at Main Street in summer, and ride Line 1 from there.",
    UNHEARD: "Your form and your doctor's note name no condition that keeps you from a bus. Please tell us of any.",
    REFUSED: "You finished travel training, and rode Lines 1 and 3 by yourself on the last two days of it.",
    HEARD: "You told us that you ride Line 1 to work and back each day, and that you get to its stop by yourself.",
}
# So many bytes the desk takes as reasons.
MOST_WORDS = 500
# On which days such riders miss each trip, and until when they have any.
MISSED = {SUSPENDED: range(-21, -14), NOTICED: range(-14, -7), MISSING: range(-7, 0)}
LAST_RIDE = {SUSPENDED: -9, **ENDED}


class Entry(NamedTuple):
    """An entry of a case file. The days are counted from today; `a` is a day, or what an appeal is
    against."""

    kind: str
    day: int
    author: int
    a: int | None = None
    b: int | None = None
    conditions: str = ""
    words: str = ""


KINDS = {name: number for number, name in enumerate(ENTRIES)}


class Trip(NamedTuple):
    """A trip of the recorded weeks. Its pickup and drop are places in the route of its van; none
    where it was cancelled."""

    week: int
    weekday: int
    rider: Any
    wish: int
    origin: int
    goal: int
    by: int | None
    attendant: Any
    companions: int
    fare: int
    service: int
    ride: Any
    vehicle: int
    window_from: int
    window_to: int
    chair: Any
    pickup: Any
    drop: Any


BOOKED, CANCELLED, RIDDEN, MISSED_BY_RIDER, MISSED_BY_OPERATOR = range(5)


def granted(number: int) -> Entry:
    """The grant of a rider of whom nothing else is told. Who goes to dialysis or to work rides always."""
    chance, rider = random.Random(number), town.rider_of(number, "A B")
    conditions = chance.choice(
        ["nolift", "farther:2640", "months:1,2,3,11,12", "months:1,2,12;farther:5280"]
    )
    if any(it.by for it in rider.outings) or chance.random() < 0.75:
        conditions = "always"
    until = ENDED.get(number, chance.choice([30, 45, 70, 120, 200, 280, 310]))
    return Entry("grant", -49, EXAMINER, until, None, conditions)


def entries_of(number: int, today: datetime.date) -> list[Entry]:
    """The case file of a resident, as of a day."""
    if number in WAITING:
        return [Entry("complete", WAITING[number], CLERK)]
    files = [Entry("complete", -63, CLERK)]
    if number in REASONS:
        return [*files, Entry("refuse", -49, EXAMINER, words=REASONS[number]), *appeals_of(number)]
    return [*files, granted(number), *misses_of(number, today)]


def appeals_of(number: int) -> list[Entry]:
    return {
        OVERDUE: [Entry("appeal", -42, CLERK, 1), Entry("heard", -35, OFFICER)],
        GRANTED_ON_APPEAL: [
            Entry("appeal", -42, CLERK, 1),
            Entry("heard", -28, OFFICER),
            Entry("appeal granted", -21, OFFICER, 200, None, "nolift"),
        ],
        HEARD: [Entry("appeal", -14, CLERK, 1), Entry("heard", -7, OFFICER)],
        UNHEARD: [Entry("appeal", -7, CLERK, 1)],
    }.get(number, [])


def misses_of(number: int, today: datetime.date) -> list[Entry]:
    if number == SUSPENDED:
        return [
            Entry("notice", -14, CLERK, words=basis_of(number, today, -3, 11)),
            Entry("notice heard", -8, OFFICER),
            Entry(
                "suspend",
                -7,
                OFFICER,
                -3,
                11,
                words="You missed each trip of a week. Each time the van came within the window and waited.",
            ),
        ]
    return (
        [Entry("notice", -5, CLERK, words=basis_of(number, today, 15, 29))]
        if number == NOTICED
        else []
    )


def basis_of(number: int, today: datetime.date, starts: int, ends: int) -> str:
    """What a notice says, as the pages write it: the missed trips of the week, as far as there is room, and the days proposed."""
    weeks = recorded()
    days = [today + datetime.timedelta(days=it) for it in MISSED[number]]
    trips = [
        (day, it)
        for day in days
        for it in recorded_on(weeks, day)
        if it.rider == number and it.pickup is not None
    ]
    missed = [
        missed_in_words(day, it)
        for day, it in sorted(trips, key=lambda it: (it[0], it[1].window_from))
    ]
    last, first = (today + datetime.timedelta(days=it) for it in (ends, starts))
    while (
        len(
            basis := f"Missed trips (no-shows): {'; '.join(missed)}. Proposed suspension: {first} through {last}.".encode()
        )
        > MOST_WORDS
    ):
        missed.pop()
    return basis.decode()


def missed_in_words(day: datetime.date, trip: Trip) -> str:
    place = next(name for number, name, *_ in town.PLACES if number == trip.origin)
    return (
        f"{day}, pickup window {clock(trip.window_from)} to {clock(trip.window_to)}, from {place}"
    )


# Trips.


def recorded() -> dict[tuple[int, int], list[Trip]]:
    """The trips of the two recorded weeks by week and weekday."""
    weeks: dict[tuple[int, int], list[Trip]] = {}
    with open(WEEKS, encoding="ascii", newline="") as file:
        for row in csv.DictReader(file):
            trip = Trip._make(int(row[it]) if row[it] else None for it in Trip._fields)
            weeks.setdefault((trip.week, trip.weekday), []).append(trip)
    return weeks


def recorded_on(weeks: dict[tuple[int, int], list[Trip]], day: datetime.date) -> list[Trip]:
    """What is recorded for a day: one week after the other."""
    return weeks.get(((day.toordinal() - 1) // 7 % 2, day.isoweekday()), [])


def may_ride(number: int, offset: int) -> bool:
    """Whether the made past has trips of the rider on that day."""
    return offset <= LAST_RIDE.get(number, LAST_TRIPS)


def status_of(trip: Trip, offset: int, minute: int, chance: random.Random) -> int:
    """How a trip ended by that minute of today: nearly always it was ridden."""
    if trip.pickup is None:
        return CANCELLED
    if offset > 0 or offset == 0 and trip.window_to + 40 > minute:
        return BOOKED
    if offset in MISSED.get(trip.rider, ()):
        return MISSED_BY_RIDER
    turn = chance.random()
    return MISSED_BY_RIDER if turn < 0.02 else MISSED_BY_OPERATOR if turn < 0.027 else RIDDEN


def trips_between(
    today: datetime.date, minute: int, first: int, last: int
) -> Iterator[tuple[Trip, datetime.date, int]]:
    """Each trip of these days with its day and its status."""
    weeks = recorded()
    for offset in range(first, last + 1):
        day = today + datetime.timedelta(days=offset)
        chance = random.Random(day.toordinal())
        for trip in recorded_on(weeks, day):
            if may_ride(trip.rider, offset):
                yield trip, day, status_of(trip, offset, minute, chance)
