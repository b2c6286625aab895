"""Logs of refusals as docs/AUDIT.md tells them: a text is read, and each line of it is followed, with nothing of the desk's planner."""

from __future__ import annotations

import re
from collections.abc import Callable, Iterable, Iterator
from typing import NamedTuple

MOST_STOPS, LAST_MINUTE, LAST_NUMBER = 100, 1439, 4_294_967_295
FIRST, LAST = b"AUDIT 1", b"DONE"
PICKUP, DROP = "PICK", "DROP"

# The driving time between two places, or None.
Minutes = Callable[[int, int], int | None]


class Stop(NamedTuple):
    """A pickup or a drop: whose, where and when, and what its party takes. A depot's visits are of no trip."""

    trip: int | None
    kind: str | None
    place: int
    opens: int
    closes: int
    service: int
    ride: int
    seats: int
    chairs: int


class Vehicle(NamedTuple):
    """A vehicle of a day, and its stops in their order."""

    number: int
    depot: int
    opens: int
    closes: int
    duration: int
    seats: int
    chairs: int
    stops: list[Stop]


class Line(NamedTuple):
    """A line of a log."""

    word: str
    numbers: list[int]


# The pickup and the drop of a trip.
Both = tuple[Stop, Stop]

RAISES, ENDS = ["F", "A", "P", "T"], ["W", "L", "M", "S"]
# How many numbers stand after each word.
COUNTS = {"NODIRECT": 0, "CASE": 3, **dict.fromkeys(RAISES, 2), **dict.fromkeys(ENDS, 1), "S": 0}
FORM = re.compile(rb"([A-Z]+)((?: (?:0|[1-9][0-9]{0,9}))*)")


class OutOfForm(Exception):
    """A text is no log; the row of its first line that is out of form."""

    def __init__(self, row: int) -> None:
        super().__init__(row)
        self.row = row


def line_in(text: bytes) -> Line | None:
    """The line that this is, or None."""
    found = FORM.fullmatch(text)
    if not found:
        return None
    line = Line(found[1].decode(), [int(it) for it in found[2].split()])
    is_in_form = len(line.numbers) == COUNTS.get(line.word) and all(
        it <= LAST_NUMBER for it in line.numbers
    )
    return line if is_in_form and (line.word != "T" or line.numbers[0] == 0) else None


def read(text: bytes) -> list[Line]:
    """The lines between the first and the last."""
    *rows, rest = text.split(b"\n")
    lines: list[Line] = []
    for row, line in enumerate(rows, 1):
        if row > 1 and line == LAST and row == len(rows) and not rest:
            return lines
        found = line_in(line) if row > 1 else None
        if found:
            lines.append(found)
        elif row > 1 or line != FIRST:
            raise OutOfForm(row)
    raise OutOfForm(len(rows) + 1)


class Place:
    """A place of the trip in a vehicle's route, with a lower bound for each visit."""

    def __init__(self, vehicle: Vehicle, stops: list[Stop], minutes: Minutes) -> None:
        self.vehicle, self.stops, self.minutes = vehicle, stops, minutes
        depot = Stop(None, None, vehicle.depot, vehicle.opens, vehicle.closes, 0, 0, 0, 0)
        self.visits = [depot, *stops, depot]
        self.bounds = [0] * len(self.visits)

    def is_window(self, visit: int, minute: int) -> bool:
        return visit < len(self.visits) and minute <= self.visits[visit].opens

    def is_arrival(self, visit: int, minute: int) -> bool:
        if not 1 <= visit < len(self.visits):
            return False
        before = self.visits[visit - 1]
        drive = self.minutes(before.place, self.visits[visit].place)
        return drive is not None and minute <= self.bounds[visit - 1] + before.service + drive

    def is_ride(self, visit: int, minute: int) -> bool:
        if not visit < len(self.visits) or self.visits[visit].kind != PICKUP:
            return False
        pickup = self.visits[visit]
        drop = next(
            at for at, it in enumerate(self.visits) if (it.trip, it.kind) == (pickup.trip, DROP)
        )
        return minute + pickup.service + pickup.ride <= self.bounds[drop]

    def is_tour(self, _: int, minute: int) -> bool:
        return minute + self.vehicle.duration <= self.bounds[-1]

    def is_late(self, visit: int) -> bool:
        return visit < len(self.visits) and self.bounds[visit] > self.visits[visit].closes

    def is_too_full(self, count: int) -> bool:
        if count > len(self.stops):
            return False
        signs = [(1 if it.kind == PICKUP else -1, it) for it in self.stops[:count]]
        seats, chairs = sum(sign * it.seats for sign, it in signs), sum(
            sign * it.chairs for sign, it in signs
        )
        return seats > self.vehicle.seats or chairs > self.vehicle.chairs

    def is_without_way(self, visit: int) -> bool:
        return (
            visit + 1 < len(self.visits)
            and self.minutes(self.visits[visit].place, self.visits[visit + 1].place) is None
        )

    def is_too_long(self) -> bool:
        return len(self.stops) > MOST_STOPS

    RIGHT: dict[str, Callable[..., bool]] = {
        "F": is_window,
        "A": is_arrival,
        "P": is_ride,
        "T": is_tour,
        "W": is_late,
        "L": is_too_full,
        "M": is_without_way,
        "S": is_too_long,
    }

    def is_right(self, line: Line) -> bool:
        return self.RIGHT[line.word](self, *line.numbers)

    def raise_bound(self, line: Line) -> None:
        visit, minute = line.numbers
        self.bounds[visit] = max(self.bounds[visit], minute)

    def is_shown(self, lines: Iterable[Line]) -> bool:
        """Whether the next lines show by right raises and a right end that the place will not do."""
        for line in lines:
            if line.word not in self.RIGHT or not self.is_right(line):
                return False
            if line.word in ENDS:
                return True
            self.raise_bound(line)
        return False


def places_of(vehicle: Vehicle, asked: Both, minutes: Minutes) -> Iterator[tuple[Line, Place]]:
    """The opening line and the place of each case of a vehicle, in their order."""
    pickup, drop = asked
    stops = vehicle.stops
    for first in range(len(stops) + 1):
        for second in range(first, len(stops) + 1):
            route = [*stops[:first], pickup, *stops[first:second], drop, *stops[second:]]
            yield Line("CASE", [vehicle.number, first, second]), Place(vehicle, route, minutes)


def is_right(
    lines: Iterable[Line], vehicles: Iterable[Vehicle], asked: Both, minutes: Minutes
) -> bool:
    """Whether the lines show that no vehicle on duty has a place for the trip's pickup and drop.

    `minutes` gives the driving time between two places, or None.
    """
    if lines == [Line("NODIRECT", [])]:
        return minutes(asked[0].place, asked[1].place) is None
    left = iter(lines)
    for vehicle in sorted(vehicles):
        for opening, place in places_of(vehicle, asked, minutes):
            if next(left, None) != opening or not place.is_shown(left):
                return False
    return next(left, None) is None


def answer(text: bytes, vehicles: Iterable[Vehicle], asked: Both, minutes: Minutes) -> str:
    """What `desk audit` has to answer to a text where no rule denies the trip before."""
    try:
        return "yes" if is_right(read(text), vehicles, asked, minutes) else "no"
    except OutOfForm as fault:
        return f"fault 50 row {fault.row}"


def stops_of(
    trip: int | None,
    origin: int,
    goal: int,
    window: tuple[int, int],
    latest: int | None,
    **shared: int,
) -> Both:
    """A trip's pickup and its drop, which is due by the latest minute, or within the day."""
    pickup = Stop(trip, PICKUP, origin, *window, **shared)
    return pickup, Stop(trip, DROP, goal, 0, LAST_MINUTE if latest is None else latest, **shared)


def wished_window(minute: int) -> tuple[int, int]:
    return max(0, minute - 60), min(LAST_MINUTE, minute + 60)
