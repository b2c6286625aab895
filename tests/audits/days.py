"""Random days: trips are booked until no vehicle takes one, and the log of each refusal is followed line by line, as it is and changed.

The routes are those that the manifests show, the driving times those of the rows that were given, by relaxing. So whether a log is right
is known from docs/AUDIT.md, and from nothing that the desk's planner says.
"""

from __future__ import annotations

import collections
import datetime
import random
import re
import subprocess
import tempfile
from collections.abc import Iterable, Iterator
from typing import Any, NamedTuple

from audits import logs
from audits.over_cases import DENIED, DONE, audited, end_of, wanted_end
from second.days import LAST_MINUTE
from second.travel import least_from
from serving import (
    ADMINS_KEY,
    EACH_DAY,
    LINE,
    POLICY,
    TODAY,
    TOMORROW,
    ZONE,
    Desk,
    Refused,
    asked_in_turn,
    difference,
    ran,
)

REFUSALS, MOST_TRIPS, MOST_VEHICLES, MOST_PLACES = 3, 40, 6, 5
# Of a log's lines one in so many is changed, of one log no more than that, and one of each kind.
ONE_LINE_IN, MOST_CHANGED = 10, 10
ANOTHER = {
    **{it: logs.RAISES for it in logs.RAISES},
    **{it: [*logs.ENDS[:3]] for it in logs.ENDS[:3]},
}


class Wish(NamedTuple):
    """What is wished for, and by whom: the words of a question behind its key."""

    rider: int
    day: datetime.date
    minute: int
    origin: int
    goal: int
    by: int | None
    attendant: bool
    companions: int


class Trip(NamedTuple):
    """A trip that was booked: what was wished, and the window that was promised."""

    wish: Wish
    window: tuple[int, int]


class Facts(NamedTuple):
    """What a log is about."""

    vehicles: list[logs.Vehicle]
    asked: logs.Both
    minutes: logs.Minutes


class Found(NamedTuple):
    """A fault or None for each comparison of some days, and how often each kind of line and each answer came."""

    faults: list[str | None]
    seen: collections.Counter[str]


# A request, by its path, the key, the number and the body.
Numbered = tuple[str, str, int, dict[str, Any]]


def words_of(wish: Wish) -> list[str]:
    return [
        "radio",
        *("none" if it is None else str(int(it) if isinstance(it, bool) else it) for it in wish),
    ]


class Agency:
    """A small agency from a seed, with its trips of one day."""

    def __init__(self, seed: int) -> None:
        chance = self.chance = random.Random(seed)
        self.places = range(1, chance.randint(3, MOST_PLACES) + 1)
        self.service, self.extra_ride = chance.randint(0, 5), chance.randint(3, 30)
        # (now and then there is no way)
        is_there = chance.choice([0.35, 0.7, 1, 1])
        self.fastest: dict[int, dict[int, int]] = {}
        pairs = [(start, goal) for start in self.places for goal in self.places if start != goal]
        self.rows = {pair: chance.randint(4, 45) for pair in pairs if chance.random() < is_there}
        self.vehicles = {
            number: self.vehicle()
            for number in sorted(chance.sample(range(1, 30), chance.randint(1, MOST_VEHICLES)))
        }
        # (by rider: whether an attendant may come along, and whether the rider comes in a wheelchair)
        self.riders = {
            rider: (chance.random() < 0.4, chance.random() < 0.4) for rider in range(1, 7)
        }
        self.trips: dict[int, Trip] = {}
        self.numbers: collections.Counter[str] = collections.Counter()

    def vehicle(self) -> dict[str, Any]:
        chance, opens = self.chance, self.chance.randint(360, 600)
        closes = opens + chance.choice([chance.randint(30, 240), chance.randint(240, 660)])
        days = (
            EACH_DAY
            if chance.random() < 0.85
            else [it for it in EACH_DAY if it != TOMORROW.isoweekday()]
        )
        return {
            "days": days,
            "depot": chance.choice(self.places),
            "capacity": chance.randint(1, 4),
            "opens": opens,
            "closes": closes,
            "duration": chance.choice([chance.randint(40, 300), LAST_MINUTE]),
            "chairs": chance.choice([0, 0, 1, 2]),
        }

    def minutes(self, start: int, goal: int) -> int | None:
        """The least driving time, or None."""
        if start not in self.fastest:
            self.fastest[start] = least_from(start, self.rows)
        found = self.fastest[start].get(goal)
        return found if found is None or found <= LAST_MINUTE else None

    def wish(self) -> Wish:
        chance = self.chance
        minute, rider = chance.randint(380, 900), chance.choice([*self.riders])
        by = chance.choice([None, min(LAST_MINUTE, minute + chance.randint(0, 120))])
        attendant = self.riders[rider][0] and chance.random() < 0.4
        return Wish(
            rider,
            TOMORROW,
            minute,
            chance.choice(self.places),
            chance.choice(self.places),
            by,
            attendant,
            chance.choice([0, 0, 1]),
        )

    # Its records, and what is booked.

    def numbered(
        self, key: str, records: Iterable[tuple[str, dict[str, Any]]]
    ) -> Iterator[Numbered]:
        for path, body in records:
            self.numbers[key] += 1
            yield path, key, self.numbers[key], body

    def put(self, program: str, folder: str) -> str:
        """Makes the file, and puts all but the trips into it."""
        file, times = f"{folder}/desk.db", f"{folder}/times.csv"
        callers = [
            {"id": 2, "role": "clerk", "subject": 0, "key": "hello"},
            {"id": 3, "role": "dispatcher", "subject": 0, "key": "radio"},
        ]
        made = ran(program, "init", file, ADMINS_KEY)
        if made.returncode:
            raise Refused(f"init: {made}")
        with Desk(program, file) as desk:
            asked_in_turn(
                desk,
                self.numbered(
                    ADMINS_KEY,
                    [
                        *(("/callers", it) for it in callers),
                        (
                            "/policy",
                            {**POLICY, "service": self.service, "extra_ride": self.extra_ride},
                        ),
                        *(
                            ("/places", {"id": it, "x": 1000 * it, "y": 0, "core": False})
                            for it in self.places
                        ),
                        ("/routes", LINE),
                    ],
                ),
            )
            asked_in_turn(
                desk,
                self.numbered(
                    "hello",
                    [
                        (
                            "/riders",
                            {
                                "id": rider,
                                "kind": "visitor",
                                "attendant": attendant,
                                "wheelchair": wheelchair,
                            },
                        )
                        for rider, (attendant, wheelchair) in self.riders.items()
                    ],
                ),
            )
            asked_in_turn(
                desk,
                self.numbered(
                    "radio",
                    [
                        ("/vehicles", {"id": it, "from_day": TODAY, **one})
                        for it, one in self.vehicles.items()
                    ],
                ),
            )
        with open(times, "w", encoding="utf-8") as table:
            table.write(
                "from,to,minutes\n"
                + "".join(f"{start},{goal},{it}\n" for (start, goal), it in self.rows.items())
            )
        self.numbers["radio"] += 1
        given = ran(program, "travel", file, ZONE, "radio", self.numbers["radio"], TODAY, times)
        if given.stdout != b"done\n":
            raise Refused(f"travel: {given}")
        return file

    def book(self, desk: Desk, wish: Wish) -> bool:
        """Whether a vehicle takes the trip."""
        rider, day, minute, origin, goal, by, attendant, companions = wish
        self.numbers["radio"] += 1
        told = desk.post(
            "/trips",
            "radio",
            self.numbers["radio"],
            {
                "rider": rider,
                "day": day,
                "wish": minute,
                "from": origin,
                "to": goal,
                "by": by,
                "attendant": attendant,
                "companions": companions,
            },
        )
        if told and told.status == 200:
            self.trips[told.body["trip"]] = Trip(
                wish, (told.body["window_from"], told.body["window_to"])
            )
            return True
        if told and told.body == {"denied": "no vehicle"}:
            return False
        raise Refused(f"a trip, {wish}: {told}")

    def refused(self, desk: Desk) -> Wish | None:
        """The first wish that no vehicle takes, once those before it were booked; None where so many were."""
        for _ in range(MOST_TRIPS):
            wish = self.wish()
            if not self.book(desk, wish):
                return wish
        return None

    # What a log speaks of.

    def stops_of(self, number: int | None, wish: Wish, window: tuple[int, int]) -> logs.Both:
        chairs = int(self.riders[wish.rider][1])
        ride = (self.minutes(wish.origin, wish.goal) or 0) + self.extra_ride
        return logs.stops_of(
            number,
            wish.origin,
            wish.goal,
            window,
            wish.by,
            service=self.service,
            ride=ride,
            seats=1 + wish.companions + wish.attendant - chairs,
            chairs=chairs,
        )

    def route(self, desk: Desk, number: int) -> list[logs.Stop]:
        """The stops of a vehicle in the order of its manifest."""
        told = desk.get(f"/vehicles/{number}/manifest/{TOMORROW}", "radio")
        if not told or told.status != 200:
            raise Refused(f"the manifest of {number}: {told}")
        found = re.findall(
            r"(?m)^\d\d:\d\d (PICK|DROP) trip (\d+) rider (\d+) place (\d+) ", told.body
        )
        stops = [
            self.stops_of(int(trip), *self.trips[int(trip)])[kind == logs.DROP]
            for kind, trip, _, _ in found
        ]
        shown = [(int(rider), int(place)) for _, _, rider, place in found]
        riders = [self.trips[int(trip)].wish.rider for _, trip, _, _ in found]
        if shown != [(rider, it.place) for rider, it in zip(riders, stops)]:
            raise Refused(f"the manifest of {number} shows {shown} and not {stops}")
        return stops

    def routes(self, desk: Desk) -> Iterator[logs.Vehicle]:
        """The vehicles on duty with their routes."""
        for number, one in self.vehicles.items():
            if TOMORROW.isoweekday() in one["days"]:
                yield logs.Vehicle(
                    number,
                    one["depot"],
                    one["opens"],
                    one["closes"],
                    one["duration"],
                    one["capacity"],
                    one["chairs"],
                    self.route(desk, number),
                )

    def facts(self, vehicles: list[logs.Vehicle], wish: Wish) -> Facts:
        return Facts(
            vehicles, self.stops_of(None, wish, logs.wished_window(wish.minute)), self.minutes
        )


# Lines that are changed.


def other_number(chance: random.Random, text: bytes) -> bytes:
    """The line with one of its numbers another."""
    at = chance.randrange(text.count(b" "))
    head, *numbers = text.split(b" ")
    value = int(numbers[at]) + chance.choice([-1, 1, 1, -2, 5, 40])
    numbers[at] = b"%d" % value
    return b" ".join([head, *numbers])


def other_word(chance: random.Random, text: bytes) -> bytes:
    word, _, rest = text.partition(b" ")
    words = [it for it in ANOTHER.get(word.decode(), ["S", "NODIRECT"]) if it.encode() != word]
    return chance.choice(words).encode() + b" " * bool(rest) + rest


def other_form(chance: random.Random, text: bytes) -> bytes:
    return chance.choice(
        [
            text + b" ",
            b" " + text,
            text.lower(),
            text.replace(b" ", b" 0", 1),
            text.replace(b" ", b"  ", 1),
            text + b"\r",
            b"",
        ]
    )


def changed_line(chance: random.Random, text: bytes) -> bytes:
    """Another line in its place."""
    while True:
        way = chance.choices([other_number, other_word, other_form], [12, 3, 1])[0]
        made = way(chance, text) if b" " in text else other_form(chance, text)
        if made != text:
            return made


def changed_logs(chance: random.Random, log: bytes) -> Iterator[tuple[int, bytes, bytes]]:
    """The row of a line, what is put in its place, and the log with that alone changed, for one line in ten and one of each kind."""
    *lines, _ = log.split(b"\n")
    changed = chance.sample(range(len(lines)), min(MOST_CHANGED, -(-len(lines) // ONE_LINE_IN)))
    for word in sorted({line.split(b" ")[0] for line in lines}):
        changed.append(
            chance.choice([at for at, line in enumerate(lines) if line.split(b" ")[0] == word])
        )
    for at in sorted({*changed}):
        line = changed_line(chance, lines[at])
        yield at + 1, line, b"\n".join([*lines[:at], line, *lines[at + 1 :], b""])


# A day.


class Day:
    """The faults of an agency's day, over a file."""

    def __init__(self, program: str, folder: str, seed: int) -> None:
        self.program, self.folder, self.seed = program, folder, seed
        self.agency = Agency(seed)
        self.seen: collections.Counter[str] = collections.Counter()
        self.chance, self.file = random.Random(-seed), self.agency.put(program, folder)

    def label(self, wish: Wish) -> str:
        return f"seed {self.seed}, {' '.join(words_of(wish))}"

    def faults_of_log(
        self, vehicles: list[logs.Vehicle], wish: Wish, log: bytes, label: str
    ) -> Iterator[str | None]:
        """The program's answer to a log is the one that follows from the page."""
        answer = logs.answer(log, *self.agency.facts(vehicles, wish))
        self.seen[answer.partition(" row ")[0]] += 1
        found = audited(self.program, self.file, self.folder, words_of(wish), log)
        yield difference(f"{self.label(wish)}: {label}", wanted_end(answer), found)

    def explained(self, wish: Wish) -> subprocess.CompletedProcess[Any]:
        return ran(self.program, "explain", self.file, ZONE, *words_of(wish))

    def faults_of_refusal(self, vehicles: list[logs.Vehicle], wish: Wish) -> Iterator[str | None]:
        """The refusal has a log, which is right by the page, and the same once more."""
        run = self.explained(wish)
        yield difference(
            f"{self.label(wish)}: how explain ends", (DONE, b""), (run.returncode, run.stderr)
        )
        if run.returncode != DONE:
            return
        log = run.stdout
        self.seen.update(["refusals", *(it.decode() for it in re.findall(rb"(?m)^[A-Z]+", log))])
        yield difference(
            f"{self.label(wish)}: the log, {log!r}",
            "yes",
            logs.answer(log, *self.agency.facts(vehicles, wish)),
        )
        yield from self.faults_of_log(vehicles, wish, log, "the log")
        for row, line, changed in changed_logs(self.chance, log):
            yield from self.faults_of_log(
                vehicles, wish, changed, f"its log with the row {row} made {line!r}"
            )
        yield from self.faults_of_log(vehicles, self.agency.wish(), log, f"the log of {wish}")

    def faults_of_foretold(self) -> Iterator[str | None]:
        """What is explained of a wish is what comes of it where it is tried."""
        wish = self.agency.wish()
        run = self.explained(wish)
        with Desk(self.program, self.file) as desk:
            is_booked = self.agency.book(desk, wish)
        self.seen["foretold"] += 1
        if is_booked:
            yield difference(
                f"{self.label(wish)}: explained, and booked then",
                (DENIED, b"possible\n", b""),
                end_of(run),
            )
        else:
            is_log = run.returncode == DONE and run.stdout.startswith(b"AUDIT 1\n")
            yield None if is_log else f"{self.label(wish)}: explained, and refused then: {run}"

    def faults(self) -> Iterator[str | None]:
        for _ in range(REFUSALS):
            with Desk(self.program, self.file) as desk:
                wish = self.agency.refused(desk)
                vehicles = list(self.agency.routes(desk))
            if wish is None:
                self.seen["days without end"] += 1
                return
            yield from self.faults_of_refusal(vehicles, wish)
            yield from self.faults_of_foretold()


def found_on(program: str, seed: int) -> Found:
    """What is found on the day of a seed."""
    with tempfile.TemporaryDirectory() as folder:
        try:
            day = Day(program, folder, seed)
        except (Refused, OSError) as error:
            return Found([f"seed {seed}: {type(error).__name__}: {error}"], collections.Counter())
        faults: list[str | None] = []
        try:
            faults.extend(day.faults())
        except (Refused, OSError) as error:
            faults.append(f"seed {seed}: {type(error).__name__}: {error}")
        return Found(faults, day.seen)
