"""Random calls from a seed. The second desk answers each as it is made, so that the next can aim at what is there."""

from __future__ import annotations

import collections
import datetime
import json
import random
from typing import Any, Self

from second import case_files
from second.case_files import Entry
from second.days import LAST_MINUTE, plus
from second.desk import Desk
from second.requests import ENTRIES
from second.trials import agency
from second.trials.agency import ADMIN, Body, CLERK, DISPATCHER, EXAMINER, OFFICERS
from second.trials.calls import ADMINS_KEY, TRAVEL, Call, wanted_reply

FIRST_BEGIN, DAYS_OF_BEGINS = datetime.date(2024, 1, 1), 3000
ONE_WRITE_COMES_AGAIN_IN, ONE_IS_SPOILT_IN, ONE_HAS_ANY_KEY_IN, ONE_NUMBER_IS_LOW_IN = 8, 22, 14, 24
DAYS_OF_A_PAUSE = 350
# What may be asked: a method, a path, the keys of those who mostly ask, and a body or none.
Asked = tuple[str, str, list[str], Body | None]
NO_KEYS, LONGEST_STEP = ["nobody", "Abc", "hell"], 55
REASONS = ["walks to the stop", '~ " \\ /', "x"]
# How often each kind is asked for at a small agency, and at one that is nearly full.
OFTEN = {
    "book": 14,
    "change": 5,
    "cancel": 2.5,
    "outcome": 3,
    "trips": 1,
    "manifest": 1.2,
    "sheet": 0.4,
    "export": 0.4,
    "standing": 0.4,
    "letter": 0.4,
    "entry": 1.5,
    "caller": 0.4,
    "policy": 0.3,
    "place": 0.3,
    "route": 0.2,
    "put_rider": 0.4,
    "vehicle": 1.2,
}
OFTEN_IN_THE_OFFICE = {
    "book": 2,
    "change": 0.5,
    "cancel": 0.5,
    "outcome": 1,
    "trips": 0.5,
    "manifest": 1,
    "sheet": 0.3,
    "export": 0.5,
    "standing": 3,
    "letter": 3,
    "entry": 14,
    "caller": 4,
    "policy": 1,
    "place": 3,
    "route": 3,
    "put_rider": 3,
    "vehicle": 4,
}
# How many of each there are at an agency that is nearly full.
NEARLY_FULL = {
    "callers": 998,
    "places": 98,
    "routes": 49,
    "vehicles": 49,
    "versions": 19,
    "entries": 198,
}


class Trial:
    """Calls and the replies that the second desk gives them."""

    def __init__(self, seed: int) -> None:
        self.chance, self.desk = random.Random(seed), Desk(ADMINS_KEY)
        self.day, self.minute, self.number = FIRST_BEGIN, 0, 0
        self.calls: list[Call] = []
        self.replies: list[bytes | str] = []
        # (the last accepted write of each key)
        self.accepted: dict[str, Call] = {}
        self.seen: collections.Counter[str] = collections.Counter()
        self.kinds: collections.Counter[str] = collections.Counter()

    def call(self, call: Call) -> bytes | str:
        """Makes the call, and keeps what is told."""
        reply = wanted_reply(self.desk, call)
        self.calls.append(call)
        self.replies.append(reply)
        is_accepted = reply == "done" or reply[:12] == b"HTTP/1.1 200"
        if is_accepted and call.number is not None:
            self.accepted[call.key] = call
        return reply

    def next_number(self) -> str:
        self.number += 1
        return str(self.number)

    def post(self, path: str, key: str, body: Any) -> bytes | str:
        return self.call(
            Call(
                str(self.day), self.minute, "POST", path, key, self.next_number(), in_one_line(body)
            )
        )

    def get(self, path: str, key: str) -> bytes | str:
        return self.call(Call(str(self.day), self.minute, "GET", path, key, None, ""))

    def give_table(self, first: datetime.date, key: str, csv: str) -> bytes | str:
        return self.call(
            Call(str(self.day), self.minute, TRAVEL, str(first), key, self.next_number(), csv)
        )


def in_one_line(body: Any) -> str:
    return json.dumps(body, separators=(",", ":"), default=str)


def name_of(reply: bytes | str) -> str:
    """What a reply is counted under: the name of its rule, or that it was accepted."""
    if isinstance(reply, str):
        return reply
    body = reply.partition(b"\r\n\r\n")[2]
    return str(json.loads(body)["denied"]) if body.startswith(b'{"denied"') else "accepted"


# Bodies.


def some_place(chance: random.Random) -> int:
    """A place, now and then one that is not served or not there."""
    return chance.choices([1, 2, 3, 4, 5, 6, 7], [8, 8, 8, 8, 4, 4, 1])[0]


def some_wish(chance: random.Random, today: datetime.date, has_tables: bool) -> Body:
    start = some_place(chance)
    ahead = chance.randint(0, 17) if chance.random() < 0.15 else chance.randint(1, 4)
    minute = chance.randint(0, LAST_MINUTE) if chance.random() < 0.08 else chance.randint(440, 1000)
    by = chance.choice([None, None, min(LAST_MINUTE, minute + chance.randint(0, 150))])
    return {
        "day": plus(today, ahead),
        "wish": minute,
        "from": start,
        "to": some_place(chance) if has_tables or chance.random() < 0.15 else start,
        "by": by,
        "attendant": chance.random() < 0.15,
        "companions": chance.choices([0, 1, 2, 255], [30, 8, 2, 1])[0],
    }


def some_conditions(chance: random.Random) -> list[str]:
    texts = [
        "always",
        "nolift",
        f"farther:{chance.randint(1, 20_000)}",
        "months:2,4,6",
        f"months:{chance.randint(1, 12)}",
    ]
    return [chance.choice(texts) for _ in range(chance.randint(1, 4))]


def some_entry(chance: random.Random, kind: str, file: list[Entry], today: datetime.date) -> Body:
    """The fields of an entry of this kind, for a case file."""
    fields: Body = {"entry": kind}
    if kind in ("grant", "appeal-granted"):
        fields.update(
            until=plus(today, chance.choice([-1, -1, -1, 0, 20, 200])),
            conditions=some_conditions(chance),
        )
    if kind in ("refuse", "appeal-denied", "suspend"):
        fields.update(reasons=chance.choice(REASONS))
    if kind == "notice":
        fields.update(basis=chance.choice(REASONS))
    if kind == "appeal":
        places = [place for place, it in enumerate(file) if it.kind in ("refuse", "suspend")]
        fields.update(against=chance.choice([*places[-2:], *places[-2:], chance.randint(0, 9)]))
    if kind == "suspend":
        starts = plus(today, chance.choice([0, 1, 1, 2, 6]))
        fields.update(starts=starts, ends=plus(starts, chance.choice([-1, 0, 10, 29, 30])))
    return fields


def due_entries(file: list[Entry]) -> list[str]:
    """The kinds of entries that a case file waits for."""
    if case_files.unanswered(file) is not None:
        return ["grant", "grant", "refuse", "complete"]
    if case_files.pending(file) is not None:
        return ["heard", "appeal-granted", "appeal-denied", "overturn"]
    return "complete complete complete complete appeal notice notice-heard suspend".split()


ENTERING = {
    "complete": [CLERK],
    "notice": [CLERK],
    "grant": [EXAMINER],
    "refuse": [EXAMINER],
    "appeal": [CLERK],
}


class Random(Trial):
    """Random calls at a small agency."""

    def __init__(
        self,
        seed: int,
        weights: dict[str, float],
        has_tables: bool = False,
        has_pause: bool = False,
    ) -> None:
        super().__init__(seed)
        self.weights, self.has_tables, self.has_pause = weights, has_tables, has_pause
        self.begin = plus(FIRST_BEGIN, self.chance.randint(0, DAYS_OF_BEGINS))

    # What may be asked.

    def rider(self) -> int:
        return self.chance.choices(range(1, 12), [2, 3, 3, 3, 2, 2, 3, 3, 2, 1, 1])[0]

    def book(self) -> Asked:
        rider = self.rider()
        wish = some_wish(self.chance, self.day, self.has_tables)
        return (
            "POST",
            "/trips",
            [CLERK, DISPATCHER, agency.own_key(rider)],
            {"rider": rider, **wish},
        )

    def trip(self, day: datetime.date) -> int:
        """The number of a trip of a day or one of the last ones, mostly booked, and now and then of one that is not there."""
        last = self.desk.last_trip
        on_day = [
            it.number
            for it in self.desk.trips.values()
            if it.wish.day == day and it.status == "booked"
        ]
        pick = self.chance.random()
        if pick < 0.08:
            return last + 1
        return (
            self.chance.choice(on_day)
            if on_day and pick < 0.8
            else self.chance.randint(max(1, last - 12), max(1, last))
        )

    def keys_for_trip(self, number: int) -> list[str]:
        trip = self.desk.trips.get(number)
        return [CLERK, DISPATCHER, agency.own_key(trip.rider if trip else 1)]

    def change(self) -> Asked:
        number = self.trip(plus(self.day, self.chance.randint(1, 3)))
        wish, there = some_wish(self.chance, self.day, self.has_tables), self.desk.trips.get(number)
        if there and self.chance.random() < 0.5:
            old = there.wish
            wish = {
                **wish,
                "day": old.day,
                "from": old.origin,
                "to": old.goal,
                "by": old.by,
                "companions": old.companions,
            }
        return "POST", f"/trips/{number}/change", self.keys_for_trip(number), wish

    def cancel(self) -> Asked:
        """A trip of today at its window's first minute or the one before, where that is still to come; else some trip."""
        number = self.trip(plus(self.day, self.chance.randint(0, 2)))
        there = self.desk.trips.get(number)
        if there and there.wish.day == self.day and self.minute < there.window[0] - 1:
            self.minute = there.window[0] - self.chance.randint(0, 1)
        return "POST", f"/trips/{number}/cancel", self.keys_for_trip(number), {}

    def outcome(self) -> Asked:
        number = self.trip(plus(self.day, self.chance.choice([0, 0, 0, 1])))
        trip = self.desk.trips.get(number)
        outcome = self.chance.choice(["ridden", "missed-rider", "missed-operator"])
        keys = [agency.drivers_key(trip.vehicle if trip else 1), DISPATCHER]
        return "POST", f"/trips/{number}/outcome", keys, {"outcome": outcome}

    def trips(self) -> Asked:
        rider = self.rider()
        return "GET", f"/riders/{rider}/trips", [CLERK, DISPATCHER, agency.own_key(rider)], None

    def entry(self) -> Asked:
        rider = self.chance.choice([1, 2, 4, 5, 5, 6, 6, 7, 10])
        kind = self.chance.choice(
            [*ENTRIES]
            if self.chance.random() < 0.4
            else due_entries(self.desk.files.get(rider, []))
        )
        keys = [agency.own_key(rider), CLERK] if kind == "appeal" else ENTERING.get(kind, OFFICERS)
        body = some_entry(self.chance, kind, self.desk.files.get(rider, []), self.day)
        return "POST", f"/riders/{rider}/entries", keys, body

    def caller(self) -> Asked:
        """A caller of few numbers and few keys, so that some keys are had already."""
        number = self.chance.choice([*range(40, 47), 2001, 2002, 2003])
        role = self.chance.choice(
            ["rider", "clerk", "examiner", "officer", "dispatcher", "driver", "admin"]
        )
        subject = self.chance.choice([1, 2, 4, 7, 60]) if role in ("rider", "driver") else 0
        body = {
            "id": number,
            "role": role,
            "subject": subject,
            "key": f"spare-{self.chance.randint(40, 46)}",
        }
        return "POST", "/callers", [ADMIN], body

    def policy(self) -> Asked:
        return "POST", "/policy", [ADMIN], self.chance.choice(agency.POLICIES)

    def place(self) -> Asked:
        number = self.chance.choice([1, 3, 6, self.chance.randint(7, 130)])
        body = {
            "id": number,
            "x": self.chance.randint(0, 30_000),
            "y": self.chance.randint(-5000, 20_000),
            "core": False,
        }
        # (place 7 is wished for, and is not there)
        return "POST", "/places", [ADMIN], {**body, "id": 8 if number == 7 else number}

    def route(self) -> Asked:
        ends = [
            [self.chance.randint(-10_000, 40_000), self.chance.randint(-10_000, 20_000)]
            for _ in range(self.chance.randint(2, 5))
        ]
        body = {
            "id": self.chance.randint(3, 60),
            "width": self.chance.randint(3960, 7920),
            "points": ends,
        }
        days = self.chance.sample(agency.EACH_DAY, self.chance.randint(0, 3))
        body.update(
            accessible=self.chance.random() < 0.5,
            days=days,
            first=self.chance.randint(0, 700),
            last=self.chance.randint(700, 1439),
        )
        return "POST", "/routes", [ADMIN], body

    def put_rider(self) -> Asked:
        rider = self.rider()
        kind = self.chance.choice(
            [
                agency.RIDERS.get(rider, "resident"),
                agency.RIDERS.get(rider, "resident"),
                "visitor",
                "resident",
            ]
        )
        rider = rider if rider < 11 else self.chance.randint(100, 120)
        return (
            "POST",
            "/riders",
            [CLERK],
            {
                "id": rider,
                "kind": kind,
                "attendant": self.chance.random() < 0.4,
                **self.wheelchair(),
            },
        )

    def wheelchair(self) -> Body:
        """The mark of a rider, which may be left out."""
        return self.chance.choice(
            [
                {},
                {"wheelchair": None},
                {"wheelchair": False},
                {"wheelchair": True},
                {"wheelchair": True},
            ]
        )

    def vehicle(self) -> Asked:
        """A version from a day on, on which trips may stand."""
        number = self.chance.choice([1, 2, 2, 3, 4, 5, 200, self.chance.randint(6, 60)])
        first = plus(self.day, self.chance.choice([0, 0, 2, 2, 6, 16]))
        opens = self.chance.randint(0, 600)
        body = {
            "id": number,
            "from_day": first,
            "days": self.chance.sample(agency.EACH_DAY, self.chance.randint(4, 7)),
        }
        body.update(
            depot=some_place(self.chance),
            capacity=self.chance.randint(1, 5),
            opens=opens,
            closes=self.chance.randint(900, 1439),
        )
        return (
            "POST",
            "/vehicles",
            [DISPATCHER],
            {**body, "duration": self.chance.randint(60, 1439), **self.chairs()},
        )

    def chairs(self) -> Body:
        """The wheelchair places of a vehicle, which may be left out."""
        return self.chance.choice([{}, {"chairs": None}, *({"chairs": it} for it in (0, 1, 2, 10))])

    def standing(self) -> Asked:
        rider, day = self.rider(), plus(self.day, self.chance.randint(-20, 40))
        return (
            "GET",
            f"/riders/{rider}/standing/{day}",
            [CLERK, EXAMINER, OFFICERS[0], agency.own_key(rider)],
            None,
        )

    def letter(self) -> Asked:
        rider = self.rider()
        place = self.chance.randint(0, max(3, len(self.desk.files.get(rider, []))))
        return (
            "GET",
            f"/riders/{rider}/letters/{place}",
            [CLERK, EXAMINER, OFFICERS[1], agency.own_key(rider)],
            None,
        )

    def manifest(self) -> Asked:
        number, day = self.chance.choice([1, 1, 2, 2, 3, 3, 4, 5, 99]), plus(
            self.day, self.chance.randint(0, 3)
        )
        return (
            "GET",
            f"/vehicles/{number}/manifest/{day}",
            [agency.drivers_key(number), DISPATCHER],
            None,
        )

    def sheet(self) -> Asked:
        return "GET", f"/days/{plus(self.day, self.chance.randint(0, 4))}/sheet", [DISPATCHER], None

    def export(self) -> Asked:
        return (
            "GET",
            f"/days/{plus(self.day, self.chance.randint(-1, 4))}/trips.csv",
            [DISPATCHER],
            None,
        )

    # How calls are made of it.

    def any_key(self) -> str:
        keys = [ADMIN, CLERK, DISPATCHER, EXAMINER, *OFFICERS, "spare-41", "spare-44", *NO_KEYS]
        keys += [agency.own_key(rider) for rider in agency.RIDERS] + [
            agency.drivers_key(vehicle) for vehicle in (1, 2, 3)
        ]
        return self.chance.choice(keys)

    def low_number(self) -> str:
        return str(max(0, self.number - self.chance.randint(0, 40)))

    def table(self) -> None:
        """A travel table from a day on, after all trips or not."""
        rows = self.chance.choice(
            [agency.TABLES[-50], agency.TABLES[5], self.chance.sample(agency.TABLES[-50], 12)]
        )
        key = self.any_key() if self.chance.random() < 0.2 else DISPATCHER
        self.give_table(
            plus(self.day, self.chance.choice([0, 3, 16, 30])), key, agency.csv_of(rows)
        )
        self.count("travel")

    def fresh(self, kind: str) -> Call:
        """A call of this kind that was not made before."""
        method, path, keys, body = getattr(self, kind)()
        key = (
            self.any_key()
            if self.chance.randrange(ONE_HAS_ANY_KEY_IN) == 0
            else self.chance.choice(keys)
        )
        number = None
        if body is not None:
            number = (
                self.low_number()
                if self.chance.randrange(ONE_NUMBER_IS_LOW_IN) == 0
                else self.next_number()
            )
        return Call(
            str(self.day),
            self.minute,
            method,
            path,
            key,
            number,
            "" if body is None else in_one_line(body),
        )

    def spoilt(self, call: Call) -> Call:
        """The call with something in it that is not taken."""
        spoil = self.chance.choice(["path", "method", "json", "number", "field", "field"])
        if spoil == "path":
            return call._replace(
                path=self.chance.choice(
                    ["/trip", "/trips/0/cancel", f"{call.path}/", "/days/2025-02-30/sheet"]
                )
            )
        if spoil == "method" or call.method == "GET":
            return call._replace(
                method="POST" if call.method == "GET" else "GET",
                number=call.number or self.next_number(),
            )
        if spoil == "json":
            return call._replace(body=self.chance.choice(['{"id":}', "{1:2}", "{}}", '{"a":01}']))
        fields = json.loads(call.body)
        if spoil == "number" or not fields:
            return call._replace(number=self.chance.choice([None, "4294967296", "12345678901"]))
        name = self.chance.choice([*fields])
        value = self.chance.choice([-1, 4_294_967_296, "x", None, [], [[]], 1.5, {}])
        return call._replace(body=in_one_line({**fields, name: value}))

    def repeat(self) -> Call:
        """The last accepted write of some key once more, now: as it was, spelled anew, with another number or another body."""
        made = [it for it in self.accepted.values() if it.method == "POST"]
        call = self.chance.choice(made)._replace(day=str(self.day), minute=self.minute)
        way = self.chance.choices(["same", "anew", "number", "body"], [12, 4, 2, 2])[0]
        fields = json.loads(call.body)
        if way == "anew":
            turned = {**dict(reversed(fields.items())), "more": [1, {"a": None}]}
            return call._replace(body=json.dumps(turned), number=f"0{call.number}")
        if way == "number":
            return call._replace(number=self.low_number())
        if way == "body" and fields:
            name = self.chance.choice([*fields])
            return call._replace(body=in_one_line({**fields, name: 1 if fields[name] != 1 else 2}))
        return call

    def later(self) -> None:
        minutes = self.minute + self.chance.randint(0, LONGEST_STEP)
        self.day, self.minute = plus(self.day, minutes // 1440), minutes % 1440

    def count(self, kind: str, is_repeat: bool = False) -> None:
        reply = self.replies[-1]
        name = name_of(reply)
        path = self.calls[-1].path
        self.kinds[
            "trips" if path.startswith("/trips") or path.endswith("/trips") else "others"
        ] += 1
        self.seen[name if name not in ("accepted", "done") else f"{kind}, accepted"] += 1
        if is_repeat and name == "accepted":
            self.seen["again"] += 1
        if (
            kind in ("book", "change")
            and isinstance(reply, bytes)
            and name == "accepted"
            and not is_repeat
        ):
            self.seen["shared"] += self.is_shared(
                json.loads(reply.partition(b"\r\n\r\n")[2])["trip"]
            )

    def is_shared(self, number: int) -> bool:
        """Whether the ride of a trip goes over another's stop."""
        trip = self.desk.trips[number]
        stops = [it for it, _ in self.desk.stops.get((trip.vehicle, trip.wish.day), [])]
        return number in stops and stops[stops.index(number) + 1] != number

    def turn(self) -> None:
        """One random call."""
        self.later()
        kinds = [*self.weights]
        kind = self.chance.choices(kinds, [self.weights[it] for it in kinds])[0]
        if kind == "table":
            self.table()
            return
        is_repeat = self.chance.randrange(ONE_WRITE_COMES_AGAIN_IN) == 0
        call = self.repeat() if is_repeat else self.fresh(kind)
        if not is_repeat and self.chance.randrange(ONE_IS_SPOILT_IN) == 0:
            call = self.spoilt(call)
        self.call(call)
        self.count(kind, is_repeat)

    def set_up(self) -> None:
        agency.set_up(self, self.begin, self.has_tables)

    def run(self, count: int) -> Self:
        """The agency, and so many calls after it."""
        self.set_up()
        refused = [
            call
            for call, reply in zip(self.calls, self.replies)
            if name_of(reply) not in ("accepted", "done")
        ]
        assert not refused, f"the agency is not made: {refused[0]}"
        for turn in range(count):
            if self.has_pause and turn == count // 2:
                self.day = plus(self.day, DAYS_OF_A_PAUSE)
            self.turn()
        return self


class NearlyFull(Random):
    """Random calls of the office at an agency that has nearly all that it may have."""

    def set_up(self) -> None:
        super().set_up()
        desk, most = self.desk, NEARLY_FULL
        for number in range(200, 200 + most["places"] - len(desk.places)):
            self.post("/places", ADMIN, {"id": number, "x": number, "y": 0, "core": False})
        for number in range(200, 200 + most["routes"] - len(desk.routes)):
            self.post("/routes", ADMIN, {**agency.LINES[1], "id": number})
        vehicle = {**agency.VEHICLES[4], "days": [7], "from_day": self.day}
        for number in range(200, 200 + most["vehicles"] - len(desk.vehicles)):
            self.post("/vehicles", DISPATCHER, {**vehicle, "id": number})
        for ahead in range(most["versions"]):
            self.post(
                "/vehicles",
                DISPATCHER,
                {**vehicle, "id": 200, "from_day": plus(self.day, ahead - most["versions"])},
            )
        for number in range(3000, 3000 + most["callers"] - len(desk.callers)):
            self.post(
                "/callers",
                ADMIN,
                {"id": number, "role": "clerk", "subject": 0, "key": f"clerk-{number}"},
            )
        for _ in range(most["entries"] // 2):
            agency.enter(self, 10, CLERK, "complete")
            agency.enter(self, 10, EXAMINER, "refuse", reasons="x")
