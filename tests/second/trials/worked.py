"""Calls whose replies were worked out by hand: each has its body, or what `desk travel` prints, written down."""

from __future__ import annotations

from typing import Any

from second.trials.agency import ADMIN, CLERK, DISPATCHER, EXAMINER, TIMES, Body, csv_of
from second.trials.calls import TRAVEL, Call
from second.trials.chance import in_one_line

FIRST, TODAY, TOMORROW, IN_TWO_DAYS = "2025-02-17", "2025-03-10", "2025-03-11", "2025-03-12"
DONE, BOOKED, OVER, UNKNOWN, FULL = (
    '{"done":true}',
    '{"denied":"desk.booked"}',
    '{"denied":"desk.over"}',
    '{"denied":"desk.unknown"}',
    '{"denied":"desk.full"}',
)
TABLE = csv_of(TIMES)
POLICY = {
    "base": 175,
    "transfer": 50,
    "fare": 400,
    "service": 2,
    "extra_ride": 20,
    "min_missed": 1,
    "percent": 100,
    "span_days": 1,
}
LINE = {
    "id": 1,
    "width": 3960,
    "points": [[0, 0], [9000, 0], [20000, 0]],
    "accessible": True,
    "days": [1, 2, 3, 4, 5, 6, 7],
    "first": 0,
    "last": 1439,
}
GRANT = {"entry": "grant", "until": "2026-02-17", "conditions": ["always"]}
ONE_RIDE = """VEHICLE 1 DAY 2025-03-11
08:00 DEPOT 1
08:20 PICK trip 1 rider 7 place 2 load 1 window 08:05-08:35
08:52 DROP trip 1 rider 7 place 3 load 0
09:34 DEPOT 1
"""
SHARED_RIDE = """VEHICLE 1 DAY 2025-03-11
08:00 DEPOT 1
08:32 PICK trip 1 rider 7 place 2 load 1 window 08:05-08:35
08:55 PICK trip 2 rider 9 place 4 load 2 window 08:55-09:10
09:22 DROP trip 2 rider 9 place 3 load 1
09:24 DROP trip 1 rider 7 place 3 load 0
10:06 DEPOT 1
"""
TWO_RIDES = """VEHICLE 1 DAY 2025-03-11
08:00 DEPOT 1
08:20 PICK trip 1 rider 7 place 2 load 1 window 08:05-08:35
08:52 DROP trip 1 rider 7 place 3 load 0
09:20 PICK trip 3 rider 9 place 4 load 1 window 09:20-09:35
09:47 DROP trip 3 rider 9 place 3 load 0
10:29 DEPOT 1
"""
# The vehicle leaves as late as a day of 100 minutes makes it.
SHORT_DAY = """VEHICLE 1 DAY 2025-03-12
08:34 DEPOT 1
09:00 PICK trip 5 rider 9 place 2 load 1 window 09:00-09:15
09:32 DROP trip 5 rider 9 place 3 load 0
10:14 DEPOT 1
"""


class Listed:
    """Calls with the bodies that are wanted, the numbers of their writes rising."""

    def __init__(self) -> None:
        self.calls: list[Call] = []
        self.wanted: list[str] = []

    def add(
        self, day: str, minute: int, method: str, path: str, key: str, body: str, wanted: str
    ) -> None:
        number = None if method == "GET" else str(len(self.calls) + 1)
        self.calls.append(Call(day, minute, method, path, key, number, body))
        self.wanted.append(wanted)

    def post(
        self, day: str, minute: int, path: str, key: str, body: Any, wanted: str = DONE
    ) -> None:
        self.add(day, minute, "POST", path, key, in_one_line(body), wanted)

    def get(self, day: str, minute: int, path: str, key: str, wanted: str) -> None:
        self.add(day, minute, "GET", path, key, "", wanted)

    def table(self, day: str, first: str, csv: str, wanted: str = "done") -> None:
        self.add(day, 480, TRAVEL, first, DISPATCHER, csv, wanted)


def van(first: str, duration: int) -> Body:
    return {
        "id": 1,
        "from_day": first,
        "days": [1, 2, 3, 4, 5, 6, 7],
        "depot": 1,
        "capacity": 4,
        "opens": 480,
        "closes": 1020,
        "duration": duration,
    }


def wish(day: str, minute: int, start: int, by: int | None = None) -> Body:
    return {
        "day": day,
        "wish": minute,
        "from": start,
        "to": 3,
        "by": by,
        "attendant": False,
        "companions": 0,
    }


def confirmed(trip: int, first: int, last: int) -> str:
    return f'{{"due":350,"fare":350,"trip":{trip},"vehicle":1,"window_from":{first},"window_to":{last}}}'


def told(trip: int, day: str) -> str:
    return (
        '{"trips":[{"attendant":false,"by":null,"companions":0,"day":"%s","due":350,"fare":350,"from":2,"status":"booked","to":3,'
        '"trip":%d,"vehicle":1,"window_from":485,"window_to":515,"wish":540}]}' % (day, trip)
    )


def set_up(listed: Listed) -> None:
    for number, role, key in (
        (2, "clerk", CLERK),
        (3, "dispatcher", DISPATCHER),
        (4, "examiner", EXAMINER),
    ):
        listed.post(
            FIRST, 480, "/callers", ADMIN, {"id": number, "role": role, "subject": 0, "key": key}
        )
    listed.post(FIRST, 480, "/policy", ADMIN, POLICY)
    for number in (1, 2, 3, 4):
        listed.post(FIRST, 480, "/places", ADMIN, {"id": number, "x": 1000, "y": 0, "core": False})
    listed.post(FIRST, 480, "/routes", ADMIN, LINE)
    for rider in (7, 8, 9):
        listed.post(
            FIRST, 480, "/riders", CLERK, {"id": rider, "kind": "resident", "attendant": False}
        )
        listed.post(
            FIRST, 480, f"/riders/{rider}/entries", CLERK, {"entry": "complete"}, '{"entered":0}'
        )
    for rider in (7, 9):
        listed.post(FIRST, 480, f"/riders/{rider}/entries", EXAMINER, GRANT, '{"entered":1}')
    listed.post(FIRST, 480, "/vehicles", DISPATCHER, van(FIRST, 480))
    listed.table(FIRST, FIRST, TABLE)


def worked_day() -> Listed:
    """Trips with driving times that are booked, changed and cancelled, worked out minute by minute."""
    listed = Listed()
    set_up(listed)

    def book(now: tuple[str, int], rider: int, wished: Body, wanted: str) -> None:
        listed.post(*now, "/trips", CLERK, {"rider": rider, **wished}, wanted)

    def cancel(now: tuple[str, int], trip: int, wanted: str) -> None:
        listed.post(*now, f"/trips/{trip}/cancel", CLERK, {}, wanted)

    def manifest(day: str, wanted: str) -> None:
        listed.get(TODAY, 480, f"/vehicles/1/manifest/{day}", DISPATCHER, wanted)

    today = (TODAY, 480)
    book(today, 7, wish(TOMORROW, 540, 2), confirmed(1, 485, 515))
    manifest(TOMORROW, ONE_RIDE)
    listed.post(
        *today, "/trips/1/change", CLERK, wish(TOMORROW, 540, 2, 510), '{"denied":"no vehicle"}'
    )
    listed.get(*today, "/riders/7/trips", CLERK, told(1, TOMORROW))
    manifest(TOMORROW, ONE_RIDE)
    listed.post(*today, "/vehicles", DISPATCHER, van(TOMORROW, 480), BOOKED)
    listed.post(*today, "/vehicles", DISPATCHER, van(IN_TWO_DAYS, 100))
    listed.table(TODAY, TOMORROW, TABLE, "desk.booked")
    listed.table(TODAY, IN_TWO_DAYS, TABLE)
    book(today, 9, wish(TOMORROW, 595, 4), confirmed(2, 535, 550))
    manifest(TOMORROW, SHARED_RIDE)
    cancel(today, 2, DONE)
    manifest(TOMORROW, ONE_RIDE)
    book(today, 9, wish(TOMORROW, 620, 4), confirmed(3, 560, 575))
    manifest(TOMORROW, TWO_RIDES)
    cancel(today, 3, DONE)
    book(today, 9, wish(TOMORROW, 540, 2), confirmed(4, 485, 515))
    book(today, 9, wish(IN_TWO_DAYS, 600, 2), confirmed(5, 540, 555))
    manifest(IN_TWO_DAYS, SHORT_DAY)
    listed.post(TOMORROW, 0, "/trips/1/change", CLERK, wish(TOMORROW, 540, 2, 600), OVER)
    book((TOMORROW, 0), 8, wish("2025-03-14", 540, 2), confirmed(6, 485, 515))
    cancel((TOMORROW, 484), 1, DONE)
    cancel((TOMORROW, 485), 4, OVER)
    listed.post(
        IN_TWO_DAYS,
        0,
        "/riders/8/entries",
        EXAMINER,
        {"entry": "refuse", "reasons": "walks"},
        '{"entered":1}',
    )
    listed.get(IN_TWO_DAYS, 0, "/riders/8/trips", CLERK, told(6, "2025-03-14"))
    book((IN_TWO_DAYS, 0), 8, wish("2025-03-15", 540, 2), '{"denied":"37.125"}')
    return listed


def hundred_places() -> Listed:
    """A hundred places, and the one that is too many."""
    listed = Listed()
    for number in range(1, 102):
        listed.post(
            FIRST,
            480,
            "/places",
            ADMIN,
            {"id": number, "x": 0, "y": 0, "core": False},
            DONE if number <= 100 else FULL,
        )
    return listed


def march(day: int) -> str:
    return f"2025-{'03' if day < 32 else '04'}-{day if day < 32 else day - 31:02}"


def limits() -> Listed:
    """Up to the 21st version of a vehicle and the 51st vehicle, and again once later versions were taken away."""
    listed = Listed()
    listed.post(
        FIRST,
        480,
        "/callers",
        ADMIN,
        {"id": 3, "role": "dispatcher", "subject": 0, "key": DISPATCHER},
    )
    listed.post(FIRST, 480, "/places", ADMIN, {"id": 1, "x": 0, "y": 0, "core": False})

    def put(vehicle: int, day: int, wanted: str = DONE, depot: int = 1) -> None:
        body = {**van(march(day), 480), "id": vehicle, "depot": depot}
        listed.post(FIRST, 480, "/vehicles", DISPATCHER, body, wanted)

    for day in range(1, 21):
        put(1, day)
    put(1, 21, FULL)
    put(1, 19)
    put(1, 21)
    put(1, 22, FULL)
    for vehicle in range(2, 51):
        put(vehicle, 1)
    put(51, 1, FULL)
    put(50, 1)
    put(50, 1, UNKNOWN, depot=2)
    return listed


def limits_of_tables() -> Listed:
    """Up to the 51st travel table, and again once later ones were taken away."""
    listed = Listed()
    listed.post(
        FIRST,
        480,
        "/callers",
        ADMIN,
        {"id": 3, "role": "dispatcher", "subject": 0, "key": DISPATCHER},
    )
    listed.post(FIRST, 480, "/places", ADMIN, {"id": 1, "x": 0, "y": 0, "core": False})
    table = csv_of([(1, 1, 5)])
    for day in range(1, 51):
        listed.table(FIRST, march(day), table)
    listed.table(FIRST, march(51), table, "desk.full")
    listed.table(FIRST, march(41), table)
    listed.table(FIRST, march(42), table)
    return listed


# A head or a length that is not taken ends a rehearsal. What is sent, and the name of what is wrong.
ENDS = [
    (b"GET /\r\n\r\n", "http.head"),
    (b"GET / HTTP/2.0\r\n\r\n", "http.head"),
    (b"GET / HTTP/1.1\r\nDesk Key: abc\r\n\r\n", "http.head"),
    (b"GET / HTTP/1.1\r\n" + b"A: b\r\n" * 65 + b"\r\n", "http.head"),
    (b"POST /places HTTP/1.1\r\nContent-Length: x\r\n\r\n", "http.length"),
    (b"POST /places HTTP/1.1\r\nContent-Length: 16385\r\n\r\n", "http.length"),
    (b"POST /places HTTP/1.1\r\nTransfer-Encoding: chunked\r\n\r\n", "http.length"),
    (b"POST /places HTTP/1.1\r\nContent-Length: 2\r\nContent-Length: 2\r\n\r\n{}", "http.length"),
]
