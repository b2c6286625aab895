"""The town of the played day: many vans, riders and trips, made by the API beside the desk, as fast as it takes them."""
import contextlib
import csv
import dataclasses
import fcntl
import hashlib
import http.client
import inspect
import json
import os
import random
import shutil
import sqlite3
from collections.abc import Iterator
from typing import Any

import people
from database import Desk, Trouble
from serving import ran
from town import Town, write_site_files

BOOKED_ON, DAY, TOMORROW, BACK, GRANTED_UNTIL = (
    "2025-03-10",
    "2025-03-11",
    "2025-03-12",
    "2025-03-18",
    "2026-02-28",
)
# The days after the played one that have trips, each with its share of them.
LATER_DAYS = {
    "2025-03-12": 0.8,
    "2025-03-13": 0.05,
    "2025-03-14": 0.05,
    "2025-03-17": 0.05,
    "2025-03-18": 0.05,
}
# When a van leaves its depot, and when it is back: all day, or before or after noon.
SHIFTS = [(300, 1410), (300, 870), (690, 1410), (300, 870)]
DEPOT, GOALS = 1, range(2, 12)
ALWAYS = ["always"]
NAMES = """
    Guadalupe Deshawn Marguerite Terrence Ngozi Wilhelmina Óscar Bernadette Hyun-woo Priscilla
""".split()
FAMILIES = [
    "Okonkwo",
    "Johnson",
    "Nguyen-Baptiste",
    "Álvarez del Castillo",
    "O'Shaughnessy",
    "Kowalczyk",
    "Featherstonehaugh",
]


@dataclasses.dataclass(frozen=True)
class Size:
    """How many there are of each; `later` are the trips of the days after the played one, `seats` those of each van, and `speed` its feet in a minute:
    few trips fill many vans where the vans are small and slow."""

    vans: int
    riders: int
    trips: int
    later: int
    seats: int
    speed: int


SHORT, WHOLE = Size(12, 70, 140, 28, 2, 700), Size(50, 300, 700, 240, 5, 2_640)


def is_whole() -> bool:
    return bool(os.environ.get("PAGES_WHOLE_DAY"))


def size() -> Size:
    return WHOLE if is_whole() else SHORT


# What the agency has.


def places(chance: random.Random) -> list[tuple[int, int, int]]:
    """The desk's places as (number, feet east, feet north): the depot, goals along two lines, and homes beside them."""
    goals = [
        (DEPOT, 18_000, 600),
        *(
            (number, 2_000 + 4_000 * (number - 2), chance.randrange(-1_500, 1_500))
            for number in GOALS
        ),
    ]
    homes = [
        (20 + at, chance.randrange(500, 41_000), chance.randrange(-3_300, 3_300))
        for at in range(60)
    ]
    return goals + homes


def home_of(rider: int) -> int:
    return 20 + rider % 60


def riders(count: int) -> range:
    return range(1001, 1001 + count)


def name_of(rider: int) -> str:
    return f"{NAMES[rider % len(NAMES)]} {FAMILIES[rider // 3 % len(FAMILIES)]}"


def telephone_of(rider: int) -> str:
    return f"555-{rider}"


def vans(count: Any) -> list[Any]:
    """Numbers and names; no van's name is its number."""
    return [(number, f"Van {100 + number}") for number in range(1, count + 1)]


def settings_of(van: Any) -> dict[Any, Any]:
    """What a van has."""
    opens, closes = SHIFTS[(van - 1) % len(SHIFTS)]
    return {
        "days": people.EVERY_DAY,
        "depot": DEPOT,
        "capacity": size().seats,
        "chairs": 1,
        "opens": opens,
        "closes": closes,
        "duration": closes - opens,
    }


def callers(of: Any) -> list[tuple[int, str, int, str]]:
    """Each caller as (number, role, subject, holder)."""
    staff = [
        (2, "clerk", 0, "clerk"),
        (3, "dispatcher", 0, "dispatcher"),
        (4, "examiner", 0, "examiner"),
        (5, "dispatcher", 0, "second dispatcher"),
        (6, "clerk", 0, "third clerk"),
        (7, "officer", 0, "officer"),
    ]
    return staff + [(100 + van, "driver", van, f"driver {van}") for van, _ in vans(of.vans)]


def keys(of: Size) -> dict[Any, Any]:
    return {
        "admin": people.ADMINS_KEY,
        **{holder: people.key_for(f"day {holder}") for *_, holder in callers(of)},
    }


def requests(of: Any) -> Iterator[Any]:
    """What makes the agency, as (holder, path, fields)."""
    chance = random.Random(11)
    for number, role, subject, holder in callers(of)[:6]:
        yield "admin", "/callers", {
            "id": number,
            "role": role,
            "subject": subject,
            "digest": digest_of(keys(of)[holder]),
        }
    yield "admin", "/policy", people.POLICY
    for number, x, y in places(chance):
        yield "admin", "/places", {"id": number, "x": x, "y": y, "core": False}
    yield "admin", "/routes", {
        "id": 1,
        "width": 3960,
        "points": [[0, 0], [42_000, 0]],
        "accessible": True,
        "days": people.EVERY_DAY,
        "first": 300,
        "last": 1410,
    }
    for van, _ in vans(of.vans):
        yield "dispatcher", "/vehicles", {
            "id": van,
            "from_day": people.FIRST_DAY,
            **settings_of(van),
        }
    for rider in riders(of.riders):
        yield "clerk", "/riders", {
            "id": rider,
            "kind": "resident",
            "attendant": False,
            "wheelchair": rider % 11 == 0,
        }
        yield "clerk", f"/riders/{rider}/entries", {"entry": "complete"}
        yield "examiner", f"/riders/{rider}/entries", {
            "entry": "grant",
            "until": GRANTED_UNTIL,
            "conditions": ALWAYS,
        }
    for number, role, subject, holder in callers(of)[6:]:
        yield "admin", "/callers", {
            "id": number,
            "role": role,
            "subject": subject,
            "digest": digest_of(keys(of)[holder]),
        }


def wishes(of: Any) -> Iterator[Any]:
    """What is asked for until there are as many trips as wanted, as (day, fields): there and back again."""
    chance = random.Random(23)
    days = [(DAY, of.trips), *((day, round(of.later * share)) for day, share in LATER_DAYS.items())]
    for day, count in days:
        for at in range(3 * count):
            rider = 1001 + at % of.riders
            goal = chance.choice(GOALS)
            wish = (
                chance.randrange(345, 640)
                if at // of.riders % 2 == 0
                else chance.randrange(760, 1_200)
            )
            ends = (home_of(rider), goal) if at // of.riders % 2 == 0 else (goal, home_of(rider))
            yield day, count, {
                "rider": rider,
                "day": day,
                "wish": wish,
                "from": ends[0],
                "to": ends[1],
                "attendant": False,
                "companions": int(at % 9 == 4),
            }


def digest_of(key: str) -> str:
    return hashlib.sha256(key.encode()).hexdigest()


# The file of the desk.


class Line:
    """One connection to a desk, over which requests go one after another; each holder's numbers go up."""

    def __init__(self, desk: Desk, holders: Any, numbers: dict[Any, Any]) -> None:
        self.desk, self.keys, self.numbers = desk, holders, numbers
        self.line = http.client.HTTPConnection("127.0.0.1", desk.port, timeout=120)

    def post(self, holder: str, path: str, fields: Any) -> Any:
        self.numbers[holder] = self.numbers.get(holder, 0) + 1
        headers = {"Desk-Key": self.keys[holder], "Desk-Number": str(self.numbers[holder])}
        self.line.request("POST", path, json.dumps(fields), headers)
        reply = json.loads(self.line.getresponse().read())
        self.numbers[holder] -= "denied" in reply
        return reply


def make(program: str, of: Any, folder: str) -> str:
    """The file of a town of this size, in a folder."""
    file = f"{folder}/desk.db"
    if (made := ran(program, "init", file, people.ADMINS_KEY)).returncode:
        raise Trouble(f"init: {made}")
    desk = Desk(program, file, f"{folder}/clock")
    numbers: dict[str, int] = {}
    with contextlib.ExitStack() as ending:
        ending.callback(desk.stop)
        desk.set_clock(people.FIRST_DAY)
        desk.start()
        line = Line(desk, keys(of), numbers)
        for holder, path, fields in requests(of):
            if "denied" in (reply := line.post(holder, path, fields)):
                raise Trouble(f"POST {path} {fields} as {holder}: {reply}")
        desk.stop()
        write_travel(f"{folder}/times.csv")
        words = [
            file,
            people.ZONE_OF_DESK,
            keys(of)["dispatcher"],
            100,
            people.FIRST_DAY,
            f"{folder}/times.csv",
        ]
        if (given := ran(program, "travel", *words, env={**os.environ})).stdout != b"done\n":
            raise Trouble(f"travel: {given}")
        desk.set_clock(BOOKED_ON)
        desk.start()
        line = Line(desk, keys(of), {**numbers, "clerk": 1_000_000})
        counts: dict[str, int] = {}
        for day, wanted, fields in wishes(of):
            if counts.get(day, 0) < wanted:
                counts[day] = counts.get(day, 0) + ("trip" in line.post("clerk", "/trips", fields))
        if counts[DAY] < of.trips:
            raise Trouble(f"only {counts} trips are booked")
    return file


def write_travel(path: str) -> None:
    with open(path, "w", encoding="ascii", newline="") as text:
        rows = csv.writer(text)
        rows.writerow(["from", "to", "minutes"])
        known = places(random.Random(11))
        rows.writerows(
            [
                one[0],
                other[0],
                3
                + round(
                    ((one[1] - other[1]) ** 2 + (one[2] - other[2]) ** 2) ** 0.5 / size().speed
                ),
            ]
            for one in known
            for other in known
            if one != other
        )


def copied(program: str, of: Size, towns: str, file: str) -> None:
    """Copies the file of such a town, which is made where it is not there yet."""
    os.makedirs(towns, exist_ok=True)
    with open(program, "rb") as binary, open(__file__, "rb") as made_by, open(
        inspect.getfile(people), "rb"
    ) as names:
        version = hashlib.sha256(binary.read() + made_by.read() + names.read()).hexdigest()[:16]
    kept = f"{towns}/day-{version}-{of.vans}"
    with open(f"{towns}/lock-day", "w", encoding="ascii") as lock:
        fcntl.flock(lock, fcntl.LOCK_EX)
        if not os.path.isdir(kept):
            shutil.rmtree(f"{kept}.new", ignore_errors=True)
            os.makedirs(f"{kept}.new")
            make(program, of, f"{kept}.new")
            os.rename(f"{kept}.new", kept)
    with contextlib.closing(sqlite3.connect(f"{kept}/desk.db")) as whole, contextlib.closing(
        sqlite3.connect(file)
    ) as copy:
        whole.backup(copy)


# The site.


def agency_file(of: Size) -> dict[Any, Any]:
    private = {
        20 + at: [rider for rider in riders(of.riders) if home_of(rider) == 20 + at]
        for at in range(60)
    }
    listed = [
        {
            "id": number,
            "name": f"Stop {number}" if number < 20 else f"{number} Oak Street",
            "note": "ring twice",
            "x": x,
            "y": y,
            "core": False,
            "private": private.get(number, False),
        }
        for number, x, y in places(random.Random(11))
    ]
    return {
        "name": people.NAME,
        "telephone": "555-0100",
        "zone": str(people.ZONE),
        "first_weekday": 7,
        "clock": 12,
        "languages": ["en", "es"],
        "wait_minutes": 5,
        "idle_minutes": 0,
        "places": listed,
        "vehicles": [{"id": van, "name": name} for van, name in vans(of.vans)],
    }


def roster_file(of: Size) -> str:
    rows = [
        f"{rider},{name_of(rider)},{telephone_of(rider)},en,{home_of(rider)},,,note of {rider}"
        for rider in riders(of.riders)
    ]
    return "\n".join(["rider,name,telephone,language,home,usual,aid,note", *rows]) + "\n"


class PlayedTown(Town):
    """Desk, site and files of the played day. `make_today()` makes the file of the day, as its unit does."""

    def __init__(
        self, program: str, folder: str, _: Any, towns: str, is_packed: bool = False
    ) -> None:
        self.size = size()
        super().__init__(program, folder, self.size.vans, towns, is_packed)
        self.keys = keys(self.size)

    def take_database(self, program: str, towns: str) -> None:
        copied(program, self.size, towns, self.desk.file)
        self.today = DAY
        self.desk.set_clock(DAY, "05:30")

    def write_files(self, **changed: Any) -> None:
        of = self.size
        os.makedirs(f"{self.folder}/site", exist_ok=True)
        drivers = "".join(f"{rider},{name_of(rider)},\n" for rider in riders(of.riders))
        write_site_files(
            self.folder,
            {**agency_file(of), **changed},
            roster_file(of),
            f"rider,name,note\n{drivers}",
        )
        self.write_drivers_files()
