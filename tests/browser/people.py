"""The agency that the pages are tried with: its places, lines, vans, riders and callers, and the days of the checks."""
import base64
import csv
import hashlib
import zoneinfo
from collections.abc import Iterator
from typing import Any, NamedTuple

NAME = "Example Town Transit"
ZONE = zoneinfo.ZoneInfo("America/New_York")
ZONE_OF_DESK = "EST5EDT,M3.2.0,M11.1.0"
# Applications are taken on the first day; the town's clocks show noon of TODAY when a file of checks begins.
FIRST_DAY, TODAY, TOMORROW, GRANTED_UNTIL = "2025-02-17", "2025-03-10", "2025-03-11", "2026-02-28"
NOON = "12:00"
ADMINS_KEY = "abc"
EVERY_DAY = [1, 2, 3, 4, 5, 6, 7]
POLICY = {
    "base": 175,
    "transfer": 50,
    "fare": 400,
    "service": 2,
    "extra_ride": 20,
    "min_missed": 1,
    "percent": 10,
    "span_days": 30,
}

# number, name, note, feet to the east and to the north, whether it is private: to staff (True) or to a rider.
PLACES = [
    (1, "Town Hall", "main door, Market Street", 0, 0, False),
    (2, "General Hospital", "door of the day clinic", 15000, 3000, False),
    (3, "Mill Road School", "north gate", 9000, 1000, False),
    (4, "Old Farm", "two miles from any line", 4000, 19000, False),
    (5, "Depot", "gate on Railway Street", 3000, -1000, False),
    (6, "St. Mary's Dialysis", "ring twice", 12000, -2500, False),
    (7, "Public Library", "", 6000, 2000, False),
    (8, "Riverside Market", "west entrance", 18000, 1000, False),
    (9, "Senior Center", "covered bay", 7500, -1500, False),
    (10, "Women's Shelter", "call before the van comes", 10500, 2500, True),
    (11, "12 Oak Street", "gate code 4411#", 2000, 2500, 1001),
    (12, "309 Willow Court", "gravel road; dog", 13500, -3000, 1002),
    (13, "7 Elm Avenue, apartment 3", "ramp at the back", 5000, -2000, 1003),
    (14, "88 Pine Road", "", 16500, -1000, 1004),
]
LINES = [
    (1, "Line 1, Market Street", [[0, 0], [20000, 0]], 300, 1380),
    (2, "Line 2, Hospital", [[9000, -4000], [15000, 4000]], 360, 1320),
]
VAN_NAMES = ["Van 1, blue", "Van 2, white", "Van 3, green"]

# The roster: a rider a line.
ROSTER = """rider,name,telephone,language,home,usual,aid,note
1001,Rosa Álvarez,555-0101,es,11,6;2,cane,speaks Spanish
1002,Dorothy O'Neill,555-0102,en,12,6,walker,hard of hearing
1003,Henry Park,555-0103,en,13,2;7,white cane,
1004,Lucille Baker,555-0104,en,14,9,power wheelchair,ramp needed
1005,Samuel Grant,555-0105,en,,6;8,,
1006,Ana María Núñez,555-0106,es,,3,,
1007,Walter Hughes,555-0107,en,,9;8,scooter,
1008,Visitor Ellen Stone,555-0108,en,,1,,stays with her son
1009,Peter Lange,555-0109,en,,,,application waits
1010,Grace Kim,555-0110,en,,7,,
"""


class Rider(NamedTuple):
    number: int
    name: str
    telephone: str
    home: int | None
    note: str


RIDERS = [
    Rider(int(it["rider"]), it["name"], it["telephone"], int(it["home"] or 0) or None, it["note"])
    for it in csv.DictReader(ROSTER.splitlines())
]
# Those whose application is granted on the first day; 1009's waits, 1010's has a condition, 1008 is a visitor.
GRANTED = [1001, 1002, 1003, 1004, 1005, 1006, 1007]
WAITING, CONDITIONAL, VISITOR = 1009, 1010, 1008
WITH_ATTENDANT, WITH_WHEELCHAIR = [1003], [1004, 1007]
TRAVELERS = [*GRANTED, VISITOR]
ALPHABET = str.maketrans("abcdefghijklmnopqrstuvwxyz234567", "0123456789abcdefghjkmnpqrstvwxyz")


def key_for(holder: str) -> str:
    """A key of 26 signs, as the admin's page makes them; each holder has the same one in every run."""
    digest = hashlib.sha256(f"the key of {holder}".encode()).digest()[:16]
    return base64.b32encode(digest).decode().rstrip("=").lower().translate(ALPHABET)


STAFF = [
    (2, "clerk"),
    (3, "dispatcher"),
    (4, "examiner"),
    (5, "officer"),
    (6, "second officer"),
    (7, "second clerk"),
    (8, "third clerk"),
]


def vans_of(count: int) -> list[tuple[int, str]]:
    return [
        (number, VAN_NAMES[number - 1] if number <= len(VAN_NAMES) else f"Van {number}")
        for number in range(1, count + 1)
    ]


def callers_of(vans: int) -> list[tuple[int, str, int, str]]:
    """Each caller as (number, role, subject, holder)."""
    staff = [(number, holder.split()[-1], 0, holder) for number, holder in STAFF]
    drivers = [(100 + van, "driver", van, f"driver {van}") for van, _ in vans_of(min(vans, 6))]
    riders = [(it.number, "rider", it.number, f"rider {it.number}") for it in RIDERS]
    return staff + drivers + riders


def keys_of(vans: int) -> dict[str, str]:
    return {"admin": ADMINS_KEY, **{holder: key_for(holder) for *_, holder in callers_of(vans)}}


def agency_file(vans: int) -> dict[str, Any]:
    """The agency's own file, from which bin/site-files makes what the site serves."""
    places = [
        {
            "id": number,
            "name": name,
            "note": note,
            "x": x,
            "y": y,
            "core": False,
            "private": private,
        }
        for number, name, note, x, y, private in PLACES
    ]
    routes = [
        {
            "id": number,
            "name": name,
            "width": 3960,
            "points": points,
            "accessible": True,
            "days": EVERY_DAY,
            "first": first,
            "last": last,
        }
        for number, name, points, first, last in LINES
    ]
    vehicles = [{"id": number, "name": name} for number, name in vans_of(vans)]
    return {
        "name": NAME,
        "telephone": "555-0100",
        "address": "1 Market Street\nExample Town, NY 12000",
        "zone": str(ZONE),
        "first_weekday": 7,
        "place_word": "stop",
        "clock": 12,
        "languages": ["en", "es"],
        "wait_minutes": 5,
        "idle_minutes": 30,
        "subscription_share": 50,
        "appeal": {
            "to": "The Appeals Officer",
            "address": "1 Market Street\nExample Town, NY 12000",
            "telephone": "555-0199",
            "days": 60,
        },
        "places": places,
        "routes": routes,
        "vehicles": vehicles,
    }


def drivers_file() -> str:
    return "rider,name,note\n" + "".join(f"{it.number},{it.name},{it.note}\n" for it in RIDERS)


def minutes_between(
    one: tuple[int, str, str, int, int, int], other: tuple[int, str, str, int, int, int]
) -> Any:
    """Minutes of driving: a mile in two, and three for the start and the stop."""
    east, north = one[3] - other[3], one[4] - other[4]
    return 3 + round((east * east + north * north) ** 0.5 / 2640)


def travel_file() -> str:
    rows = [
        f"{one[0]},{other[0]},{minutes_between(one, other)}"
        for one in PLACES
        for other in PLACES
        if one != other
    ]
    return "\n".join(["from,to,minutes", *rows]) + "\n"


def wishes(vans: int) -> Iterator[dict[str, Any]]:
    """The trips that are asked for on the day after TODAY: some thirteen a van."""
    goals = [2, 6, 7, 9, 3, 8, 1]
    for at in range(13 * vans):
        rider = TRAVELERS[at % len(TRAVELERS)]
        home = next((it.home for it in RIDERS if it.number == rider and it.home), 5)
        goal = goals[(at * 3) % len(goals)]
        start, end = (home, goal) if at % 2 == 0 else (goal, home)
        yield {
            "rider": rider,
            "day": TOMORROW,
            "wish": 400 + (at * 53) % 800,
            "from": start,
            "to": end,
            "attendant": rider == 1003 and at % 3 == 0,
            "companions": 1 if at % 4 == 3 else 0,
        }
