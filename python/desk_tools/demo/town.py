"""The made town of the demonstration: places, fixed routes, vans, driving times, and riders with made names.

All of it comes from a fixed seed, so each office has the same town. No person here is real.
"""

from __future__ import annotations

import datetime
import math
import random
from typing import Any, NamedTuple

SEED = 20
NAME, TELEPHONE, ZONE_NAME, ZONE_RULE = (
    "Chervil Falls Transit",
    "555-0100",
    "America/Chicago",
    "CST6CDT,M3.2.0,M11.1.0",
)
LATITUDE, LONGITUDE = 43.6000, -90.9000
# Degrees of a foot, near enough for a made town.
NORTH, EAST = 1 / 364_600, 1 / 264_000
EACH_DAY, WORKDAYS, NO_SUNDAY = [1, 2, 3, 4, 5, 6, 7], [1, 2, 3, 4, 5], [1, 2, 3, 4, 5, 6]
POLICY = {
    "base": 175,
    "transfer": 50,
    "fare": 350,
    "service": 3,
    "extra_ride": 30,
    "min_missed": 3,
    "percent": 20,
    "span_days": 30,
}
FEET_A_MINUTE, MINUTES_AT_LEAST = 2_000, 3

# Each place: number, name, note for the driver, feet east and north of the middle, whether it is in the core area.
PLACES = [
    (1, "North Garage", "gate on Depot Street", 800, 6_000, False),
    (2, "South Garage", "gate on Canal Street", -1_500, -7_000, False),
    (3, "City Hall", "ramp on Main Street", 300, -400, True),
    (4, "General Hospital", "Door C, wait inside the bay", 9_000, -7_000, False),
    (5, "Dialysis Center", "side door, ring twice", -7_500, -6_500, False),
    (6, "Community College", "bus loop, stop 2", -11_500, -8_500, False),
    (7, "Public Library", "main door", -1_200, 800, True),
    (8, "Senior Center", "under the roof on Elm Street", 3_500, 2_200, False),
    (9, "Market Hall", "loading zone, north side", 5_000, -12_500, False),
    (10, "Train Station", "west door, by the taxis", 1_500, -1_500, True),
    (11, "Courthouse", "ramp on Second Street", -600, -700, True),
    (12, "Eye Clinic", "building 2", 6_500, 3_000, False),
    (13, "Lakeside Pool", "lower parking lot", 1_000, 11_500, False),
    (14, "Greenway Mall", "door 4, near the pharmacy", 14_500, 1_200, False),
    (15, "Westgate Shopping", "grocery entrance", -16_500, -1_200, False),
    (16, "St. Anne Church", "ramp at the back", -4_500, 2_500, False),
    (17, "County Fairground", "no bus line goes near it", -15_000, -14_000, False),
    (18, "Food Pantry", "side street, short stop only", 4_000, -4_500, False),
    (19, "Pharmacy Plaza", "front of the pharmacy", -3_000, -3_000, False),
    (20, "Oakwood Apartments", "gate code at the office", -13_000, 5_000, False),
    (21, "Mill Street Homes", "turn at the end of the street", 11_500, -5_000, False),
    (22, "Lakeview Residence", "front desk calls the rider", 6_000, 10_500, False),
    (23, "Hilltop Village", "steep drive, no stop in snow", -10_500, 12_500, False),
    (24, "Riverbend Apartments", "building B has the lift", 1_800, -12_000, False),
    (25, "Birch Court", "", -17_500, 1_500, False),
    (26, "Maple Terrace", "narrow gate, back in", 12_500, 5_500, False),
    (27, "Garden Homes", "", -5_500, -9_500, False),
    (28, "Elm Street Houses", "", 3_000, 6_500, False),
    (29, "26 Orchard Lane", "two steps, the rider needs an arm", -7_000, 1_500, False),
    (30, "Harbor House", "ask for the night manager", 2_500, 3_200, False),
]
SHELTER, OWN_HOME, HOSPITAL, DIALYSIS = 30, 29, 4, 5
HOMES = [20, 20, 21, 21, 22, 23, 24, 24, 25, 26, 27, 28, 28]
ERRANDS = [3, 4, 4, 7, 8, 8, 9, 10, 11, 12, 13, 14, 14, 15, 16, 18, 19]
WORK = [6, 6, 9, 14, 15, 18]

# Each fixed route: number, name, its line, whether its buses take a wheelchair, weekdays, first and last minute.
LINES = [
    (1, "1 Main Street", [[-20_000, 0], [20_000, 0]], True, EACH_DAY, 300, 1_380),
    (2, "2 River Road", [[0, -15_000], [0, 15_000]], True, EACH_DAY, 330, 1_350),
    (
        3,
        "3 Lake Loop",
        [[-14_000, 4_000], [-8_000, 9_000], [0, 10_000], [9_000, 9_000], [14_000, 4_000]],
        True,
        EACH_DAY,
        360,
        1_260,
    ),
    (
        4,
        "4 Hospital and College",
        [[-12_000, -9_000], [0, -5_000], [12_000, -8_000]],
        True,
        EACH_DAY,
        360,
        1_320,
    ),
    (5, "5 Hilltop", [[0, 0], [-9_000, 12_000], [-15_000, 14_000]], False, NO_SUNDAY, 390, 1_170),
    (6, "6 Crosstown", [[-18_000, -6_000], [18_000, 6_000]], True, WORKDAYS, 360, 1_140),
    (7, "7 Market", [[4_000, -14_000], [8_000, -6_000], [10_000, 0]], True, EACH_DAY, 420, 1_080),
    (8, "8 Night Line", [[-16_000, 0], [16_000, 0]], True, [5, 6], 1_320, 1_439),
]
WIDTH = 3_960

# Each van: number, name, weekdays, depot, seats, wheelchair places, from when to when, the driver's longest day.
VANS = [
    (1, "Van 1, blue", WORKDAYS, 1, 6, 2, 360, 930, 570),
    (2, "Van 2, white", WORKDAYS, 2, 6, 2, 420, 1_020, 570),
    (3, "Van 3, green", NO_SUNDAY, 1, 8, 1, 420, 1_020, 570),
    (4, "Van 4, yellow", NO_SUNDAY, 2, 8, 1, 660, 1_260, 570),
    (5, "Van 5, red", EACH_DAY, 1, 6, 2, 480, 1_140, 630),
    (6, "Van 6, silver", EACH_DAY, 2, 4, 2, 600, 1_290, 630),
]

FIRST_NAMES = """Ada Agnes Albert Alice Alma Amos Andre Anita Arthur Beatrice Ben Bernice Bill Carl Carmen Cecil Clara
Claude Cora Curtis Dale Delia Diego Dolores Dora Earl Edith Elena Eli Ella Elmer Esther Eva Felix Flora Floyd Frances
Gina Gloria Grace Grant Harriet Harvey Hazel Helen Henry Hilda Ida Inez Iris Isaac Ivan Jack Jean Jesus Joan Jose
Josephine Juan Judith Karl Kay Kim Leo Leona Lin Lois Lorenzo Lucy Lupe Mabel Mai Marcus Maria Martha Maxine Mei Milton
Nadia Nelson Nina Nora Olga Omar Oscar Otis Pablo Pearl Percy Rafael Ramon Rita Rosa Ruth Sadie Sam Selma Stella Tomas
Vera Victor Viola Wanda Wilma Yolanda""".split()
LAST_NAMES = """Abbott Alvarez Anderson Baker Barnes Bell Bennett Brooks Butler Campos Carter Castillo Chavez Cole Cruz
Dawson Diaz Ellis Fisher Flores Foster Garcia Gibson Gomez Grant Gray Hansen Harper Hayes Hill Holt Hughes Ingram Jensen
Keller Khan Larsen Lee Long Lopez Marsh Meyer Miller Moreno Morris Nguyen Nolan Olson Ortiz Owens Page Park Perez Price
Quinn Ramos Reed Reyes Rivera Rojas Ruiz Santos Shaw Silva Stone Torres Tran Vang Vega Walsh Ward Webb West Wolf Xiong
Yang York Young Zamora Ziegler""".split()
NOTES = [
    "",
    "",
    "",
    "",
    "hard of hearing",
    "blind, speak first",
    "uses a service dog",
    "oxygen",
    "needs an arm to the door",
    "does not open the door, call",
    "forgets, call an hour before",
    "large scooter",
]
AIDS = ["", "", "", "cane", "walker", "walker", "white cane"]

FIRST_RIDER, RIDERS, VISITORS = 101, 200, 10


class Rider(NamedTuple):
    """A rider: number, name, kind, attendant, wheelchair, home, outings, and the columns of the
    roster."""

    id: int
    name: str
    kind: Any
    attendant: Any
    wheelchair: Any
    home: int
    outings: list[Outing]
    telephone: str
    language: str
    aid: str
    note: str


class Outing(NamedTuple):
    """An outing: weekdays, the place, the minute of the wish out, by when to be there (or None),
    the wish back."""

    days: Any
    place: int
    out: int
    by: int | None
    back: int | None


def position(x: int, y: int) -> tuple[float, float]:
    return round(LATITUDE + y * NORTH, 6), round(LONGITUDE + x * EAST, 6)


def line_records() -> list[dict[str, Any]]:
    return [
        {
            "id": number,
            "width": WIDTH,
            "points": points,
            "accessible": accessible,
            "days": days,
            "first": first,
            "last": last,
        }
        for number, _, points, accessible, days, first, last in LINES
    ]


def driving_times() -> str:
    """The table of driving times as CSV: straight lines, somewhat longer, and never less than some minutes."""
    rows = ["from,to,minutes"]
    for start, _, _, x, y, _ in PLACES:
        for end, _, _, to_x, to_y, _ in PLACES:
            if start != end:
                feet = 1.25 * math.hypot(x - to_x, y - to_y)
                rows.append(f"{start},{end},{MINUTES_AT_LEAST + math.ceil(feet / FEET_A_MINUTE)}")
    return "\n".join(rows) + "\n"


def quarter(chance: random.Random, first: int, last: int) -> int:
    """A minute on a quarter of an hour."""
    return 15 * chance.randint(first // 15, last // 15)


def outings_of(chance: random.Random, number: int) -> list[Outing]:
    """Where a rider goes in a week: to dialysis, to work or school, or on errands."""
    turn = number - FIRST_RIDER
    if turn % 25 == 3:
        days, out = [[1, 3, 5], [2, 4, 6]][turn // 25 % 2], chance.choice([420, 480, 690])
        return [Outing(days, DIALYSIS, out, out + 75, out + 330)]
    if turn % 14 == 5:
        out = quarter(chance, 420, 510)
        return [
            Outing(
                chance.choice([WORKDAYS, [1, 2, 4, 5], [1, 3, 5]]),
                chance.choice(WORK),
                out,
                out + 75,
                out + 480,
            )
        ]
    outings = []
    for _ in range(chance.choice([0, 1, 1, 1, 2])):
        out = quarter(chance, 510, 870)
        outings.append(
            Outing(
                [chance.randint(1, 6)],
                chance.choice(ERRANDS),
                out,
                None,
                out + quarter(chance, 90, 210),
            )
        )
    if chance.random() < 0.08:
        outings.append(Outing([7], 16, 570, 630, 720))
    return outings


def rider_of(number: int, name: str) -> Rider:
    """The rider of a number, by a chance of that rider alone."""
    chance = random.Random(SEED * 1_000 + number)
    is_visitor = number >= FIRST_RIDER + RIDERS - VISITORS
    wheelchair = chance.random() < 0.22
    home = {FIRST_RIDER + 7: OWN_HOME, FIRST_RIDER + 40: SHELTER}.get(number, chance.choice(HOMES))
    outings = [it for it in outings_of(chance, number) if it.place != home]
    return Rider(
        number,
        name,
        "visitor" if is_visitor else "resident",
        chance.random() < 0.15,
        wheelchair,
        home,
        outings,
        f"555-0{chance.randint(101, 199)}",
        "es" if name.split()[1] in SPANISH_NAMES else "en",
        "wheelchair" if wheelchair else chance.choice(AIDS),
        chance.choice(NOTES),
    )


SPANISH_NAMES = set(
    """
    Alvarez Campos Castillo Chavez Cruz Diaz Flores Gomez Lopez Moreno Ortiz Perez Ramos Reyes Rojas
    Ruiz Torres Vega Zamora
    """.split()
)


def riders() -> list[Rider]:
    """All riders, each with another name."""
    chance, names = random.Random(SEED), dict[str, None]()
    while len(names) < RIDERS:
        names[f"{chance.choice(FIRST_NAMES)} {chance.choice(LAST_NAMES)}"] = None
    return [rider_of(FIRST_RIDER + turn, name) for turn, name in enumerate(names)]


def agency() -> dict[str, Any]:
    """The agency's one file, from which all that the site serves of it is derived."""
    private = {OWN_HOME: FIRST_RIDER + 7, SHELTER: True}
    places = []
    for number, name, note, x, y, core in PLACES:
        latitude, longitude = position(x, y)
        places.append(
            {
                "id": number,
                "name": name,
                "note": note,
                "x": x,
                "y": y,
                "core": core,
                "private": private.get(number, False),
                "latitude": latitude,
                "longitude": longitude,
            }
        )
    names = {number: name for number, name, *_ in LINES}
    return {
        "name": NAME,
        "telephone": TELEPHONE,
        "address": "12 Main Street\nChervil Falls",
        "zone": ZONE_NAME,
        "first_weekday": 7,
        "place_word": "stop",
        "clock": 12,
        "languages": ["en", "es"],
        "wait_minutes": 5,
        "idle_minutes": 30,
        "subscription_share": 50,
        "appeal": {
            "to": "Appeals Officer",
            "address": "12 Main Street, Room 4\nChervil Falls",
            "telephone": "555-0104",
            "days": 60,
        },
        "places": places,
        "routes": [{**it, "name": names[it["id"]]} for it in line_records()],
        "vehicles": [{"id": number, "name": name} for number, name, *_ in VANS],
    }


def roster_rows(people: list[Rider]) -> list[tuple[str | int, ...]]:
    """The rows of the roster, the header first."""
    rows: list[tuple[str | int, ...]] = [
        ("rider", "name", "telephone", "language", "home", "usual", "aid", "note")
    ]
    for it in people:
        usual = ";".join(
            str(place)
            for place in dict.fromkeys([it.home, *(outing.place for outing in it.outings)])
        )
        rows.append((it.id, it.name, it.telephone, it.language, it.home, usual, it.aid, it.note))
    return rows


def days_from(day: Any, first: Any, last: Any) -> Any:
    """The days from one that lies `first` days after a day to one that lies `last` days after it."""
    return [day + datetime.timedelta(days=it) for it in range(first, last + 1)]
