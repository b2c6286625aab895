"""A day of 32 vans at 22 trips as an agency has it: names, homes, aids and notes of ordinary length, and a few very long
ones. `roster()`, `places()` and `vehicles()` are what the site serves of it, READS_DAY what a page reads of the desk.
"""
import json
from collections.abc import Iterator
from typing import Any
from town import Town

VANS, TRIPS, FIRST_RIDER, FIRST_PLACE, RIDERS, PLACES = 32, 22, 5001, 301, 352, 240
LONG_NAME, LONG_NOTE = 40, 170
FIRST = [
    "Guadalupe",
    "Ellen",
    "José Luis",
    "Dorothy",
    "Mohammed",
    "Ann",
    "Deshawn",
    "Wilhelmina",
    "Xiomara",
    "Ray",
]
LAST = [
    "Okonkwo",
    "Nguyen",
    "Hernández Ruiz",
    "O'Neill",
    "Johnson",
    "Lee",
    "Kowalczyk",
    "Featherstone",
    "Park",
    "Díaz",
]
STREETS = [
    "Katsura Lane",
    "Maple Street",
    "Old Mill Road",
    "Willow Court",
    "Martin Luther King Boulevard",
    "Oak Street",
]
GOALS = [
    "General Hospital, day clinic",
    "St. Mary's Dialysis",
    "Senior Center",
    "Riverside Market",
    "Goodwill",
]
AIDS = [
    "",
    "walker",
    "cane",
    "power wheelchair",
    "",
    "manual wheelchair",
    "white cane",
    "oxygen; walker",
]
NOTES = [
    "",
    "hard of hearing",
    "call on arrival",
    "",
    "needs an arm to the door",
    "speaks Spanish",
    "",
    "sits in front",
    "may be confused; wait until her daughter opens",
]
PLACE_NOTES = [
    "",
    "gate code 4411#",
    "ring twice",
    "",
    "ramp at the back",
    "dog in yard",
    "side door, not the front",
]
LONG = "Uses the side door by the garage because the front steps are broken. "

# From now on the page reads this day of the desk, in place of its own.
READS_DAY = """
const [sheet, rows] = arguments, real = window.fetch;
window.fetch = async (path, options) => {
    const made = path.endsWith("/sheet") ? ["text/plain", sheet] : path.endsWith("/trips.csv") ? ["text/csv", rows] : null;
    return made ? new Response(made[1], { headers: { "Content-Type": made[0] } }) : real(path, options);
};
"""


def long_note() -> str:
    return (LONG * 3)[:LONG_NOTE]


def roster() -> str:
    """The roster of the day's riders, one in forty with a name and a note as long as they come."""
    lines = ["rider,name,telephone,language,home,usual,aid,note"]
    for at in range(RIDERS):
        is_long = at % 40 == 7
        name = f"{FIRST[at % 10]} {LAST[(at // 10 + at) % 10]}"
        name = f"{name} Montgomery-Featherstonehaugh of Wexford"[:LONG_NAME] if is_long else name
        note = long_note() if is_long else NOTES[at % len(NOTES)]
        lines.append(
            f'{FIRST_RIDER + at},"{name}",555-{2000 + at},en,,,"{AIDS[at % len(AIDS)]}","{note}"'
        )
    return "\n".join(lines) + "\n"


def places() -> list[Any]:
    """Homes with a note in most, and where people go."""
    goals = [
        {"id": FIRST_PLACE + at, "name": name, "note": "main entrance"}
        for at, name in enumerate(GOALS)
    ]
    homes = [
        {
            "id": FIRST_PLACE + at,
            "name": f"{100 + at * 7} {STREETS[at % 6]}{f', apartment {at % 9}' if at % 3 == 0 else ''}",
            "note": long_note() if at % 60 == 11 else PLACE_NOTES[at % len(PLACE_NOTES)],
            "private": True,
        }
        for at in range(len(GOALS), PLACES)
    ]
    return [*goals, *homes]


def vehicles() -> list[Any]:
    return [{"id": van, "name": f"Van {100 + van}"} for van in range(1, VANS + 1)]


def clock_of(minute: Any) -> str:
    return f"{minute // 60:02}:{minute % 60:02}"


def stops_of(van: int) -> Iterator[Any]:
    """The stops of a van as (minute, what, trip, rider, place); two trips are shared at a time."""
    for at in range(TRIPS):
        trip, start = van * TRIPS + at - TRIPS + 1, 370 + at * 34
        rider, home = FIRST_RIDER + (trip * 7) % RIDERS, FIRST_PLACE + len(GOALS) + (trip * 11) % (
            PLACES - len(GOALS)
        )
        goal = FIRST_PLACE + trip % len(GOALS)
        yield start, "PICK", trip, rider, home if at % 2 == 0 else goal
        yield start + 48, "DROP", trip, rider, goal if at % 2 == 0 else home


def sheet(day: str) -> str:
    """The day sheet as the desk writes it."""
    lines = []
    for van in range(1, VANS + 1):
        lines += [f"VEHICLE {van} DAY {day}", "06:00 DEPOT 5"]
        load = 0
        for minute, what, trip, rider, place in sorted(stops_of(van)):
            load += 1 if what == "PICK" else -1
            window = f" window {clock_of(minute)}-{clock_of(minute + 30)}" if what == "PICK" else ""
            lines.append(
                f"{clock_of(minute)} {what} trip {trip} rider {rider} place {place} load {load} chairs 0{window}"
            )
        lines.append("20:30 DEPOT 5")
    return "\n".join([*lines, f"TRIPS {VANS * TRIPS}"]) + "\n"


def rows(day: str) -> str:
    """The day's trips as the desk exports them."""
    lines = ["trip,rider,day,wish,from,to,vehicle,window_from,window_to,due,status"]
    for van in range(1, VANS + 1):
        for minute, what, trip, rider, place in stops_of(van):
            if what == "PICK":
                lines.append(
                    f"{trip},{rider},{day},{minute},{place},{FIRST_PLACE},{van},{minute},{minute + 30},350,booked"
                )
    return "\n".join(lines) + "\n"


def write(town: Town) -> None:
    """Puts what the site serves of this day into the town's files."""
    town.write_files(vehicles=vehicles(), manifest_telephone=True)
    served = json.loads(town.file("staff/places.json"))
    town.write_file(
        "staff/places.json",
        json.dumps({**served, "places": [*served["places"], *places()], "vehicles": vehicles()}),
    )
    town.write_file("staff/roster.csv", roster())
