"""What a machine has answered that the machine which serves now does not have, as rows to enter again and people to call.

`there` is the copy that the second machine opened, and `here` a copy of what the first machine has at rest. Each row of
`here` that `there` lacks, or has otherwise, is a finding. Days are dates; minutes are those of the day.
"""

import pathlib
import sqlite3
from collections.abc import Iterator, Mapping

from desk_tools.days import day_of
from desk_tools import keys_of_then, theft
from desk_tools.tables import KEYS
from desk_tools.theft import BOOKED, CANCELED, ENDINGS, Entry, Finding, Trip

# Tables of which no rider has a row of his own to be called for.
OTHERS = ("places", "fixed", "vehicles", "travel", "rider_chairs", "vehicle_chairs")
# So many rows of such a table are named.
NAMED = 12


def trips_in(tables: sqlite3.Connection) -> dict[int, Trip]:
    """Each trip, by number."""
    found = tables.execute(f"SELECT {theft.TRIP_COLUMNS} FROM trips")
    return {it.number: it for it in map(theft.trip_of_row, found)}


def entries_in(tables: sqlite3.Connection) -> dict[tuple[int, int], Entry]:
    """Each entry of a case file, by rider and place."""
    query = "SELECT rider, place, kind, day, author FROM entries"
    return {
        (rider, place): Entry(place, kind, day_of(day), author)
        for rider, place, kind, day, author in tables.execute(query)
    }


def riders_in(tables: sqlite3.Connection) -> dict[int, tuple[object, ...]]:
    """Each row of riders, by number."""
    return {row[0]: tuple(row) for row in tables.execute("SELECT * FROM riders")}


def finding_of_trip(there: Trip | None, here: Trip) -> Finding | None:
    """A trip that differs, and what makes the second machine's rows those that were answered."""
    number, pickup = here.number, theft.pickup_of(here)
    if there is None or there.rider != here.rider:
        said = f"trip {number} was booked here alone: {here.told()}"
        if here.status == CANCELED:
            return Finding(f"{said}; it is canceled here", "nothing to do", here.rider)
        if here.status != BOOKED:
            advice = "book it there and enter how it ended, or note it where the reports are made"
            return Finding(f"{said}; {ENDINGS[here.status]} here", advice, here.rider)
        advice = (
            "book it there for the rider, who was promised this window; it may get another number"
        )
        return Finding(said, advice, here.rider, pickup)
    if there == here or here.status == BOOKED and there.is_same_ride(here):
        return None
    if here.status == CANCELED:
        said = f"trip {number} was canceled here alone: {there.told()}"
        return Finding(
            said,
            "cancel it there, unless the rider wants it",
            here.rider,
            theft.pickup_of(there),
        )
    if not there.is_same_ride(here):
        said = f"trip {number} was moved here alone: there it is {there.told()}; here it is {here.told()}"
        advice = "change it there for the rider, who was promised what it is here"
        return Finding(said, advice, here.rider, theft.pickup_of(there, here))
    said = f"trip {number} was entered here alone as {ENDINGS[here.status]}: {here.told()}"
    return Finding(said, "enter the same outcome there", here.rider)


def trip_findings(there: Mapping[int, Trip], here: Mapping[int, Trip]) -> Iterator[Finding]:
    """Each trip of this machine that the other lacks or has otherwise, by number."""
    for number in sorted(here):
        found = finding_of_trip(there.get(number), here[number])
        if found:
            yield found


def entry_findings(
    there: Mapping[tuple[int, int], Entry], here: Mapping[tuple[int, int], Entry]
) -> Iterator[Finding]:
    """Each entry of a case file that was made here alone."""
    for (rider, place), entry in sorted(here.items()):
        if there.get((rider, place)) != entry:
            said = (
                f"{entry.told()}, of rider {rider} was entered here alone by caller {entry.author}"
            )
            yield Finding(
                said,
                f"caller {entry.author} enters it there again, with the same words",
                rider,
                (entry.day, 0),
            )


def rider_findings(
    there: Mapping[int, tuple[object, ...]], here: Mapping[int, tuple[object, ...]]
) -> Iterator[Finding]:
    """Each rider who was made or changed here alone."""
    for rider in sorted(here):
        if rider not in there:
            yield Finding(f"rider {rider} was made here alone", "make the rider there again", rider)
        elif there[rider] != here[rider]:
            yield Finding(
                f"the record of rider {rider} was changed here alone",
                "change it there again",
                rider,
            )


def key_lines(there: pathlib.Path, here: pathlib.Path) -> Iterator[str]:
    """A line for each caller who got a key or a role here alone."""
    before, now = theft.callers_in(there), theft.callers_in(here)
    for number in sorted(now):
        old, new = before.get(number), now[number]
        if old is None:
            yield f"caller {number}, {new.told()}, got a key here alone: make the caller there"
        elif old.digest != new.digest:
            command = keys_of_then.command_for(number, new)
            yield (
                f"caller {number}, {new.told()}: the key was replaced here alone, and the older one holds there. Give "
                f"another key there: {command} ..."
            )
        elif old != new:
            yield f"caller {number} is {old.told()} there and {new.told()} here"


def other_lines(there: sqlite3.Connection, here: sqlite3.Connection) -> Iterator[str]:
    """A line for each other table that differs, with the rows that do."""
    for table in OTHERS:
        old, new = rows_of(there, table), rows_of(here, table)
        differing = sorted(key for key in new if old.get(key) != new[key])
        if differing:
            more = f" and {len(differing) - NAMED} more" if len(differing) > NAMED else ""
            named = ", ".join("/".join(map(str, it)) for it in differing[:NAMED])
            yield f"{table}: {len(differing)} rows were made or changed here alone ({named}{more}): enter them there"


def rows_of(tables: sqlite3.Connection, table: str) -> dict[tuple[object, ...], tuple[object, ...]]:
    """Each row of a table, by what it is known by. An older file may lack the table."""
    if not tables.execute("SELECT 1 FROM sqlite_master WHERE name = ?", (table,)).fetchone():
        return {}
    keys = KEYS[table]
    found = tables.execute(f"SELECT {', '.join(keys)}, * FROM {table}")
    return {tuple(row[: len(keys)]): tuple(row[len(keys) :]) for row in found}


def compared(there: pathlib.Path, here: pathlib.Path) -> tuple[list[Finding], list[str]]:
    """Findings of riders, and lines of keys and of all else."""
    with theft.tables_of(there) as old, theft.tables_of(here) as new:
        found = [
            *rider_findings(riders_in(old), riders_in(new)),
            *trip_findings(trips_in(old), trips_in(new)),
            *entry_findings(entries_in(old), entries_in(new)),
        ]
        lines = [*other_lines(old, new)]
    return found, [*key_lines(there, here), *lines]
