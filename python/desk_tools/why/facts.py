"""What a copy of the desk's file and the agency's own file tell of the vehicles of a day."""

import datetime
import json
import sqlite3
from collections.abc import Collection
from pathlib import Path

from desk_tools.why.words import Facts

FIRST_DAY = datetime.date(1970, 1, 1)


class NoFacts(Exception):
    """Why a file tells nothing: one sentence."""


def closes_in(copy: Path, day: datetime.date) -> dict[int, int]:
    """When each vehicle on duty on a day has to be back, in minutes, by the record that is in force then."""
    if not copy.is_file():
        raise NoFacts(f"{copy} is no file")
    number = (day - FIRST_DAY).days
    query = "SELECT id, closes, days FROM vehicles WHERE from_day <= ? ORDER BY id, from_day"
    try:
        database = sqlite3.connect(f"{copy.resolve().as_uri()}?mode=ro&immutable=1", uri=True)
        try:
            in_force = {vehicle: rest for vehicle, *rest in database.execute(query, (number,))}
            # (bit 0 of a record's days is Monday)
            return {
                vehicle: closes
                for vehicle, (closes, days) in in_force.items()
                if days >> day.weekday() & 1
            }
        finally:
            database.close()
    except sqlite3.Error as error:
        raise NoFacts(f"{copy} is no copy of a desk's file: {error}") from None


def names_in(agency: Path) -> dict[int, str]:
    """The names of vehicles by their numbers."""
    try:
        held = json.loads(agency.read_text("utf-8-sig"))
        return {int(it["id"]): str(it["name"]) for it in held.get("vehicles", []) if it.get("name")}
    except (OSError, ValueError, KeyError, TypeError, AttributeError) as error:
        raise NoFacts(f"{agency} is no agency.json: {error}") from None


def _vans(numbers: Collection[int]) -> str:
    named = ", ".join(map(str, sorted(numbers)))
    return f"{'van' if len(numbers) == 1 else 'vans'} {named}" if numbers else "no van"


def facts_of(
    copy: Path | None, day: datetime.date | None, agency: Path | None, vehicles: Collection[int]
) -> Facts:
    """All that the given files tell. `vehicles` are those of the log, which have to be those on duty on that day."""
    closes = closes_in(copy, day) if copy and day else {}
    if copy and closes.keys() != set(vehicles):
        raise NoFacts(
            f"the log has {_vans(vehicles)}, but {copy} has {_vans(closes)} on duty on {day}: --day or the copy is "
            "another one, or the log is not whole; `desk audit` decides"
        )
    return Facts(names_in(agency) if agency else {}, closes)
