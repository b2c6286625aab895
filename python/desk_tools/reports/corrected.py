"""corrections.csv: outcomes that were entered wrongly, which reports count right. The desk keeps what was entered.

Its columns are `trip`, `outcome`, `who` and `why`. docs/WORKLIST.md, "Reports", says how it is kept.
"""

from __future__ import annotations

from typing import Any

from desk_tools.reports import copies
from desk_tools.setup import csv_rows
from desk_tools.setup.limits import HIGHEST_NUMBER

COLUMNS = ("trip", "outcome", "who", "why")
OUTCOMES = {
    "ridden": copies.RIDDEN,
    "missed-rider": copies.MISSED_BY_RIDER,
    "missed-operator": copies.MISSED_BY_OPERATOR,
}


def read(path: str) -> tuple[dict[int, int], list[str]]:
    """The right outcome by trip, as the file has it, and a sentence for each row that is wrong. A trip has one row."""
    found: dict[int, int] = {}
    rows: dict[int, int] = {}
    table, faults = csv_rows.read(path, COLUMNS)
    for number, row in table:
        said = fault_of(row) or repeated(int(row["trip"]), rows)
        if said:
            faults.append((number, said))
        else:
            rows[int(row["trip"])] = number
            found[int(row["trip"])] = OUTCOMES[row["outcome"]]
    return found, [f"row {number}: {said}" for number, said in sorted(faults)]


def repeated(trip: int, rows: dict[int, int]) -> str | None:
    """What is wrong with a row of a trip that an earlier row has, or nothing."""
    return (
        f"trip {trip} stands in row {rows[trip]} already, which counts; leave one row of each trip"
        if trip in rows
        else None
    )


def by_trip(path: str) -> tuple[dict[int, str], list[Any]]:
    """The right outcome by trip, in the desk's words, and a sentence for each row that is wrong."""
    found, faults = read(path)
    words = {status: word for word, status in OUTCOMES.items()}
    return {trip: words[status] for trip, status in found.items()}, faults


def fault_of(row: dict[str, str]) -> str | None:
    """What is wrong in a row, or nothing."""
    trip, outcome, who, why = (row[it] for it in COLUMNS)
    if not (trip.isascii() and trip.isdigit() and 1 <= int(trip) <= HIGHEST_NUMBER):
        return f"trip {trip!r} is no number of a trip"
    if outcome not in OUTCOMES:
        return f"outcome {outcome!r} is none of {', '.join(OUTCOMES)}"
    return None if who and why else "who corrected it, and why, is missing"


def correct(copy: copies.Copy, path: str) -> tuple[int, list[str]]:
    """Lets the copy's trips have the right outcomes, for this run. What was not used is said, by sentences."""
    found, faults = read(path)
    ended = {
        trip: status
        for trip, status in copy.rows(
            "SELECT id, status FROM trips WHERE status IN (?, ?, ?)", *OUTCOMES.values()
        )
    }
    faults += [f"trip {it} has no outcome in this copy" for it in found if it not in ended]
    changed = {trip: status for trip, status in found.items() if ended.get(trip, status) != status}
    copy.correct(changed)
    return len(changed), faults
