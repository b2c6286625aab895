"""Who drives a vehicle on a day, or which other vehicle stands in for it: a CSV with a line of words for each.

docs/SITE-FILES.md defines the file. What is wrong in a row is named with the row, and what is right is used.
"""

from __future__ import annotations

from desk_tools.setup import csv_rows
from desk_tools.town import cells

COLUMNS = ("day", "vehicle", "label")
MOST = 60


def read(path: str) -> tuple[dict[str, dict[str, str]], list[str]]:
    """{day: {vehicle: label}} of a file, by texts, and a sentence for each row that is wrong. The last row of a van holds."""
    found: dict[str, dict[str, str]] = {}
    rows, faults = csv_rows.read(path, COLUMNS)
    for number, row in rows:
        try:
            day, vehicle, label = of_row(row)
        except cells.WrongCell as error:
            faults.append((number, str(error)))
        else:
            found.setdefault(day, {})[vehicle] = label
    return found, [f"row {number}: {said}" for number, said in sorted(faults)]


def of_row(row: dict[str, str]) -> tuple[str, str, str]:
    """The day, the vehicle and the label of a row. Raises WrongCell."""
    day = cells.day(row["day"])[0]
    try:
        vehicle = str(cells.number(row["vehicle"]))
    except cells.WrongCell:
        raise cells.WrongCell(f"{row['vehicle']!r} is no number of a vehicle") from None
    if not 1 <= len(row["label"]) <= MOST:
        raise cells.WrongCell(f"the label has to be one line of 1 to {MOST} characters")
    return day, vehicle, row["label"]
