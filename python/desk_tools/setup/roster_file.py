"""The roster: the agency's own list of its riders, a CSV whose first row names its columns.

docs/SITE-FILES.md defines the file. What is wrong in a row is named with the row as a spreadsheet numbers it, and what
is right is used.
"""

from __future__ import annotations

import csv
import io
import pathlib
import functools
import re
from collections.abc import Callable
from typing import Any, NamedTuple

from desk_tools.setup.limits import HIGHEST_NUMBER, Wrong
from desk_tools.town import cells, sheets

COLUMNS = tuple("rider name telephone language home usual aid note attendant reminder mail".split())
NEEDED, LISTED = ("rider", "name"), {"home", "usual"}
DRIVERS_COLUMNS = ("rider", "name", "note")


class Roster(NamedTuple):
    """What a roster holds, as far as it is right, and a sentence for each thing that is wrong."""

    columns: Any
    riders: list[dict[str, str]]
    faults: list[str]


NUMBER, LANGUAGE = re.compile(r"0*[1-9][0-9]{0,9}"), re.compile(r"[a-z]{2,3}(-[A-Za-z0-9]{2,8})*")
DIGIT, PARTS = re.compile(r"[0-9]"), re.compile(r"[\s;]+")
# How a rider is reminded of trips: bin/reminders has the same channels.
REMINDERS, MAIL = ("sms", "mail", "voice", "none"), re.compile(
    r"[^\s@,;<>\"]+@[A-Za-z0-9][A-Za-z0-9.-]*"
)


def read(path: str, known_places: set[int] | None = None) -> Roster:
    """The roster of a file. Where the places are known, a home or a usual place has to be one of them."""
    try:
        with open(path, "rb") as file:
            content = file.read(sheets.MOST_BYTES + 1)
    except OSError as error:
        raise Wrong(f"{path} can't be read: {error.strerror}") from None
    return of_bytes(content, path, known_places)


def of_bytes(content: bytes, path: str, known_places: set[int] | None = None) -> Roster:
    """The roster of these bytes of a file, in whatever form a spreadsheet saved it."""
    try:
        sheet = sheets.of_bytes(content, pathlib.Path(path), {it: () for it in COLUMNS})
        sheets.require(sheet, NEEDED, {it: () for it in COLUMNS})
    except sheets.Unreadable as error:
        raise Wrong(str(error)) from None
    faults: list[str] = []
    riders: list[dict[str, str]] = []
    seen: dict[str, int] = {}
    for row, fields, reason in rows_of(sheet):
        faults += [f"row {row}: {reason}"] if reason else []
        rider = (
            rider_of(fields, known_places, functools.partial(add_fault, faults, row))
            if fields
            else None
        )
        there = seen.setdefault(rider["rider"], row) if rider else row
        if rider and there != row:
            faults.append(f"row {row}: rider {rider['rider']} stands in row {there} already")
        elif rider:
            riders.append(rider)
    return Roster([it for it in COLUMNS if it in sheet.header], riders, faults)


def add_fault(faults: list[str], row: int, said: str) -> None:
    faults.append(f"row {row}: {said}")


def rows_of(sheet: sheets.Sheet) -> list[tuple[int, dict[str, str], str]]:
    """Each row with its cells, and what is wrong with the row as a whole. What is right of it is used all the same."""
    rows = [(it.number, it.fields, "") for it in sheet.rows]
    for it in sheet.refused:
        is_lost = len(it.cells) == 1
        mended = {name: mended_cell(cell) for name, cell in zip(sheet.header, it.cells) if name}
        rows.append(
            (
                it.number,
                {} if is_lost else mended,
                f"{it.reason}, so it is left out" if is_lost else it.reason,
            )
        )
    return sorted(rows, key=lambda it: it[0])


def mended_cell(cell: str) -> str:
    """A cell without the signs that no cell has; one that is too long is left out."""
    return (
        " ".join(sheets.WRONG_SIGN.sub("", cell).split()) if len(cell) <= sheets.MOST_SIGNS else ""
    )


def rider_of(
    fields: dict[str, str], known_places: set[int] | None, said: Callable[[str], None]
) -> dict[str, str] | None:
    """The rider of a row, or None where it has no number or no name."""
    rider = {name: fields[name] for name in COLUMNS if name in fields}
    try:
        rider["rider"] = str(cells.number(rider.get("rider", "")))
    except cells.WrongCell:
        said(f"rider {rider.get('rider', '')!r} is no number from 1 to {HIGHEST_NUMBER}")
        return None
    if not rider.get("name"):
        said("name is missing")
        return None
    return checked(rider, known_places, said)


def checked(
    rider: dict[str, str], known_places: set[int] | None, said: Callable[..., Any]
) -> dict[str, str]:
    """The rider without the values that are wrong."""
    if rider.get("telephone") and not DIGIT.search(rider["telephone"]):
        said(f"telephone {rider['telephone']!r} has no digits")
        rider["telephone"] = ""
    if rider.get("language") and not LANGUAGE.fullmatch(rider["language"]):
        said(f"language {rider['language']!r} is no language such as en or es")
        rider["language"] = ""
    check_reminder(rider, said)
    for name in LISTED & rider.keys():
        if rider[name]:
            rider[name] = " ".join(places_of(name, rider[name], known_places, said))
    return rider


def check_reminder(rider: dict[str, str], said: Callable[..., Any]) -> None:
    """Leaves out a channel or an address that is none."""
    if rider.get("reminder"):
        rider["reminder"] = rider["reminder"].lower()
        if rider["reminder"] not in REMINDERS:
            said(f"reminder {rider['reminder']!r} is none of {', '.join(REMINDERS)}")
            rider["reminder"] = ""
    if rider.get("mail") and not MAIL.fullmatch(rider["mail"]):
        said(f"mail {rider['mail']!r} is no mail address")
        rider["mail"] = ""


def places_of(
    name: str, text: str, known_places: set[int] | None, said: Callable[..., Any]
) -> list[str]:
    """The places that a field names: one home, and any number of usual ones."""
    found = []
    for part in filter(None, PARTS.split(text)):
        if not NUMBER.fullmatch(part):
            said(f"{name} {part!r} is no number of a place")
        elif known_places is not None and int(part) not in known_places:
            said(f"{name} {part} is no place of the agency")
        else:
            found.append(str(int(part)))
    if name == "home" and len(found) > 1:
        said(f"home {text!r} is more than one place")
    return found[:1] if name == "home" else list(dict.fromkeys(found))


def text_of(riders: list[dict[str, str]], columns: list[str] | tuple[str, str, str]) -> str:
    """The riders as a CSV of these columns."""
    text = io.StringIO()
    writer = csv.writer(text, lineterminator="\n")
    writer.writerow(columns)
    writer.writerows([rider.get(it, "") for it in columns] for rider in riders)
    return text.getvalue()
