"""What the commands have in common: the folder's files, and doing one thing after the other.

Progress stands on one line of standard error; a sum comes at the end, and a file of what was refused.
"""

from __future__ import annotations

import csv
import os
import sys
import time
from collections.abc import Callable, Iterable, Sequence
from dataclasses import dataclass
from typing import Any, TYPE_CHECKING

from desk_tools.setup import agency_file
from desk_tools.setup.limits import DONE, SOME_REFUSED, Wrong

if TYPE_CHECKING:
    from desk_tools.setup.desk import Caller, Reply
    from desk_tools.setup.tables import Rows

# What agency.json has; its lists of records are by their numbers here.
Agency = dict[str, Any]
# What a denial means here, in plain words.
REASONS = {
    "desk.exists": "the desk has it already, and it is not replaced",
    "desk.full": "the desk has no room for more",
    "desk.unknown": "the desk does not have what it refers to: put that first",
    "desk.booked": "a trip stands in it on that day or later",
    "37.125(c)": "an application waits already, and an examiner has to decide it",
    "37.125(e)": "it ends before today",
}
# Texts of agency.json that are one line.
ONE_LINE = ("name", "telephone", "place_word")


class CannotBe(Exception):
    """Why one thing was refused, while the others go on."""


@dataclass(frozen=True)
class Task:
    """Something to be done: what it is, and a function that does it, or raises CannotBe with the reason."""

    what: str
    do: Callable[[], object]


def reason_of(reply: Reply) -> str:
    denied = reply.body.get("denied") if isinstance(reply.body, dict) else None
    if denied == "http.field":
        return f"http.field: the desk does not take its {reply.body.get('field')}"
    return (
        f"{denied}: {REASONS[denied]}"
        if denied in REASONS
        else str(denied or f"status {reply.status}")
    )


def accepted(reply: Reply) -> None:
    """Nothing where a write was accepted; else it is refused with the desk's reason."""
    if reply.status != 200:
        raise CannotBe(reason_of(reply))


def kept_agency(folder: str) -> Agency:
    """What agency.json has, its records by their numbers, or an empty one. What is wrong there is not written over."""
    path = f"{folder}/agency.json"
    agency: Agency = {}
    if os.path.exists(path):
        agency, faults = agency_file.read(path)
        if faults:
            raise Wrong(f"{path} has a fault: {faults[0]}. Mend it or move the file away")
    records = {name: agency.get(name, []) for name in agency_file.LISTS}
    return {
        **agency,
        **{
            name: {str(it["id"]): without_id(it) for it in those} for name, those in records.items()
        },
    }


def without_id(record: dict[str, Any]) -> dict[str, Any]:
    return {name: it for name, it in record.items() if name != "id"}


def plain(value: Any) -> Any:
    """A value without what agency.json can't have: signs below a blank, and half letters."""
    if isinstance(value, dict):
        return {name: plain(it) for name, it in value.items()}
    if isinstance(value, list):
        return [plain(it) for it in value]
    return (
        "".join(
            it for it in value if (ord(it) >= 32 or it == "\n") and not 0xD800 <= ord(it) < 0xE000
        )
        if isinstance(value, str)
        else value
    )


def keep_agency(folder: str, agency: Agency) -> None:
    """Writes agency.json whole, or leaves it as it was. A form that the next command would refuse is not written."""
    agency = {name: plain(it) for name, it in agency.items()}
    for record in (agency, *(it for name in agency_file.LISTS for it in agency[name].values())):
        record.update(
            {it: " ".join(record[it].split()) for it in ONE_LINE if isinstance(record.get(it), str)}
        )
    lists = {
        name: [
            {"id": int(number), **it}
            for number, it in sorted(agency[name].items(), key=lambda it: int(it[0]))
        ]
        for name in agency_file.LISTS
    }
    whole = {**agency, **lists}
    faults = agency_file.of_bytes(agency_file.text_of(whole).encode(), "agency.json").faults
    if faults:
        raise Wrong(f"{folder}/agency.json would have a fault, and stays as it was: {faults[0]}")
    agency_file.write(f"{folder}/agency.json", whole)


def refused_told(
    command: str, folder: str, refused: Sequence[tuple[str, str]], rows: Rows | None
) -> str:
    """Writes what was refused into its file, each row of a table whole, or takes away the file of an earlier run."""
    path = f"{folder}/refused-{command}.csv"
    if not refused:
        if os.path.exists(path):
            os.remove(path)
        return ""
    with open(path, "w", encoding="utf-8", newline="") as file:
        header, cells = rows or ((), {})
        csv.writer(file, lineterminator="\n").writerows(
            [
                ("what", "reason", *header),
                *((what, reason, *cells.get(what, ())) for what, reason in refused),
            ]
        )
    return f"; {path} says why"


class Progress:
    """One line of standard error that tells how far a command is, once it takes so many seconds."""

    def __init__(self, what: str, total: int, after: float = 0.0) -> None:
        self.what, self.total, self.next, self.is_shown = (
            what,
            total,
            time.monotonic() + after,
            False,
        )
        self.width = 0

    def show(self, done: int, more: str = "") -> None:
        if time.monotonic() >= self.next:
            self.next, self.is_shown = time.monotonic() + 0.2, True
            text = f"{self.what}: {done} of {self.total}{more}"
            sys.stderr.write(f"\r{text:{self.width}}")
            self.width = len(text)
            sys.stderr.flush()

    def end(self, more: str = "") -> None:
        """Tells the last of it and ends the line, where there is one."""
        self.next = 0.0 if self.is_shown or more else self.next
        self.show(self.total, more)
        sys.stderr.write("\n" if self.is_shown else "")


def carried_out(
    command: str,
    tasks: Sequence[Task],
    callers: Sequence[Caller],
    folder: str,
    refused: Iterable[tuple[str, str]],
    rows: Rows | None = None,
) -> tuple[list[int], int]:
    """Does the tasks one after the other and prints the sum. The places of those that stand, and the exit status.

    `rows` are those of the table (tables.Rows), so that what is refused comes back whole.
    """
    progress, put, all_refused = Progress(command, len(tasks)), 0, [*refused]
    stands: list[int] = []
    early = len(all_refused)
    for at, task in enumerate(tasks):
        progress.show(at, f", {len(all_refused) - early} refused")
        before = sum(it.writes for it in callers)
        try:
            task.do()
            stands.append(at)
            put += sum(it.writes for it in callers) > before
        except CannotBe as cause:
            all_refused.append((task.what, str(cause)))
    progress.end(f", {len(all_refused) - early} refused")
    where = refused_told(command, folder, all_refused, rows)
    print(
        f"{command}: {put} put, {len(stands) - put} there already, {len(all_refused)} refused{where}"
    )
    return stands, SOME_REFUSED if all_refused else DONE


def planned(refused: Iterable[tuple[str, str]], notes: Iterable[str]) -> None:
    """What is told before anything is sent."""
    for note in notes:
        print(f"  note: {note}")
    for what, reason in refused:
        print(f"  refused: {what}: {reason}")
