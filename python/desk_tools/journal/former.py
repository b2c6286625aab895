"""callers-kept.csv: each row that callers.csv ever had, and by which day that no longer had it.

Who removes a row or a name from callers.csv removes it from no answer, since a name is needed as long as a line is. Only
this tool writes the file. A row that is there again is gone no more.
"""

from dataclasses import replace
from pathlib import Path

from desk_tools.journal import people
from desk_tools.journal.people import People, Person, identity_of
from desk_tools.journal.sheets import as_csv
from desk_tools.journal.signing import written

COLUMNS = (*people.COLUMNS[:-1], "gone")


def rows_now(kept: People, known: People, day: str) -> list[Person]:
    """The rows to keep: those of callers.csv, and the others, which were gone by that day at the latest."""
    former = {identity_of(it): it for it in kept.rows}
    there = [replace(it, name=it.name or former.get(identity_of(it), it).name) for it in known.rows]
    missing = [it for key, it in former.items() if key not in known.known]
    return [*there, *(replace(it, gone=it.gone or day) for it in missing)]


def with_former(kept: People, known: People, day: str) -> People:
    """The callers with the names that were removed, and with the rows that are gone."""
    rows = rows_now(kept, known, day)
    whole = People((it for it in rows if not it.gone), known.upto)
    whole.gone = People(it for it in rows if it.gone)
    return whole


def without_row(known: People, of_record: People) -> People:
    """The rows that the record made of keys which callers.csv has in no row of their callers."""
    keys = {(it.number, it.digits) for it in known.rows}
    return People(it for it in of_record.rows if (it.number, it.digits) not in keys)


def keep(path: Path, rows: list[Person]) -> None:
    """Writes the file, whole or not at all."""
    ordered = sorted(rows, key=lambda it: (it.number, it.since))
    cells = [
        (it.number, it.name, it.role, it.subject or "", it.since, it.until, it.digits, it.gone)
        for it in ordered
    ]
    text = as_csv(COLUMNS, cells)
    if not path.exists() or path.read_text(encoding="utf-8") != text:
        written(path, text.encode())
