"""corrections.csv in the record: each new row becomes part of a note, so that who corrected what cannot be changed unseen."""

import json
import logging
from pathlib import Path

from desk_tools.journal import chain, reading, signing, taking
from desk_tools.journal.places import Places, Wrong
from desk_tools.town import sheets

# Which rows the record has, and up to which entry it was read for them. Without the file the whole record is read.
NOTED = "corrections-noted.json"
LOG = logging.getLogger("journal")


def rows_in(path: Path) -> list[dict[str, str]]:
    """The rows of the file, as a spreadsheet saved it; none where there is no file. A row that is wrong is said."""
    if not path.exists():
        return []
    try:
        sheet = sheets.read(path, {})
    except (sheets.Unreadable, OSError) as error:
        raise Wrong(f"the corrections are not in the record: {error}") from None
    for it in sheet.refused:
        LOG.error("%s, row %s is not in the record: %s", path, it.number, it.reason)
    return [{name: row.fields.get(name, "") for name in sheet.header if name} for row in sheet.rows]


def noted_before(path: Path) -> tuple[int, list[dict[str, str]]]:
    """Up to which entry the record was read for its corrections, and the rows that it had; nothing where that is not known."""
    try:
        found = json.loads(path.read_text(encoding="utf-8"))
        return found["upto"] + 0, [dict(it) for it in found["rows"]]
    except (OSError, ValueError, KeyError, TypeError, RecursionError):
        return 0, []


def noted(places: Places) -> list[dict[str, str]]:
    """The rows that the record has. It is read on from where the last run came: a whole one has years."""
    path = places.folder / NOTED
    upto, rows = noted_before(path)
    before = upto
    for file in reading.files_after(places, upto):
        for entry in chain.entries_of(file):
            if entry.place > before and entry.note == "corrections":
                rows += [it for it in entry.fields.get("rows") or [] if it not in rows]
            upto = max(upto, entry.place)
    signing.written(path, json.dumps({"upto": upto, "rows": rows}).encode())
    return rows


def take(places: Places, path: Path) -> int:
    """Notes the rows that no note has yet. Returns how many."""
    rows = rows_in(path)
    if not rows:
        return 0
    known = noted(places)
    new = [row for row in rows if row not in known]
    if new:
        taking.note(places, "corrections", rows=new)
    return len(new)
