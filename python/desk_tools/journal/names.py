"""The names of an agency: of its places and vans in agency.json, of its riders in the roster."""

import contextlib
import csv
import io
import sqlite3
from dataclasses import dataclass, field
from pathlib import Path

from desk_tools.journal import shown
from desk_tools.journal.places import Wrong
from desk_tools.journal.words import Words

HOUR, NOON, MIDNIGHT = 60, 12, 1440


@dataclass
class Names:
    """What an answer calls things."""

    places: dict[int, str] = field(default_factory=dict)
    vehicles: dict[int, str] = field(default_factory=dict)
    riders: dict[int, str] = field(default_factory=dict)
    has_noon: bool = True
    words: Words = Words()

    def called(self, kind: str, name: str | None, number: object) -> str:
        """A thing by its name, where it has one, and its number."""
        return self.words.said(f"{kind}-named" if name else kind, name=name, number=number)

    def place(self, number: object) -> str:
        """A place by its name and number."""
        name = self.places.get(number) if isinstance(number, int) else None
        return self.called("place", name, number)

    def vehicle(self, number: object) -> str:
        """A van by its name and number."""
        name = self.vehicles.get(number) if isinstance(number, int) else None
        return self.called("vehicle", name, number)

    def rider(self, number: object) -> str:
        """A rider by name and number."""
        name = self.riders.get(number) if isinstance(number, int) else None
        return self.called("rider", name, number)

    def clock(self, minute: object) -> str:
        """A minute of the day as the agency's clock shows it."""
        if not isinstance(minute, int) or not 0 <= minute < MIDNIGHT:
            return "?"
        hour, rest = divmod(minute, HOUR)
        if not self.has_noon:
            return f"{hour:02}:{rest:02}"
        half = self.words.said("pm" if hour >= NOON else "am")
        return f"{(hour + NOON - 1) % NOON + 1}:{rest:02} {half}"


def named(records: object) -> dict[int, str]:
    """The names of a list of records of agency.json."""
    found = records if isinstance(records, list) else []
    return {
        it["id"]: shown.straight(it["name"])
        for it in found
        if isinstance(it, dict)
        and isinstance(it.get("id"), int)
        and isinstance(it.get("name"), str)
        and it["name"]
    }


def of_agency(agency: dict[str, object], roster: Path | None, words: Words = Words()) -> Names:
    """The names of the agency's file and of its roster, where there is one; and the language in which they are said."""
    riders: dict[int, str] = {}
    if roster and roster.exists():
        try:
            rows = csv.DictReader(io.StringIO(roster.read_text(encoding="utf-8-sig"), newline=""))
            for row in rows:
                number = (row.get("rider") or "").strip()
                if number.isdecimal():
                    riders[int(number)] = shown.plain(row.get("name") or "")
        except (OSError, ValueError, csv.Error) as error:
            raise Wrong(f"{roster} can't be read: {error}") from None
    return Names(
        named(agency.get("places")),
        named(agency.get("vehicles")),
        riders,
        agency.get("clock") != 24,
        words,
    )


def riders_of_trips(copy: Path) -> dict[int, int]:
    """Whose trip each is, in a copy of the desk's file."""
    try:
        with contextlib.closing(sqlite3.connect(f"file:{copy}?mode=ro", uri=True)) as found:
            return dict(found.execute("SELECT id, rider FROM trips").fetchall())
    except sqlite3.Error as error:
        raise Wrong(f"{copy} can't be read: {error}") from None
