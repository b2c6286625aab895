"""A letter of the desk: it is read by the desk's API as the pages read it, and told in sentences."""

import http.client
import json
import time
import urllib.error
import urllib.request
from collections.abc import Iterable, Mapping
from dataclasses import dataclass
from pathlib import Path
from typing import Any

from desk_tools.letters import composing
from desk_tools.letters.composing import About, Letter, Sender
from desk_tools.letters.forms import LANGUAGES, NoForm
from desk_tools.town import cells, sheets
from desk_tools.town.site_addresses import Known, known_in

ROSTER_COLUMNS = ("rider", "name", "language", "home")

MOST_ENTRIES = 200
# Of entries that stand side by side at most four have no letter; so behind five in a row there is none.
WITHOUT_LETTER = 4
SECONDS = 60.0
# Where a site has too many requests, it says in how many seconds one asks again: so often, and so long at most.
TOO_MANY, TIMES, LONGEST_PAUSE = 429, 6, 30
_SAID = {
    401: "nobody has this key",
    TOO_MANY: "the site has too many requests: run the command again in a minute",
    403: "this key may not read letters of this rider: it takes one of a clerk, an examiner, an officer or the rider",
}


@dataclass(frozen=True)
class Rider:
    """What the roster says of a rider; a text is empty where it says nothing."""

    name: str = ""
    language: str = ""
    home: str = ""


def letters_of(url: str, key: str, rider: int) -> list[Letter]:
    """All letters of a rider in their order."""
    return [*_letters_from(url, key, rider, range(MOST_ENTRIES))]


def letters_for(url: str, key: str, rider: int, entry: int) -> list[Letter]:
    """The letter of an entry and those that it speaks of, in their order; all letters where there is none of the entry."""
    letter = _letter(url, key, rider, entry)
    if letter is None:
        return letters_of(url, key, rider)
    before, after = composing.speaks_of(letter)
    back = _letters_from(url, key, rider, range(entry - 1, -1, -1), in_a_row=entry)
    on = _letters_from(url, key, rider, range(entry + 1, MOST_ENTRIES))
    earlier = next((it for it in back if it.decision in before), None) if before else None
    later = next((it for it in on if it.decision in after), None) if after else None
    return [it for it in (earlier, letter, later) if it is not None]


def _letters_from(
    url: str, key: str, rider: int, entries: Iterable[int], in_a_row: int = WITHOUT_LETTER
) -> Iterable[Letter]:
    """The letters of entries in this order, as far as they are asked for; more entries `in_a_row` without one end it."""
    without = 0
    for entry in entries:
        letter = _letter(url, key, rider, entry)
        without = without + 1 if letter is None else 0
        if letter is not None:
            yield letter
        if without > in_a_row:
            break


def _letter(url: str, key: str, rider: int, entry: int) -> Letter | None:
    text = _read(f"{url.rstrip('/')}/riders/{rider}/letters/{entry}", key)
    return None if text is None else composing.letter_of(entry, text)


def _pause(said: str | None) -> int:
    """The seconds that Retry-After says; a second where it says none."""
    return (
        min(LONGEST_PAUSE, max(1, int(said))) if said and said.isascii() and said.isdigit() else 1
    )


def _read(address: str, key: str, times: int = TIMES) -> str | None:
    """The desk's text, or None where it has none there. It is asked for so many times where the site has too much to do."""
    if not address.startswith(("http://", "https://")):
        raise NoForm(f"{address.split('/riders')[0]} is no address such as http://127.0.0.1:8437")
    try:
        asked = urllib.request.Request(address, headers={"Desk-Key": key})
        with urllib.request.urlopen(asked, timeout=SECONDS) as reply:
            return str(reply.read().decode())
    except urllib.error.HTTPError as error:
        if error.code == 404:
            return None
        if error.code == TOO_MANY and times > 1:
            time.sleep(_pause(error.headers["Retry-After"]))
            return _read(address, key, times - 1)
        raise NoForm(
            _SAID.get(error.code, f"the desk answers with the status {error.code}")
        ) from None
    except (OSError, http.client.HTTPException, ValueError) as error:
        raise NoForm(f"the desk does not answer: {getattr(error, 'reason', error)}") from None


def sender_in(path: Path) -> tuple[Sender, Mapping[str, str]]:
    """The agency of its file, and the names of its places by their numbers."""
    try:
        held: dict[str, Any] = json.loads(path.read_text("utf-8-sig"))
        appeal = held.get("appeal") or {}
        places = {str(it["id"]): str(it.get("name", "")) for it in held.get("places", [])}
        sender = Sender(
            str(held["name"]),
            str(held.get("telephone", "")),
            str(held.get("address", "")),
            str(appeal.get("to", "")),
            str(appeal.get("address", "")),
            str(appeal.get("telephone", "")),
        )
    except OSError as error:
        raise NoForm(f"{path}: {error.strerror}") from None
    except (ValueError, KeyError, TypeError, AttributeError):
        raise NoForm(f"{path} is no agency.json with a name") from None
    return sender, places


def rider_in(path: Path, rider: int) -> Rider:
    """A rider of the roster, as a spreadsheet saved it; nothing is known of one who is not in it.

    A row of the rider that can't be read raises NoForm, so that no letter goes out without a name.
    """
    try:
        sheet = sheets.read(path, {it: () for it in ROSTER_COLUMNS})
        sheets.require(sheet, ("rider", "name"), {it: () for it in ROSTER_COLUMNS})
    except sheets.Unreadable as error:
        raise NoForm(str(error)) from None
    for row in sheet.rows:
        if _is_number(row.fields.get("rider", ""), rider):
            texts = [row.fields.get(it, "") for it in ("name", "language", "home")]
            return Rider(texts[0], texts[1].lower(), texts[2])
    at = sheet.header.index("rider")
    for refused in sheet.refused:
        if len(refused.cells) > at and _is_number(refused.cells[at], rider):
            raise NoForm(f"{path}, row {refused.number}: {refused.reason}")
    return Rider()


def _is_number(text: str, number: int) -> bool:
    """Whether a cell is this number, leading zeros or not."""
    try:
        return cells.number(text) == number
    except cells.WrongCell:
        return False


def mailing_of(asked: "Asked", rider: Rider, places: Mapping[str, str]) -> str:
    """The address to which the rider's letters go, or an empty text: then the letter has a line for it."""
    try:
        addresses = known_in(asked.addresses)[0] if asked.addresses else Known([])
    except sheets.Unreadable as error:
        raise NoForm(str(error)) from None
    home = int(rider.home) if rider.home.isdecimal() else None
    return addresses.mailing(asked.rider, home, places.get(rider.home, ""))


@dataclass(frozen=True)
class Asked:
    """Which letter is asked for, and where the agency's files are."""

    url: str
    key: str
    rider: int
    entry: int | None
    agency: Path
    roster: Path | None = None
    language: str | None = None
    addresses: Path | None = None


def text_of(asked: Asked) -> tuple[str, str]:
    """The text of a letter, of the last one where no entry is named, and its language."""
    sender, places = sender_in(asked.agency)
    known = rider_in(asked.roster, asked.rider) if asked.roster else Rider()
    desk = asked.url, asked.key, asked.rider
    letters = letters_of(*desk) if asked.entry is None else letters_for(*desk, asked.entry)
    if not letters:
        raise NoForm(f"the desk has no letter to rider {asked.rider}")
    wanted = letters[-1].entry if asked.entry is None else asked.entry
    letter = next((it for it in letters if it.entry == wanted), None)
    if letter is None:
        there = ", ".join(str(it.entry) for it in letters)
        raise NoForm(f"the desk has no letter {wanted} to rider {asked.rider}, but {there}")
    language = asked.language or (known.language if known.language in LANGUAGES else "en")
    place = mailing_of(asked, known, places)
    about = About(language, asked.rider, sender, letters, known.name, place)
    return composing.plain_text(composing.blocks_of(letter, about)), language
