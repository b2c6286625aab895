"""Whom a reminder goes to: what the roster says of each rider's channel and address."""

import re
from dataclasses import dataclass
from pathlib import Path

from desk_tools.reminders.settings import CHANNELS, LANGUAGES, MAIL, NONE, Wrong
from desk_tools.town import cells, sheets
from desk_tools.town.cells import HIGHEST_NUMBER

COLUMNS = ("rider", "name", "language", "reminder", "telephone", "mail")
# A number that a machine may dial: one number, and nothing else beside it.
TELEPHONE = re.compile(r"\+?[0-9 ().\-/]+", re.ASCII)
LEAST_DIGITS, MOST_DIGITS = 7, 15
ADDRESS = re.compile(
    r"[A-Za-z0-9._%+][A-Za-z0-9._%+-]{0,63}@[A-Za-z0-9][A-Za-z0-9.-]{0,250}", re.ASCII
)


@dataclass(frozen=True)
class Rider:
    """A rider as the roster has one. The channel is `none` where it names none."""

    number: int
    name: str = ""
    language: str = "en"
    channel: str = NONE
    telephone: str = ""
    mail: str = ""

    @property
    def address(self) -> str:
        """Where the channel sends; a ValueError says why a machine can't."""
        if self.channel == MAIL:
            return _mail(self.mail)
        return dialed(self.telephone)


def _mail(text: str) -> str:
    if not text:
        raise ValueError("the roster has no mail address")
    if not ADDRESS.fullmatch(text):
        raise ValueError(f"{text[:60]!r} is no mail address")
    return text


def dialed(text: str) -> str:
    """The digits of a telephone number, led by + where it has one; a ValueError says why it is none."""
    if not text:
        raise ValueError("the roster has no telephone number")
    digits = re.sub("[^0-9]", "", text)
    if not TELEPHONE.fullmatch(text) or not LEAST_DIGITS <= len(digits) <= MOST_DIGITS:
        raise ValueError(f"{text[:60]!r} is not one telephone number")
    return f"+{digits}" if text.startswith("+") else digits


def read(path: Path) -> tuple[dict[int, Rider], list[str]]:
    """The riders by their numbers, and a sentence for each row that can't be used."""
    riders: dict[int, Rider] = {}
    try:
        sheet = sheets.read(path, {it: () for it in COLUMNS})
        sheets.require(sheet, ("rider", "name"), {it: () for it in COLUMNS})
    except sheets.Unreadable as error:
        raise Wrong(str(error)) from None
    faults = [f"row {it.number}: {it.reason}" for it in sheet.refused]
    for row in sheet.rows:
        _take(riders, faults, row.number, row.fields)
    return riders, faults


def _take(riders: dict[int, Rider], faults: list[str], row: int, texts: dict[str, str]) -> None:
    try:
        number = cells.number(texts.get("rider", ""))
    except cells.WrongCell:
        said = f"rider {texts.get('rider', '')[:40]!r} is no number from 1 to {HIGHEST_NUMBER}"
        faults.append(f"row {row}: {said}")
        return
    if number in riders:
        faults.append(f"row {row}: rider {number} stands above already")
        return
    channel = texts.get("reminder", "").lower() or NONE
    if channel not in (*CHANNELS, NONE):
        faults.append(
            f"row {row}: reminder {channel[:40]!r} is none of {', '.join(CHANNELS)}, {NONE}"
        )
        channel = NONE
    language = texts.get("language", "").lower().split("-")[0]
    riders[number] = Rider(
        number,
        texts.get("name", ""),
        language if language in LANGUAGES else LANGUAGES[0],
        channel,
        texts.get("telephone", ""),
        texts.get("mail", ""),
    )
