"""reminders.json: by which command each channel sends, and the texts. docs/REMINDERS.md defines the file."""

import json
import string
from collections.abc import Mapping
from dataclasses import dataclass, field
from pathlib import Path
from typing import Any

SMS, MAIL, VOICE, NONE = "sms", "mail", "voice", "none"
CHANNELS = (SMS, MAIL, VOICE)
# Which reminder it is: the one of the evening before, or the one shortly before the pickup.
EVENING, SOON = "evening", "soon"
SUBJECT = "subject"
LANGUAGES = ("en", "es")
USUAL_SECONDS, MOST_SECONDS, MOST_MINUTES = 30, 600, 180
LONGEST_TEXT = 1_000
# What a text may name, in braces.
NAMES = ("agency", "telephone", "name", "day", "begins", "ends", "place", "goal")
TEXTS: dict[str, dict[str, str]] = {
    "en": {
        SUBJECT: "Your ride on {day}",
        EVENING: "{agency}: your ride is on {day}. Pickup between {begins} and {ends}. "
        "To cancel or ask, call {telephone}.",
        SOON: "{agency}: your pickup is today between {begins} and {ends}. "
        "To cancel or ask, call {telephone}.",
    },
    "es": {
        SUBJECT: "Su viaje del {day}",
        EVENING: "{agency}: su viaje es el {day}. Lo recogemos entre las {begins} y las {ends}. "
        "Para cancelar o preguntar, llame al {telephone}.",
        SOON: "{agency}: lo recogemos hoy entre las {begins} y las {ends}. "
        "Para cancelar o preguntar, llame al {telephone}.",
    },
}


class Wrong(Exception):
    """What is wrong with the words or the input: one sentence."""


@dataclass(frozen=True)
class Hook:
    """The command of a channel, which gets the message on standard input. `{to}` in a word is the address."""

    command: tuple[str, ...]
    seconds: int = USUAL_SECONDS
    sender: str = ""

    def words(self, to: str) -> list[str]:
        """The command's words for an address; it is the last one where no word has its place."""
        if not any("{to}" in it for it in self.command):
            return [*self.command, to]
        return [it.replace("{to}", to) for it in self.command]


@dataclass(frozen=True)
class Settings:
    """What the file says. Without `soon_minutes` nothing is sent shortly before a pickup."""

    hooks: Mapping[str, Hook] = field(default_factory=dict)
    soon_minutes: int = 0
    texts: Mapping[str, Mapping[str, str]] = field(default_factory=lambda: TEXTS)


def read(path: Path) -> Settings:
    """The settings of a file. One thing that is wrong is named, and then nothing is sent."""
    try:
        held = json.loads(path.read_text(encoding="utf-8-sig"))
    except OSError as error:
        raise Wrong(f"{path}: {error.strerror}") from None
    except (ValueError, RecursionError) as error:
        raise Wrong(f"{path} is no JSON: {error}") from None
    try:
        return _settings(held)
    except ValueError as error:
        raise Wrong(f"{path}: {error}") from None


def _settings(held: object) -> Settings:
    fields = _fields(held, "the file", ("channels", "soon_minutes", "texts"))
    channels = _fields(fields.get("channels", {}), "channels", CHANNELS)
    hooks = {name: _hook(name, it) for name, it in channels.items()}
    minutes = _number(fields.get("soon_minutes", 0), "soon_minutes", 0, MOST_MINUTES)
    return Settings(hooks, minutes, _texts(fields.get("texts", {})))


def _fields(held: object, where: str, known: tuple[str, ...]) -> dict[str, Any]:
    if not isinstance(held, dict):
        raise ValueError(f"{where} is not an object")
    unknown = sorted(set(held) - set(known))
    if unknown:
        raise ValueError(f"{where} has {unknown[0][:40]!r}, which is none of {', '.join(known)}")
    return held


def _number(held: object, where: str, low: int, high: int) -> int:
    if not isinstance(held, int) or isinstance(held, bool) or not low <= held <= high:
        raise ValueError(f"{where} is no whole number from {low} to {high}")
    return held


def _text(held: object, where: str, most: int = LONGEST_TEXT) -> str:
    if not isinstance(held, str) or not held.strip() or len(held) > most:
        raise ValueError(f"{where} is no text of 1 to {most} characters")
    if any(ord(it) < 32 and it != "\n" or 0xD800 <= ord(it) < 0xE000 for it in held):
        raise ValueError(f"{where} has a character that no message can have")
    return held


def _hook(name: str, held: object) -> Hook:
    fields = _fields(held, f"channels.{name}", ("command", "seconds", "from"))
    command = fields.get("command")
    if not isinstance(command, list) or not command:
        raise ValueError(f"channels.{name}.command is no list of words, the first one a program")
    words = tuple(_text(it, f"channels.{name}.command") for it in command)
    seconds = fields.get("seconds", USUAL_SECONDS)
    sender = _text(fields["from"], f"channels.{name}.from", 200) if "from" in fields else ""
    if "\n" in sender:
        raise ValueError(f"channels.{name}.from is more than one line")
    return Hook(words, _number(seconds, f"channels.{name}.seconds", 1, MOST_SECONDS), sender)


def _texts(held: object) -> dict[str, dict[str, str]]:
    """The usual texts, and in their place those of the file."""
    given = _fields(held, "texts", LANGUAGES)
    found = {language: dict(texts) for language, texts in TEXTS.items()}
    for language, texts in given.items():
        where = f"texts.{language}"
        for which, text in _fields(texts, where, (SUBJECT, EVENING, SOON)).items():
            found[language][which] = _template(_text(text, f"{where}.{which}"), f"{where}.{which}")
    return found


def _template(text: str, where: str) -> str:
    try:
        parts = [*string.Formatter().parse(text)]
    except ValueError as error:
        raise ValueError(f"{where}: {error}") from None
    for _, name, form, conversion in parts:
        if name is not None and (name not in NAMES or form or conversion):
            raise ValueError(
                f"{where} has {{{name[:40]}}}, which is none of {', '.join(NAMES)} in braces"
            )
    return text
