"""What came of a booking on the screen, held against the replies that came since it was confirmed, and against the desk itself."""

import re
from collections.abc import Callable, Iterator
from dataclasses import dataclass
from typing import Any

from walk_parts import speech
from walk_parts.ledger import Permit
from walk_parts.recorder import Exchange
from walk_parts.words import Words

Fault = tuple[str, str]
REPLY, DONE, PLAN = (
    "a sentence about the desk comes from a reply",
    "what is confirmed is done once",
    "a plan means what the rider said",
)
TIME = re.compile(r"(\d{1,2}):(\d{2}) ?([ap])\.? ?m", re.I)
NEGOTIATED = 60
MODES = ("not-before", "by", "around")


@dataclass(frozen=True)
class Said:
    """What a leg on the screen says that the rider said."""

    mode: str
    minute: int


def minute_in(text: str) -> int | None:
    """The first time in a text, as a minute."""
    found = TIME.search(text)
    if not found:
        return None
    return int(found[1]) % 12 * 60 + int(found[2]) + (720 if found[3].lower() == "p" else 0)


def said_in(text: str, words: Words, language: str) -> Said | None:
    """The mode and the minute of a leg's words."""
    for mode in MODES:
        pattern = words.patterns[language].get(f"booking.said-{mode}")
        begin = (
            pattern.pattern.split("(.+?)")[0].replace("\\ ", " ").replace("\\", "")
            if pattern
            else ""
        )
        at = text.find(begin) if begin else -1
        if at >= 0 and (minute := minute_in(text[at:])) is not None:
            return Said(mode, minute)
    return None


def said_far(leg: dict[str, Any], permit: Permit) -> Said | None:
    """What was said of a leg whose ticket says how far its window is from it; what mattered is what all legs of the form have in common."""
    minute, modes = minute_in(leg["far"]), set(permit.modes.values())
    return (
        Said(modes.pop(), minute)
        if minute is not None and len(modes) == 1 and "" not in modes
        else None
    )


def names_of(says: str, words: Words) -> list[str]:
    """The names of denials that a sentence may be of."""
    return [
        key.removeprefix("denials.")
        for table in words.patterns.values()
        for key, pattern in table.items()
        if key.startswith("denials.") and not key.endswith("/help") and pattern.fullmatch(says)
    ]


def tickets(
    legs: list[dict[str, Any]], trips: dict[int, dict[str, Any]], halves: tuple[str, str]
) -> Iterator[Fault]:
    """Each ticket is a trip that stands, with its window."""
    for leg in legs:
        found = re.search(r"\d+", leg["heading"]) if leg["ticket"] else None
        if not found:
            continue
        trip = trips.get(int(found[0]))
        if trip is None or trip["status"] != "booked":
            yield DONE, f"{leg['heading']!r} is said, but the desk has {trip}"
        elif (
            leg["window"]
            and speech.window(trip["window_from"], trip["window_to"], halves) not in leg["window"]
        ):
            yield DONE, f"{leg['heading']!r} shows {leg['window']!r}, but the desk has {trip['window_from']} to {trip['window_to']}"


def denials(legs: list[dict[str, Any]], exchanges: list[Exchange], words: Words) -> Iterator[Fault]:
    """Each leg that is denied has a reply that says so, since it was confirmed."""
    told = {it.denied for it in exchanges if it.denied}
    for leg in legs:
        names = names_of(leg["denial"], words) if leg["denial"] else []
        if names and not any(name.split(" ")[0] in told or name in told for name in names):
            yield REPLY, f"{leg['text'][:240]!r} is told, and the replies since the press were {sorted(told) or 'none'}"


def same_trips(legs: list[dict[str, Any]], trips: dict[int, dict[str, Any]]) -> Iterator[Fault]:
    """What was booked without a question was not booked before: the same way on the same day."""
    booked = {
        int(number[0])
        for it in legs
        if it["ticket"] and (number := re.search(r"\d+", it["heading"]))
    }
    for one in sorted(booked & set(trips)):
        same = [
            it["trip"]
            for it in trips.values()
            if it["trip"] < min(booked)
            and it["status"] == "booked"
            and all(it[name] == trips[one][name] for name in ("day", "from", "to"))
        ]
        if same:
            yield DONE, f"trip {one} was booked without a question, and trip {same[0]} goes the same way on {trips[one]['day']}"


Ask = Callable[[dict[str, Any]], dict[str, Any]]


def probes(said: Said) -> list[tuple[int, int | None]]:
    """Wishes, each with a minute to be there by, of which one may be all right where the leg's words are."""
    if said.mode == "by":
        return [(max(0, said.minute - back), said.minute) for back in (30, 45, 60, 90)]
    if said.mode == "not-before":
        return [
            (min(1439, said.minute + NEGOTIATED), None),
            (min(1439, said.minute + 30), None),
            (said.minute, None),
        ]
    return [(said.minute, None)]


def is_meant(said: Said, reply: dict[str, Any]) -> bool:
    """Whether a promise is what was said."""
    start = reply["window_from"]
    if said.mode == "by":
        return True
    if said.mode == "not-before":
        return bool(said.minute <= start <= said.minute + NEGOTIATED)
    return bool(abs(start - said.minute) <= NEGOTIATED)


def denied_wrongly(
    leg: dict[str, Any], said: Said, fields: dict[str, Any], ask: Ask, sent: dict[str, Any]
) -> Fault | None:
    """Whether the desk itself takes what the screen says it denied. ask(fields) books beside the pages and gives it up; sent is what the page asked last."""
    for wish, by in probes(said):
        reply = ask({**fields, "wish": wish, "by": by})
        if "trip" in reply and is_meant(said, reply):
            return (
                PLAN,
                f"{leg['text'][:200]!r} is told, but the desk takes wish {wish} by {by}: {reply}; the page asked {sent} last",
            )
    return None


def kept_as_said(leg: dict[str, Any], said: Said, trip: dict[str, Any]) -> Fault | None:
    """Whether what is told as booked is what the rider said."""
    if leg["ticket"] and not is_meant(said, trip):
        return (
            PLAN,
            f"{said.mode} {said.minute} is booked without a question as {trip['window_from']} to {trip['window_to']}: {leg['text'][:160]!r}",
        )
    return None


def not_changed(legs: list[dict[str, Any]], permit: Permit, words: Words) -> Iterator[Fault]:
    """A change that is denied says that the trip stays as it was."""
    for leg in legs:
        if (
            leg["denial"]
            and not leg["offer"]
            and not words.is_text(leg["heading"], "booking.not-changed")
        ):
            yield PLAN, f"the change of trip {permit.trip} is denied, and told as {leg['heading'][:120]!r}"


def left_unsaid(permit: Permit, exchanges: list[Exchange], says: list[str]) -> Fault | None:
    """A form that was left before anything went out, of which nothing is said."""
    if any(it.is_write for it in exchanges) or says:
        return None
    return DONE, f"{permit} was confirmed and its part left, nothing was asked, and nothing says so"


def never_asked(permit: Permit, exchanges: list[Exchange], is_told: bool) -> Fault | None:
    """A yes that led to nothing at all."""
    asked = any(it.is_write for it in exchanges)
    if not asked and not is_told:
        return DONE, f"{permit} was confirmed, and nothing was asked or said"
    return None
