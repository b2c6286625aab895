"""What was done by a stolen key of the office, by the record: each write with what to do about it, and whom to call.

The record has each request with the key that it came by. Moments are those of the agency's clocks.
"""

from collections.abc import Mapping
from dataclasses import dataclass, field
from datetime import datetime

from desk_tools import keys_of_then
from desk_tools.journal import reading
from desk_tools.journal.borrowing import History
from desk_tools.journal.events import Event
from desk_tools.journal.lines import text_of
from desk_tools.journal.questions import Asked
from desk_tools.theft import Caller, Finding, Trip, pickup_of

ADVICE = {
    "trip": "ask the rider; put back by the desk what the rider does not want",
    "standing": "an entry stays: whose key it was decides it anew, with a notice to the rider that says why",
    "rider": "look at the rider's record with the rider, and put it right",
    "setting": "compare it with what it was before, and put it right",
    "other": "look at it, and put it right",
}
OUTCOME = "ask the driver; an outcome stays, so enter the right one in corrections.csv"


@dataclass
class Deeds:
    """What came by the key: findings of writes, how many requests were refused, and whose data was read."""

    findings: list[Finding] = field(default_factory=list)
    refused: int = 0
    reads: int = 0
    readers_of: set[int] = field(default_factory=set)
    lists: int = 0
    # A sentence where the record does not hold, or does not go back so far.
    warnings: list[str] = field(default_factory=list)


def advice_of(event: Event) -> str:
    """What to do about a write."""
    if event.kind == "key":
        fields = event.line.fields
        number, subject = fields.get("id"), fields.get("subject")
        if isinstance(number, int) and text_of(fields, "role"):
            who = Caller(text_of(fields, "role"), subject if isinstance(subject, int) else 0, b"")
            return f"whoever has that key goes on: give another one, {keys_of_then.command_for(number, who)} ..."
        return "whoever has that key goes on: look at the callers, and give another key"
    if event.kind == "trip" and event.line.path.endswith("/outcome"):
        return OUTCOME
    return ADVICE.get(event.kind, ADVICE["other"])


def finding_of(asked: Asked, event: Event, trips: Mapping[int, Trip]) -> Finding:
    """A write in words. Where the trip is known its pickup says how soon the rider has to be called."""
    details = f" ({'; '.join(event.details)})" if event.details else ""
    trip = trips.get(event.trip)
    moment = event.line.began.astimezone(asked.zone)
    pickup = (pickup_of(trip) if trip else (moment.date(), 0)) if event.rider else None
    said = f"{asked.when(event.line)} {event.what}{details}"
    return Finding(said, advice_of(event), event.rider, pickup)


def deeds_of(asked: Asked, caller: int, since: datetime | None, trips: Mapping[int, Trip]) -> Deeds:
    """What any key of the caller did from a moment on."""
    reader, history = reading.Reader(asked.places, checks=True), History(asked.people)
    digits = [it.encode() for it in asked.people.all_digits(caller)]
    deeds = Deeds()
    for event in asked.events(reader, history, lambda raw: any(it in raw for it in digits)):
        is_theirs = any(it.number == caller for it in event.people)
        if not is_theirs or since is not None and event.line.began < since:
            continue
        if not event.was_done:
            deeds.refused += 1
        elif event.line.is_write:
            deeds.findings.append(finding_of(asked, event, trips))
        else:
            deeds.reads += 1
            deeds.lists += event.is_of_all
            deeds.readers_of |= {event.rider} if event.rider else set()
    if asked.warning(reader):
        deeds.warnings.append(asked.warning(reader))
    if not digits:
        deeds.warnings.append(f"the record knows no key of caller {caller}")
    return deeds


def told_reads(deeds: Deeds) -> str:
    """Whose data the key read, in one sentence."""
    riders = ", ".join(map(str, sorted(deeds.readers_of))) or "none by number"
    lists = f"; {deeds.lists} of these were lists of many riders" if deeds.lists else ""
    return (
        f"{deeds.reads} reads were answered: riders {riders}{lists}. {deeds.refused} other requests were refused or not "
        "answered"
    )
