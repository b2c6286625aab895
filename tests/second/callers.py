"""Callers: who asks, what each role may ask, and the last write of each that was accepted."""

from __future__ import annotations

import hashlib
from typing import TYPE_CHECKING, Any, NamedTuple

from second.replies import Denied

if TYPE_CHECKING:
    from second.desk import Desk
    from second.requests import Request

MOST_CALLERS = 1000


class Caller(NamedTuple):
    """Who asks, and of which rider or vehicle."""

    role: str
    subject: int
    digest: bytes


class Kept(NamedTuple):
    """The last accepted write of a caller: its number, what was asked, and what was told."""

    number: int
    request: Request | None
    reply: bytes | None


OFFICE = ["rider", "clerk", "dispatcher"]
RIGHTS = ["rider", "clerk", "examiner", "officer"]
MAY = {
    "caller": ["admin"],
    "policy": ["admin"],
    "place": ["admin"],
    "route": ["admin"],
    "rider": ["clerk"],
    "vehicle": ["dispatcher"],
    "travel": ["dispatcher"],
    "book": OFFICE,
    "change": OFFICE,
    "cancel": OFFICE,
    "outcome": ["driver", "dispatcher"],
    "standing": RIGHTS,
    "letter": RIGHTS,
    "trips": OFFICE,
    "manifest": ["driver", "dispatcher"],
    "sheet": ["dispatcher"],
    "export": ["dispatcher"],
}
MAY_ENTER = {
    "complete": ["clerk"],
    "notice": ["clerk"],
    "grant": ["examiner"],
    "refuse": ["examiner"],
    "appeal": ["rider", "clerk"],
}


def digest_of(key: str) -> bytes:
    return hashlib.sha256(key.encode()).digest()


def caller_with(desk: Desk, key: str) -> int:
    """The number of the caller with this key."""
    digest = digest_of(key)
    for number, caller in desk.callers.items():
        if caller.digest == digest:
            return number
    raise Denied("desk.key")


def kept_reply(desk: Desk, number_of_caller: int, number: int, request: Request) -> bytes | None:
    """What the last accepted write was told, where this is that write again; else None, or `desk.number` is named."""
    kept = desk.kept.get(number_of_caller, Kept(0, None, None))
    if (number, request) == (kept.number, kept.request):
        return kept.reply
    if number <= kept.number:
        raise Denied("desk.number")
    return None


def rider_of(desk: Desk, values: dict[str, Any]) -> int | None:
    """Whose rider's request it is: of a trip that is not there, nobody's."""
    if "trip" in values:
        trip = desk.trips.get(values["trip"])
        return trip.rider if trip else None
    return int(values["rider"])


def vehicle_of(desk: Desk, values: dict[str, Any]) -> int | None:
    if "trip" in values:
        trip = desk.trips.get(values["trip"])
        return trip.vehicle if trip else None
    return int(values["vehicle"])


def allow(desk: Desk, caller: Caller, request: Request) -> None:
    """Denies what the caller's role may not ask, and what is another's."""
    kind, values = request
    roles = MAY_ENTER.get(values["entry"], ["officer"]) if kind == "entry" else MAY[kind]
    is_allowed = caller.role in roles
    if caller.role == "rider" and is_allowed:
        is_allowed = rider_of(desk, values) == caller.subject
    if caller.role == "driver" and is_allowed:
        is_allowed = vehicle_of(desk, values) == caller.subject
    if not is_allowed:
        raise Denied("desk.caller")


def put(desk: Desk, values: dict[str, Any]) -> None:
    number, role, subject, digest = (values[name] for name in ("id", "role", "subject", "digest"))
    if (
        role == "rider"
        and subject not in desk.riders
        or role == "driver"
        and subject not in desk.vehicles
    ):
        raise Denied("desk.unknown")
    if any(caller.digest == digest for other, caller in desk.callers.items() if other != number):
        raise Denied("desk.exists")
    if number not in desk.callers and len(desk.callers) >= MOST_CALLERS:
        raise Denied("desk.full")
    desk.callers[number] = Caller(role, subject, digest)
