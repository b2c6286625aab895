"""Which offers of the desk nobody has answered, out of the site's log of what it was told.

An offer is a trip that the desk holds more than an hour from what the rider asked for. It is told as a denial that
names its trip. A booking or a cancellation of that trip, told later, is its answer.
"""

import datetime
from collections.abc import Iterable

from desk_tools.event_log import Told


def open_offers(events: Iterable[Told], today: datetime.date) -> dict[int, Told]:
    """By trip the offers of this day and later that nobody has answered; the events come in their order."""
    found: dict[int, Told] = {}
    for it in events:
        trip = it.fields.get("trip")
        if not isinstance(trip, int):
            continue
        if it.kind == "denials":
            found[trip] = it
        elif it.kind in ("bookings", "cancellations"):
            found.pop(trip, None)
    return {trip: it for trip, it in found.items() if _is_from(it.fields.get("day"), today)}


def declined_offers(events: Iterable[Told]) -> set[int]:
    """The trips that were offered in place of a booking and canceled before anybody kept them: their riders said no."""
    offered: set[int] = set()
    declined: set[int] = set()
    for it in events:
        trip = it.fields.get("trip")
        if not isinstance(trip, int):
            continue
        if it.kind == "denials" and it.fields.get("offer") == "booking":
            offered.add(trip)
        elif it.kind == "bookings":
            offered.discard(trip)
        elif it.kind == "cancellations" and trip in offered:
            declined.add(trip)
    return declined


def _is_from(day: object, today: datetime.date) -> bool:
    return isinstance(day, datetime.date) and day >= today
