"""The objects of one trip: the request, the confirmation of its task, and how the task ended. Pure: no desk, no file.

The names are those of TCRP Report 210 as they were remembered. Nobody has compared them with the report.
"""

import datetime
from collections.abc import Mapping
from dataclasses import dataclass, field
from typing import Any

SPECIFICATION = (
    "TCRP Report 210, transactional data, JSON; written from memory, not compared with the report"
)
# The desk's states, and those of the objects.
STATES = {
    "booked": "scheduled",
    "cancelled": "canceled",
    "ridden": "completed",
    "missed-rider": "no-show",
    "missed-operator": "missed by the provider",
}
CANCELED, SCHEDULED = "canceled", "scheduled"


@dataclass(frozen=True)
class Clock:
    """A day in the agency's zone."""

    day: datetime.date
    zone: datetime.tzinfo

    def at(self, minute: int) -> str:
        """The moment so many minutes after the day's midnight, by the clock on the wall."""
        midnight = datetime.datetime.combine(self.day, datetime.time())
        return (midnight + datetime.timedelta(minutes=minute)).replace(tzinfo=self.zone).isoformat()


@dataclass(frozen=True)
class Trip:
    """A trip as the desk has it. Minutes are those of the day, `due` is cents; `by` is None where the rider named none."""

    number: int
    rider: int
    status: str
    wish: int
    window: tuple[int, int]
    ends: tuple[int, int]
    vehicle: int
    by: int | None
    attendant: bool
    companions: int
    due: int


@dataclass(frozen=True)
class Known:
    """What the agency's files and the day's sheet add to a trip.

    `points` are both ends, each with an address or a place; `planned` are the minutes of the pickup and of the
    drop-off; `taps` the driver's, by kind, in minutes.
    """

    points: tuple[Mapping[str, Any], Mapping[str, Any]]
    rider: Mapping[str, str] = field(default_factory=dict)
    requested: Mapping[str, Any] = field(default_factory=dict)
    planned: tuple[int, int] | None = None
    vehicle_name: str = ""
    taps: Mapping[str, int] = field(default_factory=dict)


def trip_of(trip: Trip, known: Known, clock: Clock) -> dict[str, Any]:
    """All objects of a trip. One that was canceled has no task, and one that has not ended no completion."""
    state = STATES[trip.status]
    found = {"status": state, "tripRequest": request_of(trip, known, clock)}
    if state != CANCELED:
        found["tripTaskConfirmation"] = confirmation_of(trip, known, clock)
    if state not in (CANCELED, SCHEDULED):
        found["tripTaskCompletion"] = completion_of(trip, known, clock)
    return found


def ids_of(trip: Trip) -> dict[str, str]:
    """The numbers by which objects of one trip are known. A trip has one task, that of its vehicle."""
    return {"tripTicketId": str(trip.number), "tripTaskId": f"{trip.number}-{trip.vehicle}"}


def request_of(trip: Trip, known: Known, clock: Clock) -> dict[str, Any]:
    """What the rider asked for. Where no report says it, the pickup is the one that was sent to the desk."""
    minute, mode = known.requested.get("minute", trip.wish), known.requested.get("mode", "around")
    is_pickup = mode != "by"
    return {
        "tripTicketId": str(trip.number),
        "customerInfo": customer_of(trip, known.rider),
        "pickupAddress": address_of(known.points[0]),
        "dropoffAddress": address_of(known.points[1]),
        "pickupTime": clock.at(minute if is_pickup else trip.wish),
        "dropoffTime": None if trip.by is None else clock.at(trip.by),
        "hardConstraintOnPickupTime": mode == "not-before",
        "hardConstraintOnDropoffTime": trip.by is not None,
        "numOtherReservedPassengers": trip.companions + trip.attendant,
        "attendant": trip.attendant,
        "specialAttributes": known.rider.get("aid") or None,
        "detoursPermissible": True,
        "transportServices": "ADA complementary paratransit",
        "notesForDriver": "; ".join(filter(None, (it.get("note") for it in known.points))) or None,
    }


def confirmation_of(trip: Trip, known: Known, clock: Clock) -> dict[str, Any]:
    """What the agency promised and planned. The window is promised; the scheduled minutes may still change."""
    planned = known.planned
    return {
        **ids_of(trip),
        "pickupWindowStartTime": clock.at(trip.window[0]),
        "pickupWindowEndTime": clock.at(trip.window[1]),
        "scheduledPickupTime": clock.at(planned[0]) if planned else None,
        "scheduledDropoffTime": clock.at(planned[1]) if planned else None,
        "vehicleInformation": {
            "vehicleId": str(trip.vehicle),
            "name": known.vehicle_name or None,
        },
        "fareType": "cash",
        "fareAmount": f"{trip.due // 100}.{trip.due % 100:02}",
    }


def completion_of(trip: Trip, known: Known, clock: Clock) -> dict[str, Any]:
    """How the trip ended. A moment that no driver reported is null, and never guessed."""
    moments = {
        "vehicleArrivalTime": "arrived",
        "performedPickupTime": "aboard",
        "performedDropoffTime": "dropped",
    }
    told = {
        name: clock.at(known.taps[kind]) if kind in known.taps else None
        for name, kind in moments.items()
    }
    return {**ids_of(trip), "status": STATES[trip.status], **told}


def customer_of(trip: Trip, rider: Mapping[str, str]) -> dict[str, Any]:
    """The rider: a number, and a name and telephone number where the roster gives them."""
    named = {"name": rider.get("name") or None, "mobilePhone": rider.get("telephone") or None}
    return {"customerId": str(trip.rider), **named, "language": rider.get("language") or None}


def address_of(point: Mapping[str, Any]) -> dict[str, Any]:
    """An address or a place: its words, and its position where it is known."""
    return {
        "addressName": point.get("name") or None,
        "street": point.get("street") or None,
        "lat": point.get("latitude"),
        "long": point.get("longitude"),
    }
