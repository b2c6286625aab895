"""What kept each vehicle from taking a trip, by the cases of a log."""

from collections import Counter
from dataclasses import dataclass

from desk_tools.why.log import Case, Log, stops_of

# What may be in the way, in the order in which it is told where two are as frequent.
HOURS, DAY, PICKUP, DROP, OTHERS, LOAD, NO_ROAD, LENGTH = (
    "hours",
    "day",
    "pickup",
    "drop",
    "others",
    "load",
    "no-road",
    "length",
)
KINDS = (PICKUP, DROP, OTHERS, DAY, HOURS, LOAD, NO_ROAD, LENGTH)


@dataclass(frozen=True)
class Reason:
    """One thing that was in the way of a vehicle: in how many of its places, and the earliest minute that a raise line
    of these cases gives for the visit that comes too late, with the row of that case; None where no minute is in the way.
    `leaves` is when the vehicle would leave in that case, so that its day is not too long.
    """

    kind: str
    places: int
    minute: int | None
    row: int
    leaves: int | None = None


@dataclass(frozen=True)
class Refusal:
    """What was in the way of one vehicle, the most frequent first, and how many places its route has for the trip."""

    vehicle: int
    places: int
    reasons: list[Reason]


def kind_of(case: Case, stops: int) -> str:
    """What ends a case of a route of so many stops."""
    if case.end != "W":
        return {"L": LOAD, "M": NO_ROAD, "S": LENGTH}[case.end]
    if case.visit >= stops + 3:
        return HOURS
    if case.is_too_long:
        return DAY
    if case.visit == case.pickup + 1:
        return PICKUP
    return DROP if case.visit == case.drop + 2 else OTHERS


def refusals(log: Log) -> list[Refusal]:
    """What was in the way of each vehicle of the log."""
    found = []
    for vehicle, cases in log.vehicles().items():
        stops = stops_of(cases)
        kinds = Counter(kind_of(case, stops) for case in cases)
        reasons = [
            reason_of(kind, [case for case in cases if kind_of(case, stops) == kind])
            for kind in kinds
        ]
        reasons.sort(key=lambda it: (-it.places, KINDS.index(it.kind)))
        found.append(Refusal(vehicle, len(cases), reasons))
    return found


def reason_of(kind: str, cases: list[Case]) -> Reason:
    """One reason out of the cases that it ends."""
    timed = [case for case in cases if case.end == "W"]
    best = min(timed or cases, key=lambda case: case.bounds.get(case.visit, 0))
    minute = best.bounds.get(best.visit, 0) if timed else None
    return Reason(kind, len(cases), minute, best.row, best.leaves if kind == DAY else None)
