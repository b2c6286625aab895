"""The figures of a day, and their sums, with the names that the National Transit Database gives them."""

import datetime
from collections import Counter
from collections.abc import Iterator
from dataclasses import dataclass
from typing import Any

from desk_tools.counting import counted

WEEKDAY, SATURDAY, SUNDAY = SERVICES = ("weekday", "Saturday", "Sunday")
# (DR is demand response)
MODE = "DR"
FEW = ["mode", "day", "service", "vehicles_operated"]
SUMS = [
    *("riders", "companions", "attendants"),
    *("unlinked_passenger_trips", "ada_unlinked_passenger_trips"),
    *("no_shows_by_rider", "missed_by_operator", "cancelled"),
    *("without_outcome", "to_come", "fares_cents"),
]
LABELS = [
    ("unlinked_passenger_trips", "Unlinked passenger trips, all of them under the ADA"),
    ("riders", "riders"),
    ("companions", "companions"),
    ("attendants", "personal care attendants"),
    ("vehicles_operated", "Vehicles operated in maximum service"),
    ("no_shows_by_rider", "No-shows of riders"),
    ("missed_by_operator", "Trips that the operator missed"),
    ("cancelled", "Cancelled trips"),
    ("without_outcome", "Trips that are over, without an outcome"),
    ("to_come", "Trips to come"),
    ("fares_cents", "Fares due of the trips that were ridden, in cents"),
]
# What stands of each day on a page: a column's name there, and the figure.
DAYS = [
    ("Vehicles", "vehicles_operated"),
    ("Riders", "riders"),
    ("Companions", "companions"),
    ("Attendants", "attendants"),
    ("Trips", "unlinked_passenger_trips"),
    ("No-shows", "no_shows_by_rider"),
    ("Missed", "missed_by_operator"),
    ("Cancelled", "cancelled"),
    ("Open", "without_outcome"),
]
Figures = dict[str, Any]


@dataclass(frozen=True)
class Trip:
    """A trip: its vehicle, the fare that is due (cents), who comes along, and how it ended."""

    vehicle: int
    due: int
    companions: int
    attendants: int
    status: str


def service_of(day: datetime.date) -> str:
    return {6: SATURDAY, 7: SUNDAY}.get(day.isoweekday(), WEEKDAY)


def figures_of(day: datetime.date, trips: list[Trip], today: datetime.date) -> Figures:
    """The figures of a day, by their names.

    What is booked today or later is to come, and lacks no outcome yet.
    """
    counts = Counter(it.status for it in trips)
    ridden = [it for it in trips if it.status == "ridden"]
    companions = sum(it.companions for it in ridden)
    attendants = sum(it.attendants for it in ridden)
    persons = len(ridden) + companions + attendants
    return {
        "mode": MODE,
        "day": day.isoformat(),
        "service": service_of(day),
        "vehicles_operated": len({it.vehicle for it in ridden}),
        "riders": len(ridden),
        "companions": companions,
        "attendants": attendants,
        "unlinked_passenger_trips": persons,
        "ada_unlinked_passenger_trips": persons,
        "no_shows_by_rider": counts["missed-rider"],
        "missed_by_operator": counts["missed-operator"],
        "cancelled": counts["cancelled"],
        "without_outcome": 0 if day >= today else counts["booked"],
        "to_come": counts["booked"] if day >= today else 0,
        "fares_cents": sum(it.due for it in ridden),
    }


def most_vehicles(days: list[Figures]) -> int:
    return max((it["vehicles_operated"] for it in days), default=0)


def total_of(days: list[Figures]) -> Figures:
    """The sums of all days; of vehicles the most that were out on one day."""
    operated = sum(it["riders"] > 0 for it in days)
    return {
        "mode": MODE,
        "day": "total",
        "service": counted(operated, "day operated", "days operated"),
        "vehicles_operated": most_vehicles(days),
        **{name: sum(it[name] for it in days) for name in SUMS},
    }


def averages_of(days: list[Figures]) -> Iterator[Figures]:
    """The averages of weekdays, Saturdays and Sundays on which somebody rode."""
    for service in SERVICES:
        those = [it for it in days if it["service"] == service and it["riders"] > 0]
        if those:
            means = {name: round(sum(it[name] for it in those) / len(those), 1) for name in SUMS}
            vehicles = most_vehicles(those)
            head = {"mode": MODE, "day": "average", "service": service}
            yield {**head, "vehicles_operated": vehicles, **means}
