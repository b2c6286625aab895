"""The figures of months, as a table and as a page that prints. docs/WORKLIST.md, "Reports", says what each means."""

from __future__ import annotations

import collections
import datetime
from collections import Counter
from collections.abc import Callable, Iterator
from typing import Any, NamedTuple, TYPE_CHECKING

from desk_tools.reports.lists import Listed, Number
from desk_tools.setup.rules import NO_VEHICLE, RULES
from desk_tools.setup.tally_log import RIDER

if TYPE_CHECKING:
    from desk_tools.setup.tally_log import Log

# So many columns fit on paper beside the one of names.
COLUMNS_OF_A_TABLE, NO_BREAK = 7, "\u00a0"


class Figure(NamedTuple):
    """A figure: its name in the CSV, its label on the page, how it comes from a month's counts, and
    whether a log has to say it."""

    name: str
    label: str
    of: Callable[[Any], Any]
    needs_log: bool = False


def counted(name: str, label: str, needs_log: bool = False) -> Figure:
    return Figure(name, label, lambda it: it[name], needs_log)


def share(
    name: str,
    label: str,
    part: Callable[..., Any],
    whole: Callable[..., Any],
    digits: int,
    needs_log: bool = False,
) -> Figure:
    """A figure that is a quotient; it is empty where there is nothing to divide by."""
    return Figure(
        name, label, lambda it: round(part(it) / whole(it), digits) if whole(it) else "", needs_log
    )


DENIED = [
    counted(f"denied {rule}", f"Denied, {rule}: {said}", True) for rule, said in RULES.items()
]
FIGURES = [
    Figure(
        "asked",
        "Trips asked for: booked and denied",
        lambda it: it["trips"] + sum(it[of.name] for of in DENIED),
        True,
    ),
    Figure("booked", "Booked, cancelled ones too", lambda it: it["trips"]),
    *DENIED,
    counted("cancelled", "Cancelled"),
    counted("cancelled_early", "Cancelled early", True),
    counted("cancelled_late", "Cancelled late", True),
    counted("cancelled_by_agency", "Cancelled for the agency", True),
    counted("cancelled_untold", "Cancelled, and the log does not say when", True),
    counted("ridden", "Ridden"),
    Figure("missed_by_rider", "Missed by the rider", lambda it: it["missed by the rider"]),
    Figure("missed_by_operator", "Missed by the operator", lambda it: it["missed by the operator"]),
    Figure("without_outcome", "Over, without an outcome", lambda it: it["booked"]),
    counted("to_come", "To come when the copy was made"),
    counted("pickups_early", "Pickups before the promised window", True),
    counted("pickups_on_time", "Pickups in the promised window", True),
    counted("pickups_late", "Pickups late", True),
    counted("pickups_untold", "Pickups whose time no driver tapped", True),
    share(
        "on_time_percent",
        "On time, in percent",
        lambda it: 100 * it["pickups_on_time"],
        lambda it: it["pickups_early"] + it["pickups_on_time"] + it["pickups_late"],
        1,
        True,
    ),
    counted("appointments_on_time", "Drops by the minute that the rider had named", True),
    counted("appointments_late", "Drops after the minute that the rider had named", True),
    counted("appointments_untold", "Drops to a named minute whose time no driver tapped", True),
    share(
        "minutes_aboard_planned",
        "Minutes aboard a ride, as planned",
        lambda it: it["planned_minutes"],
        lambda it: it["ridden"],
        1,
    ),
    share(
        "minutes_aboard_driven",
        "Minutes aboard a ride, as driven",
        lambda it: it["driven_seconds"] / 60,
        lambda it: it["rides_timed"],
        1,
        True,
    ),
    counted("rides_timed", "Rides of which a driver tapped both ends", True),
    counted("rides_over_limit", "Of these, longer than the trip's limit", True),
    Figure(
        "vehicle_hours",
        "Vehicle hours, as planned",
        lambda it: round(it["vehicle_minutes"] / 60, 2),
    ),
    share(
        "trips_per_vehicle_hour",
        "Trips ridden per vehicle hour",
        lambda it: 60 * it["ridden"],
        lambda it: it["vehicle_minutes"],
        2,
    ),
]
NOTHING = "The copy has no trip in this period, and the log no denial."
WITHOUT_LOG = (
    "Without the site's log (--tally) nothing says what was denied, when trips were cancelled, whether "
    "pickups were on time, or how long riders were aboard."
)
MEANINGS = [
    "A trip counts in the month of its day, and a denial in the month for which it was asked.",
    "Without an outcome are trips that nobody ended, of days before the copy was made. Those of its day and later are "
    "to come.",
    "As planned means by the least service times, which are those of the manifests. A ride's minutes run from the end "
    "of the pickup to the drop.",
    "Vehicle hours run from the first pickup of a vehicle's day to the end of its last drop, on days on which it "
    "carried or awaited a rider. Nobody measures them, and no source has miles.",
]
MEANINGS_OF_LOG = [
    "Rules by which nothing was denied are left out.",
    "A cancellation is late where it came less than {late_minutes} minutes before the promised window. The agency "
    "cancels where a vehicle is out of service.",
    "A pickup is on time where the vehicle came in the promised window, its first and last minute included; before the "
    "window it is early. Pickups are those of trips that were ridden or that the rider missed.",
    "A drop is compared with the minute by which the rider had to be there, of trips that had one and were ridden.",
]


def values_of(figure: Figure, counts: dict[str, Counter[str]], has_log: bool) -> list[str | float]:
    """A figure of each month and of all. What a log would say is empty without one."""
    found = [*counts.values(), sum(counts.values(), collections.Counter[str]())]
    return [figure.of(it) if has_log or not figure.needs_log else "" for it in found]


def table_of(
    counts: dict[str, Counter[str]], has_log: bool
) -> tuple[list[str], list[tuple[float | str, ...]]]:
    """The columns, and a row for each month and for all."""
    columns = [values_of(it, counts, has_log) for it in FIGURES]
    return ["month", *(it.name for it in FIGURES)], [
        *zip([*counts, "all"], *columns)
    ] if counts else []


def lists_of(counts: dict[str, Counter[str]], has_log: bool) -> Iterator[Listed]:
    """The figures as tables for a page, each with so many months as fit on paper."""
    heads, shown = [*map(month_named, counts), "All"], []
    for it in FIGURES:
        values = values_of(it, counts, has_log)
        if values[-1] != "" and is_shown(it, values):
            shown.append((it.label, values))
    for at in range(0, len(heads) if counts else 0, COLUMNS_OF_A_TABLE):
        some = slice(at, at + COLUMNS_OF_A_TABLE)
        ends = [it.replace(NO_BREAK, " ") for it in (heads[some][0], heads[some][-1])]
        title = "Figures" if len(heads) <= COLUMNS_OF_A_TABLE else " to ".join(dict.fromkeys(ends))
        rows = [(label, *map(told, values[some])) for label, values in shown]
        yield Listed(f"months-{at}", title, "", "", ("Figure", *map(Number, heads[some])), rows)


def month_named(month: str) -> str:
    return f"{datetime.date.fromisoformat(f'{month}-01'):%b}{NO_BREAK}{month[:4]}"


def is_shown(figure: Figure, values: list[str | float]) -> bool:
    """Rules by which nothing was denied are left out; want of a vehicle is always said."""
    return any(values) or figure not in DENIED or figure.name == f"denied {NO_VEHICLE}"


def told(value: str | float) -> Number:
    return Number("" if value == "" else f"{value:,}")


def sentences_of(counts: dict[str, Counter[str]], log: Log | None) -> list[str]:
    """What no source holds."""
    if not counts:
        return [NOTHING]
    return [*sentences_of_log(log)] if log else [WITHOUT_LOG]


def sentences_of_log(log: Log) -> Iterator[str]:
    hits = [*log.denials, *log.stops, *log.cancellations]
    if not hits:
        yield "The log is empty."
    else:
        yield f"The log begins on {min(it.received.date() for it in hits)}, and says nothing of what came before."
    if not any(it.by == RIDER for it in log.cancellations):
        yield (
            "The log has no cancellation by a rider, and the desk's file does not say when a trip was cancelled: so "
            "early and late ones are not told apart."
        )
    if log.broken:
        yield f"{len(log.broken)} lines of the log could not be read, and are not counted."


def meanings_of(log: Log | None, late_minutes: int) -> list[str]:
    """What the figures mean."""
    return [
        *MEANINGS,
        *(it.format(late_minutes=late_minutes) for it in (MEANINGS_OF_LOG if log else ())),
    ]
