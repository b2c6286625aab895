"""The files of a month's folder: their columns, what each means, and their rows."""

from collections.abc import Callable, Iterable, Mapping, Sequence
from dataclasses import dataclass
from typing import TypeVar

from desk_tools.review.figures import groups
from desk_tools.review.month import CHANNELS, MISSED, NO_SHOW, Denial, Month, Trip

MODES = {"around": "around", "not-before": "not before", "by": "be there by"}
Cell = str | int | float
Row = TypeVar("Row")
# A column: its name, what it means, and a row's cell.
Columns = Sequence[tuple[str, str, Callable[[Row], Cell | None]]]


@dataclass(frozen=True)
class Table:
    """A file: its name, its title, what a row is, its columns with their meanings, and its rows."""

    file: str
    title: str
    row_is: str
    columns: Sequence[tuple[str, str]]
    rows: Sequence[Sequence[Cell]]


def clock(minute: int | None) -> str:
    """A minute of a trip's day; one after midnight has more than 24 hours."""
    return "" if minute is None else f"{minute // 60:02}:{minute % 60:02}"


def moment(seconds: int | None) -> str:
    """A moment of a trip's day."""
    return "" if seconds is None else f"{clock(seconds // 60)}:{seconds % 60:02}"


def made(file: str, title: str, row_is: str, columns: Columns[Row], rows: Iterable[Row]) -> Table:
    """A table of rows; what is not known is empty."""
    cells = [["" if (cell := of(row)) is None else cell for _, _, of in columns] for row in rows]
    return Table(file, title, row_is, [(name, meaning) for name, meaning, _ in columns], cells)


WHO: Columns[Trip] = [
    ("trip", "the trip's number", lambda it: it.number),
    ("day", "its day", lambda it: it.day.isoformat()),
    ("rider", "the rider's number", lambda it: it.rider),
]
PROMISED: Columns[Trip] = [
    ("promised_from", "first minute of the window on record", lambda it: clock(it.promised[0])),
    ("promised_to", "last minute of that window", lambda it: clock(it.promised[1])),
    ("vehicle", "the vehicle", lambda it: it.vehicle),
]
TRIP: Columns[Trip] = [
    *WHO,
    (
        "state",
        "ridden, no-show (the rider's), missed trip (the operator's), canceled or open",
        lambda it: it.state,
    ),
    (
        "canceled_by",
        "of a canceled trip who canceled it: rider, agency, or not known",
        lambda it: it.canceled,
    ),
    (
        "requested",
        "what the rider meant by the time: around, not before, or be there by",
        lambda it: MODES.get(it.mode, ""),
    ),
    ("requested_time", "the time that the rider named", lambda it: clock(it.requested)),
    (
        "offered_from",
        "first minute of the window that the rider was offered then",
        lambda it: clock(it.offered[0]) if it.offered else "",
    ),
    (
        "offered_to",
        "last minute of that window",
        lambda it: clock(it.offered[1]) if it.offered else "",
    ),
    *PROMISED,
    (
        "minutes_from_request",
        "by how many minutes the promised window begins after the time named; below zero, before it",
        lambda it: it.moved,
    ),
    ("from", "where the trip begins", lambda it: it.origin),
    ("to", "where it goes", lambda it: it.goal),
    ("arrived", "when the driver tapped Arrived, or else Aboard", lambda it: moment(it.arrived)),
    ("pickup", "early, on time or late by the promised window, or not known", lambda it: it.pickup),
    (
        "minutes_late",
        "by how many minutes a late vehicle came after the window",
        lambda it: it.minutes_late,
    ),
    ("aboard", "when the driver tapped Aboard", lambda it: moment(it.aboard)),
    ("dropped", "when the driver tapped Dropped off", lambda it: moment(it.dropped)),
    ("be_there_by", "the time by which the rider had to be there", lambda it: clock(it.latest)),
    ("drop", "on time or late by that time, or not known", lambda it: it.drop),
    ("minutes_driven", "from aboard to the drop-off, as a driver tapped it", lambda it: it.driven),
    ("minutes_planned", "the same by the manifest", lambda it: it.planned),
    (
        "minutes",
        "of a trip ridden: as driven, or as planned where nobody tapped it",
        lambda it: it.minutes,
    ),
    (
        "fixed_route_minutes",
        "the same trip by bus, from door to door, for who is ready when the promised window begins and leaves in time for the "
        "first bus; walks of at most 3/4 mile go straight, at 3 miles an hour",
        lambda it: it.fixed_route,
    ),
    (
        "direct_drive_minutes",
        "the direct drive, by the agency's driving times",
        lambda it: it.drive,
    ),
    (
        "compared_with",
        "what the ride is compared with: fixed route, or else the direct drive",
        lambda it: it.compared and it.compared[0],
    ),
    (
        "minutes_longer",
        "by how many minutes the ride was longer than that; below zero, shorter",
        lambda it: it.compared and it.compared[1],
    ),
    ("miles", "from place to place in a straight line", lambda it: it.miles),
]
SHOW: Columns[Trip] = [
    *WHO,
    *PROMISED,
    ("from", "where the rider was to be picked up", lambda it: it.origin),
    ("arrived", "when the vehicle came", lambda it: moment(it.arrived)),
    ("pickup", "early, on time or late by the promised window, or not known", lambda it: it.pickup),
    ("minutes_waited", "how long the driver waited, by the driver's page", lambda it: it.waited),
    ("ended", "when the driver entered the no-show", lambda it: moment(it.ended)),
    (
        "speaks_against_it",
        "what is missing or wrong in this evidence; empty where all is there",
        lambda it: it.objection,
    ),
]
MISS: Columns[Trip] = [
    *WHO,
    *PROMISED,
    ("from", "where the rider waited", lambda it: it.origin),
    ("arrived", "when the vehicle came, where it came at all", lambda it: moment(it.arrived)),
    (
        "minutes_late",
        "by how many minutes it came after the window",
        lambda it: max(0, it.arrived // 60 - it.promised[1]) if it.arrived is not None else None,
    ),
    ("ended", "when the driver entered the missed trip", lambda it: moment(it.ended)),
]
DENIED: Columns[Denial] = [
    ("day", "the day for which the trip was asked", lambda it: it.day.isoformat()),
    ("requested", "what the rider meant by the time", lambda it: MODES.get(it.mode, "")),
    ("requested_time", "the time that the rider named", lambda it: clock(it.minute)),
    ("rule", "the desk's rule", lambda it: it.rule),
    ("channel", "where it was asked for", lambda it: it.channel),
    (
        "leg",
        "lost: the way back of a way there that was denied, not asked for any more",
        lambda it: it.leg,
    ),
]


def denials_by_month(month: Month, rules: Mapping[str, str]) -> Table:
    """Denials by month, rule and channel, a row for each channel. `rules` has what each rule means."""
    counts = month.by_rule_and_channel()
    used = [
        it for it in CHANNELS if it != "page, clerk or rider" or any(key[1] == it for key in counts)
    ]
    columns: list[tuple[str, str]] = [
        (
            "month",
            "the month for which the trips were asked, and where the site's log begins within it, since when",
        ),
        ("channel", "where they were asked for"),
        *rules.items(),
        ("all", "all of them"),
    ]
    rows: list[list[Cell]] = []
    name = f"{month.name} since {month.log_begins}" if month.log_begins else month.name
    for channel in used:
        row = [counts[rule, channel] for rule in rules]
        rows.append([name, channel, *row, sum(row)])
    sums = [sum(counts[rule, channel] for channel in CHANNELS) for rule in rules]
    rows.append([name, "all", *sums, sum(sums)])
    title = "Denials by rule and channel"
    return Table("denials-by-month.csv", title, "a channel", columns, rows if month.has_log else [])


def figures_table(month: Month) -> Table:
    """The figures, a row for each."""
    rows: list[list[Cell]] = [
        [group.title, it.name, "" if it.value is None else it.value, it.meaning]
        for group in groups(month)
        for it in group.figures
    ]
    columns = [
        ("group", "what the figure is about"),
        ("figure", "its name"),
        ("value", "the figure; empty where nothing tells it"),
        ("meaning", "what it counts"),
    ]
    return Table("figures.csv", "Figures", "a figure", columns, rows)


def tables(month: Month, rules: Mapping[str, str]) -> list[Table]:
    """All files of a month."""
    return [
        figures_table(month),
        denials_by_month(month, rules),
        made("denials.csv", "Denials, one by one", "a denial", DENIED, month.denials),
        made(
            "no-shows.csv",
            "No-shows with their evidence",
            "a no-show, which is the rider's",
            SHOW,
            month.of(NO_SHOW),
        ),
        made(
            "missed-trips.csv",
            "Missed trips",
            "a missed trip, which is the operator's",
            MISS,
            month.of(MISSED),
        ),
        made("trips.csv", "Trips", "a trip", TRIP, month.trips),
    ]
