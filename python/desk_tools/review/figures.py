"""The figures of a month, each with what it means."""

from collections.abc import Callable, Sequence
from dataclasses import dataclass

from desk_tools.review.month import (
    Denial,
    BUS,
    CANCELED,
    CAPACITY,
    DRIVE,
    EARLY,
    HOUR,
    LATE,
    LOST,
    MISSED,
    NO_SHOW,
    ON_TIME,
    OPEN,
    RIDDEN,
    UNKNOWN,
    Month,
    Trip,
)

VERY_LATE, MUCH_LONGER = 30, 15
Value = int | float | None


@dataclass(frozen=True)
class Figure:
    """A figure: its name, its value or None where nothing tells it, and what it means."""

    name: str
    value: Value
    meaning: str


@dataclass(frozen=True)
class Group:
    """Figures that stand together on the page."""

    title: str
    figures: Sequence[Figure]


def mean(values: Sequence[float]) -> float | None:
    """The mean, or None of nothing."""
    return round(sum(values) / len(values), 1) if values else None


def percent(part: int, whole: int) -> float | None:
    """A share in percent, or None of nothing."""
    return round(100 * part / whole, 1) if whole else None


def groups(month: Month) -> list[Group]:
    """All figures of a month. What the site's log would tell is None where there is no log."""
    return [
        _asked(month),
        _pickups(month),
        _drops(month),
        _ended(month),
        _rides(month),
    ]


def _count(month: Month, holds: Callable[[Trip], bool]) -> int:
    return sum(holds(it) for it in month.trips)


def _of_log(month: Month, name: str, value: Value, meaning: str) -> Figure:
    """A figure that the site's log tells; where the log begins within the month, its meaning says since when."""
    since = month.log_begins
    more = "" if since is None else f" Since {since}, when the site's log begins."
    return Figure(name, value if month.has_log else None, f"{meaning}{more}")


def _asked(month: Month) -> Group:
    capacity = [it for it in month.denials if it.rule == CAPACITY]
    known = [it.moved for it in month.trips if it.moved is not None]
    # (trips are known of the whole month, so they are not added to the denials of a part of it)
    asked = None if month.log_begins else len(month.trips) + len(month.denials)
    return Group(
        "Requests and denials",
        [
            *_booked(month, asked, known),
            *_denied(month, asked, capacity),
        ],
    )


def _booked(month: Month, asked: int | None, known: list[int]) -> list[Figure]:
    return [
        _of_log(
            month,
            "requests",
            asked,
            "Trips that were booked, canceled ones too, and trips that were denied.",
        ),
        Figure("booked", len(month.trips), "Trips that were booked, canceled ones too."),
        _of_log(
            month,
            "requested time on record",
            _count(month, lambda it: it.requested is not None),
            "Booked trips of which the site's log has the time that the rider named.",
        ),
        _of_log(
            month,
            "promised more than an hour from the request",
            sum(abs(it) > HOUR for it in known),
            "Booked trips whose promised window begins more than 60 minutes before or after the time that was named. "
            "Trips to be there by a time are not among them.",
        ),
    ]


def _denied(month: Month, asked: int | None, capacity: list[Denial]) -> list[Figure]:
    return [
        _of_log(
            month,
            "denied",
            len(month.denials),
            "Denials by any rule; the table below has each rule and channel.",
        ),
        _of_log(
            month,
            "denied for lack of capacity",
            len(capacity),
            "Denials by the rule no vehicle (37.131(f)), lost ways back included.",
        ),
        _of_log(
            month,
            "ways back lost",
            sum(it.leg == LOST for it in capacity),
            "Ways back that were not asked for, because the way there was denied for lack of capacity.",
        ),
        _of_log(
            month,
            "denied for lack of capacity, percent",
            None if asked is None else percent(len(capacity), asked),
            "Of the requests.",
        ),
    ]


def _pickups(month: Month) -> Group:
    counts = {
        it: _count(month, lambda trip, it=it: trip.pickup == it)  # type: ignore[misc]
        for it in (EARLY, ON_TIME, LATE, UNKNOWN)
    }
    known = counts[EARLY] + counts[ON_TIME] + counts[LATE]
    very = _count(month, lambda it: (it.minutes_late or 0) > VERY_LATE)
    return Group(
        "Pickups",
        [
            _of_log(
                month,
                "on time",
                counts[ON_TIME],
                "The vehicle came in the promised window, its first and last minute included. "
                "Pickups are those of trips ridden and of no-shows.",
            ),
            _of_log(month, "early", counts[EARLY], "It came before the window."),
            _of_log(month, "late", counts[LATE], "It came after the window."),
            _of_log(
                month,
                f"more than {VERY_LATE} minutes late",
                very,
                "Of the late ones, those that came so long after the window's end.",
            ),
            _of_log(
                month,
                "arrival not known",
                counts[UNKNOWN],
                "No driver tapped when the vehicle came.",
            ),
            _of_log(
                month,
                "on time, percent",
                percent(counts[ON_TIME], known),
                "Of the pickups whose arrival is known. Early ones do not count as on time.",
            ),
        ],
    )


def _drops(month: Month) -> Group:
    on_time, late, unknown = (
        _count(month, lambda trip, it=it: trip.drop == it)  # type: ignore[misc]
        for it in (ON_TIME, LATE, UNKNOWN)
    )
    return Group(
        "Drop-offs with a time to be there by",
        [
            _of_log(
                month,
                "there in time",
                on_time,
                "The rider was dropped off by the minute that was named.",
            ),
            _of_log(month, "there too late", late, "The rider was dropped off later."),
            _of_log(month, "drop-off not known", unknown, "No driver tapped the drop-off."),
            _of_log(
                month,
                "there in time, percent",
                percent(on_time, on_time + late),
                "Of the drop-offs that are known.",
            ),
        ],
    )


def _ended(month: Month) -> Group:
    shows = month.of(NO_SHOW)
    return Group(
        "How trips ended",
        [
            Figure("ridden", len(month.of(RIDDEN)), "Trips that were ridden."),
            Figure("no-shows", len(shows), "The rider's: the rider did not come."),
            _of_log(
                month,
                "no-shows with window, arrival and wait",
                sum(not it.objection for it in shows),
                "No-shows for which the vehicle came by the window's end, and the driver waited as long as the agency asks.",
            ),
            Figure(
                "missed trips",
                len(month.of(MISSED)),
                "The operator's: the vehicle did not come, or not in time.",
            ),
            Figure(
                "canceled",
                len(month.of(CANCELED)),
                "By the rider or by the agency; trips.csv has by whom.",
            ),
            Figure("open", len(month.of(OPEN)), "Trips without an outcome in the copy."),
        ],
    )


def _rides(month: Month) -> Group:
    ridden = month.of(RIDDEN)
    driven = [it.driven for it in ridden if it.driven is not None]
    compared = [it.compared for it in ridden if it.compared]
    by_bus = [longer for with_what, longer in compared if with_what == BUS]
    direct = [longer for with_what, longer in compared if with_what == DRIVE]
    return Group(
        "Rides",
        [
            *_aboard(month, driven),
            *_against_buses(month, by_bus),
            *_against_drives(ridden, direct),
        ],
    )


def _aboard(month: Month, driven: list[float]) -> list[Figure]:
    return [
        _of_log(
            month,
            "rides with both ends known",
            len(driven),
            "Trips ridden for which a driver tapped when the rider was aboard and was dropped off. Others go by the "
            "manifest's minutes.",
        ),
        _of_log(
            month,
            "minutes aboard, mean",
            mean(driven),
            "From aboard to the drop-off, of the rides with both ends known.",
        ),
    ]


def _against_buses(month: Month, by_bus: list[float]) -> list[Figure]:
    return [
        Figure(
            "rides compared with fixed route",
            len(by_bus) if month.has_feed else None,
            "Rides that a bus of the timetable serves on that day, with its walks, waits between buses and changes.",
        ),
        Figure(
            "longer than by fixed route",
            sum(it > 0 for it in by_bus) if month.has_feed else None,
            "Of these, rides that took longer.",
        ),
        Figure(
            f"more than {MUCH_LONGER} minutes longer than by fixed route",
            sum(it > MUCH_LONGER for it in by_bus) if month.has_feed else None,
            "Of these.",
        ),
    ]


def _against_drives(ridden: list[Trip], direct: list[float]) -> list[Figure]:
    return [
        Figure(
            "rides compared with the direct drive",
            len(direct),
            "The others: no timetable tells how long a bus takes, so the direct drive stands in its place.",
        ),
        Figure(
            "minutes longer than the direct drive, mean",
            mean(direct),
            "Of these. A ride that is shared takes longer than the direct drive.",
        ),
        Figure(
            "trip length in miles, mean",
            mean([it.miles for it in ridden]),
            "Straight from place to place, of trips ridden. Nobody measures the miles that are driven.",
        ),
        Figure(
            "direct drive in minutes, mean",
            mean([it.drive for it in ridden if it.drive is not None]),
            "By the agency's driving times, of trips ridden.",
        ),
    ]
