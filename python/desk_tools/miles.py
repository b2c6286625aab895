"""Vehicle miles and hours, from what drivers reported: pull-out, pull-in, odometers and taps. What nobody reported is named.

A shift is from a pull-out to the next pull-in of a vehicle's day. Its revenue service is from the first pickup to the last
drop-off: the hours by the taps, and the miles by the odometer that the driver wrote down at both. The rest is deadhead.
"""

import datetime
from collections import defaultdict
from collections.abc import Iterable, Mapping
from dataclasses import dataclass, field

from desk_tools.event_log import Told

MOST_MILES, MINUTES_OF_A_DAY = 1_000, 1_440
PULLS = ("pull_out", "pull_in")
PICKUP, DROP = ("arrived", "aboard"), "dropped"
# A tap counts for a day until the noon after it.
LATEST = MINUTES_OF_A_DAY + 720
VanDay = tuple[datetime.date, int]


@dataclass
class Sums:
    """Figures of a day: what was reported. Minutes and whole miles."""

    vans: int = 0
    miles: int = 0
    minutes: int = 0
    vans_with_miles: int = 0
    revenue_miles: int = 0
    deadhead_miles: int = 0
    revenue_minutes: int = 0
    deadhead_minutes: int = 0
    vans_with_revenue_miles: int = 0
    vans_with_revenue_hours: int = 0

    def add(self, other: "Sums") -> None:
        """Adds the figures of another day or vehicle."""
        for name, value in vars(other).items():
            setattr(self, name, getattr(self, name) + value)


@dataclass
class Measured:
    """The figures by day, and a sentence for each thing that nobody reported or that can't be."""

    days: dict[datetime.date, Sums] = field(default_factory=dict)
    unreported: list[tuple[datetime.date, int, str]] = field(default_factory=list)


def measured(events: Iterable[Told], worked: Mapping[VanDay, object]) -> Measured:
    """The figures of the vehicles' days that had trips, and of those only."""
    pulls: dict[VanDay, list[Told]] = defaultdict(list)
    taps: dict[int, list[Told]] = defaultdict(list)
    for it in events:
        if it.kind in PULLS:
            pulls[_day(it), it.number("vehicle")].append(it)
        elif it.kind == "stops":
            taps[it.number("vehicle")].append(it)
    found = Measured()
    for day, vehicle in sorted(worked):
        sums, said = _of_van(day, pulls[day, vehicle], taps[vehicle])
        found.days.setdefault(day, Sums()).add(sums)
        found.unreported += [(day, vehicle, it) for it in said]
    for (day, vehicle), those in sorted(pulls.items()):
        if those and (day, vehicle) not in worked:
            found.unreported.append((day, vehicle, "pulled out, and carried nobody: not counted"))
    return found


def _day(told: Told) -> datetime.date:
    day = told.fields["day"]
    if not isinstance(day, datetime.date):
        raise TypeError("a pull-out or pull-in has no day")
    return day


def shifts_of(pulls: list[Told]) -> tuple[list[tuple[Told, Told]], list[str]]:
    """Each pull-out with the pull-in that followed. Of several in a row the one that was entered last holds."""
    ordered = sorted(pulls, key=lambda it: (it.number("minute"), it.moment("at")))
    held: list[Told] = []
    for it in ordered:
        if held and held[-1].kind == it.kind:
            if it.moment("at") >= held[-1].moment("at"):
                held[-1] = it
        else:
            held.append(it)
    said = ["a pull-in without a pull-out"] if held and held[0].kind == "pull_in" else []
    held = held[1:] if said else held
    if len(held) % 2:
        said.append("a pull-out without a pull-in")
        held.pop()
    return [*zip(held[::2], held[1::2])], said


def _of_van(day: datetime.date, pulls: list[Told], taps: list[Told]) -> tuple[Sums, list[str]]:
    """The figures of one vehicle's day. A figure counts only where all of it was reported."""
    sums = Sums(vans=1)
    if not pulls:
        return sums, ["no pull-out and no pull-in"]
    shifts, said = shifts_of(pulls)
    said += [it for out, back in shifts for it in _wrong(out, back)]
    if said:
        return sums, said
    sums.vans_with_miles = 1
    sums.miles = sum(it.number("odometer") - out.number("odometer") for out, it in shifts)
    sums.minutes = sum(it.number("minute") - out.number("minute") for out, it in shifts)
    miles = [_revenue_miles(back) for _, back in shifts]
    if None in miles:
        said.append("no odometer at the first pickup, or none at the last drop-off")
    else:
        sums.vans_with_revenue_miles = 1
        sums.revenue_miles = sum(it for it in miles if it is not None)
        sums.deadhead_miles = sums.miles - sums.revenue_miles
    minutes = [_revenue_minutes(day, out, back, taps) for out, back in shifts]
    if None in minutes:
        said.append("no tap at a pickup, or none at a drop-off after it")
    else:
        sums.vans_with_revenue_hours = 1
        sums.revenue_minutes = sum(it for it in minutes if it is not None)
        sums.deadhead_minutes = sums.minutes - sums.revenue_minutes
    return sums, said


def _wrong(out: Told, back: Told) -> Iterable[str]:
    """What can't be of a shift."""
    low, high = out.number("odometer"), back.number("odometer")
    if high < low:
        yield f"the odometer goes back from {low} to {high}"
    elif high - low > MOST_MILES:
        yield f"the odometer goes from {low} to {high}, which is more than {MOST_MILES} miles"
    inner = [back.fields[it] for it in ("first_pickup", "last_drop")]
    known = [it for it in inner if isinstance(it, int)]
    if [low, *known, high] != sorted([low, *known, high]) and high >= low:
        yield f"the odometer at the first pickup or the last drop-off is not between {low} and {high}"


def _revenue_miles(back: Told) -> int | None:
    first, last = back.fields["first_pickup"], back.fields["last_drop"]
    return last - first if isinstance(first, int) and isinstance(last, int) else None


def _revenue_minutes(day: datetime.date, out: Told, back: Told, taps: list[Told]) -> int | None:
    """From the first pickup to the last drop-off between pull-out and pull-in."""
    midnight = datetime.datetime.combine(day, datetime.time())
    low, high = out.number("minute"), min(back.number("minute"), LATEST)
    at = [
        (int((it.moment("at") - midnight).total_seconds() // 60), it.fields["event"]) for it in taps
    ]
    pickups = [minute for minute, event in at if event in PICKUP and low <= minute <= high]
    drops = [minute for minute, event in at if event == DROP and low <= minute <= high]
    return max(drops) - min(pickups) if pickups and drops and max(drops) >= min(pickups) else None


def hours(minutes: int) -> str:
    """Minutes as hours with two digits, as forms take them."""
    hundredths = (minutes * 100 + 30) // 60
    return f"{hundredths // 100}.{hundredths % 100:02}"


# The forms of the National Transit Database: each line with its name, and where its figure comes from. The names were
# written from memory, since no package of Debian has the forms, and nobody has compared them.

MILES_FIELDS = (
    ("Vehicle miles", "miles"),
    ("Vehicle revenue miles", "revenue_miles"),
    ("Deadhead miles", "deadhead_miles"),
    ("Vehicle hours", "minutes"),
    ("Vehicle revenue hours", "revenue_minutes"),
    ("Deadhead hours", "deadhead_minutes"),
)
FORMS = ("MR-20", "RR-20", "S-10")
COLUMNS = ("form", "mode", "service", "field", "value", "vehicle_days", "vehicle_days_reported")
_REPORTED = {
    "miles": "vans_with_miles",
    "minutes": "vans_with_miles",
    "revenue_miles": "vans_with_revenue_miles",
    "deadhead_miles": "vans_with_revenue_miles",
    "revenue_minutes": "vans_with_revenue_hours",
    "deadhead_minutes": "vans_with_revenue_hours",
}


@dataclass(frozen=True)
class Counted:
    """What the desk's own figures say of some days."""

    service: str
    days: int
    trips: int
    vehicles: int
    sums: Sums


def rows_of(form: str, counted: Counted) -> list[tuple[str, ...]]:
    """The lines of a form. A figure of which nothing was reported is empty, and never zero."""
    wanted = {"revenue_miles", "revenue_minutes"}
    rows = [
        ("Unlinked passenger trips", str(counted.trips), "", ""),
        ("Vehicles operated in maximum service", str(counted.vehicles), "", ""),
    ]
    if form == "S-10":
        rows += [
            ("Days operated", str(counted.days), "", ""),
            ("ADA unlinked passenger trips", str(counted.trips), "", ""),
        ]
        wanted |= set(_REPORTED)
    for label, name in MILES_FIELDS:
        if name in wanted:
            figure, reported = getattr(counted.sums, name), getattr(counted.sums, _REPORTED[name])
            text = hours(figure) if name.endswith("minutes") else str(figure)
            rows.append((label, text if reported else "", str(counted.sums.vans), str(reported)))
    if form != "MR-20":
        rows.append(("Sponsored unlinked passenger trips", "", "", ""))
    if form == "S-10":
        rows.append(("Passenger miles traveled", "", "", ""))
    return [(form, "DR", counted.service, *row) for row in rows]
