"""A month's trips and denials, as a reviewer looks at them: what was asked, offered and promised, and what came of it."""

import datetime
from collections import Counter
from collections.abc import Sequence
from dataclasses import dataclass

EARLY, ON_TIME, LATE, UNKNOWN, NONE = "early", "on time", "late", "not known", ""
RIDDEN, NO_SHOW, MISSED, CANCELED, OPEN = "ridden", "no-show", "missed trip", "canceled", "open"
CAPACITY, LOST = "no vehicle", "lost"
# With what a ride is compared.
BUS, DRIVE = "fixed route", "direct drive"
# A trip is asked for within an hour before or after (37.131(b)(2)).
HOUR = 60


def is_within(seconds: int | None, first: int, last: int) -> str:
    """How a moment of a day lies to a first and a last minute, both of which are in time."""
    if seconds is None:
        return UNKNOWN
    return EARLY if seconds < 60 * first else LATE if seconds >= 60 * (last + 1) else ON_TIME


@dataclass(frozen=True)
class Trip:
    """One trip. Windows and minutes count from the midnight of its day, moments are seconds from there.

    `fixed_route` are the minutes of the same trip by bus, `drive` those of the direct drive, `miles` the straight line.
    `wait_due` is how many minutes a driver of the agency waits at a pickup.
    """

    number: int
    day: datetime.date
    rider: int
    origin: str
    goal: str
    vehicle: str
    state: str
    mode: str
    requested: int | None
    offered: tuple[int, int] | None
    promised: tuple[int, int]
    latest: int | None
    arrived: int | None
    aboard: int | None
    dropped: int | None
    ended: int | None
    waited: int | None
    planned: int | None
    drive: int | None
    fixed_route: int | None
    miles: float
    canceled: str = ""
    wait_due: int = 0

    @property
    def pickup(self) -> str:
        """How the vehicle came to the promised window, of trips that were ridden and of no-shows."""
        if self.state not in (RIDDEN, NO_SHOW):
            return NONE
        return is_within(self.arrived, *self.promised)

    @property
    def drop(self) -> str:
        """Whether the rider was there by the minute that was named, of trips that were ridden and have one."""
        if self.state != RIDDEN or self.latest is None:
            return NONE
        return is_within(self.dropped, 0, self.latest)

    @property
    def minutes_late(self) -> int | None:
        """By how many begun minutes the vehicle came after the window."""
        if self.pickup != LATE or self.arrived is None:
            return None
        return self.arrived // 60 - self.promised[1]

    @property
    def moved(self) -> int | None:
        """By how many minutes the promised window begins after (or, below zero, before) what was asked for."""
        return (
            None
            if self.requested is None or self.mode == "by"
            else self.promised[0] - self.requested
        )

    @property
    def driven(self) -> float | None:
        """How many minutes the rider was aboard, as a driver tapped it."""
        if self.state != RIDDEN or self.aboard is None or self.dropped is None:
            return None
        return round((self.dropped - self.aboard) / 60, 1) if self.dropped >= self.aboard else None

    @property
    def minutes(self) -> float | None:
        """How long the ride of a trip that was ridden took: as driven, or where nobody tapped that, as planned."""
        if self.state != RIDDEN:
            return None
        return self.planned if self.driven is None else self.driven

    @property
    def compared(self) -> tuple[str, float] | None:
        """With what the ride is compared, and by how many minutes it was longer."""
        if self.minutes is None:
            return None
        if self.fixed_route is not None:
            return BUS, round(self.minutes - self.fixed_route, 1)
        return None if self.drive is None else (DRIVE, round(self.minutes - self.drive, 1))

    @property
    def objection(self) -> str:
        """What is wrong with the evidence of a no-show, or nothing."""
        if self.state != NO_SHOW:
            return ""
        if self.arrived is None:
            return "no arrival is on record"
        if self.pickup == LATE:
            return "the vehicle came after the promised window"
        if self.ended is not None and self.ended < 60 * self.promised[0]:
            return "it was entered before the promised window"
        if self.waited is None:
            return "no wait is on record"
        return (
            ""
            if self.waited >= self.wait_due
            else f"the wait was shorter than {self.wait_due} minutes"
        )


@dataclass(frozen=True)
class Denial:
    """A trip that was asked for and denied, and where. `leg` is `lost` where it was the way back of a denied way there."""

    day: datetime.date
    minute: int
    mode: str
    rule: str
    channel: str
    leg: str


@dataclass(frozen=True)
class Month:
    """All of a month. `has_log` is whether the site's log was there, and `has_feed` whether a timetable was.

    `log_begins` is the day on which that log begins, where it tells only a part of the month, else None.
    """

    name: str
    trips: Sequence[Trip]
    denials: Sequence[Denial]
    has_log: bool
    has_feed: bool
    notes: Sequence[str] = ()
    log_begins: datetime.date | None = None

    def by_rule_and_channel(self) -> Counter[tuple[str, str]]:
        """How many denials there were by rule and channel."""
        return Counter((it.rule, it.channel) for it in self.denials)

    def of(self, state: str) -> list[Trip]:
        """The trips that ended so."""
        return [it for it in self.trips if it.state == state]


def channel_of(channel: str | None, told_by: str) -> str:
    """Where a trip was asked for, in words; of the pages, whose key was used."""
    if channel in ("telephone", "app", "standing-order"):
        return {
            "telephone": "telephone system",
            "app": "rider's app",
            "standing-order": "standing orders",
        }[channel]
    return {"office": "clerk", "dispatcher": "clerk", "other": "rider"}.get(
        told_by, "page, clerk or rider"
    )


CHANNELS = (
    "clerk",
    "rider",
    "page, clerk or rider",
    "telephone system",
    "rider's app",
    "standing orders",
)
