"""What came of a stolen key: the rows of a rider, or of a vehicle, in a backup and now, side by side.

A copy of the desk's file is read by its tables. Each row that differs is told with what to do about it, and what has to
be asked of riders is put in the order of pickups. Days are dates; minutes are those of the day.
"""

import contextlib
import dataclasses
import datetime
import pathlib
import sqlite3
import urllib.parse
from collections.abc import Iterable, Iterator, Mapping
from typing import Any

from desk_tools.days import clock, EPOCH
from desk_tools.tables import ROLES

BOOKED, CANCELED, RIDDEN, MISSED, FAILED = range(5)
ENDINGS = ("booked", "canceled", "ridden", "missed by the rider", "missed by the operator")
# The desk's own words for these, in the same order.
STATUS_WORDS = ("booked", "cancelled", "ridden", "missed-rider", "missed-operator")
ENTRY_KINDS = (
    "complete application, grant, refusal, appeal, hearing, appeal granted, appeal denied, "
    "suspension overturned, notice, hearing on a notice, suspension"
).split(", ")
RIDER_KINDS = ("resident", "visitor")
# A caller with fewer numbers left than this gets another number as a caller: the next writes would use them up.
FEWEST_LEFT = 1_000_000


class NotReadable(Exception):
    """A copy that has not the desk's tables, in one sentence."""


@dataclasses.dataclass(frozen=True)
class Trip:
    """A row of trips: what was asked for, what was promised, and how it stands."""

    number: int
    rider: int
    day: datetime.date
    wish: int
    origin: int
    goal: int
    latest: int | None
    attendant: bool
    companions: int
    vehicle: int
    window_from: int
    window_to: int
    status: int

    def told(self) -> str:
        """The trip in words, without how it ended."""
        by = "" if self.latest is None else f", there by {clock(self.latest)}"
        others = [f"{self.companions} companions"] if self.companions else []
        others += ["an attendant"] if self.attendant else []
        beside = f", with {' and '.join(others)}" if others else ""
        return (
            f"{self.day} {clock(self.window_from)} to {clock(self.window_to)}, from place {self.origin} "
            f"to place {self.goal}{by}{beside}, vehicle {self.vehicle}"
        )

    def is_same_ride(self, other: "Trip") -> bool:
        """Whether both are one ride, however it ended."""
        return dataclasses.replace(self, status=other.status) == other


@dataclasses.dataclass(frozen=True)
class Entry:
    """A row of a case file."""

    place: int
    kind: int
    day: datetime.date
    author: int

    def told(self) -> str:
        return f"entry {self.place} of {self.day}, {ENTRY_KINDS[self.kind]}"


@dataclasses.dataclass(frozen=True)
class RiderRows:
    """What a copy has of one rider. `marks` are the kind of rider, and what the record says of a ride's needs."""

    trips: Mapping[int, Trip]
    entries: Mapping[int, Entry]
    marks: tuple[str, ...]


@dataclasses.dataclass(frozen=True)
class Finding:
    """A row that differs, what to do about it, and the pickup that it is about, where a person has to be asked."""

    said: str
    advice: str
    rider: int
    pickup: tuple[datetime.date, int] | None = None


@contextlib.contextmanager
def tables_of(copy: pathlib.Path) -> Iterator[sqlite3.Connection]:
    """A connection that writes nothing, to a copy that nobody changes."""
    path = urllib.parse.quote(str(copy.resolve()))
    try:
        with contextlib.closing(
            sqlite3.connect(f"file:{path}?mode=ro&immutable=1", uri=True)
        ) as open_copy:
            yield open_copy
    except sqlite3.Error as error:
        raise NotReadable(f"{copy} cannot be read as a copy of the desk's file: {error}") from None


TRIP_COLUMNS = (
    "id, rider, day, wish, origin, goal, latest, attendant, companions, vehicle, window_from, "
    "window_to, status"
)


def trip_of_row(row: tuple[int, ...]) -> Trip:
    number, rider, day, wish, origin, goal, latest, attendant, companions, *rest = row
    vehicle, window_from, window_to, status = rest
    by = None if latest < 0 else latest
    moment = EPOCH + datetime.timedelta(days=day)
    asked = (wish, origin, goal, by, bool(attendant), companions)
    return Trip(number, rider, moment, *asked, vehicle, window_from, window_to, status)


def trip_of_reply(rider: int, said: Mapping[str, Any]) -> Trip:
    """A trip as the desk tells it."""
    return Trip(
        number=said["trip"],
        rider=rider,
        day=datetime.date.fromisoformat(said["day"]),
        wish=said["wish"],
        origin=said["from"],
        goal=said["to"],
        latest=said["by"],
        attendant=said["attendant"],
        companions=said["companions"],
        vehicle=said["vehicle"],
        window_from=said["window_from"],
        window_to=said["window_to"],
        status=STATUS_WORDS.index(said["status"]),
    )


def rows_of_rider(copy: pathlib.Path, rider: int) -> RiderRows | None:
    """What the copy has of the rider, or None where it has no such rider."""
    with tables_of(copy) as tables:
        kept = tables.execute(
            "SELECT kind, attendant FROM riders WHERE id = ?", (rider,)
        ).fetchone()
        if kept is None:
            return None
        marks = [RIDER_KINDS[kept[0]], "may bring an attendant" if kept[1] else "no attendant"]
        has_chairs = tables.execute(
            "SELECT 1 FROM sqlite_master WHERE name = 'rider_chairs'"
        ).fetchone()
        if (
            has_chairs
            and tables.execute("SELECT 1 FROM rider_chairs WHERE rider = ?", (rider,)).fetchone()
        ):
            marks.append("comes in a wheelchair")
        found = tables.execute(f"SELECT {TRIP_COLUMNS} FROM trips WHERE rider = ?", (rider,))
        trips = {it.number: it for it in map(trip_of_row, found)}
        query = "SELECT place, kind, day, author FROM entries WHERE rider = ?"
        entries = {
            place: Entry(place, kind, EPOCH + datetime.timedelta(days=day), author)
            for place, kind, day, author in tables.execute(query, (rider,))
        }
    return RiderRows(trips, entries, tuple(marks))


def trips_of_vehicle(copy: pathlib.Path, vehicle: int) -> dict[int, Trip]:
    """The trips that the copy has in a vehicle."""
    with tables_of(copy) as tables:
        query = f"SELECT {TRIP_COLUMNS} FROM trips WHERE vehicle = ?"
        return {it.number: it for it in map(trip_of_row, tables.execute(query, (vehicle,)))}


@dataclasses.dataclass(frozen=True)
class Caller:
    """A row of callers: the role, the rider or vehicle it is for, and the digest of the key."""

    role: str
    subject: int
    digest: bytes

    def is_for(self, role: str, subject: int) -> bool:
        return (self.role, self.subject) == (role, subject)

    def told(self) -> str:
        """Who this is, in words."""
        if self.role == "rider":
            return f"rider {self.subject}"
        if self.role == "driver":
            return f"the driver of vehicle {self.subject}"
        return f"{'an' if self.role[0] in 'aeo' else 'a'} {self.role}"


def callers_in(copy: pathlib.Path) -> dict[int, Caller]:
    """Each caller, by number."""
    with tables_of(copy) as tables:
        return callers_of(tables)


def callers_of(tables: sqlite3.Connection) -> dict[int, Caller]:
    """Each caller of an open file, by number."""
    found = tables.execute("SELECT id, role, subject, digest FROM callers")
    return {
        number: Caller(ROLES[role], subject, bytes(digest))
        for number, role, subject, digest in found
    }


def callers_for(callers: Mapping[int, Caller], role: str, subject: int) -> list[int]:
    """The numbers that this rider, or the driver of this vehicle, has as a caller."""
    return sorted(number for number, it in callers.items() if it.is_for(role, subject))


def wrong_caller(callers: Mapping[int, Caller], number: int, role: str, subject: int) -> str | None:
    """Why this number may get no key for this rider or driver, and which ones may; or None."""
    if number in callers and callers[number].is_for(role, subject):
        return None
    person = Caller(role, subject, b"").told()
    is_now = callers[number].told() if number in callers else "nobody"
    own = "" if number not in callers or callers[number].role in ("rider", "driver") else number
    staff = f". Where the key of caller {own} itself was stolen, say --staff {own}" if own else ""
    right = callers_for(callers, role, subject)
    if not right:
        return f"caller {number} is {is_now}, and {person} is no caller: look at the number after {'RIDER' if role == 'rider' else '--vehicle'}{staff}"
    return f"caller {number} is {is_now}, and {person} is caller {' and '.join(map(str, right))}: say --caller {right[0]}{staff}"


def last_trip_in(copy: pathlib.Path) -> int:
    """The number that was last given to a trip."""
    with tables_of(copy) as tables:
        return int(tables.execute("SELECT last_trip FROM desk").fetchone()[0])


# What differs.


def pickup_of(*trips: Trip) -> tuple[datetime.date, int]:
    """The first of these pickups: by then the rider has to know."""
    return min((it.day, it.window_from) for it in trips)


def finding_of_new(trip: Trip) -> Finding:
    """A trip that the backup has not."""
    said = f"trip {trip.number} was booked since: {trip.told()}"
    if trip.status == BOOKED:
        advice = (
            f"ask the rider; where the rider did not book it, cancel it: --cancel {trip.number}"
        )
        return Finding(said, advice, trip.rider, pickup_of(trip))
    if trip.status == CANCELED:
        return Finding(f"{said}; it is canceled", "nothing to do", trip.rider)
    return Finding(f"{said}; {ENDINGS[trip.status]}", advice_of_ending(trip), trip.rider)


def advice_of_ending(trip: Trip) -> str:
    if trip.status == MISSED:
        return (
            "ask the rider; this no-show stays in the record, so tell the officer that the key was stolen, "
            "and count it for no suspension"
        )
    return "nothing to do"


def finding_of_change(before: Trip, now: Trip) -> Finding | None:
    """A trip that both have, where something of it differs."""
    if before == now:
        return None
    number, is_moved = now.number, not before.is_same_ride(now)
    if before.status != BOOKED:
        said = (
            f"trip {number} was {ENDINGS[before.status]} and is {ENDINGS[now.status]}, {now.told()}"
        )
        return Finding(said, "no desk does this: is the backup of this desk?", now.rider)
    if now.status == CANCELED:
        moved = f" (it was moved first, to {now.told()})" if is_moved else ""
        said = f"trip {number} was booked and is canceled{moved}: {before.told()}"
        advice = "ask the rider; where the rider did not cancel it, book it again"
        return Finding(said, advice, now.rider, pickup_of(before))
    if is_moved:
        said = f"trip {number} was moved: it was {before.told()}; it is {now.told()}"
        if now.status == BOOKED:
            advice = "ask the rider; where the rider did not move it, change it back"
            return Finding(said, advice, now.rider, pickup_of(before, now))
        return Finding(f"{said}; {ENDINGS[now.status]}", advice_of_ending(now), now.rider)
    said = f"trip {number} has ended: {ENDINGS[now.status]}, {now.told()}"
    return Finding(said, advice_of_ending(now), now.rider)


def trip_findings(before: Mapping[int, Trip], now: Mapping[int, Trip]) -> Iterator[Finding]:
    """Each trip of either that is not the same in both, by number."""
    for number in sorted({*before, *now}):
        if number not in now:
            said = f"trip {number} is in the backup alone: {before[number].told()}"
            yield Finding(said, "nothing to do where old years were put away", before[number].rider)
        elif number not in before:
            yield finding_of_new(now[number])
        else:
            found = finding_of_change(before[number], now[number])
            if found:
                yield found


def entry_findings(
    rider: int, before: RiderRows, now: RiderRows, caller: int | None
) -> Iterator[Finding]:
    """Each entry of the case file that is new, and a record that says something else."""
    for place, entry in sorted(now.entries.items()):
        if place in before.entries and before.entries[place] == entry:
            continue
        said = f"{entry.told()}, was entered since by caller {entry.author}"
        if ENTRY_KINDS[entry.kind] == "appeal":
            whose = ", who is this rider" if entry.author == caller else ""
            advice = "ask the rider; an entry stays, so the officer has to know whose it is"
            yield Finding(f"{said}{whose}", advice, rider, (entry.day, 0))
        else:
            yield Finding(said, "nothing to do: no rider's key enters this", rider)
    if before.marks != now.marks:
        said = f"the record said {', '.join(before.marks)}; it says {', '.join(now.marks)}"
        yield Finding(said, "nothing to do: no rider's key changes this", rider)


def outcome_findings(before: Mapping[int, Trip], now: Mapping[int, Trip]) -> Iterator[Finding]:
    """Each outcome that a vehicle's trips got since, by pickup."""
    ended = [
        it
        for it in now.values()
        if it.status > CANCELED and (it.number not in before or before[it.number].status == BOOKED)
    ]
    for trip in sorted(ended, key=lambda it: (it.day, it.window_from, it.number)):
        said = f"trip {trip.number} of rider {trip.rider} was entered as {ENDINGS[trip.status]}: {trip.told()}"
        if trip.status == RIDDEN:
            advice = "ask the driver whether the rider rode; an outcome stays"
        elif trip.status == MISSED:
            advice = (
                "ask the driver and the rider; this no-show stays in the record, so tell the officer, "
                "and count it for no suspension"
            )
        else:
            advice = "ask the driver; an outcome stays, so note it where the reports are made"
        yield Finding(said, advice, trip.rider, pickup_of(trip))


def in_order_of_pickup(found: Iterable[Finding]) -> list[Finding]:
    """Those about which somebody has to be called, the soonest pickup first."""

    def order(finding: Finding) -> tuple[datetime.date, int]:
        return finding.pickup or (datetime.date.max, 0)

    return sorted((it for it in found if it.pickup), key=order)


# What a driver's key could read.


@dataclasses.dataclass(frozen=True)
class Readable:
    """What the manifests of a vehicle show: whose trips, which places, and from which day to which."""

    riders: tuple[int, ...]
    places: tuple[int, ...]
    first: datetime.date | None
    last: datetime.date | None

    def told(self, vehicle: int) -> str:
        if self.first is None:
            return f"no manifest of vehicle {vehicle} has a stop"
        return (
            f"the manifests of vehicle {vehicle} from {self.first} to {self.last}: "
            f"riders {listed(self.riders)}; places {listed(self.places)}"
        )


def listed(numbers: tuple[int, ...]) -> str:
    return ", ".join(map(str, numbers)) if numbers else "none"


def readable_by_driver(copy: pathlib.Path, vehicle: int) -> Readable:
    """What a key of the vehicle's driver may read at the desk, of every day."""
    query = (
        "SELECT trips.rider, trips.origin, trips.goal, stops.day FROM stops JOIN trips "
        "ON trips.id = stops.trip WHERE stops.vehicle = ?"
    )
    with tables_of(copy) as tables:
        found = tables.execute(query, (vehicle,)).fetchall()
    days = [EPOCH + datetime.timedelta(days=it[3]) for it in found]
    riders = tuple(sorted({it[0] for it in found}))
    places = tuple(sorted({place for it in found for place in it[1:3]}))
    return Readable(riders, places, min(days, default=None), max(days, default=None))
