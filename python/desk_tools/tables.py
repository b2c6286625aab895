"""The roles of callers, the kinds of records, and the tables of the desk's file with the meaning of each column.

Each list is here once. The numbers in the file are the places in these lists (docs/FORMATS.md).
"""

from dataclasses import dataclass
from enum import Enum

ROLES = ("rider", "clerk", "examiner", "officer", "dispatcher", "driver", "admin")
RIDERS = ("resident", "visitor")
ENTRIES = (
    "complete",
    "grant",
    "refuse",
    "appeal",
    "heard",
    "appeal granted",
    "appeal denied",
    "overturn",
    "notice",
    "notice heard",
    "suspend",
)
TRIPS = ("booked", "canceled", "ridden", "missed by the rider", "missed by the operator")
STOPS = ("pickup", "drop-off")


class Form(Enum):
    """How a value stands in the file, and how people read it."""

    NUMBER = "a whole number"
    SOME = "a whole number; empty where there is none"
    SUBJECT = "a whole number; empty where the caller has none"
    CENTS = "US cents"
    FEET = "feet"
    MINUTES = "minutes"
    MINUTE = "minutes from the day's midnight"
    SOME_MINUTE = "minutes from the day's midnight; empty where there is none"
    DAY = "a day, YYYY-MM-DD"
    SOME_DAY = "a day, YYYY-MM-DD; empty where there is none"
    YES = "yes or no"
    WEEKDAYS = "1 is Monday, 7 is Sunday; with ; between two"
    POINTS = "x and y of each point in feet, with ; between two points"
    TEXT = "text"
    ROLE = ", ".join(ROLES)
    RIDER = ", ".join(RIDERS)
    ENTRY = ", ".join(ENTRIES)
    TRIP = ", ".join(TRIPS)
    STOP = ", ".join(STOPS)
    SECRET = "never written"


# The lists whose places stand in the file.
LISTS = {
    Form.ROLE: ROLES,
    Form.RIDER: RIDERS,
    Form.ENTRY: ENTRIES,
    Form.TRIP: TRIPS,
    Form.STOP: STOPS,
}


@dataclass(frozen=True)
class Column:
    """A column: its name, its form and its meaning; and where the file has it otherwise, the column there.

    `only` are the kinds of entries that have it.
    """

    name: str
    form: Form
    meaning: str
    stored: str = ""
    only: tuple[str, ...] = ()

    @property
    def source(self) -> str:
        """The name in the desk's file."""
        return self.stored or self.name


@dataclass(frozen=True)
class Table:
    """A table: how many columns know a row, what a row is, and its columns, the key first."""

    keys: int
    meaning: str
    columns: tuple[Column, ...]


TABLES = {
    "desk": Table(
        1,
        "the agency's policy; there is one row",
        (
            Column("id", Form.NUMBER, "always 1"),
            Column("version", Form.NUMBER, "the version of the tables"),
            Column("base", Form.CENTS, "what a trip costs by fixed routes"),
            Column("transfer", Form.CENTS, "what is added if no one fixed route serves both ends"),
            Column(
                "fare",
                Form.CENTS,
                "the agency's own fare; riders pay at most twice the cost by fixed routes",
            ),
            Column("service", Form.MINUTES, "how long a stop takes"),
            Column(
                "extra_ride", Form.MINUTES, "how much longer than the direct drive a ride may be"
            ),
            Column("min_missed", Form.NUMBER, "so many no-shows at least are a pattern"),
            Column("percent", Form.NUMBER, "and so many in a hundred of the rider's trips"),
            Column("span_days", Form.NUMBER, "both within so many days"),
            Column("last_trip", Form.NUMBER, "the number of the last trip that was booked"),
        ),
    ),
    "callers": Table(
        1,
        "somebody who has a key",
        (
            Column("id", Form.NUMBER, "the caller"),
            Column("role", Form.ROLE, "what the caller may do"),
            Column("subject", Form.SUBJECT, "the rider or the vehicle whose caller this is"),
            Column("digest", Form.SECRET, "the SHA-256 digest of the key"),
        ),
    ),
    "kept": Table(
        1,
        "the last write of a caller",
        (
            Column("caller", Form.NUMBER, "the caller"),
            Column("number", Form.NUMBER, "the Desk-Number of that write"),
            Column("request", Form.SECRET, "the write itself, which may hold the digest of a key"),
            Column("reply", Form.SECRET, "the reply to it"),
        ),
    ),
    "places": Table(
        1,
        "a place where vehicles stop",
        (
            Column("id", Form.NUMBER, "the place"),
            Column("x", Form.FEET, "how far east of the plane's middle"),
            Column("y", Form.FEET, "how far north of the plane's middle"),
            Column("core", Form.YES, "in a small area that corridors surround"),
        ),
    ),
    "fixed": Table(
        1,
        "a fixed route with its corridor",
        (
            Column("id", Form.NUMBER, "the fixed route"),
            Column("width", Form.FEET, "how far the corridor reaches to each side"),
            Column("points", Form.POINTS, "the line"),
            Column(
                "accessible", Form.YES, "riders who use a lift or a ramp can take each trip of it"
            ),
            Column("days", Form.WEEKDAYS, "the weekdays on which it runs"),
            Column("first", Form.MINUTE, "its first minute", "first_min"),
            Column("last", Form.MINUTE, "its last minute", "last_min"),
        ),
    ),
    "vehicles": Table(
        2,
        "a version of a vehicle: what holds from a day on",
        (
            Column("id", Form.NUMBER, "the vehicle"),
            Column("from_day", Form.DAY, "the first day of this version"),
            Column(
                "days",
                Form.WEEKDAYS,
                "the weekdays on which it is on duty; none where it is off duty",
            ),
            Column("depot", Form.NUMBER, "the place where it begins and ends"),
            Column("capacity", Form.NUMBER, "seats"),
            Column("opens", Form.MINUTE, "when it may leave the depot"),
            Column("closes", Form.MINUTE, "when it has to be back"),
            Column("duration", Form.MINUTES, "how long it may be away in a day"),
        ),
    ),
    "riders": Table(
        1,
        "a rider; names and addresses are not in the desk's file",
        (
            Column("id", Form.NUMBER, "the rider"),
            Column("kind", Form.RIDER, "whether the rider lives in the agency's area"),
            Column("attendant", Form.YES, "may bring a personal care attendant"),
        ),
    ),
    "entries": Table(
        2,
        "an entry of a rider's case file",
        (
            Column("rider", Form.NUMBER, "the rider"),
            Column("place", Form.NUMBER, "the place of the entry in the case file, from 0"),
            Column("kind", Form.ENTRY, "what was entered"),
            Column("day", Form.DAY, "the day of the entry"),
            Column("author", Form.NUMBER, "the caller who entered it"),
            Column("until", Form.SOME_DAY, "last day of a grant", "a", ("grant", "appeal granted")),
            Column("against", Form.SOME, "the entry that an appeal is against", "a", ("appeal",)),
            Column("starts", Form.SOME_DAY, "first day of a suspension", "a", ("suspend",)),
            Column("ends", Form.SOME_DAY, "last day of a suspension", "b", ("suspend",)),
            Column("conditions", Form.TEXT, "the conditions of a grant, with ; between two"),
            Column(
                "words", Form.TEXT, "the reasons, or the basis of a notice, as they were entered"
            ),
        ),
    ),
    "trips": Table(
        1,
        "a trip that was booked",
        (
            Column("id", Form.NUMBER, "the trip"),
            Column("rider", Form.NUMBER, "the rider"),
            Column("day", Form.DAY, "the day of the trip"),
            Column("wish", Form.MINUTE, "the desired pickup, as it was sent to the desk"),
            Column("origin", Form.NUMBER, "the place where it begins"),
            Column("goal", Form.NUMBER, "the place where it ends"),
            Column("latest", Form.SOME_MINUTE, "when the rider has to be there"),
            Column("attendant", Form.YES, "a personal care attendant comes along"),
            Column("companions", Form.NUMBER, "how many companions come along"),
            Column("fare", Form.CENTS, "the fare of the rider, and of each companion"),
            Column("service", Form.MINUTES, "how long each of its stops takes"),
            Column("ride", Form.MINUTES, "the longest ride"),
            Column("vehicle", Form.NUMBER, "the vehicle"),
            Column("window_from", Form.MINUTE, "the first minute of the pickup window"),
            Column("window_to", Form.MINUTE, "the last minute of the pickup window"),
            Column("status", Form.TRIP, "how it stands, or how it ended"),
        ),
    ),
    "stops": Table(
        3,
        "a stop of a vehicle's planned route",
        (
            Column("vehicle", Form.NUMBER, "the vehicle"),
            Column("day", Form.DAY, "the day"),
            Column(
                "place", Form.NUMBER, "the stop's place in the route, from 0; none of table places"
            ),
            Column("trip", Form.NUMBER, "the trip"),
            Column("kind", Form.STOP, "what is done there"),
        ),
    ),
    "travel": Table(
        3,
        "a driving time of the table that holds from a day on; each table has a row of zeros besides",
        (
            Column("from_day", Form.DAY, "the first day of the table"),
            Column("a", Form.NUMBER, "the place where the drive begins"),
            Column("b", Form.NUMBER, "the place where it ends"),
            Column("minutes", Form.MINUTES, "how long it takes"),
        ),
    ),
    "rider_chairs": Table(
        1,
        "a rider who comes in a wheelchair",
        (Column("rider", Form.NUMBER, "the rider"),),
    ),
    "vehicle_chairs": Table(
        2,
        "a version of a vehicle that has wheelchair places",
        (
            Column("id", Form.NUMBER, "the vehicle"),
            Column("from_day", Form.DAY, "the first day of that version"),
            Column("chairs", Form.NUMBER, "how many wheelchair places it has"),
        ),
    ),
    "trip_chairs": Table(
        1,
        "a trip for which a wheelchair place is kept",
        (Column("trip", Form.NUMBER, "the trip"),),
    ),
}

# The tables of the first version; the others came with the second.
FIRST_TABLES = 11

# Each table with the columns of the file by which a row is known.
KEYS = {
    name: tuple(it.source for it in table.columns[: table.keys]) for name, table in TABLES.items()
}
