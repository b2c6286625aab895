"""Databases that the desk does not open, each made by plain SQL on a file that a desk left: for tests/agency."""
import itertools
from collections.abc import Iterator
from typing import Any

from desk_tools.ops.content import TABLES
from serving import TOMORROW, ZONE, content_of, copy_database, difference, ran, with_database

DONE, NO_STORE = 0, 3
OTHER_TABLES, UNSOUND, STORE = 30, 31, 32

# Bytes that spell no reply.
NO_REPLIES = [
    "",
    "0000",
    "01000000",
    "010000000000",
    "020000000100000002000001e5000002030000015e000002",
    "020000000000000002000001e5000002030000015e000002bc",
    "020000000100000002000001e5000005a00000015e000002bc",
    "020000000100000002000001e500000203000186a1000002bc",
    "03",
    "ff",
]


def counted(count: int, statement: str) -> str:
    """A statement over a table `numbers` of each `number` from 1 to that many."""
    more = f"SELECT number + 1 FROM numbers WHERE number < {count}"
    return f"WITH RECURSIVE numbers(number) AS (SELECT 1 UNION ALL {more}) {statement}"


def route_of(trips: int) -> str:
    """So many trips of one van from a place to itself, each with its stops: they take no time, and one is aboard."""
    trip = "number, 9, day, 600, 1, 1, -1, 0, 0, 350, 0, 20, 1, 540, 555, 0"
    return ";".join(
        [
            "DELETE FROM stops",
            "DELETE FROM trips WHERE id > 1",
            f"UPDATE desk SET last_trip = {trips}",
            counted(
                trips,
                f"INSERT OR REPLACE INTO trips SELECT {trip} FROM numbers, trips WHERE id = 1",
            ),
            "INSERT INTO stops SELECT vehicle, day, 2 * id - 2, id, 0 FROM trips",
            "INSERT INTO stops SELECT vehicle, day, 2 * id - 1, id, 1 FROM trips",
        ]
    )


def exchanged(one: int, other: int) -> str:
    """The stops at two places of the van's route, each at the place of the other."""
    moves = (one, 99), (other, one), (99, other)
    return ";".join(f"UPDATE stops SET place = {to} WHERE place = {at}" for at, to in moves)


def appeal_against(position: int) -> str:
    """An appeal against what stands there, in place of the resident's grant."""
    return f"UPDATE entries SET kind = 3, a = {position}, b = -1, conditions = '', words = '' WHERE place = 1"


def kept_appeal(position: int) -> str:
    """The same as the clerk's last accepted write: an entry (7) for rider 7, an appeal (3), and its position."""
    return f"UPDATE kept SET request = x'070000000703{position:08x}' WHERE caller = 2"


def dropped(tables: list[str]) -> str:
    return ";".join(f"DROP TABLE {it}" for it in reversed(tables))


AGAIN = "INSERT INTO stops SELECT vehicle, day, place + 2, trip, kind FROM stops WHERE trip = 2"
LONGER = "CAST(request || x'00' AS BLOB)"
CHAIRS = "INSERT INTO vehicle_chairs SELECT id, from_day"
# What is wrong, how it comes to be, the fault, and the table that is told.
ROWS = [
    ("a percentage of 101", "UPDATE desk SET percent = 101", UNSOUND, "desk"),
    ("a role that is none", "UPDATE callers SET role = 9 WHERE id = 2", UNSOUND, "callers"),
    ("a digest of one byte", "UPDATE callers SET digest = x'00' WHERE id = 2", UNSOUND, "callers"),
    (
        "a digest of 31 bytes",
        "UPDATE callers SET digest = zeroblob(31) WHERE id = 2",
        UNSOUND,
        "callers",
    ),
    (
        "a digest of 33 bytes",
        "UPDATE callers SET digest = zeroblob(33) WHERE id = 2",
        UNSOUND,
        "callers",
    ),
    (
        "1,001 callers",
        counted(994, "INSERT INTO callers SELECT number + 7, 1, 0, randomblob(32) FROM numbers"),
        UNSOUND,
        "callers",
    ),
    *[
        (f"the reply {it!r}", f"UPDATE kept SET reply = x'{it}' WHERE caller = 2", UNSOUND, "kept")
        for it in NO_REPLIES
    ],
    (
        "a kept request of one byte 99",
        "UPDATE kept SET request = x'63' WHERE caller = 2",
        UNSOUND,
        "kept",
    ),
    (
        "a byte after a kept request",
        f"UPDATE kept SET request = {LONGER} WHERE caller = 2",
        UNSOUND,
        "kept",
    ),
    ("a kept appeal against position 200", kept_appeal(200), UNSOUND, "kept"),
    ("a kept number 0", "UPDATE kept SET number = 0 WHERE caller = 2", UNSOUND, "kept"),
    ("a place too far east", "UPDATE places SET x = 1000001 WHERE id = 2", UNSOUND, "places"),
    (
        "101 places",
        counted(98, "INSERT INTO places SELECT number + 3, 0, 0, 0 FROM numbers"),
        UNSOUND,
        "places",
    ),
    ("a corridor of 100 feet", "UPDATE fixed SET width = 100", UNSOUND, "fixed"),
    (
        "51 routes",
        counted(
            50,
            "INSERT INTO fixed SELECT number + 1, width, points, 1, 127, 0, 1 FROM numbers, fixed",
        ),
        UNSOUND,
        "fixed",
    ),
    ("31 seats", "UPDATE vehicles SET capacity = 31", UNSOUND, "vehicles"),
    ("a driver of no vehicle", "UPDATE callers SET subject = 9 WHERE id = 6", UNSOUND, "vehicles"),
    ("a rider of no kind", "UPDATE riders SET kind = 2 WHERE id = 9", UNSOUND, "riders"),
    ("a caller of no rider", "UPDATE callers SET subject = 8 WHERE id = 7", UNSOUND, "riders"),
    ("an entry of no kind", "UPDATE entries SET kind = 99 WHERE place = 1", UNSOUND, "entries"),
    ("an appeal against position 200", appeal_against(200), UNSOUND, "entries"),
    ("an appeal against position 250", appeal_against(250), UNSOUND, "entries"),
    ("a gap before an entry", "UPDATE entries SET place = 7 WHERE place = 1", UNSOUND, "entries"),
    ("a trip of no status", "UPDATE trips SET status = 5 WHERE id = 1", UNSOUND, "trips"),
    ("last_trip 0 with trips", "UPDATE desk SET last_trip = 0", UNSOUND, "trips"),
    ("a stop of no kind", "UPDATE stops SET kind = 2 WHERE place = 1", UNSOUND, "stops"),
    ("a trip without its drop", "DELETE FROM stops WHERE place = 1", UNSOUND, "stops"),
    ("trips without stops", "DELETE FROM stops", UNSOUND, "stops"),
    ("drops for pickups", "UPDATE stops SET kind = 1 - kind", UNSOUND, "stops"),
    ("a trip's two stops exchanged", exchanged(0, 1), UNSOUND, "stops"),
    ("a second pickup", f"{AGAIN} AND kind = 0", UNSOUND, "stops"),
    ("a trip's stops twice", AGAIN, UNSOUND, "stops"),
    ("102 stops", route_of(51), UNSOUND, "stops"),
    ("a drive of 1,440 minutes", "UPDATE travel SET minutes = 1440 WHERE a = 1", UNSOUND, "travel"),
    ("no driving times", "DELETE FROM travel", UNSOUND, "travel"),
    ("a duration of 50", "UPDATE vehicles SET duration = 50", UNSOUND, "travel"),
    ("a drop after the next trip's pickup", exchanged(1, 2), UNSOUND, "travel"),
    (
        "a plan before its van's first version",
        "UPDATE vehicles SET from_day = from_day + 30",
        UNSOUND,
        "travel",
    ),
    (
        "a duration of 50 on a day off",
        "UPDATE vehicles SET days = 0, duration = 50",
        UNSOUND,
        "travel",
    ),
    ("a row of no chairs", f"{CHAIRS}, 0 FROM vehicles", UNSOUND, "vehicle_chairs"),
    ("11 chairs", f"{CHAIRS}, 11 FROM vehicles", UNSOUND, "vehicle_chairs"),
    ("a wheelchair without a place", "INSERT INTO trip_chairs VALUES(1)", UNSOUND, "trip_chairs"),
    (
        "two persons on one seat",
        "UPDATE vehicles SET capacity = 1; UPDATE trips SET companions = 1 WHERE id = 1",
        UNSOUND,
        "trip_chairs",
    ),
    ("version 9", "UPDATE desk SET version = 9", OTHER_TABLES, None),
    ("version 7", "UPDATE desk SET version = 7", OTHER_TABLES, None),
    ("version 1 with the tables of version 2", "UPDATE desk SET version = 1", OTHER_TABLES, None),
    (
        "a file of version 1",
        f"UPDATE desk SET version = 1; {dropped(TABLES[11:])}",
        OTHER_TABLES,
        None,
    ),
    ("no tables", dropped(TABLES), OTHER_TABLES, None),
    ("a table less", "DROP TABLE trip_chairs", OTHER_TABLES, None),
    ("a table more", "CREATE TABLE more(id)", OTHER_TABLES, None),
    ("an index more", "CREATE INDEX more ON trips(rider)", OTHER_TABLES, None),
    ("an index less", "DROP INDEX trips_day", OTHER_TABLES, None),
    ("no indexes of trips", "DROP INDEX trips_rider; DROP INDEX trips_day", OTHER_TABLES, None),
    (
        "an index of another column",
        "DROP INDEX trips_day; CREATE INDEX trips_day ON trips (wish)",
        OTHER_TABLES,
        None,
    ),
    (
        "an index of two columns",
        "DROP INDEX trips_day; CREATE INDEX trips_day ON trips (day, vehicle)",
        OTHER_TABLES,
        None,
    ),
    (
        "an index that is unique",
        "DROP INDEX trips_day; UPDATE trips SET day = id; CREATE UNIQUE INDEX trips_day ON trips (day)",
        OTHER_TABLES,
        None,
    ),
    (
        "an index by another name",
        "DROP INDEX trips_day; CREATE INDEX by_day ON trips (day)",
        OTHER_TABLES,
        None,
    ),
    # (what refers to a record that is not there, which the store itself refuses)
    ("a depot that is not there", "UPDATE vehicles SET depot = 44", STORE, None),
    ("a trip of no rider", "UPDATE trips SET rider = 44 WHERE id = 1", STORE, None),
    ("a wheelchair of no rider", "INSERT INTO rider_chairs VALUES(44)", STORE, None),
    ("chairs of no vehicle", f"{CHAIRS} + 1, 1 FROM vehicles", STORE, None),
    ("a wheelchair of no trip", "INSERT INTO trip_chairs VALUES(44)", STORE, None),
]
# What is sound, and next to what is wrong.
SOUND = [
    ("an appeal against position 199", appeal_against(199)),
    ("a kept appeal against position 199", kept_appeal(199)),
    ("a plan on its van's day off", "UPDATE vehicles SET days = 0"),
]
# Rows that come two at once: the lower table is told.
PAIRS = [
    ("version 7", "a percentage of 101"),
    ("version 7", "a digest of 31 bytes"),
    ("a table more", "a role that is none"),
    ("a percentage of 101", "a role that is none"),
    ("a digest of 31 bytes", "the reply 'ff'"),
    ("a digest of 31 bytes", "last_trip 0 with trips"),
    ("1,001 callers", "101 places"),
    ("1,001 callers", "the reply 'ff'"),
    ("the reply 'ff'", "a place too far east"),
    ("101 places", "51 routes"),
    ("101 places", "a corridor of 100 feet"),
    ("51 routes", "a driver of no vehicle"),
    ("31 seats", "11 chairs"),
    ("a driver of no vehicle", "a caller of no rider"),
    ("a driver of no vehicle", "a rider of no kind"),
    ("a rider of no kind", "an entry of no kind"),
    ("a rider of no kind", "11 chairs"),
    ("a caller of no rider", "last_trip 0 with trips"),
    ("a caller of no rider", "a trip of no status"),
    ("an entry of no kind", "a trip of no status"),
    ("a trip of no status", "a row of no chairs"),
    ("last_trip 0 with trips", "a stop of no kind"),
    ("last_trip 0 with trips", "a trip's two stops exchanged"),
    ("a stop of no kind", "a drive of 1,440 minutes"),
    ("a trip's two stops exchanged", "a drive of 1,440 minutes"),
    ("a trip's two stops exchanged", "a duration of 50"),
    ("a duration of 50", "two persons on one seat"),
    ("a row of no chairs", "two persons on one seat"),
]


def both(one: Any, other: Any) -> Any:
    """Two of the rows as one, which tells the lower table."""
    first, second = (next(it for it in ROWS if it[0] == name) for name in (one, other))
    lower = min(first, second, key=lambda it: TABLES.index(it[3]) if it[3] else -1)
    return f"{one}, and {other}", f"{first[1]};{second[1]}", *lower[2:]


def told_of(program: str, path: str) -> Any:
    run = ran(program, "trips", path, ZONE, "radio", TOMORROW)
    return run.returncode, run.stdout.decode(), run.stderr.decode()


def faults_of_row(program: str, file: str, path: str, row: Any) -> Iterator[str | None]:
    """What is told of a copy of the file that was changed so; and its rows then are those of before."""
    name, statements, fault, table = row
    copy_database(file, path)
    with_database(path, lambda it: it.executescript(statements))
    before = content_of(path)
    said = f"fault {fault} row {TABLES.index(table) + 1 if table else 0}\n"
    yield difference(f"trips with {name}", (NO_STORE, "", said), told_of(program, path))
    yield None if content_of(
        path
    ) == before else f"trips with {name}: the file has other rows than before"


def faults_of_sound(program: str, file: str, path: str, row: Any) -> Iterator[str | None]:
    """A copy of the file that was changed so is opened, and lists the same trips."""
    name, statements = row
    copy_database(file, path)
    _, listed, _ = told_of(program, path)
    with_database(path, lambda it: it.executescript(statements))
    yield difference(f"trips with {name}", (DONE, listed, ""), told_of(program, path))


def faults_of_fullest(program: str, file: str, path: str) -> Iterator[str | None]:
    """A route of 100 stops is sound, so what is wrong with one of 102 is their number alone."""
    copy_database(file, path)
    with_database(path, lambda it: it.executescript(route_of(50)))
    status, told, said = told_of(program, path)
    listed = told.count(f",{TOMORROW},600,1,1,1,540,555,350,booked\n")
    yield difference("trips with a route of 100 stops", (DONE, 50, ""), (status, listed, said))


def faults_of_unsound(program: str, file: str, folder: str) -> Iterator[str | None]:
    for at, row in enumerate([*ROWS, *itertools.starmap(both, PAIRS)]):
        yield from faults_of_row(program, file, f"{folder}/unsound-{at}.db", row)
    for at, row in enumerate(SOUND):
        yield from faults_of_sound(program, file, f"{folder}/sound-{at}.db", row)
    yield from faults_of_fullest(program, file, f"{folder}/fullest.db")
