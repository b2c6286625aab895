"""What a first machine has answered that the second lacks: each kind of row, with what to do; and keys of a restore."""

import dataclasses
import datetime
import pathlib
import sqlite3

import pytest

from desk_tools import keys_of_then, left_behind, theft
from desk_tools.ops import places, restoring
from desk_tools.theft import BOOKED, CANCELED, MISSED, RIDDEN, Caller, Trip

DAY = datetime.date(2026, 12, 3)
TRIP = Trip(3, 102, DAY, 500, 1, 2, None, False, 0, 4, 500, 515, BOOKED)
LATER = dataclasses.replace(TRIP, window_from=560, window_to=575)


def of_status(trip: Trip, status: int) -> Trip:
    return dataclasses.replace(trip, status=status)


@pytest.mark.parametrize(
    "there, here, said, advice, is_asked",
    [
        (None, TRIP, "was booked here alone: 2026-12-03 08:20", "book it there", True),
        (None, of_status(TRIP, CANCELED), "it is canceled here", "nothing to do", False),
        (None, of_status(TRIP, RIDDEN), "ridden here", "enter how it ended", False),
        (TRIP, of_status(TRIP, CANCELED), "was canceled here alone", "cancel it there", True),
        (TRIP, LATER, "there it is 2026-12-03 08:20", "change it there", True),
        (TRIP, of_status(TRIP, MISSED), "missed by the rider", "the same outcome", False),
        # The second machine gave the number to another rider meanwhile.
        (dataclasses.replace(TRIP, rider=9), TRIP, "booked here alone", "book it there", True),
    ],
)
def test_trips(there: Trip | None, here: Trip, said: str, advice: str, is_asked: bool) -> None:
    found = left_behind.finding_of_trip(there, here)
    assert found and said in found.said and advice in found.advice
    assert (found.pickup is not None) is is_asked and found.rider == 102


def test_the_same_trip_is_none() -> None:
    assert left_behind.finding_of_trip(TRIP, TRIP) is None
    assert not list(left_behind.trip_findings({3: TRIP}, {}))


TABLES = """
CREATE TABLE callers (id, role, subject, digest); CREATE TABLE riders (id, kind, attendant);
CREATE TABLE entries (rider, place, kind, day, author); CREATE TABLE places (id, x, y, fixed);
CREATE TABLE fixed (id, a); CREATE TABLE vehicles (id, from_day, seats); CREATE TABLE travel (from_day, a, b, minutes);
CREATE TABLE trips (id, rider, day, wish, origin, goal, latest, attendant, companions, vehicle, window_from, window_to,
    status);
INSERT INTO callers VALUES (1, 6, 0, x'01'), (2, 0, 102, x'02'), (4, 1, 0, x'04');
INSERT INTO riders VALUES (102, 0, 0); INSERT INTO places VALUES (1, 5, 5, 0);
INSERT INTO trips VALUES (3, 102, 20790, 500, 1, 2, -1, 0, 0, 4, 500, 515, 0);
"""


def made(path: pathlib.Path, more: str = "") -> pathlib.Path:
    with sqlite3.connect(path) as tables:
        tables.executescript(TABLES + more)
    tables.close()
    return path


MORE = """
UPDATE trips SET status = 1; INSERT INTO riders VALUES (103, 0, 0); UPDATE riders SET attendant = 1 WHERE id = 102;
INSERT INTO entries VALUES (102, 1, 3, 20780, 2); INSERT INTO places VALUES (9, 6, 6, 0);
UPDATE places SET x = 7 WHERE id = 1;
UPDATE callers SET digest = x'05' WHERE id = 4; INSERT INTO callers VALUES (5, 5, 4, x'06');
UPDATE callers SET role = 2 WHERE id = 1;
"""


def test_two_files(tmp_path: pathlib.Path) -> None:
    """Each kind of row is told, riders' with a number to call."""
    there, here = made(tmp_path / "there.db"), made(tmp_path / "here.db", MORE)
    found, lines = left_behind.compared(there, here)
    text = "\n".join([*(it.said for it in found), *lines])
    for wanted in (
        "trip 3 was canceled here alone",
        "rider 103 was made here alone",
        "the record of rider 102 was changed",
        "of rider 102 was entered here alone by caller 2",
        "caller 4, a clerk: the key was replaced here alone",
        "deploy/stolen-key --staff 4",
        "caller 5, the driver of vehicle 4, got a key here alone",
        "caller 1 is an admin there and an examiner here",
        "places: 2 rows were made or changed here alone (1, 9)",
    ):
        assert wanted in text
    assert len(found) == 4 and len(lines) == 4
    assert left_behind.compared(there, there) == ([], [])
    # What the second machine has alone is none of this.
    assert not [
        it
        for it in left_behind.compared(here, there)[0]
        if "103" in it.said or "entered" in it.said
    ]
    assert [it.rider for it in theft.in_order_of_pickup(found)] == [102, 102]


def test_keys_of_a_restore() -> None:
    """A key that was replaced since the backup holds again; one that was given since holds no longer."""
    rider, clerk = Caller("rider", 102, b"old"), Caller("clerk", 0, b"k")
    driver = Caller("driver", 4, b"d")
    before = {1: clerk, 2: dataclasses.replace(rider, digest=b"new"), 3: driver}
    lines = keys_of_then.lines_of(before, {1: clerk, 2: rider, 5: clerk})
    assert len(lines) == 3
    assert "caller 2, rider 102: a key that was replaced since" in lines[0]
    assert "deploy/stolen-key 102 --caller 2" in lines[0]
    assert "caller 3, the driver of vehicle 4, has no key any more" in lines[1]
    assert "caller 5, a clerk, was nobody before" in lines[2]
    assert not keys_of_then.lines_of(before, before)
    moved = keys_of_then.lines_of({1: Caller("admin", 0, b"k")}, {1: clerk})
    assert moved == ["caller 1 was an admin and is a clerk again, as in the backup"]


def test_a_lost_file_leaves_the_keys_unknown() -> None:
    """A key that was stolen and replaced holds again, and no file is there that says which."""
    restored = restoring.Restore(places.Desk(), "/nowhere/desk.db")
    assert restored.keys_not_known() == [keys_of_then.UNKNOWN]
    restored.kept = "/nowhere/before"
    assert not restored.keys_not_known()
