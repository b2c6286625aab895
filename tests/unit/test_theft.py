"""What came of a stolen key: every way in which a row can differ, what is advised, and the order of calls."""

import dataclasses
import datetime
import pathlib
import sqlite3

import pytest
from hypothesis import given
from hypothesis import strategies as some

from desk_tools import theft
from desk_tools.theft import BOOKED, CANCELED, FAILED, MISSED, RIDDEN, Entry, RiderRows, Trip

DAY = datetime.date(2026, 12, 3)
TRIP = Trip(3, 102, DAY, 500, 1, 2, None, False, 0, 4, 500, 515, BOOKED)


def changed(**fields: object) -> Trip:
    return dataclasses.replace(TRIP, **fields)  # type: ignore[arg-type]


def found(before: list[Trip], now: list[Trip]) -> list[theft.Finding]:
    numbered = [{it.number: it for it in trips} for trips in (before, now)]
    return list(theft.trip_findings(*numbered))


MOVED = changed(day=DAY + datetime.timedelta(days=5), window_from=1100, window_to=1115)


@pytest.mark.parametrize(
    "before, now, said, advice, is_asked",
    [
        (
            [TRIP],
            [changed(status=CANCELED)],
            "was booked and is canceled: 2026-12-03 08:20",
            "book it again",
            True,
        ),
        ([TRIP], [MOVED], "it was 2026-12-03 08:20 to 08:35", "change it back", True),
        (
            [TRIP],
            [dataclasses.replace(MOVED, status=CANCELED)],
            "moved first, to 2026-12-08 18:20",
            "book it again",
            True,
        ),
        (
            [TRIP],
            [dataclasses.replace(MOVED, status=MISSED)],
            "missed by the rider",
            "count it for no suspension",
            False,
        ),
        ([TRIP], [changed(status=RIDDEN)], "has ended: ridden", "nothing to do", False),
        (
            [TRIP],
            [changed(status=MISSED)],
            "has ended: missed by the rider",
            "tell the officer",
            False,
        ),
        (
            [TRIP],
            [changed(status=FAILED)],
            "has ended: missed by the operator",
            "nothing to do",
            False,
        ),
        ([], [TRIP], "was booked since: 2026-12-03", "--cancel 3", True),
        ([], [changed(status=CANCELED)], "it is canceled", "nothing to do", False),
        ([], [changed(status=MISSED)], "missed by the rider", "tell the officer", False),
        ([TRIP], [], "is in the backup alone", "old years", False),
        (
            [changed(status=CANCELED)],
            [TRIP],
            "was canceled and is booked",
            "is the backup of this desk?",
            False,
        ),
        ([TRIP], [changed(companions=2)], "with 2 companions", "change it back", True),
        ([TRIP], [changed(goal=9)], "to place 9", "change it back", True),
        ([TRIP], [changed(latest=600)], "there by 10:00", "change it back", True),
        ([TRIP], [changed(attendant=True)], "an attendant", "change it back", True),
    ],
)
def test_each_way_to_differ(
    before: list[Trip], now: list[Trip], said: str, advice: str, is_asked: bool
) -> None:
    (finding,) = found(before, now)
    assert said in finding.said
    assert advice in finding.advice
    assert (finding.pickup is not None) == is_asked
    assert finding.rider == 102


def test_what_is_the_same_is_not_told() -> None:
    assert not found([TRIP], [TRIP])


FIELDS = {
    "day": some.dates(datetime.date(2026, 1, 1), datetime.date(2027, 1, 1)),
    "wish": some.integers(0, 1439),
    "origin": some.integers(1, 9),
    "goal": some.integers(1, 9),
    "vehicle": some.integers(1, 9),
    "window_from": some.integers(0, 1424),
    "status": some.integers(0, 4),
}
TRIPS = some.lists(some.builds(lambda **it: changed(**it), number=some.integers(1, 6), **FIELDS))


@given(TRIPS, TRIPS)
def test_a_row_is_told_once_and_only_where_it_differs(before: list[Trip], now: list[Trip]) -> None:
    earlier, later = ({it.number: it for it in trips} for trips in (before, now))
    told = list(theft.trip_findings(earlier, later))
    differing = {it for it in {*earlier, *later} if earlier.get(it) != later.get(it)}
    assert [int(it.said.split()[1]) for it in told] == sorted(differing)


@given(TRIPS, TRIPS)
def test_calls_come_in_order_of_pickup(before: list[Trip], now: list[Trip]) -> None:
    calls = theft.in_order_of_pickup(found(before, now))
    moments = [it.pickup or (datetime.date.min, 0) for it in calls]
    assert moments == sorted(moments)


def rows(*entries: Entry, marks: tuple[str, ...] = ("resident",)) -> RiderRows:
    return RiderRows({}, {it.place: it for it in entries}, marks)


def test_an_appeal_by_the_key_is_asked_about() -> None:
    appeal, grant = Entry(1, 3, DAY, 40), Entry(2, 1, DAY, 11)
    first, second = theft.entry_findings(102, rows(), rows(appeal, grant), 40)
    assert (
        "appeal, was entered since by caller 40, who is this rider" in first.said and first.pickup
    )
    assert "no rider's key enters this" in second.advice and not second.pickup


def test_a_record_that_says_something_else() -> None:
    (finding,) = theft.entry_findings(
        102, rows(), rows(marks=("resident", "in a wheelchair")), None
    )
    assert "no rider's key changes this" in finding.advice


def test_outcomes_since() -> None:
    before = {3: TRIP, 4: changed(number=4, status=RIDDEN)}
    now = {
        3: changed(status=MISSED),
        4: changed(number=4, status=RIDDEN),
        5: changed(number=5, status=FAILED),
    }
    told = list(theft.outcome_findings(before, now))
    assert [it.said.split()[1] for it in told] == ["3", "5"]
    assert "count it for no suspension" in told[0].advice


def test_what_is_no_copy(tmp_path: pathlib.Path) -> None:
    text, empty = tmp_path / "text.db", tmp_path / "empty.db"
    text.write_text("no database " * 500)
    sqlite3.connect(empty).close()
    for copy in (text, empty, tmp_path / "nowhere.db"):
        with pytest.raises(theft.NotReadable, match="cannot be read as a copy"):
            theft.rows_of_rider(copy, 7)


CALLERS = {
    1: theft.Caller("admin", 0, b"a"),
    5: theft.Caller("dispatcher", 0, b"b"),
    6: theft.Caller("driver", 1, b"c"),
    107: theft.Caller("rider", 7, b"d"),
    108: theft.Caller("rider", 8, b"e"),
    207: theft.Caller("rider", 7, b"f"),
}


@pytest.mark.parametrize(
    "number, role, subject, said",
    [
        (7, "rider", 7, "caller 7 is nobody, and rider 7 is caller 107 and 207: say --caller 107"),
        (5, "rider", 7, "caller 5 is a dispatcher, and rider 7"),
        (1, "rider", 7, "caller 1 is an admin, and rider 7"),
        (108, "rider", 7, "caller 108 is rider 8, and rider 7"),
        (5, "driver", 1, "and the driver of vehicle 1 is caller 6: say --caller 6"),
        (6, "driver", 2, "and the driver of vehicle 2 is no caller: look at the number"),
        (107, "rider", 7, None),
        (207, "rider", 7, None),
        (6, "driver", 1, None),
    ],
)
def test_whose_number_it_is(number: int, role: str, subject: int, said: str | None) -> None:
    """The number of anybody else is refused, with the right one."""
    wrong = theft.wrong_caller(CALLERS, number, role, subject)
    assert (wrong is None) if said is None else (wrong is not None and said in wrong)
