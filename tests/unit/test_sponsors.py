"""Who pays for trips: each fault by its row, and sums to the cent whatever the trips are."""

import datetime
import tempfile
from fractions import Fraction
from pathlib import Path

import pytest
from hypothesis import given
from hypothesis import strategies as some

from desk_tools import sponsors
from desk_tools.sponsors import Row, Trip

DAY = datetime.date(2026, 3, 2)
KEPT = tempfile.TemporaryDirectory()
ROOM = KEPT.name
HEAD = "rider,sponsor,from,to,rate,by\n"


def table(tmp_path: Path, *rows: str, riders: tuple[int, ...] = (7, 9)) -> sponsors.Table:
    path = tmp_path / "sponsors.csv"
    path.write_text(HEAD + "".join(f"{it}\n" for it in rows), encoding="utf-8")
    return sponsors.read(path, riders)


@pytest.mark.parametrize(
    "row, said",
    [
        ("8,Aging,2026-01-01,2026-12-31,14.50,trip", "row 2: rider 8 is none at the desk"),
        ("x,Aging,,,14.50,trip", "row 2: rider 'x' is no number"),
        ("7,,,,14.50,trip", "row 2: sponsor is no name"),
        ("7,Aging,2026-02-30,,14.50,trip", "row 2: from '2026-02-30' is no day"),
        (
            "7,Aging,2026-03-02,2026-03-01,14.50,trip",
            "row 2: from 2026-03-02 is after to 2026-03-01",
        ),
        ("7,Aging,,,14.505,trip", "row 2: rate '14.505' is no number of dollars"),
        (
            "7,Aging,,,0.005,trip",
            "row 2: rate '0.005' is no number of dollars from 0 to 10000 with at most two decimals",
        ),
        ("7,Aging,,,-1,trip", "row 2: rate '-1' is no number of dollars"),
        ("7,Aging,,,NaN,trip", "row 2: rate 'NaN' is no number of dollars"),
        ("7,Aging,,,10000.01,trip", "row 2: rate '10000.01' is no number of dollars"),
        ("7,Aging,,,14.50,ride", "row 2: by 'ride' is none of trip, mile, hour"),
    ],
)
def test_a_fault_is_named_by_its_row(tmp_path: Path, row: str, said: str) -> None:
    found = table(tmp_path, row)
    assert not found.rows and len(found.faults) == 1 and found.faults[0].startswith(said)


def test_rows_that_overlap_are_named(tmp_path: Path) -> None:
    first = "7,Aging,2026-01-01,2026-03-31,14.50,trip"
    found = table(tmp_path, first, "9,Aging,,,1,trip", "7,County,2026-03-31,,2,mile")
    assert found.faults == ["row 4: rider 7 has the day 2026-03-31 in row 2 already"]
    assert not table(tmp_path, first, "7,County,2026-04-01,,2,mile").faults


@pytest.mark.parametrize(
    "encoding, mark, day, note",
    [
        ("utf-8-sig", ",", "2026-03-02", ""),
        ("cp1252", ";", "3/2/2026", "from: 1 days were read as M/D/YYYY"),
        ("utf-16", "\t", "46083", "from: 1 days were read as Excel's count of days"),
    ],
)
def test_a_table_is_read_as_a_spreadsheet_saved_it(
    tmp_path: Path, encoding: str, mark: str, day: str, note: str
) -> None:
    path = tmp_path / "sponsors.csv"
    lines = [HEAD.strip().title(), f"007,Señor Center,{day},,14.50,Trip", ",,,,,"]
    path.write_bytes("\r\n".join(it.replace(",", mark) for it in lines).encode(encoding))
    found = sponsors.read(path, {7})
    assert found.faults == [] and (not note or note in found.notes)
    assert found.rows == [Row(2, 7, "Señor Center", DAY, sponsors.LAST, 1450, "trip")]


def test_who_waits_sees_how_many_rows_are_read(tmp_path: Path) -> None:
    path, shown = tmp_path / "sponsors.csv", list[tuple[int, int]]()
    path.write_text(HEAD + 2 * "7,Aging,,,14.50,trip\n", encoding="utf-8")
    sponsors.read(path, {7}, lambda *it: shown.append(it))
    assert shown == [(0, 2), (1, 2)]


def test_an_hour_is_billed_by_the_second() -> None:
    row = Row(2, 7, "Aging", sponsors.FIRST, sponsors.LAST, 4_000, "hour")
    it = sponsors.charge_of(Trip(1, 7, DAY, 1, 2, 0, 17 * 60 + 35), row)
    assert (it.quantity, it.cents) == (29, 1_172)


@given(some.binary(max_size=200))
def test_any_bytes_are_a_table_or_named(content: bytes) -> None:
    path = Path(ROOM, "bytes.csv")
    path.write_bytes(HEAD.encode() + content)
    try:
        found = sponsors.read(path, {7})
    except sponsors.Unreadable as error:
        assert str(error)
        return
    assert all(it.startswith("row ") for it in found.faults)


@given(some.integers(0, 200_000), some.integers(0, 1_000_000), some.sampled_from(sponsors.BY))
def test_an_amount_is_rounded_once(measure: int, cents: int, by: str) -> None:
    row = Row(2, 7, "Aging", sponsors.FIRST, sponsors.LAST, cents, by)
    it = sponsors.charge_of(
        Trip(
            1,
            7,
            DAY,
            1,
            2,
            measure,
            measure,
        ),
        row,
    )
    assert it.quantity is not None
    exact = {
        "trip": Fraction(cents),
        "mile": Fraction(it.quantity * cents, 100),
        "hour": Fraction(measure * cents, 3_600),
    }[by]
    assert abs(exact - it.cents) <= Fraction(1, 2)
    unit = {
        "trip": Fraction(1),
        "mile": Fraction(measure, 5_280),
        "hour": Fraction(measure, 3_600),
    }[by]
    assert abs(Fraction(it.quantity, 100) - unit) <= Fraction(1, 200)


@given(
    some.lists(
        some.tuples(some.sampled_from([7, 8, 9]), some.integers(0, 60), some.integers(0, 90_000)),
        max_size=30,
    )
)
def test_sums_are_those_of_the_trips(made: list[tuple[int, int, int]]) -> None:
    rows = [
        Row(2, 7, "Aging", DAY, DAY + datetime.timedelta(30), 1450, "trip"),
        Row(3, 7, "County", DAY + datetime.timedelta(31), sponsors.LAST, 235, "mile"),
        Row(4, 9, "Aging", sponsors.FIRST, sponsors.LAST, 3333, "hour"),
    ]
    trips = [
        Trip(at, rider, DAY + datetime.timedelta(day), 1, 2, feet, feet % 200)
        for at, (rider, day, feet) in enumerate(made)
    ]
    charges, without = sponsors.charges_of(trips, rows)
    assert len(charges) + without == len(trips) and without == sum(it.rider == 8 for it in trips)
    of = sponsors.by_sponsor(charges)
    assert sum(it.cents for those in of.values() for it in those) == sum(it.cents for it in charges)
    assert all(it.row.is_on(it.trip.day) for it in charges)


def test_names_of_files_are_each_their_own() -> None:
    names = {sponsors.file_name(at, it) for at, it in enumerate(["A/B", "A B", "../..", "山"], 1)}
    assert len(names) == 4 and not any("/" in it or "." in it for it in names)
    assert (
        sponsors.dollars(105) == "1.05"
        and sponsors.dollars(7) == "0.07"
        and sponsors.cents_in("$12.5") == 1250
    )


def test_a_trip_without_taps_has_no_amount() -> None:
    trip = Trip(1, 7, DAY, 1, 2, 15_840, None)
    row = Row(2, 7, "Aging", DAY, DAY, 3_000, sponsors.HOUR)
    assert sponsors.amount(sponsors.charge_of(trip, row)) == ""
    free = Row(2, 7, "Aging", DAY, DAY, 0, sponsors.MILE)
    assert sponsors.amount(sponsors.charge_of(trip, free)) == "0.00"
