"""The edges of the desk that is asked about a copy: its zone, its callers, and what a fault says."""

import contextlib
import datetime
import sqlite3
from pathlib import Path

import pytest
from desk_tools import installed, served_copy
from hypothesis import given
from hypothesis import strategies as draw

MOMENTS = draw.datetimes(
    datetime.datetime(2026, 1, 2),
    datetime.datetime(2026, 12, 30),
    timezones=draw.just(datetime.timezone.utc),
)


@given(MOMENTS, draw.integers(-1, 1))
def test_a_zone_shows_the_day_before_today_or_after(now: datetime.datetime, days: int) -> None:
    """The rule counts hours to the west, at most 24, which is what the desk takes."""
    day = now.date() + datetime.timedelta(days=days)
    rule, clock = served_copy.zone_and_clock(day, now)
    west = int(rule.removeprefix("<ASK>"))
    assert abs(west) <= 24 and not clock
    assert (now - datetime.timedelta(hours=west)).date() == day


def test_another_day_takes_a_moved_clock(monkeypatch: pytest.MonkeyPatch) -> None:
    now = datetime.datetime(2026, 3, 5, 12, tzinfo=datetime.timezone.utc)
    monkeypatch.setattr(served_copy, "library", lambda: "faketime.so")
    zone, clock = served_copy.zone_and_clock(datetime.date(2026, 1, 2), now)
    assert zone == "UTC0"
    assert (clock["LD_PRELOAD"], clock["FAKETIME"]) == ("faketime.so", "@2026-01-02 12:00:00")


def callers_of(folder: Path, numbers: list[int]) -> tuple[Path, dict[int, str]]:
    """A file with these callers and a last write of each, after callers of our own were put."""
    file = folder / "desk.db"
    with contextlib.closing(sqlite3.connect(file)) as database:
        database.execute(
            "CREATE TABLE callers (id INTEGER PRIMARY KEY, role INT, subject INT, digest BLOB)"
        )
        database.execute("CREATE TABLE kept (caller INTEGER PRIMARY KEY, number INT)")
        database.executemany(
            "INSERT INTO callers VALUES (?, 6, 0, x'00')", [(it,) for it in numbers]
        )
        database.executemany("INSERT INTO kept VALUES (?, 9)", [(it,) for it in numbers])
        database.commit()
    return file, served_copy.put_callers(file)


@pytest.mark.parametrize("numbers", [[1], [1, 2, 3], [1, 5], [*range(1, 998)], [*range(1, 1001)]])
def test_a_caller_of_each_role_is_there(tmp_path: Path, numbers: list[int]) -> None:
    """There are at most 1,000, the first one stays, and none that asks has written before."""
    file, keys = callers_of(tmp_path, numbers)
    with contextlib.closing(sqlite3.connect(file)) as database:
        rows = database.execute("SELECT id, role FROM callers").fetchall()
        kept = {caller for caller, in database.execute("SELECT caller FROM kept")}
    asking = {number for number, role in rows if role in keys}
    assert (1, 6) in rows and len(rows) <= 1_000
    assert {role for _, role in rows} >= set(keys) and not asking & kept


@pytest.mark.parametrize(
    "said, told",
    [
        ("fault 31 row 8", "the rows of table entries are those of no sound state (fault 31)"),
        ("fault 31 row 99", "fault 31 row 99"),
        ("fault 32 row 0", "fault 32 row 0"),
        ("", "it ended without a word"),
    ],
)
def test_what_a_fault_says(said: str, told: str) -> None:
    assert served_copy.why(said) == told


def test_no_program(monkeypatch: pytest.MonkeyPatch, tmp_path: Path) -> None:
    monkeypatch.delenv("DESK", raising=False)
    monkeypatch.setattr(installed, "PROGRAMS", (tmp_path / "desk",))
    for given_one in (None, tmp_path / "other"):
        with pytest.raises(served_copy.Refused, match="--program"):
            served_copy.program_of(given_one)
