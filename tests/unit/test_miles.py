"""Miles and hours: only what was reported counts, and what was not is named."""

import datetime

from hypothesis import given
from hypothesis import strategies as some

from desk_tools import events, miles
from desk_tools.event_log import Told, told_of

DAY = datetime.date(2026, 12, 7)
WORKED = {(DAY, 4): None}


def told(kind: str, number: int, **fields: object) -> Told:
    path = events.path_of(kind, {"id": f"{number:026}", "vehicle": 4, **fields})
    return told_of(f"2026-12-08T09:00:00-05:00\t{path.replace('?', chr(9))}\tvehicle".encode())


def pull(kind: str, number: int, minute: int, odometer: int, at: str = "", **more: int) -> Told:
    moment = at or f"2026-12-07T{minute // 60 % 24:02}:{minute % 60:02}:{number % 60:02}"
    return told(kind, number, day=DAY, minute=minute, odometer=odometer, at=moment, **more)


def tap(number: int, event: str, at: str) -> Told:
    return told("stops", number, trip=9, event=event, at=f"2026-12-07T{at}:00")


FULL = [
    pull("pull_out", 1, 310, 48_210),
    tap(2, "arrived", "05:40"),
    tap(3, "aboard", "05:43"),
    tap(4, "dropped", "17:50"),
    pull("pull_in", 5, 1_085, 48_310, first_pickup=48_214, last_drop=48_301),
]


def sums(*events_: Told) -> tuple[miles.Sums, list[str]]:
    found = miles.measured(events_, WORKED)
    return found.days[DAY], [said for _, _, said in found.unreported]


def test_a_day_that_was_reported() -> None:
    day, said = sums(*FULL)
    assert not said
    assert (day.miles, day.revenue_miles, day.deadhead_miles) == (100, 87, 13)
    assert (day.minutes, day.revenue_minutes, day.deadhead_minutes) == (775, 730, 45)
    assert miles.hours(775) == "12.92"


def test_what_nobody_reported_is_named() -> None:
    assert sums()[1] == ["no pull-out and no pull-in"]
    assert sums(*FULL[:4])[1] == ["a pull-out without a pull-in"]
    assert sums(*FULL[1:])[1] == ["a pull-in without a pull-out"]
    day, said = sums(*FULL[:4], pull("pull_in", 5, 1_085, 48_310))
    assert said == ["no odometer at the first pickup, or none at the last drop-off"]
    assert (day.miles, day.revenue_miles, day.deadhead_miles, day.vans_with_revenue_miles) == (
        100,
        0,
        0,
        0,
    )
    assert sums(FULL[0], FULL[4])[1] == ["no tap at a pickup, or none at a drop-off after it"]
    assert sums(*FULL[:4], pull("pull_in", 5, 1_085, 48_209))[1] == [
        "the odometer goes back from 48210 to 48209"
    ]
    assert "more than 1000 miles" in sums(*FULL[:4], pull("pull_in", 5, 1_085, 58_210))[1][0]
    found = miles.measured(FULL, {})
    assert not found.days and "carried nobody" in found.unreported[0][2]


def test_the_last_entry_holds_and_a_second_shift_counts() -> None:
    again = pull("pull_out", 6, 309, 48_200, "2026-12-07T05:20:00")
    assert sums(again, *FULL)[0].miles == 110
    second = [
        pull("pull_out", 7, 1_100, 48_310),
        tap(8, "aboard", "19:00"),
        tap(9, "dropped", "19:30"),
    ]
    late = pull(
        "pull_in", 10, 1_460, 48_350, "2026-12-08T00:20:00", first_pickup=48_320, last_drop=48_340
    )
    day, said = sums(*FULL, *second, late)
    assert not said and (day.miles, day.revenue_miles, day.minutes, day.revenue_minutes) == (
        140,
        107,
        1_135,
        760,
    )


def test_a_figure_of_which_nothing_was_reported_is_empty() -> None:
    day, _ = sums()
    rows = miles.rows_of("S-10", miles.Counted("all", 1, 5, 1, day))
    found = {row[3]: row[4:] for row in rows}
    assert (
        found["Vehicle revenue miles"] == ("", "1", "0")
        and found["Unlinked passenger trips"][0] == "5"
    )
    assert found["Passenger miles traveled"][0] == "" and len(found) == len(rows)
    full = {
        row[3]: row[4:]
        for row in miles.rows_of("MR-20", miles.Counted("all", 1, 5, 1, sums(*FULL)[0]))
    }
    assert full["Vehicle revenue miles"] == ("87", "1", "1") and full["Vehicle revenue hours"] == (
        "12.17",
        "1",
        "1",
    )


@given(
    some.lists(
        some.tuples(
            some.sampled_from(["pull_out", "pull_in"]),
            some.integers(0, 2_879),
            some.integers(0, 5_000),
        ),
        max_size=8,
    )
)
def test_revenue_and_deadhead_are_all(made: list[tuple[str, int, int]]) -> None:
    entries = [
        pull(kind, at, minute, odometer, "2026-12-07T09:00:00")
        for at, (kind, minute, odometer) in enumerate(made, 1)
    ]
    day, said = sums(*entries, FULL[1], FULL[3])
    assert day.vans == 1 and (day.vans_with_miles == 1 or said)
    assert day.miles >= 0 and day.minutes >= 0
    for part, whole in (("miles", day.miles), ("minutes", day.minutes)):
        inner = getattr(day, f"revenue_{part}") + getattr(day, f"deadhead_{part}")
        assert inner in (0, whole) and getattr(day, f"deadhead_{part}") >= 0
