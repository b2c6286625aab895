"""A month as a reviewer looks at it: the journey by bus, how trips are judged, and what the page says."""

import csv
import datetime
import io
import itertools

import pytest
from hypothesis import given
from hypothesis import strategies as st

from desk_tools.review.figures import groups
from desk_tools.review.fixed_route import (
    FARTHEST_CHANGE,
    FARTHEST_STOP,
    Hop,
    Journey,
    Timetable,
    seconds_of,
)
from desk_tools.review.month import (
    CHANNELS,
    MISSED,
    NO_SHOW,
    RIDDEN,
    Denial,
    Month,
    Trip,
    channel_of,
)
from desk_tools.review.page import as_csv, not_known, page
from desk_tools.review.tables import tables

RULES = {"no vehicle": "no vehicle could take it", "37.131(b)": "too early or too late"}
DAY = datetime.date(2026, 3, 2)


def trip(**given_: object) -> Trip:
    """A trip that was ridden, around 9:00, whose vehicle came and left in time."""
    fields: dict[str, object] = {
        "number": 1,
        "day": DAY,
        "rider": 7,
        "origin": "A",
        "goal": "B",
        "vehicle": "1",
        "state": RIDDEN,
        "mode": "around",
        "requested": 540,
        "offered": (540, 555),
        "promised": (540, 555),
        "latest": 600,
        "arrived": 32_400,
        "aboard": 32_460,
        "dropped": 33_660,
        "ended": None,
        "waited": None,
        "planned": 18,
        "drive": 12,
        "fixed_route": None,
        "miles": 2.5,
    }
    return Trip(**{**fields, **given_})  # type: ignore[arg-type]


def month(
    *trips: Trip, denials: tuple[Denial, ...] = (), has_log: bool = True, has_feed: bool = False
) -> Month:
    """A month of these."""
    return Month("2026-03", trips, denials, has_log, has_feed)


def figure(of: Month, name: str) -> object:
    """A figure by its name."""
    return next(it.value for group in groups(of) for it in group.figures if it.name == name)


# The bus.

STOPS = {"a": (0.0, 0.0), "b": (5_000.0, 0.0), "c": (6_000.0, 0.0), "d": (20_000.0, 0.0)}
LINE = [Hop(36_000, 36_600, "a", "b", "1"), Hop(36_900, 38_000, "c", "d", "2")]


def test_a_journey_has_its_walks_and_its_change() -> None:
    found = Timetable(LINE, STOPS).journey((0, 440), (20_000, 440), 35_000)
    # 100 seconds to the stop, the bus at 10:00, a change of 1,000 feet, and 100 seconds from the stop at 10:33:20.
    assert found == Journey(35_900, 38_100)
    assert found.minutes == 37


def test_who_comes_too_late_for_the_change_does_not_travel() -> None:
    late = [LINE[0], Hop(36_700, 38_000, "c", "d", "2")]
    assert Timetable(late, STOPS).journey((0, 0), (20_000, 0), 35_000) is None
    assert Timetable(LINE, STOPS).journey((0, 0), (20_000, 0), 36_001) is None
    assert Timetable(LINE, STOPS).journey((0, FARTHEST_STOP + 1), (20_000, 0), 30_000) is None


@st.composite
def timetables(draw: st.DrawFn) -> tuple[list[Hop], dict[str, tuple[float, float]]]:
    """A few buses between a few stops, some of them near each other."""
    count = draw(st.integers(2, 5))
    stops = {str(at): (float(draw(st.integers(0, 9)) * 700), 0.0) for at in range(count)}
    hops = []
    for run in range(draw(st.integers(1, 4))):
        clock = draw(st.integers(0, 20)) * 60
        for _ in range(draw(st.integers(1, 3))):
            here, there = draw(st.sampled_from(list(itertools.permutations(stops, 2))))
            begins = here if not hops or hops[-1].run != str(run) else hops[-1].goal
            if begins == there:
                continue
            leaves = clock + draw(st.integers(0, 5)) * 60
            clock = leaves + draw(st.integers(1, 10)) * 60
            hops.append(Hop(leaves, clock, begins, there, str(run)))
    return hops, stops


def every_way(
    hops: list[Hop], stops: dict[str, tuple[float, float]], start: int
) -> list[tuple[int, int]]:
    """Each way from the point (0, 0) to (6300, 0), one bus after the other: when it leaves and when it arrives."""
    table, found = Timetable(hops, stops), []
    walks, ends = table.near((0, 0), FARTHEST_STOP), table.near((6_300, 0), FARTHEST_STOP)

    def go(hop: Hop, left: int, used: frozenset[Hop]) -> None:
        if hop.goal in ends:
            found.append((hop.arrives + ends[hop.goal], left))
        for other in hops:
            feet = abs(stops[hop.goal][0] - stops[other.origin][0])
            walk = 0 if hop.goal == other.origin else seconds_of(feet)
            stays = (
                other.run == hop.run and other.origin == hop.goal and other.leaves >= hop.arrives
            )
            if other not in used and (
                stays or feet <= FARTHEST_CHANGE and hop.arrives + walk <= other.leaves
            ):
                go(other, left, used | {other})

    for hop in hops:
        if hop.origin in walks and start + walks[hop.origin] <= hop.leaves:
            go(hop, hop.leaves - walks[hop.origin], frozenset([hop]))
    return found


@given(timetables(), st.integers(0, 15))
def test_the_journey_is_the_first_of_all_ways_to_arrive(
    made: tuple[list[Hop], dict[str, tuple[float, float]]], minute: int
) -> None:
    hops, stops = made
    ways = every_way(hops, stops, 60 * minute)
    found = Timetable(hops, stops).journey((0, 0), (6_300, 0), 60 * minute)
    assert (found is None) == (not ways)
    if found is not None:
        assert found.arrives == min(arrives for arrives, _ in ways)
        assert (found.arrives, found.leaves) in ways


# How trips are judged.


@pytest.mark.parametrize(
    "arrived, wanted",
    [
        (32_399, "early"),
        (32_400, "on time"),
        (33_359, "on time"),
        (33_360, "late"),
        (None, "not known"),
    ],
)
def test_a_pickup_is_judged_by_the_promised_window(arrived: int | None, wanted: str) -> None:
    assert trip(arrived=arrived).pickup == wanted
    assert trip(arrived=arrived, state=NO_SHOW).pickup == wanted
    assert trip(arrived=arrived, state=MISSED).pickup == ""


def test_early_is_not_on_time_and_unknown_is_in_no_share() -> None:
    of = month(trip(arrived=0), trip(), trip(), trip(arrived=90_000), trip(arrived=None))
    assert [figure(of, it) for it in ("early", "on time", "late", "arrival not known")] == [
        1,
        2,
        1,
        1,
    ]
    assert figure(of, "on time, percent") == 50.0


@pytest.mark.parametrize(
    "dropped, wanted", [(36_059, "on time"), (36_060, "late"), (None, "not known")]
)
def test_a_drop_is_judged_by_be_there_by(dropped: int | None, wanted: str) -> None:
    assert trip(dropped=dropped).drop == wanted
    assert trip(dropped=dropped, latest=None).drop == ""


def test_a_ride_is_compared_with_the_bus_or_else_with_the_direct_drive() -> None:
    assert trip().compared == ("direct drive", 8.0)
    assert trip(fixed_route=25).compared == ("fixed route", -5.0)
    assert trip(dropped=None, fixed_route=15).compared == ("fixed route", 3.0)
    assert trip(state=NO_SHOW).compared is None


@pytest.mark.parametrize(
    "given_, wanted",
    [
        ({"waited": 6}, ""),
        ({"waited": 5, "wait_due": 5}, ""),
        ({"waited": 4, "wait_due": 5}, "the wait was shorter than 5 minutes"),
        ({"waited": 6, "ended": 32_399}, "it was entered before the promised window"),
        ({"waited": 6, "ended": 32_400}, ""),
        ({"waited": 6, "arrived": None}, "no arrival is on record"),
        ({"waited": 6, "arrived": 33_360}, "the vehicle came after the promised window"),
        ({}, "no wait is on record"),
    ],
)
def test_what_speaks_against_a_no_show_is_said(given_: dict[str, int], wanted: str) -> None:
    assert trip(state=NO_SHOW, **given_).objection == wanted


def test_the_hour_is_counted_from_what_was_asked() -> None:
    far = [
        trip(promised=(601, 630)),
        trip(promised=(479, 494)),
        trip(promised=(600, 620)),
        trip(mode="by", promised=(300, 310)),
    ]
    assert figure(month(*far), "promised more than an hour from the request") == 2


def test_channels_tell_the_clerk_from_the_rider() -> None:
    assert [channel_of("page", it) for it in ("office", "dispatcher", "other", "")] == [
        "clerk",
        "clerk",
        "rider",
        "page, clerk or rider",
    ]
    assert {channel_of(it, "other") for it in ("telephone", "app", "standing-order")} <= set(
        CHANNELS
    )


# Files and page.


def test_denials_stand_by_rule_and_channel_and_lost_ways_back_are_denials() -> None:
    denied = [
        ("no vehicle", "clerk", ""),
        ("no vehicle", "clerk", "lost"),
        ("37.131(b)", "rider", ""),
    ]
    of = month(trip(), denials=tuple(Denial(DAY, 540, "around", *it) for it in denied))
    by_month = {row[1]: row[2:] for row in tables(of, RULES)[1].rows}
    assert (
        by_month["clerk"] == [2, 0, 2]
        and by_month["rider"] == [0, 1, 1]
        and by_month["all"] == [2, 1, 3]
    )
    assert [
        figure(of, it) for it in ("requests", "denied for lack of capacity", "ways back lost")
    ] == [4, 2, 1]


def test_without_a_log_nothing_of_it_is_zero() -> None:
    of = month(trip(), has_log=False)
    assert [figure(of, it) for it in ("denied", "on time", "requests")] == [None, None, None]
    assert any("No site's log of this month was given" in it for it in not_known(of))
    text = page("T", [], of, tables(of, RULES))
    assert '<td class="number">not known</td>' in text


def test_each_column_has_its_meaning_on_the_page_and_signs_are_escaped() -> None:
    of = month(trip(origin="<b>=1", state=NO_SHOW))
    made = tables(of, RULES)
    text = page("A & B", ["From <x>."], of, made)
    for table in made:
        for name, meaning in table.columns:
            assert meaning and (table.file == "figures.csv" or f"<dt>{name}</dt>" in text)
    assert (
        "&lt;b&gt;=1" in text
        and "<b>" not in text
        and "A &amp; B" in text
        and "From &lt;x&gt;." in text
    )


def test_a_spreadsheet_takes_no_cell_for_a_formula() -> None:
    table = next(
        it
        for it in tables(month(trip(origin="=SUM(A1)", promised=(480, 490))), RULES)
        if it.file == "trips.csv"
    )
    row = next(csv.DictReader(io.StringIO(as_csv(table))))
    assert (
        row["from"] == "'=SUM(A1)" and row["minutes_from_request"] == "-60" and row["rider"] == "7"
    )


def test_an_empty_month_says_so() -> None:
    assert not_known(month())[0] == "Nothing was booked for 2026-03, and no denial is on record."


def test_a_log_that_begins_within_the_month_says_since_when_in_each_of_its_figures() -> None:
    of = Month("2026-03", [trip()], (), True, False, log_begins=datetime.date(2026, 3, 30))
    files = {it.file: list(csv.DictReader(io.StringIO(as_csv(it)))) for it in tables(of, RULES)}
    rows = {it["figure"]: it for it in files["figures.csv"]}
    for name in (
        "denied",
        "denied for lack of capacity",
        "late",
        "there too late",
        "rides with both ends known",
    ):
        assert "Since 2026-03-30, when the site's log begins." in rows[name]["meaning"], name
    # (what would add trips of the whole month to denials of a part of it is not known)
    assert rows["requests"]["value"] == rows["denied for lack of capacity, percent"]["value"] == ""
    assert "Since" not in rows["booked"]["meaning"] and rows["booked"]["value"] == "1"
    assert {it["month"] for it in files["denials-by-month.csv"]} == {"2026-03 since 2026-03-30"}
