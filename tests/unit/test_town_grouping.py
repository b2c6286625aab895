"""Addresses at places: the corridor test of many points, whom a place may stand for, and the least sum of minutes."""

import itertools
import random
from dataclasses import replace
from pathlib import Path

import pytest
from hypothesis import given, settings
from hypothesis import strategies as st

np = pytest.importorskip("numpy")

from desk_tools.town import (
    addresses,
    conditional,
    drawing,
    gather,
    grouping,
    homes,
    many_points,
    medoids,
    sheets,
)  # noqa: E402
from desk_tools.town.addresses import Address  # noqa: E402
from desk_tools.town.corridor import Line, feet_from_line, is_served_alike, lines_at  # noqa: E402
from desk_tools.town.gather import Town  # noqa: E402
from desk_tools.town.many_points import masks_of  # noqa: E402
from desk_tools.town.places import Place  # noqa: E402

COORDINATE = st.integers(-30_000, 30_000)
POINT = st.tuples(COORDINATE, COORDINATE)
FAR = st.integers(-1_000_000, 1_000_000)


def line(number: int, *points: tuple[int, int], width: int = 3_960) -> Line:
    """A line with these points."""
    return Line(number, f"line {number}", width, points, True)


LINES = st.lists(st.lists(POINT, min_size=2, max_size=4), min_size=1, max_size=6).map(
    lambda all_: [line(at, *points) for at, points in enumerate(all_, 1)]
)
CROSS = [line(1, (-20_000, 0), (20_000, 0)), line(2, (0, -20_000), (0, 20_000))]


def town(places: list[Place], lines: list[Line], most: int = 100, outside: bool = False) -> Town:
    """A town without a plane."""
    return Town(places, lines, None, most=most, is_outside_served=outside)


def scattered(count: int, seed: int, spread: int = 8_000) -> list[Address]:
    """Addresses round the middle."""
    chance = random.Random(seed)
    spots = [(round(chance.gauss(0, spread)), round(chance.gauss(0, spread))) for _ in range(count)]
    return [
        Address(at, f"{at} Oak St", it, riders=(at,) if at % 4 == 0 else (), row=at + 1)
        for at, it in enumerate(spots, 1)
    ]


def quiet(_done: int, _of: int, _what: str = "") -> None:
    """Shows nothing."""


@given(LINES, st.lists(st.tuples(FAR, FAR), min_size=1, max_size=8), st.integers(-2, 2))
def test_many_points_are_tested_as_one_is(
    lines: list[Line], points: list[tuple[int, int]], aside: int
) -> None:
    """Also at the foot at which a corridor ends."""
    x, y = lines[0].points[0]
    points = [*points, (x, y + lines[0].width + aside), (x - lines[0].width - aside, y)]
    found = masks_of(np.array(points, dtype=np.int64), np.zeros(len(points), dtype=bool), lines)
    assert found.tolist() == [lines_at(it, False, lines) for it in points]


@given(LINES, POINT)
def test_the_feet_of_a_line_are_the_least_within_which_it_lies(
    lines: list[Line], point: tuple[int, int]
) -> None:
    """By squares of whole numbers, for a segment along an axis."""
    (x, y), _ = lines[0].points[:2]
    flat = [(x, y), (x + 500, y)]
    feet = feet_from_line(point, flat)
    dx = max(x - point[0], 0, point[0] - x - 500)
    square = dx * dx + (point[1] - y) ** 2
    assert feet * feet >= square and (feet == 0 or (feet - 1) ** 2 < square)


@settings(max_examples=30)
@given(LINES, st.integers(0, 1_000_000), st.integers(3, 20), st.booleans())
def test_nobody_is_denied_by_the_grouping(
    lines: list[Line], seed: int, most: int, outside: bool
) -> None:
    """Each address is at a place in the corridors of at least its lines; no other place serves one outside."""
    own = [Place(7, "Depot", (0, 0)), Place(9, "Home of 5", (50, 50), private=(5,))]
    given_ = scattered(60, seed)
    try:
        found = gather.gathered(town(own, lines, most, outside), given_, quiet)
    except sheets.Unreadable as error:
        assert "new places are needed" in str(error)
        return
    assert {it.row for it in found.addresses} | {it.number for it in found.refused} == {
        it.row for it in given_
    }
    assert len(found.places) <= most
    for it in found.addresses:
        place = found.places[it.place or 0]
        mask = lines_at(it.point or (0, 0), False, lines)
        assert is_served_alike(mask, lines_at(place.point, False, lines))
        assert mask or outside
        assert place.number != 9 or it.riders == (5,)
    by_row = {it.row: it for it in given_}
    for refusal in found.refused:
        assert lines_at(by_row[refusal.number].point or (0, 0), False, lines) == 0


def test_homes_stay_their_riders_own() -> None:
    """No new place has a home's point, and one of homes alone is private to who lives there."""
    found = gather.gathered(town([], CROSS, 12), scattered(200, 3), quiet)
    homes = {it.point for it in found.addresses if it.riders}
    new = [it for it in found.places.values() if it.is_new]
    assert new and not homes & {it.point for it in new}
    for it in new:
        group = [one for one in found.addresses if one.place == it.number]
        if all(one.riders for one in group):
            assert it.private == tuple(sorted(rider for one in group for rider in one.riders))
        else:
            assert it.private == () and it.name.startswith("Near ")
            assert not any(it.name == f"Near {one.street}" for one in group if one.riders)


@pytest.mark.parametrize("seed", range(12))
def test_the_sum_is_within_a_tenth_of_the_least(seed: int) -> None:
    """Beside every choice of three of twelve addresses."""
    chance = np.random.default_rng(seed)
    at = chance.integers(-3_000, 3_000, size=(12, 2))
    points = medoids.Points(at, np.ones(12, dtype=np.uint64))
    matrix = np.asfortranarray(medoids.costs(points, points, 1.0))
    weights = np.ones(12, dtype=np.float32)
    chosen = medoids.swapped(
        matrix, weights, medoids.started(matrix, weights, [], 3), 0, lambda *_: None
    )
    least = min(
        matrix[:, list(it)].min(axis=1).sum() for it in itertools.combinations(range(12), 3)
    )
    assert matrix[:, chosen].min(axis=1).sum() <= least * 1.1


@given(st.integers(0, 10_000))
def test_no_swap_of_a_place_makes_the_sum_less(seed: int) -> None:
    """What is found is a least sum as far as single swaps go, and own places stay."""
    chance = np.random.default_rng(seed)
    at = chance.integers(-9_000, 9_000, size=(30, 2))
    masks = chance.integers(1, 8, size=30).astype(np.uint64)
    masks[0] = np.uint64(7)
    points = medoids.Points(at, masks)
    matrix = np.asfortranarray(medoids.costs(points, points, 1.0))
    weights = chance.integers(1, 5, size=30).astype(np.float32)
    chosen = medoids.swapped(
        matrix, weights, medoids.started(matrix, weights, [0, 1], 6), 2, lambda *_: None
    )
    assert chosen[:2] == [0, 1]
    total = float(weights @ matrix[:, chosen].min(axis=1))
    for place in range(2, len(chosen)):
        for column in range(30):
            tried = [*chosen[:place], column, *chosen[place + 1 :]]
            assert float(weights @ matrix[:, tried].min(axis=1)) >= total * (1 - 1e-5)


def test_core_addresses_are_at_core_places() -> None:
    """A core place serves all lines, so no other address comes to it."""
    given_ = [
        Address(1, "1 Oak St", (9_000, 9_000), core=True, row=2),
        Address(2, "2 Oak St", (9_100, 3_000), row=3),
    ]
    found = gather.gathered(town([], CROSS), given_, quiet)
    first, second = (found.places[it.place or 0] for it in found.addresses)
    assert first.core and not second.core and not found.refused


def test_too_many_groups_of_lines_are_said_and_nothing_is_made() -> None:
    """Four lines that do not meet need four places."""
    lines = [line(at, (at * 20_000, 0), (at * 20_000, 9_000)) for at in range(4)]
    given_ = [Address(at + 1, "Oak", (at * 20_000, 0), row=at + 2) for at in range(4)]
    with pytest.raises(sheets.Unreadable, match="4 new places are needed, and 3 are free"):
        gather.gathered(town([], lines, 3), given_, quiet)
    assert len(gather.gathered(town([], lines, 4), given_, quiet).places) == 4


def test_a_plan_says_how_far_and_draws() -> None:
    """The farthest first, twenty of them; a street with signs of XML does not break the map."""
    given_ = [*scattered(50, 1, 3_000), Address(99, "<Main> & 1st", (100, 100), row=100)]
    a_town = town([], CROSS, 5)
    found = gather.gathered(a_town, given_, quiet)
    lines = gather.told(a_town, found)
    feet = [float(it.split(": ")[2].split(" feet")[0].replace(",", "")) for it in lines[-20:]]
    assert feet == sorted(feet, reverse=True) and feet[0] == round(max(found.feet))
    text = drawing.drawn(found, CROSS)
    assert "<Main>" not in text and text.count("<circle") == len(found.places)


def test_what_is_written_is_read_again(tmp_path: Path) -> None:
    """The file that gather writes is one that it takes."""
    found = gather.gathered(town([], CROSS), scattered(30, 2, 3_000), quiet)
    path = tmp_path / "addresses.csv"
    path.write_text(addresses.text_of(found.addresses), encoding="utf-8")
    again, sheet = addresses.read(path, None)
    assert not sheet.refused
    assert [(it.number, it.street, it.place, it.riders) for it in again] == [
        (it.number, it.street, it.place, it.riders) for it in found.addresses
    ]


def test_grouping_of_many_cells() -> None:
    """More addresses than cells are all at a place that is allowed."""
    chance = np.random.default_rng(1)
    at = chance.integers(-3_000, 3_000, size=(5_000, 2))
    points = grouping.points_of(at, np.zeros(5_000, dtype=bool), CROSS)
    none = grouping.points_of(at[:0], np.zeros(0, dtype=bool), CROSS)
    wanted = grouping.Wanted(points, np.zeros(5_000, dtype=bool), none, 8, 0.001)
    found = grouping.grouped_at(wanted, CROSS, quiet)
    assert len(found.of) == 5_000 and len(found.places) == 8
    assert grouping.is_allowed(points.masks, found.places.masks[found.of]).all()


# Riders whose grant holds of some trips alone.


@given(LINES, POINT, POINT, st.integers(1, 20_000))
def test_a_line_denies_where_the_grant_holds_at_the_home_alone(
    lines: list[Line], home: tuple[int, int], place: tuple[int, int], feet: int
) -> None:
    """By the rules' own words, line by line."""
    more = lines_at(place, False, lines) & ~lines_at(home, False, lines)
    found = conditional.line_that_denies(home, place, ["nolift"], lines)
    assert (found is not None) == bool(more)
    is_farther = [feet_from_line(it, one.points) > feet for one in lines for it in (home, place)]
    denied = any(here and not there for here, there in zip(is_farther[::2], is_farther[1::2]))
    found = conditional.line_that_denies(home, place, [f"farther:{feet}"], lines)
    assert (found is not None) == denied
    assert conditional.line_that_denies(home, home, ["nolift", f"farther:{feet}"], lines) is None


@pytest.mark.parametrize(
    "text, is_so",
    [
        ("always; nolift", False),
        ("months:1, 2", False),
        ("No Lift", True),
        ("no-lift ; Always", False),
        ("Farther: 5280", True),
    ],
)
def test_for_which_grants_the_place_matters(text: str, is_so: bool) -> None:
    assert conditional.matters(conditional.conditions_in(text)) == is_so
    assert conditional.matters(conditional.grant_in(text)) == is_so


@pytest.mark.parametrize("most", [12, 30])
def test_no_home_is_put_where_its_grant_holds_less(most: int) -> None:
    """Each such home is at a place that fits, by a place of its own where no other one does."""
    rows = [replace(it, point=it.point) for it in scattered(120, 7, 5_000)]
    riders = [rider for it in rows for rider in it.riders]
    grants = {it: (("nolift",) if it % 8 else ("farther:3000", "nolift")) for it in riders[:12]}
    known = Town([], CROSS, None, most=most, grants=grants)
    before = gather.gathered(town([], CROSS, most), rows, quiet)
    found = gather.gathered(known, rows, quiet)
    assert denied_in(before, grants), "the trial shows nothing"
    assert not denied_in(found, grants)
    refused = [it for it in found.refused if "put a place there" in it.reason]
    assert len(found.places) <= most
    assert len(found.addresses) + len(refused) == len(before.addresses)
    for it in found.addresses:
        mask = lines_at(it.point or (0, 0), False, CROSS)
        assert is_served_alike(mask, lines_at(found.places[it.place or 0].point, False, CROSS))
    told = "\n".join(gather.told(known, found))
    alone = sum(len(it.homes) for it in found.own)
    assert f"{alone} of them at {len(found.own)} places that are for homes alone" in told


def denied_in(found: gather.Gathered, grants: dict[int, tuple[str, ...]]) -> list[int]:
    """The homes at a place where a grant holds less than at the home."""
    return [
        it.number
        for it in found.addresses
        for rider in it.riders
        if rider in grants
        and it.point
        and conditional.line_that_denies(
            it.point, found.places[it.place or 0].point, grants[rider], CROSS
        )
    ]


def test_a_place_of_its_own_is_private() -> None:
    """Nobody else reads where such homes are, no other address is there, and several homes are at no home's point."""
    grants = {it: ("nolift", f"farther:{it * 60}") for it in range(4, 49, 4)}
    known = Town([], CROSS, None, most=8, grants=grants)
    found = gather.gathered(known, scattered(120, 7, 5_000), quiet)
    homes = {it.point for it in found.addresses if it.riders}
    made = [(one, it) for one in found.own for it in found.places.values() if it.point == one.point]
    assert len(made) == len(found.own) > 0
    for one, place in made:
        assert place.private == one.riders and set(one.riders) <= {*grants}
        there = [it.number for it in found.addresses if it.place == place.number]
        assert sorted(there) == sorted(it.number for it in one.homes)
        assert (place.point in homes) == (len(there) == 1)


def test_homes_that_one_place_fits_share_it() -> None:
    """A building of riders takes one place and not one for each of its apartments, as long as that is near enough."""
    near = [
        Address(at, f"Apt {at}", (9_003 + at, 2_101), riders=(at,), row=at + 1) for at in (1, 2)
    ]
    far = Address(3, "Far St", (-9_003, 2_101), riders=(3,), row=4)
    grants = {1: ("nolift",), 2: ("farther:1000", "nolift"), 3: ("nolift",)}
    found = homes.own_places([*near, far], CROSS, grants, 1_000.0, 5)
    assert [[it.number for it in one.homes] for one in found] == [[1, 2], [3]]
    assert found[0].point not in {it.point for it in near} and found[1].point == far.point
    assert [it.riders for it in found] == [(1, 2), (3,)]
    assert len(homes.own_places([*near, far], CROSS, grants, 1_000.0, 1)) == 1
    assert homes.own_places([*near, far], CROSS, grants, 1_000.0, 0) == []
    both = homes.own_places([*near, far], CROSS, grants, 20_000.0, 5)
    assert [len(it.homes) for it in both] == [3]


@given(LINES, st.lists(st.tuples(POINT, POINT), min_size=2, max_size=8))
def test_trips_that_a_grouping_denies_are_counted(
    lines: list[Line], ends: list[tuple[tuple[int, int], tuple[int, int]]]
) -> None:
    """Of each home to each address, by the rules' own words."""
    kinds, grants = ["nolift", "farther:2640"], {1: ("nolift",), 2: ("nolift", "farther:2640")}
    rows = [
        Address(at, "Oak", here, riders=(at,) if at < 3 else (), row=at)
        for at, (here, _) in enumerate(ends, 1)
    ]
    counted = [
        many_points.counted_of(np.array(those, dtype=np.int64), lines, kinds)
        for those in zip(*ends)
    ]
    found = homes.trips_of(rows, *counted, kinds, grants)

    def holds(one: tuple[int, int], other: tuple[int, int], conditions: tuple[str, ...]) -> bool:
        both = lines_at(one, False, lines) & lines_at(other, False, lines)
        is_far = any(
            min(feet_from_line(it, l.points) for l in lines) > 2_640 for it in (one, other)
        )
        return ("nolift" in conditions and not both) or ("farther:2640" in conditions and is_far)

    owed = [
        (at, other)
        for at in range(min(2, len(ends)))
        for other in range(len(ends))
        if holds(ends[at][0], ends[other][0], grants[at + 1])
    ]
    assert found.owed == len(owed)
    lost = [at for at, other in owed if not holds(ends[at][1], ends[other][1], grants[at + 1])]
    assert found.denied == len(lost) and found.riders == tuple(sorted({at + 1 for at in lost}))


GRANT = st.lists(
    st.one_of(
        st.just("nolift"), st.sampled_from(["farther:500", "farther:2640"]), st.just("months:1,2")
    ),
    min_size=1,
    max_size=3,
)


@settings(max_examples=25, deadline=None)
@given(
    LINES, st.integers(0, 1_000_000), st.integers(4, 20), st.lists(GRANT, min_size=15, max_size=15)
)
def test_no_grant_holds_less_by_the_grouping(
    lines: list[Line], seed: int, most: int, grants: list[list[str]]
) -> None:
    """Over any lines, of which some are not accessible, and any grants: each home is right or is refused by its row."""
    lines = [replace(it, accessible=at % 3 != 2) for at, it in enumerate(lines)]
    given_ = scattered(60, seed, 20_000)
    whose = {it.riders[0]: tuple(one) for it, one in zip(given_[3::4], grants)}
    known = Town([Place(7, "Depot", (0, 0))], lines, None, most=most, grants=whose)
    try:
        found = gather.gathered(known, given_, quiet)
    except sheets.Unreadable as error:
        assert "new places are needed" in str(error)
        return
    assert len(found.places) <= most
    rows = [it.row for it in found.addresses] + [it.number for it in found.refused]
    assert sorted(rows) == [it.row for it in given_]
    for it in found.addresses:
        place = found.places[it.place or 0]
        mask = lines_at(it.point or (0, 0), False, lines)
        assert is_served_alike(mask, lines_at(place.point, False, lines)) and mask
        assert not place.private or set(it.riders) <= set(place.private)
        conditions = conditional.conditions_of(it.riders, whose)
        assert it.point and not conditional.line_that_denies(
            it.point, place.point, conditions, lines
        )


@given(LINES, st.lists(st.tuples(FAR, FAR), min_size=1, max_size=8), st.integers(-2, 2))
def test_conditions_of_many_points_are_counted_as_of_one(
    lines: list[Line], points: list[tuple[int, int]], aside: int
) -> None:
    """Also at the foot to which a condition reaches; and where there are too many points to try at once."""
    lines = [replace(it, accessible=at % 2 == 0) for at, it in enumerate(lines)]
    x, y = lines[0].points[0]
    points = [*points, (x, y + 2_640 + aside), (x - lines[0].width - aside, y)]
    for many in (points, points * (many_points.FEW // len(points) + 1)):
        at = np.array(many, dtype=np.int64)
        found = many_points.counted_of(at, lines, ["nolift", "farther:2640"]).tolist()
        for (lifts, near), point in zip(found[: len(points)], points):
            wanted = [(1 << at, it) for at, it in enumerate(lines)]
            served = lines_at(point, False, lines)
            assert lifts == sum(bit for bit, it in wanted if it.accessible and bit & served)
            assert near == sum(
                bit for bit, it in wanted if feet_from_line(point, it.points) <= 2_640
            )


def test_more_such_homes_than_places_are_refused_by_their_rows() -> None:
    grants = {it: (f"farther:{it * 20}", "nolift") for it in range(4, 400, 4)}
    known = Town([], CROSS, None, most=4, grants=grants)
    rows = scattered(400, 7, 5_000)
    found = gather.gathered(known, rows, quiet)
    named = {it.number for it in found.refused if "; nolift) hold as at the home" in it.reason}
    kept = {it.row for it in found.addresses}
    assert named and not named & kept and not denied_in(found, grants)
    assert len(found.places) <= 4 and len(found.own) <= 2


def told_of(known: Town, rows: list[Address]) -> str:
    return "\n".join(gather.told(known, gather.gathered(known, rows, quiet)))


def test_riders_without_a_home_are_not_counted_as_homes() -> None:
    rows = [replace(it, riders=()) for it in scattered(40, 3, 3_000)]
    grants = {901: ("nolift",), 902: ("nolift",), 903: ("always",)}
    told = told_of(Town([], CROSS, None, grants=grants), rows)
    assert "2 riders with nolift or farther have no home among these addresses" in told
    assert "holds as at the home" not in told and "of a hundred" not in told


def test_more_places_than_there_may_be_are_no_way_out() -> None:
    assert gather.enough_places(101, 100).endswith("same lines, and 100 places are the most")
    assert gather.enough_places(98, 100).endswith("of the same lines")


def test_an_address_that_stands_twice_is_named() -> None:
    twice = [Address(1, "12 Elm St.", (0, 0), row=2), Address(7, "12 elm st", (0, 0), row=9)]
    other = Address(8, "12 Elm St", (40, 0), row=10)
    told = told_of(Town([], CROSS, None), [*twice, other])
    assert "STANDS MORE THAN ONCE: 12 Elm St., in rows 2, 9" in told
    assert "10" not in told.split("STANDS MORE THAN ONCE")[1].splitlines()[0]
    assert "MORE THAN ONCE" not in told_of(Town([], CROSS, None), [twice[0], other])
