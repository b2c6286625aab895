"""Driving times from a map: a grid of streets that the test makes, beside a plain second search."""

import heapq
import math
from pathlib import Path

import pytest
from hypothesis import HealthCheck, given, settings
from hypothesis import strategies as st

osmium = pytest.importorskip("osmium")
pytest.importorskip("scipy")

from desk_tools.town import streets  # noqa: E402

SOUTH, WEST, STEP = 44.9, -93.3, 0.002


def position(node: int, side: int) -> tuple[float, float]:
    """Where a node of the grid is."""
    return SOUTH + node // side * STEP, WEST + node % side * STEP


def extract(path: Path, side: int, ways: list[tuple[list[int], dict[str, str]]]) -> None:
    """Writes an extract of a grid with these ways."""
    writer = osmium.SimpleWriter(str(path))
    for node in range(side * side):
        latitude, longitude = position(node, side)
        writer.add_node(osmium.osm.mutable.Node(id=node + 1, location=(longitude, latitude)))
    for number, (nodes, tags) in enumerate(ways, 1):
        way = osmium.osm.mutable.Way(id=number, nodes=[it + 1 for it in nodes], tags=tags)
        writer.add_way(way)
    writer.close()


def grid(side: int, highway: str = "residential") -> list[tuple[list[int], dict[str, str]]]:
    """All rows and columns of a grid as ways."""
    tags = {"highway": highway}
    rows = [([row * side + it for it in range(side)], tags) for row in range(side)]
    return rows + [([it * side + column for it in range(side)], tags) for column in range(side)]


def feet(one: tuple[float, float], other: tuple[float, float], middle: float) -> float:
    """The feet between two positions."""
    wide = math.cos(math.radians(middle))
    return math.hypot(one[0] - other[0], (one[1] - other[1]) * wide) * streets.FEET_A_DEGREE


def plain_minutes(
    side: int, ways: list[tuple[list[int], dict[str, str]]], start: int
) -> dict[int, float]:
    """The least minutes from a node to each other, by a search over all nodes."""
    used = [position(it, side) for it in {node for nodes, _ in ways for node in nodes}]
    middle = sum(it[0] for it in used) / len(used)
    edges: dict[int, list[tuple[int, float]]] = {}
    for nodes, tags in ways:
        speed = streets.speed_of(tags)
        if speed is None:
            continue
        forth, back = streets.directions(tags)
        for a, b in zip(nodes, nodes[1:]):
            took = feet(position(a, side), position(b, side), middle) / (speed * 88)
            edges.setdefault(a, []).extend([(b, took)] * forth)
            edges.setdefault(b, []).extend([(a, took)] * back)
    found: dict[int, float] = {}
    open_ = [(0.0, start)]
    while open_:
        took, node = heapq.heappop(open_)
        if node not in found:
            found[node] = took
            for other, more in edges.get(node, []):
                heapq.heappush(open_, (took + more, other))
    return found


TAGS = st.fixed_dictionaries(
    {"highway": st.sampled_from(["residential", "primary", "motorway_link"])},
    optional={
        "maxspeed": st.sampled_from(["35 mph", "50", "none", "walk", "0"]),
        "oneway": st.sampled_from(["yes", "no", "-1"]),
    },
)


@settings(max_examples=25, suppress_health_check=[HealthCheck.function_scoped_fixture])
@given(st.lists(st.tuples(st.integers(0, 11), TAGS), max_size=8), st.data())
def test_times_are_those_of_a_plain_search(
    tmp_path: Path, changed: list[tuple[int, dict[str, str]]], data: st.DataObject
) -> None:
    """With signs and one-way streets, between any nodes that reach each other."""
    ways = grid(6)
    for at, tags in changed:
        ways[at] = (ways[at][0], tags)
    path = tmp_path / "town.osm.pbf"
    path.unlink(missing_ok=True)
    extract(path, 6, ways)
    nodes = data.draw(st.lists(st.integers(0, 35), min_size=2, max_size=5, unique=True))
    found = streets.times(streets.read(path), [position(it, 6) for it in nodes])
    for row, start in enumerate(nodes):
        plain = plain_minutes(6, ways, start)
        for column, goal in enumerate(nodes):
            if found.feet[row] < 1 and found.feet[column] < 1:
                assert found.minutes[row, column] == pytest.approx(plain[goal], abs=0.01)


@pytest.mark.parametrize(
    ("tags", "speed"),
    [
        ({"highway": "motorway"}, 60),
        ({"highway": "residential", "maxspeed": "30 mph"}, 24),
        ({"highway": "residential", "maxspeed": "50"}, 50 * 0.621371 * 0.8),
        ({"highway": "residential", "maxspeed": "signals"}, 25),
        ({"highway": "footway"}, None),
        ({"highway": "service", "access": "private"}, None),
        ({"highway": "service", "access": "private", "motor_vehicle": "yes"}, 12),
        ({"building": "yes"}, None),
    ],
)
def test_speeds(tags: dict[str, str], speed: float | None) -> None:
    """By the sign, else by the class; no van drives along a path or a private way."""
    assert streets.speed_of(tags) == (speed if speed is None else pytest.approx(speed))


def test_a_place_beside_an_island_is_at_the_streets_that_lead_on(tmp_path: Path) -> None:
    """A parking lot that no street joins is nobody's street, and a place far from all is said."""
    ways = grid(6)[:11] + [([5, 11], {"highway": "service"})]
    ways = [(nodes, tags) for nodes, tags in ways if not {5, 11} & {*nodes} or len(nodes) == 2]
    path = tmp_path / "island.osm.pbf"
    extract(path, 6, ways)
    found = streets.times(streets.read(path), [position(5, 6), position(30, 6), (45.0, -93.3)])
    assert found.feet[0] > 100 and math.isfinite(found.minutes[0, 1])
    assert streets.told([1, 2, 3], found) == [
        f"place 3 is {found.feet[2]:,.0f} feet from the nearest street of the map"
    ]


@pytest.mark.parametrize("content", [b"", b"PK\3\4", bytes(range(256)) * 40])
def test_any_bytes_are_one_sentence(tmp_path: Path, content: bytes) -> None:
    """And so is a file that is not there."""
    path = tmp_path / "bad.osm.pbf"
    path.write_bytes(content)
    for it in (path, tmp_path / "none.osm.pbf"):
        with pytest.raises(streets.NoMap) as said:
            streets.read(it)
        assert "\n" not in str(said.value)


@pytest.mark.parametrize(
    ("tags", "ways"),
    [
        ({"highway": "residential"}, (True, True)),
        ({"highway": "residential", "oneway": "yes"}, (True, False)),
        ({"highway": "residential", "oneway": "-1"}, (False, True)),
        ({"highway": "primary", "junction": "roundabout"}, (True, False)),
        ({"highway": "motorway"}, (True, False)),
        ({"highway": "motorway", "oneway": "no"}, (True, True)),
    ],
)
def test_directions(tags: dict[str, str], ways: tuple[bool, bool]) -> None:
    """A motorway and a roundabout are one-way unless a tag says otherwise."""
    assert streets.directions(tags) == ways
