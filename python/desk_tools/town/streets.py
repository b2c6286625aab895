"""Driving times from a map: shortest ways along the streets of an OpenStreetMap extract.

A way takes its length at the speed of its sign, else of its class. A van is slower than a sign
says, so a share of that counts. There is no traffic in it and no time for signals beyond that share.
"""

import math
from collections.abc import Mapping, Sequence
from dataclasses import dataclass, field
from pathlib import Path
from typing import Any

import numpy as np
import osmium
from numpy.typing import NDArray
from scipy.sparse import csr_matrix
from scipy.sparse.csgraph import connected_components, dijkstra
from scipy.spatial import cKDTree

Floats = NDArray[np.float64]
Indexes = NDArray[np.int64]
Position = tuple[float, float]
# Miles an hour by class; a link is as slow as a street.
SPEEDS = {
    "motorway": 60,
    "trunk": 50,
    "primary": 40,
    "secondary": 35,
    "tertiary": 30,
    "unclassified": 25,
    "residential": 25,
    "road": 25,
    "living_street": 10,
    "service": 12,
    "motorway_link": 35,
    "trunk_link": 30,
    "primary_link": 25,
    "secondary_link": 25,
    "tertiary_link": 25,
}
SHARE_OF_SIGN, MOST_MILES, MILES_A_KILOMETER = 0.8, 80, 0.621371
FEET_A_DEGREE, FEET_A_MINUTE = 364_567.0, 88.0
# From a street to a place a van goes at this pace, in miles an hour; farther than this is said.
PACE_TO_PLACE, FAR_FROM_STREET = 10, 1_000
CLOSED = ("no", "private", "agricultural", "forestry", "delivery")
OPEN = ("yes", "designated", "permissive", "destination")


class NoMap(Exception):
    """Why a file is no map: one sentence."""


@dataclass
class Streets:
    """The streets of an extract: each node's position, and each street as its nodes."""

    numbers: dict[int, int] = field(default_factory=dict)
    positions: list[Position] = field(default_factory=list)
    # Nodes in order, miles an hour, whether it may be driven in its order and against it.
    ways: list[tuple[list[int], float, bool, bool]] = field(default_factory=list)

    def node(self, number: int, latitude: float, longitude: float) -> int:
        """The index of a node."""
        index = self.numbers.setdefault(number, len(self.positions))
        if index == len(self.positions):
            self.positions.append((latitude, longitude))
        return index


class Reader(osmium.SimpleHandler):
    """Takes the ways that a van may drive along."""

    def __init__(self) -> None:
        super().__init__()
        self.streets = Streets()

    def way(self, way: Any) -> None:
        """One way of the extract."""
        tags = way.tags
        speed = speed_of(tags)
        if speed is None:
            return
        nodes = [
            self.streets.node(it.ref, it.location.lat, it.location.lon)
            for it in way.nodes
            if it.location.valid()
        ]
        if len(nodes) > 1:
            self.streets.ways.append((nodes, speed, *directions(tags)))


def speed_of(tags: Mapping[str, str]) -> float | None:
    """How fast a van drives along a way; None where it may not."""
    speed = SPEEDS.get(tags.get("highway") or "")
    access = tags.get("motor_vehicle") or tags.get("vehicle") or tags.get("access") or "yes"
    if speed is None or access in CLOSED or tags.get("area") == "yes":
        return None
    sign = signed(tags.get("maxspeed") or "")
    return float(speed) if sign is None else max(3.0, min(sign, MOST_MILES) * SHARE_OF_SIGN)


def signed(text: str) -> float | None:
    """The miles an hour of a sign."""
    number, _, unit = text.strip().partition(" ")
    if not number.isascii() or not number.isdigit() or int(number) == 0:
        return None
    return int(number) * (1.0 if unit == "mph" else MILES_A_KILOMETER)


def directions(tags: Mapping[str, str]) -> tuple[bool, bool]:
    """Whether a way may be driven in the order of its nodes, and against it."""
    oneway = tags.get("oneway") or ""
    if oneway in ("-1", "reverse"):
        return False, True
    is_round = tags.get("junction") in ("roundabout", "circular")
    is_motorway = tags.get("highway") in ("motorway", "motorway_link")
    is_one = oneway in ("yes", "true", "1") or (oneway != "no" and (is_round or is_motorway))
    return True, not is_one


def read(path: Path) -> Streets:
    """The streets of an extract."""
    if not path.is_file():
        raise NoMap(f"there is no file {path}")
    reader = Reader()
    try:
        reader.apply_file(str(path), locations=True)
    except (RuntimeError, ValueError) as error:
        raise NoMap(f"{path} is no map of OpenStreetMap: {' '.join(str(error).split())}") from None
    if not reader.streets.ways:
        raise NoMap(f"{path} has no streets")
    return reader.streets


@dataclass(frozen=True)
class Times:
    """Minutes from each place to each, infinite where there is no way, and feet to the street."""

    minutes: Floats
    feet: Floats


def flat(positions: Floats, latitude: float) -> Floats:
    """Positions as feet, near enough in a town."""
    return np.column_stack(
        [
            positions[:, 0] * FEET_A_DEGREE,
            positions[:, 1] * FEET_A_DEGREE * math.cos(math.radians(latitude)),
        ]
    )


def times(streets: Streets, places: Sequence[Position]) -> Times:
    """The minutes between places along the streets.

    A place is at the nearest node of the streets from which each other can be reached and left.
    """
    positions = np.array(streets.positions)
    points = flat(positions, float(positions[:, 0].mean()))
    at_places = flat(np.array(places, dtype=float), float(positions[:, 0].mean()))
    usable = strongest(streets, len(points))
    feet, near = cKDTree(points[usable]).query(at_places)
    nodes = usable[near]
    graph, kept = contracted(streets, points, nodes)
    sources = np.searchsorted(kept, nodes)
    minutes: Floats = dijkstra(graph, directed=True, indices=sources)[:, sources]
    aside = feet / (PACE_TO_PLACE * FEET_A_MINUTE)
    return Times(minutes + aside[:, None] + aside[None, :], feet)


def strongest(streets: Streets, count: int) -> Indexes:
    """The nodes of the largest part of the streets whose nodes can all reach each other."""
    ends: list[tuple[Indexes, Indexes]] = []
    for nodes, _, forth, back in streets.ways:
        way = np.array(nodes)
        ends += [(way[:-1], way[1:])] * forth + [(way[1:], way[:-1])] * back
    starts, goals = (np.concatenate([it[at] for it in ends]) for at in (0, 1))
    matrix = csr_matrix((np.ones(len(starts), dtype=np.int8), (starts, goals)), (count, count))
    _, labels = connected_components(matrix, directed=True, connection="strong")
    found: Indexes = np.flatnonzero(labels == np.bincount(labels).argmax())
    return found


def contracted(streets: Streets, points: Floats, nodes: Indexes) -> tuple[csr_matrix, Indexes]:
    """The streets from crossing to crossing, in minutes, and which nodes are left."""
    used = np.zeros(len(points), dtype=np.int32)
    for ends, *_ in streets.ways:
        np.add.at(used, ends, 1)
        used[[ends[0], ends[-1]]] += 1
    used[nodes] += 2
    kept: Indexes = np.flatnonzero(used > 1)
    starts: list[Indexes] = []
    goals: list[Indexes] = []
    minutes: list[Floats] = []
    for nodes_of, speed, forth, back in streets.ways:
        way = np.array(nodes_of)
        along = np.concatenate([[0.0], np.hypot(*np.diff(points[way], axis=0).T).cumsum()])
        at = np.flatnonzero(used[way] > 1)
        took = np.diff(along[at]) / (speed * FEET_A_MINUTE)
        first, last = way[at[:-1]], way[at[1:]]
        starts += [first] * forth + [last] * back
        goals += [last] * forth + [first] * back
        minutes += [took] * (forth + back)
    return least(kept, np.concatenate(starts), np.concatenate(goals), np.concatenate(minutes)), kept


def least(kept: Indexes, starts: Indexes, goals: Indexes, minutes: Floats) -> csr_matrix:
    """A matrix of the least minutes between each two nodes that a street joins."""
    order = np.lexsort((minutes, goals, starts))
    starts, goals, minutes = starts[order], goals[order], minutes[order]
    is_first = np.concatenate([[True], (np.diff(starts) != 0) | (np.diff(goals) != 0)])
    rows, columns = (np.searchsorted(kept, it[is_first]) for it in (starts, goals))
    # (a matrix takes zero for no street)
    took = np.maximum(minutes[is_first], 1e-9)
    return csr_matrix((took, (rows, columns)), (len(kept), len(kept)))


def told(numbers: Sequence[int], found: Times) -> list[str]:
    """Places that are far from every street."""
    return [
        f"place {number} is {feet:,.0f} feet from the nearest street of the map"
        for number, feet in zip(numbers, found.feet)
        if feet > FAR_FROM_STREET
    ]
