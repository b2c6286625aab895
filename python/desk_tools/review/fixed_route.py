"""The same trip by fixed route: the journey that arrives first, with its walks and its changes, by a day's timetable."""

import bisect
import math
from collections.abc import Mapping, Sequence
from dataclasses import dataclass, field

# How far somebody walks to a stop, and from one stop to another, in feet; and how many feet in a second (3 miles an hour).
FARTHEST_STOP, FARTHEST_CHANGE, FEET_A_SECOND = 3_960, 1_320, 4.4
# For so many seconds after the start a journey may last.
LONGEST = 6 * 3_600


@dataclass(frozen=True, order=True)
class Hop:
    """A bus from one stop to its next: when it leaves and arrives, in seconds of the day, and which run it is."""

    leaves: int
    arrives: int
    origin: str
    goal: str
    run: str


@dataclass(frozen=True)
class Journey:
    """When somebody leaves the door and is at the other one, in seconds of the day."""

    leaves: int
    arrives: int

    @property
    def minutes(self) -> int:
        """How long it takes, in whole minutes, a begun one included."""
        return -(-(self.arrives - self.leaves) // 60)


def seconds_of(feet: float) -> int:
    """How long a walk takes."""
    return math.ceil(feet / FEET_A_SECOND)


@dataclass
class Timetable:
    """The buses of one day and the stops' points in feet."""

    hops: Sequence[Hop]
    stops: Mapping[str, tuple[float, float]]
    _changes: dict[str, list[tuple[str, int]]] = field(default_factory=dict)

    def __post_init__(self) -> None:
        self.hops = sorted(self.hops)

    def near(self, point: tuple[float, float], most: float) -> dict[str, int]:
        """The stops within so many feet of a point, with the seconds of the walk."""
        far = {key: math.dist(point, it) for key, it in self.stops.items()}
        return {key: seconds_of(feet) for key, feet in far.items() if feet <= most}

    def changes(self, stop: str) -> list[tuple[str, int]]:
        """The other stops to which somebody walks from a stop."""
        if stop not in self._changes:
            near = self.near(self.stops[stop], FARTHEST_CHANGE)
            self._changes[stop] = [(it, walk) for it, walk in near.items() if it != stop]
        return self._changes[stop]

    def journey(
        self, origin: tuple[float, float], goal: tuple[float, float], start: int
    ) -> Journey | None:
        """The journey that arrives first of those that leave at a moment or later, or None where no bus serves it.

        The rider leaves as late as the first bus lets.
        """
        walks, ends = self.near(origin, FARTHEST_STOP), self.near(goal, FARTHEST_STOP)
        # When somebody can be at a stop, and when they left the door for that; a first walk is put off until the bus.
        reached: dict[str, tuple[int, int]] = {}
        aboard: dict[str, int] = {}
        best: Journey | None = None
        first = bisect.bisect_left(self.hops, start, key=lambda it: it.leaves)
        for hop in self.hops[first:]:
            if hop.leaves > start + LONGEST or best and hop.leaves >= best.arrives:
                break
            left = _left(hop, walks, reached, aboard.get(hop.run), start)
            if left is None:
                continue
            aboard[hop.run] = left
            self._reach(reached, hop.goal, hop.arrives, left)
            if hop.goal in ends:
                found = Journey(left, hop.arrives + ends[hop.goal])
                if best is None or (found.arrives, -found.leaves) < (best.arrives, -best.leaves):
                    best = found
        return best

    def _reach(self, reached: dict[str, tuple[int, int]], stop: str, at: int, left: int) -> None:
        for other, walk in [(stop, 0), *self.changes(stop)]:
            there = (at + walk, -left)
            old = reached.get(other)
            if old is None or there < (old[0], -old[1]):
                reached[other] = (at + walk, left)


def _left(
    hop: Hop,
    walks: Mapping[str, int],
    reached: Mapping[str, tuple[int, int]],
    there: int | None,
    start: int,
) -> int | None:
    """When somebody who is in this bus left the door, as late as may be; None where nobody can be in it."""
    found = [] if there is None else [there]
    if hop.origin in walks and start + walks[hop.origin] <= hop.leaves:
        found.append(hop.leaves - walks[hop.origin])
    if hop.origin in reached and reached[hop.origin][0] <= hop.leaves:
        found.append(reached[hop.origin][1])
    return max(found, default=None)
