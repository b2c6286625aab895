"""Which trip stands in the place of one that was canceled, and whether the promised window still holds.

A trip stands in another's place where its rider, its day, and both ends in their direction are the same, and where it
was booked after the other was canceled. A trip of which nobody knows when it was booked stands in no other's place.

The desk numbers trips in the order in which they are booked. So a trip whose booking the log lacks was booked after
each lower number that the log has as new: one above all numbers that it named until then.
"""

import bisect
import datetime
from collections import defaultdict
from collections.abc import Iterable, Iterator, Mapping
from dataclasses import dataclass

from desk_tools.event_log import Told

# A moment by the agency's clock, and the place in the log, which settles two events of one second.
Moment = tuple[datetime.datetime, int]
# A page goes by the site's clock, which replies tell to the second alone: of one action, a booking may seem to come a
# second or two before the cancellation that it followed.
SLACK = datetime.timedelta(seconds=5)
# Minutes of the day: when the pickup window begins and ends.
Window = tuple[int, int]


@dataclass(frozen=True)
class Ride:
    """A trip of the desk: its number, rider, day, places, and pickup window."""

    trip: int
    rider: int
    day: int
    origin: int
    goal: int
    window: Window

    @property
    def way(self) -> tuple[int, int, int, int]:
        """What a trip in its place has too."""
        return self.rider, self.day, self.origin, self.goal


@dataclass(frozen=True)
class Times:
    """When trips were booked and canceled, by number, as far as the site's log says. `new` has the trips that were new
    when they were booked, by rising number, and so in their order."""

    booked: Mapping[int, Moment]
    canceled: Mapping[int, Moment]
    new: tuple[tuple[int, Moment], ...] = ()

    def booked_after(self, trip: int) -> Moment | None:
        """When a trip was booked; where that is not told, a moment after which it was."""
        if trip in self.booked:
            return self.booked[trip]
        place = bisect.bisect_left(self.new, trip, key=lambda it: it[0])
        return self.new[place - 1][1] if place else None


def times_in(events: Iterable[Told]) -> Times:
    """The first booking of each trip, since what comes later is a change; and its last cancellation.

    A booking counts as five seconds later than it was told: see SLACK."""
    booked: dict[int, Moment] = {}
    canceled: dict[int, Moment] = {}
    named: list[tuple[Moment, int, str]] = []
    for place, it in enumerate(events):
        trip, at = it.fields.get("trip"), it.fields.get("at")
        if not isinstance(trip, int) or not isinstance(at, datetime.datetime):
            continue
        moment = at, place
        named.append((moment, trip, it.kind))
        if it.kind == "bookings":
            late = at + SLACK, place
            booked[trip] = min(late, booked.get(trip, late))
        elif it.kind == "cancellations":
            canceled[trip] = max(moment, canceled.get(trip, moment))
    return Times(booked, canceled, tuple(_new_in(named)))


def _new_in(named: list[tuple[Moment, int, str]]) -> Iterator[tuple[int, Moment]]:
    """The bookings of trips above all that were named before them."""
    highest = 0
    for moment, trip, kind in sorted(named):
        if trip > highest and kind == "bookings":
            yield trip, (moment[0] + SLACK, moment[1])
        highest = max(highest, trip)


def in_place(rides: Iterable[Ride], lost: Iterable[int], times: Times) -> dict[int, Ride]:
    """By the numbers of lost trips the trip that stands in the place of each; `rides` has canceled trips too.

    Each trip stands in the place of one: of those that are open when it is booked, the one with the nearest window. A
    trip in another's place may be lost in its turn.
    """
    wanted, ways = set(lost), defaultdict(list)
    for ride in rides:
        ways[ride.way].append(ride)
    found: dict[int, Ride] = {}
    for same in ways.values():
        found.update(_in_place(same, wanted, times))
    return found


def _in_place(same: list[Ride], lost: set[int], times: Times) -> dict[int, Ride]:
    """The same for the trips of one rider, day and way: what happened to them, one after the other."""
    happened = [(moment, True, it) for it in same if (moment := times.booked_after(it.trip))]
    happened += [
        (times.canceled[it.trip], False, it)
        for it in same
        if it.trip in lost and it.trip in times.canceled
    ]
    still: list[Ride] = []
    found: dict[int, Ride] = {}
    for _, is_booked, ride in sorted(happened, key=lambda it: (it[0], it[2].trip)):
        earlier = [it for it in still if it.trip < ride.trip]
        if not is_booked:
            still.append(ride)
        elif earlier:
            nearest = min(earlier, key=lambda it: (_apart(it, ride), it.trip))
            still.remove(nearest)
            found[nearest.trip] = ride
    return found


def _apart(one: Ride, other: Ride) -> int:
    return abs(one.window[0] - other.window[0])


def is_same_window(old: Window, new: Window) -> bool:
    """Whether the window that was promised holds: the new one is the same, or within it."""
    return new[0] >= old[0] and new[1] <= old[1]


def heads(found: Mapping[int, Ride]) -> list[int]:
    """The lost trips that stood in no other's place themselves, by number."""
    followed = {it.trip for it in found.values()}
    return sorted(trip for trip in found if trip not in followed)


def known_and_now(first: Ride, found: Mapping[int, Ride], called: set[int]) -> tuple[Ride, Ride]:
    """Of a lost trip what its rider knows of, and the last trip in its place.

    A call about a lost trip told the rider of the one in its place.
    """
    known = now = first
    while now.trip in found:
        is_told = now.trip in called
        now = found[now.trip]
        known = now if is_told else known
    return known, now
