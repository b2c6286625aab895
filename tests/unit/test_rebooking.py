"""Which trip stands in the place of a canceled one: every small case, against pairs that are tried one by one."""

import datetime
import itertools
import json
from collections.abc import Iterator
from pathlib import Path
from typing import Any

import pytest

from desk_tools.event_log import Told
from desk_tools.rebooking import (
    SLACK,
    Moment,
    Ride,
    Times,
    heads,
    in_place,
    is_same_window,
    known_and_now,
    times_in,
)

CASES = json.loads(Path(__file__, "../../windows/same.json").resolve().read_text("utf-8"))
START = datetime.datetime(2026, 12, 3, 10, 0)
HOME, STORE = 1, 2
NINE, TEN = (540, 555), (600, 615)
SITE = START.replace(tzinfo=datetime.timezone.utc)
KINDS = {"b": "bookings", "c": "cancellations"}


def at(step: int) -> Moment:
    return START + datetime.timedelta(minutes=step), step


def ride(trip: int, *, back: bool = False, window: tuple[int, int] = NINE, rider: int = 7) -> Ride:
    return Ride(trip, rider, 20_000, *((STORE, HOME) if back else (HOME, STORE)), window)


def may_stand(old: Ride, new: Ride, times: Times) -> bool:
    """Whether one trip may stand in another's place, by the rule itself."""
    canceled, booked = times.canceled.get(old.trip), times.booked.get(new.trip)
    same = (old.rider, old.day, old.origin, old.goal) == (new.rider, new.day, new.origin, new.goal)
    return same and canceled is not None and booked is not None and booked > canceled


def most(rides: list[Ride], lost: list[int], times: Times) -> int:
    """How many lost trips can have another in their place at most, each trip in the place of one."""
    kept = [it for it in rides if it.trip in lost]

    def best(left: list[Ride], free: frozenset[int]) -> int:
        if not left:
            return 0
        first, *others = left
        fits = [it for it in rides if it.trip in free and may_stand(first, it, times)]
        return max([best(others, free), *(1 + best(others, free - {it.trip}) for it in fits)])

    return best(kept, frozenset(it.trip for it in rides))


def stories(count: int) -> Iterator[tuple[list[Ride], list[int], Times, Times, bool]]:
    """All orders in which so many trips are booked, by rising number, and canceled or not, each this way or back, at one of
    two windows; what is true of each, what the log says, and whether it says all: of a booking it may say nothing.
    """
    for canceled in itertools.product([False, True], repeat=count):
        events = [("b", it) for it in range(count)] + [
            ("c", it) for it in range(count) if canceled[it]
        ]
        for order in itertools.permutations(events):
            places = {it: step for step, it in enumerate(order)}
            if any(places["b", it] > places["b", it + 1] for it in range(count - 1)):
                continue
            if any(canceled[it] and places["c", it] < places["b", it] for it in range(count)):
                continue
            for backs, windows, told in itertools.product(
                itertools.product([False, True], repeat=count),
                itertools.product([NINE, TEN], repeat=count),
                itertools.product([False, True], repeat=count),
            ):
                rides = [ride(it + 1, back=backs[it], window=windows[it]) for it in range(count)]
                truth = {it + 1: at(places["b", it]) for it in range(count)}
                gone = {it + 1: at(places["c", it]) for it in range(count) if canceled[it]}
                events = [
                    Told(KINDS[kind], SITE, "office", {"trip": it + 1, "at": at(step)[0]})
                    for step, (kind, it) in enumerate(order)
                    if kind == "c" or told[it]
                ]
                yield rides, sorted(gone), Times(truth, gone), times_in(events), all(told)


@pytest.mark.parametrize("count", [1, 2, 3])
def test_a_trip_stands_in_a_place_by_the_rule_and_no_place_stays_empty_that_one_could_take(
    count: int,
) -> None:
    seen = 0
    for rides, lost, times, told, is_whole in stories(count):
        found = in_place(rides, lost, told)
        by_number = {it.trip: it for it in rides}
        assert set(found) <= set(lost)
        assert len({it.trip for it in found.values()}) == len(found)
        for old, new in found.items():
            assert may_stand(by_number[old], new, times), (rides, times)
        assert not is_whole or len(found) == most(rides, lost, times), (rides, times)
        seen += 1
    assert seen > 4**count


def test_a_ride_out_that_was_there_before_is_no_way_home() -> None:
    home, out = ride(1454, back=True, window=(757, 787)), ride(1464, window=(729, 759))
    times = Times({1454: at(0), 1464: at(1)}, {1454: at(2)})
    assert not in_place([home, out], [1454], times)
    again = ride(1999, back=True, window=(729, 759))
    later = Times({**times.booked, 1999: at(3)}, times.canceled)
    assert in_place([home, out, again], [1454], later) == {1454: again}


def test_of_two_lost_trips_the_nearer_window_is_taken() -> None:
    early, late, new = (
        ride(1, window=(540, 555)),
        ride(2, window=(900, 915)),
        ride(3, window=(910, 925)),
    )
    times = Times({1: at(0), 2: at(1), 3: at(4)}, {1: at(2), 2: at(3)})
    assert in_place([early, late, new], [1, 2], times) == {2: new}


def test_one_second_is_settled_by_the_order_of_the_log() -> None:
    old, new = ride(1), ride(2)
    for canceled, booked, is_found in [(3, 4, True), (4, 3, False)]:
        times = Times({2: (START, booked)}, {1: (START, canceled)})
        assert bool(in_place([old, new], [1], times)) is is_found


def test_a_trip_of_a_lower_number_was_there_before_whatever_is_told_of_it() -> None:
    times = Times({1: at(3)}, {2: at(2)})
    assert not in_place([ride(1), ride(2)], [2], times)


def test_an_untold_booking_is_later_than_a_new_trip_of_a_lower_number() -> None:
    times = Times({5: at(3), 4: at(4)}, {1: at(2)}, ((5, at(3)),))
    for trip, is_found in [(3, False), (6, True)]:
        assert bool(in_place([ride(1), ride(trip)], [1], times)) is is_found


def test_a_change_is_no_new_booking_and_the_last_cancellation_counts() -> None:
    def told(kind: str, trip: int, minute: int) -> Told:
        when = START + datetime.timedelta(minutes=minute)
        site = when.replace(tzinfo=datetime.timezone.utc)
        return Told(kind, site, "office", {"trip": trip, "at": when})

    events = [told("bookings", 2, 0), told("cancellations", 1, 1), told("bookings", 2, 2)]
    events += [told("calls", 1, 3), told("cancellations", 1, 4)]
    times = times_in(events)
    assert times.booked == {2: (START + SLACK, 0)}
    assert times.new == ((2, (START + SLACK, 0)),)
    changed = [told("cancellations", 30, 0), told("bookings", 12, 1), told("bookings", 31, 2)]
    assert [trip for trip, _ in times_in(changed).new] == [31]
    assert times.canceled == {1: (START + datetime.timedelta(minutes=4), 4)}


@pytest.mark.parametrize(
    "called, known",
    [(set(), 1), ({1}, 2), ({2}, 3), ({1, 2}, 3), ({3}, 1)],
)
def test_a_call_about_a_lost_trip_told_of_the_one_in_its_place(
    called: set[int], known: int
) -> None:
    rides = {it: ride(it) for it in (1, 2, 3)}
    found = {1: rides[2], 2: rides[3]}
    assert heads(found) == [1]
    assert known_and_now(rides[1], found, called) == (rides[known], rides[3])


@pytest.mark.parametrize("case", CASES)
def test_a_window_holds_where_the_new_one_is_the_same_or_within_it(case: dict[str, Any]) -> None:
    assert is_same_window(tuple(case["old"]), tuple(case["new"])) is case["same"]


def test_a_booking_may_be_told_some_seconds_before_the_cancellation_of_its_action() -> None:
    lost, anew = (Ride(trip, 7, 20, 1, 2, (600, 630)) for trip in (1, 2))
    for early in range(0, 12):
        moments = [START + datetime.timedelta(seconds=early), START]
        events = [
            Told(kind, it.replace(tzinfo=datetime.timezone.utc), "office", {"trip": trip, "at": it})
            for kind, trip, it in zip(("cancellations", "bookings"), (1, 2), moments)
        ]
        found = in_place([lost, anew], [1], times_in(events))
        assert found == ({1: anew} if early <= 5 else {}), early
