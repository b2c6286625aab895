"""Offers: which ones wait for an answer, and which ones were declined."""

import datetime
from typing import Any

import pytest

from desk_tools.event_log import Told
from desk_tools.offers import declined_offers, open_offers

DAY = datetime.date(2026, 12, 7)
SITE = datetime.datetime(2026, 12, 7, 17, 0, tzinfo=datetime.timezone.utc)


def told(kind: str, trip: int | None, **fields: Any) -> Told:
    return Told(kind, SITE, "office", {"trip": trip, "day": DAY, **fields})


def offered(trip: int, what: str = "booking") -> Told:
    return told("denials", trip, offer=what)


@pytest.mark.parametrize(
    "events, declined, waiting",
    [
        ([offered(1)], set(), {1}),
        ([offered(1), told("cancellations", 1, by="agency")], {1}, set()),
        ([offered(1), told("bookings", 1), told("cancellations", 1, by="agency")], set(), set()),
        ([told("bookings", 1), told("cancellations", 1, by="agency")], set(), set()),
        ([offered(1, "change"), told("cancellations", 1, by="agency")], set(), set()),
        ([told("denials", None), told("cancellations", 2, by="agency")], set(), set()),
        ([offered(1), offered(2), told("cancellations", 2, by="agency")], {2}, {1}),
    ],
)
def test_an_offer_that_was_canceled_before_anybody_kept_it_was_declined(
    events: list[Told], declined: set[int], waiting: set[int]
) -> None:
    assert declined_offers(events) == declined
    assert set(open_offers(events, DAY)) == waiting
