"""What is asked of the desk for a standing order, as the pages ask it for a rider (pages/parts/wishes.js).

The desk promises a window that begins within an hour of the minute it is sent, and takes the earliest pickup that fits.
A plan is the list of requests, nearest to what was agreed first; docs/PAGES.md, "How a requested time is sent", has them.
"""

from __future__ import annotations

import math
from typing import Any, NamedTuple, TYPE_CHECKING

from desk_tools import law
from desk_tools.setup.limits import LAST_MINUTE
from desk_tools.setup.tables import MODES

if TYPE_CHECKING:
    from desk_tools.standing_orders.table import Order

AROUND, NOT_BEFORE, BY = MODES
USUAL_LEAD = 15
NEGOTIATED = law.MINUTES_TO_NEGOTIATE
HALF_WINDOW, QUARTER, SLACK, MOST_TRIES = 15, 15, 20, 10
FEET_A_MINUTE, DETOUR, UNKNOWN_DRIVE = 1760, 1.3, 15
# A minute that the plan makes is never one that people name: 3 more than a multiple of 5.
NAMED, UNNAMED = 5, 3
FULL = "no vehicle"
# Rules that may hold of one minute and not of another.
OF_MINUTE = (FULL, "37.131(e)", "37.123(b)")


class Request(NamedTuple):
    """`wish` and `by` in minutes of the day; `by` is None where there is none."""

    wish: int
    by: int | None


class Planner:
    """The plans of orders, by the agency's lead and where its places are."""

    def __init__(self, agency: dict[str, Any] | None = None) -> None:
        agency = agency or {}
        self.lead = agency.get("lead", USUAL_LEAD)
        self.points = {
            it["id"]: (it["x"], it["y"])
            for it in agency.get("places", [])
            if "x" in it and "y" in it
        }

    def drive(self, order: Order) -> int:
        """Minutes of driving between the two places, guessed: the desk's table is not told."""
        start, end = self.points.get(order.origin), self.points.get(order.goal)
        if start is None or end is None:
            return UNKNOWN_DRIVE
        return max(1, math.ceil(math.dist(start, end) * DETOUR / FEET_A_MINUTE))

    def requests(self, order: Order) -> list[Request]:
        """All requests that may be sent, in their order. A minute is cut to the day and never left out."""
        wishes = [Request(max(0, min(LAST_MINUTE, wish)), by) for wish, by in self.wishes(order)]
        return list(dict.fromkeys(wishes))

    def wishes(self, order: Order) -> list[tuple[int, int | None]]:
        at, bound = order.wish, soonest(order.by, bound_of(order.wish, self.drive(order)))
        if order.mode == BY and order.by is not None:
            latest = order.by - self.drive(order) - SLACK
            return [(latest + NEGOTIATED - step * QUARTER, order.by) for step in range(MOST_TRIES)]
        if order.mode == NOT_BEFORE:
            return [
                (at + NEGOTIATED - step * QUARTER, bound)
                for step in range(NEGOTIATED // QUARTER + 1)
            ]
        return [(at + NEGOTIATED - self.lead, bound), (at, order.by)]

    def named(self, order: Order) -> int:
        """The minute that decides which denial is told: that of the pickup which was agreed."""
        if order.mode == BY and order.by is not None:
            return order.by - self.drive(order) - SLACK
        return order.wish


def soonest(one: int | None, other: int) -> int | None:
    """The smaller of two minutes to be there by; the end of the day is none."""
    least = min(LAST_MINUTE if one is None else one, other)
    return None if one is None and least >= LAST_MINUTE else least


def bound_of(minute: int, drive: int) -> int:
    """The minute to be there by that keeps a promise from beginning more than an hour after a minute."""
    latest = minute + NEGOTIATED + HALF_WINDOW + drive + SLACK
    return latest + (UNNAMED - latest % NAMED + NAMED) % NAMED


def may_go_on(order: Order, rule: Any) -> bool:
    """Whether the next request may still be accepted after a denial. (Not before a minute, a full hour stays full.)"""
    return rule in OF_MINUTE and (order.mode != NOT_BEFORE or rule != FULL)


def is_as_agreed(order: Order, window_from: int) -> bool:
    """Whether a promise that begins at this minute is what was agreed."""
    if order.mode == BY:
        return True
    earliest = order.wish - (NEGOTIATED if order.mode == AROUND else 0)
    return earliest <= window_from <= order.wish + NEGOTIATED
