"""A night's run: each trip that an order has on the days that may be booked is booked, there, or refused."""

from __future__ import annotations

import collections
import datetime
from collections.abc import Iterator
from typing import Any, NamedTuple, TYPE_CHECKING

from desk_tools import events
from desk_tools.setup import keys
from desk_tools.setup.carry import reason_of
from desk_tools.setup.limits import DAYS_AHEAD
from desk_tools.setup.rules import RULES
from desk_tools.standing_orders import plan, table
from desk_tools.standing_orders.clerk import STANDING
from desk_tools.standing_orders.share import hour_of

if TYPE_CHECKING:
    from desk_tools.setup.desk import Reply
    from desk_tools.standing_orders.clerk import Clerk
    from desk_tools.standing_orders.share import Share
    from desk_tools.standing_orders.state import State


class Outcome(NamedTuple):
    """How a trip of an order came out: its result, the rule or the reason, and the desk's trip. One
    that is offered stands at another time than was agreed: a clerk asks the rider."""

    order: table.Order
    day: datetime.date
    result: str
    reason: str
    trip: dict[str, Any]


BOOKED, THERE, OFFERED, REFUSED = "booked", "there", "offered", "refused"
SHARE_RULE = "37.133(b)"
MOST_TRIES = 5
# How the site is told that a denial came from a standing order.
CHANNEL = "standing-order"


class Night:
    """What one run needs."""

    def __init__(
        self,
        orders: list[table.Order],
        today: datetime.date,
        state: State,
        clerk: Clerk,
        share: Share,
        closed: Any = (),
        at: datetime.datetime | None = None,
        planner: plan.Planner | None = None,
    ) -> None:
        self.at, self.planner = at, planner or plan.Planner()
        self.orders, self.state, self.clerk, self.share, self.today = (
            orders,
            state,
            clerk,
            share,
            today,
        )
        self.days = [it for it in table.days_of(today, DAYS_AHEAD) if it.isoformat() not in closed]
        self.keys = {it.key for it in orders}
        self.standing: collections.Counter[tuple[datetime.date, int]] = collections.Counter()
        self.notes: list[str] = []
        self.is_new = False

    def outcomes(self) -> Iterator[Outcome]:
        """The outcome of each trip of each order, day by day, in the order of the table."""
        if not self.clerk.settle():
            self.notes.append(
                "the desk does not have what this program booked before: a backup was put back, or it is "
                "another desk. This run goes by the trips that the desk has"
            )
        self.is_new = not self.state.done
        self.end_open_write()
        for day in self.days:
            self.count_standing(day)
            for order in self.orders_on(day):
                yield self.outcome(order, day)

    def orders_on(self, day: datetime.date) -> list[table.Order]:
        return [it for it in self.orders if it.is_on(day)]

    def bodies(self, order: table.Order, day: datetime.date) -> list[dict[str, Any]]:
        """All that may be asked of the desk for an order on a day."""
        return [order.body(day, it) for it in self.planner.requests(order)]

    def end_open_write(self) -> None:
        """Sees to the write whose reply a killed run did not see."""
        sent = self.state.open.get(self.clerk.name)
        if sent is None:
            return
        order, day = next(
            (
                (it, day)
                for day in self.days
                for it in self.orders_on(day)
                if it.key == sent.key and sent.body in self.bodies(it, day)
            ),
            (None, None),
        )
        # (one that was not done may have been booked by hand since)
        if order and not self.clerk.is_used(sent.number) and self.there(order, day):
            self.clerk.left(sent)
        elif order:
            self.clerk.resumed(sent)
        else:
            exact = {it: sent.body[it] for it in ("day", "wish", "from", "to")}
            trip = self.clerk.trip_like(sent.body["rider"], exact, self.is_free)
            if trip:
                self.state.has(sent.key, sent.body["day"], sent.body["rider"], trip)
            self.state.closed(self.clerk.name)

    def count_standing(self, day: datetime.date) -> None:
        """Counts the trips of standing orders on a day, by their hour, also those of orders that are gone."""
        numbers = {
            (it.rider, it.trip) for (_, on), it in self.state.done.items() if on == day.isoformat()
        }
        self.standing = collections.Counter(
            {it: count for it, count in self.standing.items() if it[0] != day}
        )
        for rider, number in numbers:
            self.count(day, self.clerk.trips_of(rider).get(number))

    def count(self, day: datetime.date, trip: Any) -> None:
        if trip and trip["day"] == day.isoformat() and trip["status"] in STANDING:
            self.standing[day, hour_of(trip["window_to"])] += 1

    def is_free(self, number: int, trip: dict[str, Any]) -> bool:
        """Whether the trip is of no other order of the table. One that was cancelled counts where it was an order's."""
        claim = self.state.claims.get(number)
        return claim not in self.keys and (
            trip["status"] in STANDING or claim is not None or self.is_new
        )

    def there(self, order: table.Order, day: Any) -> int | None:
        """The number of the trip that the order has on the day already, or None."""
        done, trips = self.state.done.get((order.key, day.isoformat())), self.clerk.trips_of(
            order.rider
        )
        if done and done.rider == order.rider and done.trip in trips:
            return done.trip
        way = {"day": day.isoformat(), "from": order.origin, "to": order.goal}
        others = {
            request
            for it in self.orders_on(day)
            if it.rider == order.rider and it is not order
            for request in self.planner.requests(it)
        }

        def is_near(number: int, trip: dict[str, Any]) -> bool:
            return (
                self.is_free(number, trip)
                and trip["status"] in STANDING
                and (trip["wish"], trip["by"]) not in others
            )

        exact = (
            self.clerk.trip_like(order.rider, {**way, **it._asdict()}, self.is_free)
            for it in self.planner.requests(order)
        )
        trip = next(filter(None, exact), None) or self.clerk.trip_like(order.rider, way, is_near)
        if trip:
            is_counted = trip in self.state.claims
            self.state.has(order.key, day.isoformat(), order.rider, trip)
            self.count(day, None if is_counted else trips[trip])
        return trip

    def count_denial(self, order: table.Order, day: datetime.date, rule: Any) -> None:
        """Keeps what the site is told of a trip that the desk denies."""
        if rule in RULES:
            minute = order.by if order.mode == plan.BY else order.wish
            fields = {
                "id": keys.made(),
                "day": day,
                "minute": minute,
                "rule": rule,
                "channel": CHANNEL,
                "mode": order.mode,
                "at": self.at,
            }
            self.state.was_denied(order.key, day.isoformat(), events.path_of("denials", fields))

    def outcome(self, order: table.Order, day: datetime.date) -> Outcome:
        for _ in range(MOST_TRIES):
            trip = self.there(order, day)
            if trip:
                return self.told(order, day, THERE, trip)
            fault = self.share.fault(day, order.wish, self.standing[day, hour_of(order.wish)])
            if fault:
                return Outcome(order, day, REFUSED, f"{SHARE_RULE}: {fault}", {})
            reply = self.asked(order, day)
            if reply is None:
                continue
            if reply.status != 200:
                self.count_denial(order, day, denied_by(reply))
                return Outcome(order, day, REFUSED, refusal(reply), {})
            hour = hour_of(reply.body["window_to"])
            self.standing[day, hour] += 1
            self.share.took(day, hour)
            return self.told(order, day, BOOKED, reply.body["trip"])
        return Outcome(
            order, day, REFUSED, "another program writes with the clerk's key all the time", {}
        )

    def asked(self, order: table.Order, day: datetime.date) -> Reply | None:
        """The reply to the first request of the plan that is accepted; else the denial of the one that is nearest to what
        was agreed, the later of two. None where a number was overtaken."""
        named = self.planner.named(order)
        denials: list[tuple[int, int, Reply]] = []
        for request in self.planner.requests(order):
            reply = self.clerk.book(order.key, order.body(day, request))
            if reply is None or reply.status == 200:
                return reply
            denials.append((abs(request.wish - named), -len(denials), reply))
            if not plan.may_go_on(order, denied_by(reply)):
                break
        last = denials[-1][2]
        return min(denials, key=lambda it: it[:2])[2] if denied_by(last) in plan.OF_MINUTE else last

    def told(self, order: table.Order, day: datetime.date, result: str, number: int) -> Outcome:
        """The outcome of a trip that stands. Where its time is another than was agreed, that is a denial for lack of a
        vehicle (49 CFR 37.131(b)(2)), and a clerk has to ask the rider."""
        trip = self.clerk.trips_of(order.rider)[number]
        is_ours = (trip["wish"], trip["by"]) in self.planner.requests(order) and trip[
            "status"
        ] == "booked"
        if not is_ours or plan.is_as_agreed(order, trip["window_from"]):
            return Outcome(order, day, result, "", trip)
        self.count_denial(order, day, plan.FULL)
        return Outcome(order, day, OFFERED, f"{plan.FULL}: {RULES[plan.FULL]}", trip)


def denied_by(reply: Reply) -> str | None:
    return reply.body.get("denied") if isinstance(reply.body, dict) else None


def refusal(reply: Reply) -> str:
    """The rule by which the desk denied a trip, and what it means."""
    denied = denied_by(reply)
    return f"{denied}: {RULES[denied]}" if denied in RULES else reason_of(reply)
