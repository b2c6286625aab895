"""Bookings over the desk's API, each done once, though the line breaks or this program is killed."""

from __future__ import annotations

from collections.abc import Callable
from typing import Any, TYPE_CHECKING

from desk_tools.setup.desk import Caller
from desk_tools.setup.limits import Wrong

if TYPE_CHECKING:
    from desk_tools.setup.desk import Line, Reply
    from desk_tools.standing_orders.state import Sent, State

STANDING = ("booked", "ridden", "missed-rider", "missed-operator")


class Clerk(Caller):
    """The caller whose key books. What it has sent stands in the state."""

    def __init__(self, line: Line, state: State, path: str) -> None:
        super().__init__(line, state, path)
        self.state, self.low = state, 0
        self.trips: dict[int, dict[int, dict[str, Any]]] = {}

    def settle(self) -> bool:
        """Whether the state tells of this very desk; else it forgets what it tells."""
        self.low = self.state.last.get(self.name, 0)
        if not self.low or self.is_used(self.low):
            return True
        self.state.forget()
        self.low = 0
        return False

    def next_number(self) -> int:
        """A number above that of the last accepted write."""
        if self.last is None:
            self.last = self.last_number(self.low)
        return self.last + 1

    def trips_of(self, rider: int, anew: bool = False) -> dict[int, dict[str, Any]]:
        """The trips of a rider by their numbers; none where there is no such rider."""
        if anew or rider not in self.trips:
            reply = self.get(f"/riders/{rider}/trips")
            if reply.status not in (200, 404):
                raise Wrong(
                    f"the desk does not tell the trips of rider {rider}: status {reply.status}"
                )
            self.trips[rider] = (
                {it["trip"]: it for it in reply.body["trips"]} if reply.status == 200 else {}
            )
        return self.trips[rider]

    def book(self, key: str, body: dict[str, Any], sent: int | None = None) -> Reply | None:
        """The reply to a booking; `sent` is the number that a killed run sent it with. None where the number was
        overtaken, so that the rider's trips have to say whether it was done."""
        number = sent or self.next_number()
        if not sent:
            self.state.sending(self.name, number, key, body)
        reply = self.line.ask("POST", "/trips", self.key, number, body)
        if reply.status == 409:
            self.last = self.last_number(max(self.low, self.last or 0))
            self.trips_of(body["rider"], anew=True)
            self.state.closed(self.name)
            return None
        if reply.status == 200:
            self.last = number
            if body["rider"] in self.trips:
                trip = {"by": None, **body, **reply.body, "status": "booked"}
                self.trips[body["rider"]][reply.body["trip"]] = trip
            self.state.has(key, body["day"], body["rider"], reply.body["trip"])
        else:
            self.last = number - 1
        self.state.closed(self.name, number if reply.status == 200 else None)
        return self.taken(reply)

    def resumed(self, sent: Sent) -> Reply | None:
        """The reply to the write whose reply a killed run did not see, sent again as it was with its number."""
        return self.book(sent.key, sent.body, sent.number)

    def left(self, sent: Any) -> None:
        """The open write is not sent again, since its number is not used."""
        self.last = sent.number - 1
        self.state.closed(self.name)

    def trip_like(
        self, rider: int, fields: dict[str, Any], is_free: Callable[..., Any]
    ) -> int | None:
        """The number of a trip of the rider that has these fields and is free, or None."""
        return next(
            (
                number
                for number, it in self.trips_of(rider).items()
                if all(it[name] == value for name, value in fields.items()) and is_free(number, it)
            ),
            None,
        )
