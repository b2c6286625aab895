"""The desk: what it keeps, and what it answers to one request after the other."""

from __future__ import annotations

import datetime
from collections.abc import Callable
from typing import Any

from second import (
    callers,
    case_files,
    corridors,
    letters,
    manifests,
    places,
    replies,
    requests,
    riders,
    travel,
    trips,
    vehicles,
)
from second.booking import Trip
from second.replies import Denied

# A day and a minute of it.
Moment = tuple[datetime.date, int]

PUTS: dict[str, Callable[[Desk, dict[str, Any]], None]] = {
    "caller": callers.put,
    "place": places.put,
    "route": corridors.put,
    "vehicle": vehicles.put,
    "rider": riders.put,
}
FIRST_POLICY = {
    "base": 0,
    "transfer": 0,
    "fare": 0,
    "service": 0,
    "extra_ride": 0,
    "min_missed": 1,
    "percent": 100,
    "span_days": 1,
}


class Desk:
    """A new desk has one caller, the admin, and nothing else."""

    def __init__(self, admins_key: str) -> None:
        self.callers = {1: callers.Caller("admin", 0, callers.digest_of(admins_key))}
        self.kept: dict[int, callers.Kept] = {}
        self.policy = dict(FIRST_POLICY)
        self.places: dict[int, places.Place] = {}
        self.routes: dict[int, corridors.FixedRoute] = {}
        self.vehicles: dict[int, dict[datetime.date, vehicles.Version]] = {}
        self.tables: dict[datetime.date, dict[tuple[int, int], int]] = {}
        self.riders: dict[int, riders.Rider] = {}
        self.files: dict[int, list[case_files.Entry]] = {}
        self.trips: dict[int, Trip] = {}
        # (of each vehicle and day, the trips and the kinds of its stops)
        self.stops: dict[tuple[int, datetime.date], list[tuple[int, int]]] = {}
        self.last_trip = 0

    def answer(
        self, now: Moment, method: str, path: str, key: str, number: str | None, body: str
    ) -> bytes:
        """The bytes of the reply to a request that comes at a moment, a day and a minute."""
        try:
            return self.answer_request(now, key, *requests.read(method, path, number, body))
        except Denied as denial:
            return replies.denied(denial)

    def give_travel(
        self, key: str, number: int, first: datetime.date, rows: dict[tuple[int, int], int]
    ) -> str:
        """What `desk travel` prints."""
        request = requests.Request("travel", {"day": first, "rows": rows})
        try:
            self.answer_request((first, 0), key, request, number)
        except Denied as denial:
            return denial.name
        return "done"

    def answer_request(
        self, now: Moment, key: str, request: requests.Request, number: int | None
    ) -> bytes:
        caller = callers.caller_with(self, key)
        if number is not None:
            kept = callers.kept_reply(self, caller, number, request)
            if kept is not None:
                return kept
        callers.allow(self, self.callers[caller], request)
        if number is None:
            return self.told(now[0], *request)
        reply = self.written(now, caller, *request)
        self.kept[caller] = callers.Kept(number, request, reply)
        return reply

    def written(self, now: Moment, caller: int, kind: str, values: dict[str, Any]) -> bytes:
        """Does what a write asks, and tells it."""
        today = now[0]
        if kind == "entry":
            return replies.told({"entered": case_files.enter(self, values, today, caller)})
        if kind in ("book", "change"):
            return replies.told(
                (trips.book if kind == "book" else trips.change)(self, values, today)
            )
        if kind == "policy":
            self.policy = values
        elif kind == "cancel":
            trips.cancel(self, values, now)
        elif kind == "outcome":
            trips.end(self, values, today)
        elif kind == "travel":
            travel.put(self, values["day"], values["rows"])
        else:
            PUTS[kind](self, values)
        return replies.done()

    def told(self, today: datetime.date, kind: str, values: dict[str, Any]) -> bytes:
        """What a read is told."""
        day: Any = values.get("day")
        if kind == "standing":
            return replies.told(letters.standing(self, values["rider"], day, today))
        if kind == "trips":
            return replies.told(trips.of_rider(self, values["rider"]))
        if kind == "letter":
            return replies.text(letters.letter(self, values["rider"], values["entry"]))
        if kind == "manifest":
            return replies.text(manifests.manifest(self, values["vehicle"], day))
        return (
            replies.text(manifests.sheet(self, day))
            if kind == "sheet"
            else replies.csv(manifests.export(self, day))
        )
