"""Random requests of all roles to a site whose clock steps: for tests/journal, which replays them over a backup.

The desk and nginx show one clock, so many seconds ahead of the machine's. It steps over minutes, hours and midnights, and
back a little. Numbers are repeated, bodies are refused, keys are replaced, and several callers write at once.
"""

from __future__ import annotations

import concurrent.futures
import contextlib
import datetime
import hashlib
import json
import os
import random
import subprocess
from collections.abc import Iterator
from typing import Any, Protocol

from serving import ADMINS_KEY, HOURS_EAST, LINE, POLICY, SECONDS, TODAY, TRIP, VAN

STEADY, PLACES = 0.93, (1, 2, 3)
KEYS = {
    "rider": "mine",
    "clerk": "hello",
    "examiner": "panel",
    "officer": "bench",
    "dispatcher": "radio",
    "driver": "wheel",
}
RIDERS = range(20, 40)


class Site(Protocol):
    """A site: the last number of each key, and what it answers."""

    numbers: dict[str, int]

    def write(self, path: str, key: str, body: Any, **named: Any) -> tuple[int, str]:
        """A write with the next number of a key."""

    def ask(
        self, method: str, path: str, key: str | None = None, body: Any = None, **named: Any
    ) -> Any:
        """The status and the body of a reply."""


def library() -> str:
    """The library by which `faketime` shows another clock."""
    told = subprocess.run(
        ["faketime", "2025-03-10 08:00:00", "env"], capture_output=True, text=True, timeout=SECONDS
    ).stdout
    return next(
        it.partition("=")[2].split(":")[0]
        for it in told.splitlines()
        if it.startswith("LD_PRELOAD=")
    )


class Clock:
    """A clock that several programs show, so many seconds ahead of the machine's."""

    def __init__(self, folder: str) -> None:
        self.file, self.ahead = f"{folder}/ahead", 0.0
        self.step(0)
        self.names = {
            "LD_PRELOAD": library(),
            "FAKETIME_TIMESTAMP_FILE": self.file,
            "FAKETIME_NO_CACHE": "1",
            "FAKETIME_DONT_FAKE_MONOTONIC": "1",
        }

    def step(self, seconds: float) -> None:
        self.ahead += seconds
        with open(f"{self.file}.new", "w", encoding="ascii") as file:
            file.write(f"{self.ahead:+.3f}s\n")
        os.replace(f"{self.file}.new", self.file)

    def now(self) -> datetime.datetime:
        """The moment by this clock, in the agency's zone."""
        return datetime.datetime.now(datetime.timezone.utc).replace(
            tzinfo=None
        ) + datetime.timedelta(seconds=self.ahead, hours=HOURS_EAST)

    def to_the_edge_of(self, seconds: float, before: float) -> None:
        """Steps to shortly before the next edge of so many seconds: 60 of a minute, 86,400 of a day."""
        now = self.now()
        since = (now - now.replace(hour=0, minute=0, second=0, microsecond=0)).total_seconds()
        self.step(seconds - since % seconds - before)


class Walk:
    """Random requests to a site, whose desk has the agency of tests/serving.py."""

    def __init__(self, seed: int, clock: Clock) -> None:
        self.chance, self.clock = random.Random(seed), clock
        self.trips: list[int] = []
        self.keys = {**KEYS, "admin": ADMINS_KEY}
        self.numbers: dict[str, int] = {}
        self.sent: list[tuple[str, str, Any, int]] = []
        self.taken, self.made = 0, 0
        self.keys_made: list[str] = []
        self.kinds = [
            (self.book, 10),
            (self.cancel, 4),
            (self.change, 4),
            (self.outcome, 3),
            (self.rider, 2),
            (self.entry, 4),
            (self.place, 1),
            (self.other, 1),
            (self.key, 1),
            (self.read, 3),
            (self.garbage, 1),
            (self.again, 2),
        ]

    def begin(self, site: Site) -> None:
        """Vans, and riders of whom most may ride."""
        for number in range(1, 7):
            self.write(site, "dispatcher", "/vehicles", {**VAN, "id": number, "capacity": 6})
        for number in RIDERS:
            kind = "visitor" if number % 4 == 0 else "resident"
            self.write(
                site,
                "clerk",
                "/riders",
                {"id": number, "kind": kind, "attendant": number % 3 == 0, "wheelchair": False},
            )
            if kind == "resident":
                self.write(site, "clerk", f"/riders/{number}/entries", {"entry": "complete"})
                grant = {
                    "entry": "grant",
                    "until": TODAY + datetime.timedelta(days=500),
                    "conditions": ["always"],
                }
                refusal = {"entry": "refuse", "reasons": 'it\'s no "disability" of 37.123'}
                self.write(
                    site,
                    "examiner",
                    f"/riders/{number}/entries",
                    refusal if number % 5 == 0 else grant,
                )

    def asked(self, site: Site, count: int) -> None:
        """Makes so many requests, some of them at once."""
        end = self.made + count
        while self.made < end:
            self.step()
            if self.chance.random() < 0.04:
                self.at_once(site)
            else:
                self.one(site)

    def step(self) -> None:
        chance = self.chance.random()
        if chance < STEADY:
            return
        if chance < 0.97:
            self.clock.step(self.chance.uniform(1, 90))
        elif chance < 0.985:
            self.clock.to_the_edge_of(60, self.chance.uniform(0, 0.02))
        elif chance < 0.99:
            self.clock.step(-self.chance.uniform(0, 3))
        elif chance < 0.995:
            self.clock.to_the_edge_of(86_400, self.chance.uniform(0, 0.02))
        else:
            self.clock.step(self.chance.uniform(600, 20_000))

    def one(self, site: Site) -> None:
        [kind] = self.chance.choices([it for it, _ in self.kinds], [it for _, it in self.kinds])
        kind(site)

    def write(self, site: Site, role: str, path: str, body: Any) -> tuple[int, str]:
        """A write with the caller's next number, mostly; by the site or on the machine."""
        key = self.keys[role] if self.chance.random() < 0.98 else "nobody's"
        if self.chance.random() < 0.05:
            site.numbers[key] = site.numbers.get(key, 100) + self.chance.randrange(1, 9)
        is_own = self.chance.random() < 0.3
        status, reply = site.write(path, key, body, is_own=is_own)
        self.made, self.taken = self.made + 1, self.taken + (status == 200)
        self.sent.append((path, key, body, site.numbers[key]))
        return status, reply

    def next_number(self, role: str) -> int:
        key = self.keys[role]
        self.numbers[key] = self.numbers.get(key, 100) + 1
        return self.numbers[key]

    def day(self) -> datetime.date:
        return self.clock.now().date() + datetime.timedelta(
            days=self.chance.choice([0, *range(1, 15), 15])
        )

    def wish(self) -> dict[str, Any]:
        start, end = self.chance.sample(PLACES, 2) if self.chance.random() < 0.95 else (1, 1)
        more = {"by": self.chance.randrange(420, 1_300)} if self.chance.random() < 0.2 else {}
        return {
            **TRIP,
            "day": self.day(),
            "wish": self.chance.randrange(420, 1_200),
            "from": start,
            "to": end,
            "companions": self.chance.choice([0, 0, 0, 1, 2]),
            **more,
        }

    def book(self, site: Site) -> None:
        who = self.chance.choice(["clerk"] * 8 + ["rider", "rider", "dispatcher", "examiner"])
        rider = (
            7
            if who == "rider" and self.chance.random() < 0.9
            else self.chance.choice([7, 9, *RIDERS])
        )
        status, reply = self.write(site, who, "/trips", {"rider": rider, **self.wish()})
        if status == 200:
            self.trips = [*self.trips, json.loads(reply)["trip"]][-200:]

    def trip(self) -> int:
        return self.chance.choice(self.trips or [1])

    def cancel(self, site: Site) -> None:
        trip = self.trip()
        status, _ = self.write(
            site,
            self.chance.choice(["clerk", "clerk", "clerk", "rider", "dispatcher"]),
            f"/trips/{trip}/cancel",
            {},
        )
        self.ended(trip, status)

    def ended(self, trip: int, status: int) -> None:
        """Another trip is asked for next time, mostly, where this one has ended."""
        if status in (200, 422) and self.chance.random() < 0.8:
            self.trips = [it for it in self.trips if it != trip]

    def change(self, site: Site) -> None:
        self.write(
            site,
            self.chance.choice(["clerk", "clerk", "clerk", "rider"]),
            f"/trips/{self.trip()}/change",
            self.wish(),
        )

    def outcome(self, site: Site) -> None:
        how = self.chance.choice(["ridden", "ridden", "missed-rider", "missed-operator", "none"])
        trip = min(self.trips or [1]) if self.chance.random() < 0.7 else self.trip()
        status, reply = self.write(
            site,
            self.chance.choice(["driver", "dispatcher", "dispatcher"]),
            f"/trips/{trip}/outcome",
            {"outcome": how},
        )
        self.ended(trip, status if "early" not in reply else 0)

    def rider(self, site: Site) -> None:
        kind = self.chance.choice(["visitor", "resident"])
        self.write(
            site,
            "clerk",
            "/riders",
            {
                "id": self.chance.choice(RIDERS),
                "kind": kind,
                "attendant": self.chance.random() < 0.5,
                "wheelchair": self.chance.random() < 0.2,
            },
        )

    def entry(self, site: Site) -> None:
        today = self.clock.now().date()
        until = today + datetime.timedelta(days=self.chance.randrange(0, 400))
        role, body = self.chance.choice(
            [
                ("clerk", {"entry": "complete"}),
                ("examiner", {"entry": "grant", "until": until, "conditions": ["always"]}),
                ("examiner", {"entry": "refuse", "reasons": 'it\'s no "disability" of 37.123'}),
                ("clerk", {"entry": "appeal", "against": self.chance.randrange(4)}),
                ("officer", {"entry": "heard"}),
                (
                    "officer",
                    {"entry": "appeal-granted", "until": until, "conditions": ["months:1,2"]},
                ),
                ("officer", {"entry": "appeal-denied", "reasons": "as before"}),
                ("officer", {"entry": "notice", "basis": "three trips"}),
            ]
        )
        self.write(site, role, f"/riders/{self.chance.choice(RIDERS)}/entries", body)

    def place(self, site: Site) -> None:
        self.write(
            site,
            "admin",
            "/places",
            {
                "id": self.chance.choice([3, *range(10, 15)]),
                "x": self.chance.randrange(9_000),
                "y": 1_000,
                "core": False,
            },
        )

    def other(self, site: Site) -> None:
        role, path, body = self.chance.choice(
            [
                ("admin", "/policy", {**POLICY, "base": self.chance.randrange(200)}),
                ("admin", "/routes", {**LINE, "width": self.chance.randrange(3_000, 5_000)}),
                (
                    "dispatcher",
                    "/vehicles",
                    {
                        **VAN,
                        "id": self.chance.randrange(5, 8),
                        "from_day": self.day()
                        + datetime.timedelta(days=self.chance.choice([0, 30])),
                    },
                ),
                ("clerk", "/policy", POLICY),
            ]
        )
        self.write(site, role, path, body)

    def key(self, site: Site) -> None:
        """A new key: of somebody else, or of the one who writes it."""
        role = self.chance.choice(["clerk", "examiner", "admin", "other"])
        key = hashlib.sha256(f"{self.made} {role}".encode()).hexdigest()[:26] + "-made"
        self.keys_made.append(key)
        number = {"clerk": 2, "examiner": 4, "admin": 1}.get(role, self.chance.randrange(100, 110))
        body = {
            "id": number,
            "role": "clerk" if role == "other" else role,
            "subject": 0,
            "digest": hashlib.sha256(key.encode()).hexdigest(),
        }
        former = self.keys.get(role, "")
        if self.write(site, "admin", "/callers", body)[0] == 200 and role != "other":
            self.keys[role] = key
            # (a caller's numbers go on under a new key)
            site.numbers[key] = site.numbers.get(former, 100)

    def read(self, site: Site) -> None:
        path = self.chance.choice(
            [
                "/riders/7/trips",
                f"/riders/7/standing/{TODAY}",
                f"/days/{TODAY}/sheet",
                "/staff/roster.csv",
                "/trips",
            ]
        )
        site.ask(
            "GET",
            path,
            self.chance.choice([*self.keys.values(), "nobody's", None]),
            is_own=path[1] != "s" and self.chance.random() < 0.3,
        )
        self.made += 1

    def garbage(self, site: Site) -> None:
        """A body that is refused, of any bytes."""
        path = self.chance.choice(
            ["/trips", "/riders", "/callers", "/riders/7/entries", "/trips/1/change"]
        )
        body = self.chance.choice(
            [
                self.chance.randbytes(self.chance.randrange(1, 16_384)),
                b"{",
                b"[]",
                b'{"rider":7}',
                b'{"id":"x"}',
            ]
        )
        self.write(site, self.chance.choice(["clerk", "admin"]), path, body)

    def again(self, site: Site) -> None:
        """The same number once more, with the same body or another one."""
        if self.sent:
            path, key, body, number = self.sent[
                -self.chance.randrange(1, min(4, len(self.sent)) + 1)
            ]
            site.ask("POST", path, key, body if self.chance.random() < 0.7 else {}, number=number)
            self.made += 1

    def at_once(self, site: Site) -> None:
        """Writes of several callers that are under way at once: the desk's order is not that of their lines."""
        asked = [
            ("clerk", "/trips", {"rider": self.chance.choice(RIDERS), **self.wish()}),
            ("dispatcher", "/trips", {"rider": 9, **self.wish()}),
            ("rider", f"/trips/{self.trip()}/cancel", {}),
            (
                "admin",
                "/places",
                {"id": 11, "x": self.chance.randrange(9_000), "y": 5, "core": False},
            ),
        ]
        chosen = self.chance.sample(asked, self.chance.randrange(2, 5))
        for role in {it for it, _, _ in chosen}:
            site.numbers[self.keys[role]] = site.numbers.get(self.keys[role], 100)
        with concurrent.futures.ThreadPoolExecutor(len(chosen)) as pool:
            told = list(pool.map(lambda it: site.write(it[1], self.keys[it[0]], it[2]), chosen))
        self.made, self.taken = self.made + len(told), self.taken + sum(
            status == 200 for status, _ in told
        )
        self.trips += [
            json.loads(reply)["trip"]
            for status, reply in told
            if status == 200 and '"window_from"' in reply
        ]


@contextlib.contextmanager
def clocked(clock: Clock) -> Iterator[None]:
    """What is started meanwhile shows the clock."""
    before = dict(os.environ)
    os.environ.update(clock.names)
    try:
        yield
    finally:
        os.environ.clear()
        os.environ.update(before)
