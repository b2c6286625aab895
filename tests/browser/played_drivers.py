"""The drivers of the played day who have no page: they tell the site and the desk what a page tells, by the plan and their own delay."""
import concurrent.futures
import contextlib
import dataclasses
import http.client
import json
import re
import ssl
import time
from collections.abc import Sequence
from typing import Any

import people
from database import Trouble
from played_town import DAY

from desk_tools import events
from town import Town

STOP = re.compile(
    r"^(\d\d):(\d\d) (PICK|DROP) trip (\d+) rider (\d+)(?:.* window (\d\d):(\d\d)-(\d\d):(\d\d))?",
    re.M,
)
DELAYS = [0, 2, 11, 0, 1, 8, 0, 3]
BESIDE = 6
# Of so many trips one rider is not there, and one is missed by the agency.
NO_SHOWS, MISSED = 41, 97


@dataclasses.dataclass(frozen=True)
class Stop:
    """A stop of a manifest; the window is that of a pickup."""

    minute: int
    kind: str
    trip: int
    rider: int
    window: tuple[int, int] | None = None


@dataclasses.dataclass(frozen=True)
class Act:
    """What a driver tells at a minute: the taps, and an outcome that goes to the desk."""

    minute: int
    van: int
    trip: int
    event: str
    outcome: str | None = None
    evidence: dict[str, int] | None = None


def stops_of(text: str) -> list[Stop]:
    """The stops of a van by its manifest."""
    found = []
    for it in STOP.finditer(text):
        hour, minute, kind, trip, rider, *window = it.groups()
        hours = [int(one) for one in window] if window[0] else None
        found.append(
            Stop(
                int(hour) * 60 + int(minute),
                kind,
                int(trip),
                int(rider),
                (hours[0] * 60 + hours[1], hours[2] * 60 + hours[3]) if hours else None,
            )
        )
    return found


def acts_of(van: int, stops: list[Stop]) -> list[Act]:
    """All that a driver tells of a day, in its order."""
    late, found, gone = DELAYS[van % len(DELAYS)], [], set()
    for stop in stops:
        minute = stop.minute + late
        if stop.kind == "DROP":
            found += [] if stop.trip in gone else [Act(minute, van, stop.trip, "dropped", "ridden")]
            continue
        assert stop.window
        arrived = max(minute, 0)
        found.append(Act(arrived, van, stop.trip, "arrived"))
        if stop.trip % NO_SHOWS == 7:
            waited = max(arrived, stop.window[0]) + 6
            gone.add(stop.trip)
            found.append(
                Act(
                    waited,
                    van,
                    stop.trip,
                    "no-show-rider",
                    "missed-rider",
                    {
                        "from": stop.window[0],
                        "to": stop.window[1],
                        "arrived": arrived,
                        "wait": waited - max(arrived, stop.window[0]),
                    },
                )
            )
        elif stop.trip % MISSED == 5:
            gone.add(stop.trip)
            found.append(Act(arrived + 1, van, stop.trip, "no-show-agency", "missed-operator"))
        else:
            found.append(Act(max(arrived, stop.window[0]) + 1, van, stop.trip, "aboard"))
    return found


def moment(minute: int) -> str:
    return f"{DAY}T{minute // 60:02}:{minute % 60:02}:20"


class Teller:
    """Sends over one connection to the site; a crowded site is asked again."""

    numbers: dict[int, int] = {}

    def __init__(self, town: Town) -> None:
        self.town = town
        self.line = http.client.HTTPSConnection(
            "127.0.0.1", town.port, timeout=60, context=ssl._create_unverified_context()
        )

    def send(self, path: str, headers: dict[str, Any], body: str | None = None) -> Any:
        for pause in range(1, 40):
            with contextlib.suppress(OSError, http.client.HTTPException):
                self.line.request("POST", path, body, headers)
                reply = self.line.getresponse()
                text = reply.read().decode()
                if reply.status not in (429, 502, 503, 504):
                    return reply.status, text
            self.line.close()
            time.sleep(0.1 * pause)
        raise Trouble(f"the site does not take {path}")

    def tells(self, van: Any, kind: str, fields: dict[Any, Any]) -> None:
        self.tells_as(f"driver {van}", kind, fields)

    def tells_as(self, holder: str, kind: str, fields: dict[Any, Any]) -> None:
        """Tells the site an event by the key of whoever this is."""
        path = events.path_of(kind, fields)
        status, text = self.send(path, {"Desk-Key": self.town.keys[holder]})
        if status != 204:
            raise Trouble(f"{path} of {holder} is {status} {text}")

    def outcome(self, van: Any, trip: int, outcome: Any) -> Any:
        """The desk's reply; another phone of the van may have used a higher number."""
        for step in (1, 1_000, 1_000_000, 100_000_000):
            self.numbers[van] = max(self.numbers.get(van, 0) + step, int(time.time()))
            headers = {
                "Desk-Key": self.town.keys[f"driver {van}"],
                "Desk-Number": str(self.numbers[van]),
            }
            reply = json.loads(
                self.send(f"/trips/{trip}/outcome", headers, json.dumps({"outcome": outcome}))[1]
            )
            if reply.get("denied") != "desk.number":
                break
        return reply


@dataclasses.dataclass
class Drivers:
    """All drivers without a page. What they told is in `told`, by trip and event, with its minute."""

    town: Town
    acts: dict[int, list[Act]]
    told: dict[Any, Any] = dataclasses.field(default_factory=dict)
    outcomes: dict[Any, Any] = dataclasses.field(default_factory=dict)
    denied: list[Any] = dataclasses.field(default_factory=list)
    done: dict[int, int] = dataclasses.field(default_factory=dict)

    def drive(self, until: int, but: Sequence[int] = ()) -> None:
        """Each tells what it did until a minute of the day; `but` have no line, and tell it later."""
        with concurrent.futures.ThreadPoolExecutor(BESIDE) as pool:
            list(
                pool.map(
                    lambda van: self.drive_one(van, until),
                    [van for van in self.acts if van not in but],
                )
            )

    def drive_one(self, van: int, until: int) -> None:
        teller, begun = Teller(self.town), self.done.get(van, 0)
        due = [it for it in self.acts[van][begun:] if it.minute < until]
        for act in due:
            self.act(teller, act)
        self.done[van] = begun + len(due)

    def act(self, teller: Teller, act: Act) -> None:
        key = f"{act.van} {act.trip} {act.event}"
        identity = people.key_for(f"event {key}")
        teller.tells(
            act.van,
            "stops",
            {
                "id": identity,
                "vehicle": act.van,
                "trip": act.trip,
                "event": act.event,
                "at": moment(act.minute),
            },
        )
        self.told[act.trip, act.event] = act.minute
        if act.evidence:
            teller.tells(
                act.van,
                "no-shows",
                {
                    "id": people.key_for(f"no-show {key}"),
                    "vehicle": act.van,
                    "day": DAY,
                    "trip": act.trip,
                    **act.evidence,
                    "at": moment(act.minute),
                },
            )
        if act.outcome:
            reply = teller.outcome(act.van, act.trip, act.outcome)
            if "denied" in reply:
                self.denied.append((act, reply["denied"]))
            else:
                self.outcomes[act.trip] = act.outcome
