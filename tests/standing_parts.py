"""What tests/standing_orders tries without a program: a desk's rules in place of it, and kills at each step."""

from __future__ import annotations

import contextlib
import copy
import dataclasses
import datetime
import os
import random
import tempfile
from collections.abc import Iterable, Iterator
from pathlib import Path
from typing import Any, cast
from unittest import mock

from desk_tools.setup import whole_file
from desk_tools.setup.desk import HARMLESS, Line, Reply
from desk_tools.setup.rules import RULES
from desk_tools.standing_orders import state as states, table
from desk_tools.standing_orders.clerk import Clerk
from desk_tools.standing_orders.night import BOOKED, Night, OFFERED, Outcome, REFUSED, THERE
from desk_tools.standing_orders.plan import Planner
from desk_tools.standing_orders.share import Share
from serving import difference

MONDAY, SEED, URL = datetime.date(2026, 11, 30), 20261128, "http://desk"
HEADER = "order,rider,weekdays,wish,by,from,to,companions,attendant,first day,last day,skip days\n"
OUT = "A,7,1-5,9:00,10:30,1,2,0,no,,,\n"
BACK = "B,7,1 3 5,2:00 pm,,2,1,1,yes,,,2026-12-04\n"
OTHER = "C,9,Mon-Sun,11:00,,1,3,,,2026-12-03,2026-12-06,\n"


class Killed(BaseException):
    """The program was killed."""


class Steps:
    """Counts the steps of a run, and kills it at one of them."""

    def __init__(self, kill_at: int | None = None) -> None:
        self.count, self.kill_at = 0, kill_at

    def __call__(self) -> None:
        self.count += 1
        if self.count == self.kill_at:
            raise Killed


class Rules:
    """A desk as far as bookings go: numbers of writes, days that may be booked, trips, denials."""

    def __init__(self, today: datetime.date) -> None:
        self.today, self.last, self.steps = today, 0, Steps()
        # (the number, the path and the body of the last write, and its reply)
        self.kept: tuple[int, str, Any, Reply] | None = None
        self.trips: dict[int, dict[str, Any]] = {}
        self.denied: dict[tuple[int, str], str] = {}
        # Wishes that are denied, each by a rule; and by how many minutes a window begins after an hour before the wish.
        self.full: dict[int, str] = {}
        self.later = 0

    def ask(self, method: str, path: str, _: str, number: int = 0, body: Any = None) -> Reply:
        self.steps()
        reply = self.read(path) if method == "GET" else self.write(path, number, body)
        self.steps()
        return reply

    def read(self, path: str) -> Reply:
        rider = int(path.split("/")[2])
        return Reply(
            200, {"trips": [it for _, it in sorted(self.trips.items()) if it["rider"] == rider]}
        )

    def write(self, path: str, number: int, body: Any) -> Reply:
        if self.kept and self.kept[:3] == (number, path, body):
            return self.kept[3]
        if number <= self.last:
            return Reply(409, {"denied": "desk.number"})
        if path == HARMLESS[0]:
            return Reply(403, {"denied": "desk.caller"})
        day = datetime.date.fromisoformat(body["day"])
        rule = (
            "37.131(b)"
            if not 1 <= (day - self.today).days <= 14
            else self.denied.get((body["rider"], body["day"])) or self.full.get(body["wish"])
        )
        if rule:
            return Reply(422, {"denied": rule})
        trip = max(self.trips, default=0) + 1
        begins = body["wish"] - 60 + self.later
        told = {
            "due": 350,
            "fare": 350,
            "trip": trip,
            "vehicle": 1,
            "window_from": begins,
            "window_to": begins + 15,
        }
        self.trips[trip] = {"by": None, **body, **told, "status": "booked"}
        reply = Reply(200, told)
        self.last, self.kept = number, (number, path, body, reply)
        return reply

    def by_hand(self, **body: Any) -> None:
        """A trip that somebody books with another key."""
        before = self.last, self.kept
        self.write("/trips", self.last + 1, {"attendant": False, "companions": 0, **body})
        self.last, self.kept = before


@contextlib.contextmanager
def steps_counted(steps: Steps) -> Iterator[None]:
    """Each line of the state, and each file that is written whole, is a step before, in the middle and after."""
    add, written = states.State.add, whole_file.written

    def add_in_steps(self: states.State, **entry: Any) -> None:
        steps()
        try:
            steps()
        except Killed:
            with open(self.path, "ab") as file:
                file.write(b'{"kind":"send","caller":"')
            raise
        add(self, **entry)
        steps()

    def written_in_steps(*words: Any) -> None:
        steps()
        written(*words)
        steps()

    with (
        mock.patch.object(states.State, "add", add_in_steps),
        mock.patch.object(whole_file, "written", written_in_steps),
        mock.patch.object(os, "fsync", lambda _: None),
    ):
        yield


def run_night(
    folder: str,
    rules: Rules,
    orders: str,
    today: datetime.date,
    kill_at: int | None = None,
    header: str = HEADER,
) -> tuple[Any, int]:
    """A night's outcomes, or None where it was killed; and how many steps it had."""
    rules.steps = steps = Steps(kill_at)
    Path(f"{folder}/orders.csv").write_text(header + orders, "utf-8")
    Path(f"{folder}/key").write_text("standing", "ascii")
    with steps_counted(steps), contextlib.suppress(Killed), states.held(folder, URL) as kept:
        kept.shorten(today)
        read, faults, _ = table.orders_in(f"{folder}/orders.csv")
        clerk = Clerk(cast(Line, rules), kept, f"{folder}/key")
        night = Night(read, today, kept, clerk, Share(None, today))
        return list(night.outcomes()) if not faults else faults, steps.count
    return None, steps.count


def trips_wanted(orders: str, today: datetime.date) -> list[tuple[int, str, int, int, int]]:
    """The trips that a table has on the days that may be booked, each as rider, day, wish, from and to."""
    with tempfile.NamedTemporaryFile("w", encoding="utf-8") as file:
        file.write(HEADER + orders)
        file.flush()
        read = table.orders_in(file.name)[0]
    first = Planner().requests
    return sorted(
        (it.rider, day.isoformat(), first(it)[0].wish, it.origin, it.goal)
        for day in table.days_of(today, 14)
        for it in read
        if it.is_on(day)
    )


def trips_there(rules: Rules) -> list[tuple[int, str, int, int, int]]:
    return sorted(
        (it["rider"], it["day"], it["wish"], it["from"], it["to"])
        for it in rules.trips.values()
        if it["status"] == "booked"
    )


# Kills, and runs again.


def faults_of_each_kill() -> Iterator[str | None]:
    """Killed at each of its steps, and run again, a night has booked each trip once."""
    orders = (
        (OUT + BACK)
        .replace(",,\n", ",2026-12-04,\n")
        .replace(",,2026-12-04\n", ",2026-12-04,2026-12-04\n")
    )
    wanted = trips_wanted(orders, MONDAY)
    with tempfile.TemporaryDirectory() as folder:
        told, steps = run_night(folder, Rules(MONDAY), orders, MONDAY)
        yield difference("a night's outcomes", {BOOKED: len(wanted)}, counted(told))
    yield None if steps > 50 else f"a night has {steps} steps alone"
    for kill_at in range(1, steps + 1):
        with tempfile.TemporaryDirectory() as folder:
            rules = Rules(MONDAY)
            first = run_night(folder, rules, orders, MONDAY, kill_at)[0]
            told = run_night(folder, rules, orders, MONDAY)[0]
            again = run_night(folder, rules, orders, MONDAY)[0]
            got = first, counted(told, REFUSED), counted(again), trips_there(rules)
            yield difference(
                f"a night killed at step {kill_at}", (None, {}, {THERE: len(wanted)}, wanted), got
            )


def counted(outcomes: Iterable[Outcome], result: str | None = None) -> dict[str, int]:
    """How many outcomes have each result."""
    results = [it.result for it in outcomes if result in (None, it.result)]
    return {it: results.count(it) for it in sorted({*results})}


def faults_of_denials() -> Iterator[str | None]:
    """Each rule of a denial is told, and the trip is asked for again in the next night."""
    day = "2026-12-01"
    for rule, means in RULES.items():
        with tempfile.TemporaryDirectory() as folder:
            rules = Rules(MONDAY)
            rules.denied = {(7, day): rule}
            told = run_night(folder, rules, OUT, MONDAY)[0]
            refused = [(str(it.day), it.reason) for it in told if it.result == REFUSED]
            yield difference(f"a denial by {rule}", [(day, f"{rule}: {means}")], refused)
            rules.denied = {}
            told = run_night(folder, rules, OUT, MONDAY)[0]
            yield difference("the night after it", {BOOKED: 1, THERE: 9}, counted(told))


def faults_of_plans() -> Iterator[str | None]:
    """A wish that is denied is followed by the next of the plan; a window that was not agreed on is told and counted."""
    row, others = "A,7,2,9:00,,1,2,0,no,,2026-12-01,,{}\n", ("37.131(e)", "no vehicle")
    cases: list[tuple[str, dict[int, str], int, list[tuple[str, Any]]]]
    cases = [("around", {585: rule}, 0, [(BOOKED, 540)]) for rule in others]
    cases += [
        ("around", {585: "37.125"}, 0, [(REFUSED, "37.125")]),
        ("around", {585: others[1], 540: others[0]}, 0, [(REFUSED, others[0])]),
        ("not before", {600: others[1]}, 0, [(REFUSED, others[1])]),
        ("not before", {600: others[0]}, 15, [(BOOKED, 585)]),
        ("not before", {600: others[0]}, 0, [(OFFERED, 585)]),
        ("not before", {}, 61, [(OFFERED, 600)]),
        ("around", {}, 75, [(BOOKED, 585)]),
        ("around", {}, 76, [(OFFERED, 585)]),
    ]
    for mode, full, later, wanted in cases:
        with tempfile.TemporaryDirectory() as folder:
            rules = Rules(MONDAY)
            rules.full, rules.later = full, later
            for night in (1, 2):
                told = run_night(
                    folder, rules, row.format(mode), MONDAY, header=HEADER.strip() + ",mode\n"
                )[0]
                got = [
                    (it.result, it.trip["wish"] if it.trip else it.reason.partition(": ")[0])
                    for it in told
                ]
                same = [
                    (THERE if it == BOOKED and night == 2 else it, value) for it, value in wanted
                ]
                yield difference(
                    f"{mode}, with {full} denied and windows {later} later, night {night}",
                    same,
                    got,
                )
            with states.held(folder, URL) as kept:
                count = sum(result in (OFFERED, REFUSED) for result, _ in wanted)
                yield difference(
                    f"denials of {mode} with {full}, {later}", count, len(kept.untold())
                )


def faults_of_nights() -> Iterator[str | None]:
    """A month of nights, one after the other: each day that an order has is booked once, when it comes into sight."""
    with tempfile.TemporaryDirectory() as folder:
        rules, days = Rules(MONDAY), [MONDAY + datetime.timedelta(days=it) for it in range(30)]
        for today in days:
            rules.today = today
            run_night(folder, rules, OUT + BACK + OTHER, today)
        wanted = sorted({it for today in days for it in trips_wanted(OUT + BACK + OTHER, today)})
        yield difference("a month of nights", wanted, trips_there(rules))


# What else may happen between two nights.


def faults_of_chances() -> Iterator[str | None]:
    """Whatever happens between nights that are killed: in the end no trip is there twice, and none is left out."""
    chance = random.Random(SEED)
    for turn in range(80):
        with tempfile.TemporaryDirectory() as folder:
            it, backup = Between(chance, folder, Rules(MONDAY), [OUT, BACK, OTHER]), None
            for _ in range(chance.randint(1, 6)):
                it.done.append(chance.choice(HAPPENINGS)(it))
                backup = backup if chance.random() < 0.7 else copy.deepcopy(it.rules.__dict__)
                shift = datetime.timedelta(days=chance.choice([0, 0, 0, -1, 1, -20, 3, 40]))
                kill_at = chance.choice([None, chance.randint(1, 160)])
                run_night(folder, it.rules, "".join(it.orders), it.rules.today + shift, kill_at)
                if backup and chance.random() < 0.15:
                    it.rules.__dict__.update(backup, today=it.rules.today)
                    backup = None
                    it.done.append("backup")
                if chance.random() < 0.3:
                    it.rules.today += datetime.timedelta(days=1)
            told = run_night(folder, it.rules, "".join(it.orders), it.rules.today)[0]
            yield fault_of_end(turn, it, told)


@dataclasses.dataclass
class Between:
    """What a happening between two nights may read and change."""

    chance: random.Random
    folder: str
    rules: Rules
    orders: list[str]
    lost: set[tuple[int, str, int, int]] = dataclasses.field(default_factory=set)
    done: list[str] = dataclasses.field(default_factory=list)


def booked_by_hand(it: Between) -> str:
    """A clerk books what an order asks for, at its time or another one."""
    day = it.rules.today + datetime.timedelta(days=it.chance.randint(1, 14))
    wish = it.chance.choice([540, 600])
    it.rules.by_hand(rider=7, day=day.isoformat(), wish=wish, **{"from": 1, "to": 2})
    return f"by hand on {day}"


def cancelled(it: Between) -> str:
    """A rider cancels a trip."""
    standing = [trip for trip in it.rules.trips.values() if trip["status"] == "booked"]
    if standing:
        trip = it.chance.choice(standing)
        trip["status"] = "cancelled"
        it.lost.add((trip["rider"], trip["day"], trip["from"], trip["to"]))
    return "cancelled"


def key_used(it: Between) -> str:
    """Somebody writes with the clerk's key."""
    it.rules.last += it.chance.randint(1, 50)
    it.rules.kept = it.rules.last, "/riders", {}, Reply(200, {"done": True})
    return "key used"


def state_lost(it: Between) -> str:
    """The file of what was sent is gone."""
    with contextlib.suppress(FileNotFoundError):
        os.remove(f"{it.folder}/standing-orders.jsonl")
    return "state lost"


def order_renamed(it: Between) -> str:
    """The table gives an order another name."""
    it.orders[0] = OUT.replace("A,", "A2,", 1) if it.orders[0] == OUT else OUT
    return "renamed"


def denied(it: Between) -> str:
    """No vehicle has room on a day, or has again."""
    day = (it.rules.today + datetime.timedelta(days=it.chance.randint(1, 14))).isoformat()
    it.rules.denied = {} if it.rules.denied else {(7, day): "no vehicle"}
    return f"denied {it.rules.denied}"


def nothing(_: Between) -> str:
    return "nothing"


HAPPENINGS = booked_by_hand, cancelled, key_used, state_lost, order_renamed, denied, nothing


def fault_of_end(turn: int, it: Between, told: Iterable[Outcome]) -> str | None:
    """None where each trip that is wanted is there once, or refused, or was cancelled."""
    refused = {
        (one.order.rider, one.day.isoformat(), one.order.origin, one.order.goal): one.reason
        for one in told
        if one.result == REFUSED
    }
    for rider, day, _, origin, goal in trips_wanted("".join(it.orders), it.rules.today):
        way = rider, day, origin, goal
        count = sum(
            (trip["rider"], trip["day"], trip["from"], trip["to"]) == way
            and trip["status"] == "booked"
            for trip in it.rules.trips.values()
        )
        # (who books by hand what is there already has it twice)
        by_hand = it.done.count(f"by hand on {day}")
        most = max(1, by_hand + 1 if rider == 7 and goal == 2 else 1)
        if not (1 <= count <= most or count == 0 and (way in it.lost or way in refused)):
            return f"turn {turn}, after {it.done}: {count} trips of rider {rider} on {day} from {origin} to {goal}"
        if way in refused and not refused[way].startswith("no vehicle"):
            return f"turn {turn}, after {it.done}: {way} is refused by {refused[way]}"
    return None


def all_faults() -> Iterator[str | None]:
    for each in (
        faults_of_each_kill,
        faults_of_denials,
        faults_of_plans,
        faults_of_nights,
        faults_of_chances,
    ):
        yield from each()
