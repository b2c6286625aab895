"""A stolen key: another key for its caller, what came of the stolen one, and whom to call."""

from __future__ import annotations

import argparse
import contextlib
import datetime
import glob
import os
import pathlib
import secrets
import subprocess
import tempfile
import types
from collections.abc import Iterator
from typing import Any, TYPE_CHECKING

from desk_tools.days import clock
from desk_tools import agencies, theft
from desk_tools.setup import roster_file, tally_log
from desk_tools.setup.limits import HIGHEST_NUMBER, Wrong
from .asking import Asking
from .backing_up import Backup
from .ending import WRONG_WORDS, Failure, sentence_of
from .keys import digest_of, key_made_or_in
from .places import Desk

if TYPE_CHECKING:
    from desk_tools.setup.desk import Line

MAIN = agencies.Agency()
SITES_LOG, ROSTER, SITE = MAIN.tally, MAIN.own("roster.csv"), MAIN.site


# The copies that are compared.


class Copies:
    """A backup of before the theft and a copy of now, each a path or None; and why there is no copy of now."""

    def __init__(self, before: str | None, now: str | None, agency: Any) -> None:
        self.before = pathlib.Path(before) if before else None
        self.now = self.named = pathlib.Path(now) if now else None
        self.agency, self.why = agency, "without a copy"
        for path in filter(None, (self.before, self.named)):
            if not path.is_file():
                raise Failure(f"there is no backup {path}", WRONG_WORDS)

    @contextlib.contextmanager
    def fresh(self) -> Iterator[Any]:
        """Meanwhile `now` is the copy that was named, or a fresh one, where this machine has the desk's file."""
        with tempfile.TemporaryDirectory(prefix="desk-stolen-", dir="/var/tmp") as folder:
            if not self.named:
                self.now = self.made_in(folder)
            yield self.now
            self.now = self.named

    def made_in(self, folder: str) -> pathlib.Path | None:
        try:
            Backup(Desk(self.agency), f"{folder}/now.db").make()
        except (Failure, OSError, subprocess.SubprocessError) as error:
            self.why = sentence_of(error)
            return None
        return pathlib.Path(folder, "now.db")


# Another key.


def put_caller(admin: Asking, number: int, role: str, subject: int, key: str) -> None:
    body = {"id": number, "role": role, "subject": subject, "digest": digest_of(key).hex()}
    reply = admin.post("/callers", body)
    if reply.body == {"denied": "desk.exists"}:
        raise Failure(
            "the new key is another caller's already. Where this command gave it earlier, leave out --admin and "
            "--new-key; else name a file that is not there"
        )
    if reply.status != 200:
        raise Failure(f"caller {number} could not be given another key: {reply.body}")


def check_is_new(line: Line, given: argparse.Namespace, copies: Copies) -> None:
    """The key of the file is not the stolen one, which would go on holding."""
    digest = digest_of(key_made_or_in(given.new_key))
    if copies.before:
        if digest in {it.digest for it in theft.callers_in(copies.before).values()}:
            raise Failure(
                f"the key in {given.new_key} was somebody's when the backup was made: name a file that is "
                "not there, and a new key is made in it",
                WRONG_WORDS,
            )
    elif line.ask("GET", "/riders/1/trips", key_made_or_in(given.new_key)).status != 401:
        raise Failure(
            f"the key in {given.new_key} holds already. Where this command made it, leave out --admin, "
            "--caller and --new-key; else name a file that is not there",
            WRONG_WORDS,
        )


def replace_key(
    given: argparse.Namespace, line: Line, copies: Copies, role: str, subject: int
) -> None:
    """The caller has another key, or another caller has it where it has to be. The caller's owner was looked up before."""
    was_there = os.path.exists(given.new_key)
    key = key_made_or_in(given.new_key)
    if was_there:
        check_is_new(line, given, copies)
    admin = Asking(line, given.admin)
    put_caller(admin, given.caller, role, subject, key)
    print(f"caller {given.caller} has the key in {given.new_key}")
    left = HIGHEST_NUMBER - Asking(line, given.new_key).caller.last_number(0)
    if left < theft.FEWEST_LEFT:
        # (nobody has this key: the number as a caller is given up, and two callers can't have one key)
        put_caller(admin, given.caller, role, subject, secrets.token_hex(32))
        caller = other_caller(given, copies)
        put_caller(admin, caller, role, subject, key)
        print(
            f"the thief has used up the numbers of writes of caller {given.caller} ({left:,} are left). So the key in "
            f"{given.new_key} is now that of caller {caller}: write this number down where you keep those of callers"
        )
    prove_it_writes(given, line)


def other_caller(given: argparse.Namespace, copies: Copies) -> int:
    """A number that no caller has."""
    if given.other_caller:
        return int(given.other_caller)
    with copies.fresh() as now:
        taken = set(theft.callers_in(now)) if now else None
    if taken is None:
        raise Failure(
            f"the thief has used up the numbers of writes of caller {given.caller}, who has no key now. Say "
            "the same again with --other-caller and a number that no caller has, and with "
            f"--caller {given.caller}"
        )
    return next(it for it in range(given.caller + 1, HIGHEST_NUMBER) if it not in taken)


def prove_it_writes(given: argparse.Namespace, line: Line) -> None:
    """A write that a rider and a driver may never make is denied for that, and not for its number."""
    caller = Asking(line, given.new_key).caller
    number = caller.last_number(0) + 1
    if number > HIGHEST_NUMBER or caller.is_used(number):
        raise Failure(f"the key in {given.new_key} cannot write: its caller has no number left")
    print("the new key can write: a trial write got as far as it may, and changed nothing")


# What came of it.


def telephones(path: str) -> dict[int, str]:
    """The name and the telephone of each rider of the roster, where there is one."""
    if not os.path.exists(path):
        return {}
    return {
        int(it["rider"]): " ".join(filter(None, (it.get("name"), it.get("telephone"))))
        for it in roster_file.read(path).riders
    }


def tell(found: list[theft.Finding], roster: Any) -> None:
    """Each row that differs with what to do, and then whom to call, the soonest pickup first."""
    for it in found:
        print(f"- {it.said}\n    {it.advice}")
    calls = theft.in_order_of_pickup(found)
    if calls:
        print("Call, in order of pickup:")
    for number, it in enumerate(calls, 1):
        name, pickup = roster.get(it.rider, ""), it.pickup
        at = f"{pickup[0]} {clock(pickup[1])}" if pickup else ""
        print(f"{number}. {at} rider {it.rider}{f', {name}' if name else ''}: {it.said}")


def trips_of_rider(clerk: Asking, rider: int) -> dict[int, theft.Trip]:
    reply = clerk.get(f"/riders/{rider}/trips")
    if reply.status != 200:
        raise Failure(f"the trips of rider {rider} are not to be had: {reply.body}")
    return {it["trip"]: theft.trip_of_reply(rider, it) for it in reply.body["trips"]}


def rider_findings(
    given: argparse.Namespace, copies: Copies, trips: dict[int, theft.Trip]
) -> list[theft.Finding]:
    """What differs of a rider, with what could not be compared."""
    before: Any = copies.before
    before = theft.rows_of_rider(before, given.rider)
    if before is None:
        raise Failure(
            f"{copies.before} has no rider {given.rider}: it is another agency's, or of before the rider came",
            WRONG_WORDS,
        )
    found = list(theft.trip_findings(before.trips, trips))
    now = theft.rows_of_rider(copies.now, given.rider) if copies.now else None
    if now and not {*now.trips} <= {*trips}:
        raise Failure(
            f"the file of this machine is not that of the desk at {given.url}: name a copy of that one by "
            "--now",
            WRONG_WORDS,
        )
    if now:
        return found + list(theft.entry_findings(given.rider, before, now, given.caller))
    print(
        "NOT KNOWN: whether the key entered an appeal. The case file is compared on the desk's machine alone, as root "
        f"({copies.why})"
    )
    return found


def tell_without_backup(trips: dict[int, theft.Trip], after: int) -> None:
    """What can be said without a backup of before the theft, and what cannot."""
    print(
        "NOT KNOWN, without a backup of before the theft (--backup): which trips were canceled or moved since, and "
        "whether an appeal was entered. Read the rider all of this list"
    )
    for number, trip in sorted(trips.items()):
        if trip.status == theft.BOOKED and number > after:
            print(f"- trip {number} is booked: {trip.told()}")
        elif trip.status == theft.CANCELED and trip.day >= datetime.date.today():
            print(f"- trip {number} is canceled: {trip.told()}")


def tell_log(title: str, lines: list[str]) -> None:
    if lines:
        print(f"{title} It does not say by whose key: whoever has any key can write such a line.")
    for it in lines:
        print(f"- {it}")


def log_of(given: argparse.Namespace) -> Any:
    """What the site's log holds, with the older files of it that are there."""
    paths = given.log or sorted(glob.glob(f"{SITES_LOG}*"))
    try:
        return tally_log.read(paths)
    except Wrong as wrong:
        print(f"NOT KNOWN: what the site's log has of it ({wrong})")
        return types.SimpleNamespace(stops=[], cancellations=[], denials=[], broken=[])


def told_cancellations(given: argparse.Namespace, trips: dict[int, theft.Trip]) -> list[str]:
    """The lines of the site's log on cancellations of these trips, which have the minute."""
    return [
        f"{it.received:%Y-%m-%d %H:%M} trip {it.trip} was canceled by the {it.by}"
        for it in log_of(given).cancellations
        if it.trip in trips
    ]


def check_rider(
    given: argparse.Namespace, copies: Copies, clerk: Asking
) -> tuple[dict[int, theft.Trip], dict[int, str]]:
    """All that differs of a rider is told; the trips of the list, by number, and why each other one is not in it."""
    trips, after = trips_of_rider(clerk, given.rider), given.after
    if copies.before:
        after = theft.last_trip_in(copies.before)
        found = rider_findings(given, copies, trips)
        differing = "nothing differs" if not found else f"{len(found)} rows differ"
        print(f"rider {given.rider}: {differing} from {copies.before}")
        tell(found, telephones(given.roster))
    else:
        tell_without_backup(trips, after)
    tell_log("The site's log has these cancellations.", told_cancellations(given, trips))
    listed = {
        number: it for number, it in trips.items() if number > after and it.status == theft.BOOKED
    }
    rows = theft.rows_of_rider(copies.before, given.rider) if copies.before else None
    before = rows.trips if rows else {}
    return listed, {
        it.number: why_not_listed(it, before.get(it.number))
        for it in trips.values()
        if it.number not in listed
    }


def why_not_listed(trip: theft.Trip, before: theft.Trip | None) -> str:
    """Why a trip of the rider is none of those that were booked since and can be canceled. `before` is it in the backup."""
    if trip.status != theft.BOOKED:
        return f"trip {trip.number} is {theft.ENDINGS[trip.status]}"
    if before and not before.is_same_ride(trip):
        return f"trip {trip.number} was moved: change it back where the rider did not move it"
    return f"trip {trip.number} was booked before"


def check_vehicle(given: argparse.Namespace, copies: Copies) -> None:
    """What the key of a vehicle's driver could read, and which outcomes and taps came since."""
    if copies.now is None:
        raise Failure(
            f"what a driver's key did is seen in a copy of the desk's file: run this on the desk's machine as "
            f"root, or name a copy by --now ({copies.why})"
        )
    print(
        f"What the key could read: {theft.readable_by_driver(copies.now, given.vehicle).told(given.vehicle)}"
    )
    tell_files(given)
    if copies.before:
        found = list(
            theft.outcome_findings(
                theft.trips_of_vehicle(copies.before, given.vehicle),
                theft.trips_of_vehicle(copies.now, given.vehicle),
            )
        )
        print(f"vehicle {given.vehicle}: {len(found)} outcomes were entered since {copies.before}")
        tell(found, telephones(given.roster))
    else:
        print(
            "NOT KNOWN, without a backup of before the theft (--backup): which outcomes were entered since"
        )
    since = moment_of_theft(given, copies)
    taps = [
        it
        for it in log_of(given).stops
        if it.vehicle == given.vehicle and (since is None or it.received >= since)
    ]
    tell_log(
        f"The site's log has these taps of vehicle {given.vehicle}{f' since {since:%Y-%m-%d %H:%M}' if since else ''}.",
        [f"{it.received:%Y-%m-%d %H:%M} trip {it.trip} {it.event}" for it in taps],
    )


def tell_files(given: argparse.Namespace) -> None:
    """The files of the site that a driver of this vehicle reads: those of the vehicle, or else those of all vehicles."""
    folders = [f"{given.site}/drivers/{given.vehicle}", f"{given.site}/drivers"]
    known = "with what a driver has to know"
    for name, what in (
        ("roster.csv", "names and notes"),
        ("places.json", f"places, {known}"),
        ("addresses.json", f"addresses of its trips, {known}"),
    ):
        path = next((f"{it}/{name}" for it in folders if os.path.isfile(f"{it}/{name}")), None)
        if path:
            print(f"- the site's file {path}: {what}")


def moment_of_theft(given: argparse.Namespace, copies: Copies) -> datetime.datetime | None:
    """From when on lines of the log count: as said, or since the backup, by the clock of this machine."""
    if given.since:
        try:
            return datetime.datetime.fromisoformat(given.since).astimezone()
        except ValueError:
            raise Failure(
                f"--since {given.since!r} is no time such as 2026-12-01T18:30", WRONG_WORDS
            ) from None
    if copies.before:
        return datetime.datetime.fromtimestamp(copies.before.stat().st_mtime).astimezone()
    return None


def canceled(
    clerk: Asking, trips: dict[int, theft.Trip], chosen: list[str], others: dict[int, str]
) -> int:
    """Cancels those of the list; how many of them could not be. `others` says why a trip is none of them."""
    strange = [] if chosen == ["all"] else [it for it in chosen if it not in map(str, trips)]
    if strange:
        why = [said for number, said in others.items() if str(number) in strange]
        raise Failure(
            "; ".join(
                [
                    f"these are none of the trips of the list: {', '.join(strange)}",
                    *why,
                    "nothing was canceled",
                ]
            ),
            WRONG_WORDS,
        )
    failed = 0
    for number, trip in sorted(trips.items()):
        if chosen == ["all"] or str(number) in chosen:
            reply = clerk.post(f"/trips/{number}/cancel", {})
            failed += reply.status != 200
            ended = "canceled" if reply.status == 200 else f"NOT canceled: {reply.body}"
            print(f"trip {number}: {trip.told()}, {ended}")
    return failed
