"""A stolen key of the office: another key for its caller, what the record says that the stolen one did, and whom to call."""

from __future__ import annotations

import argparse
import pathlib
from typing import Any, TYPE_CHECKING

from desk_tools import left_behind, theft
from desk_tools.journal import command, places
from desk_tools.journal import stolen as record
from . import stolen
from .ending import WRONG_WORDS, Failure
from .keys import digest_of, key_made_or_in

if TYPE_CHECKING:
    from desk_tools.setup.desk import Line

OFFICE = ("clerk", "dispatcher", "examiner", "officer", "admin")


def caller_of(given: argparse.Namespace, copies: stolen.Copies) -> theft.Caller:
    """The caller, as a copy of the desk's file has him; a rider and a driver have commands of their own."""
    with copies.fresh() as now:
        seen = now or copies.before
        if not seen:
            raise Failure(
                "only a copy of the desk's file shows whose number that is: run this on the desk's machine as root, or "
                f"name a copy by --backup or --now ({copies.why})",
                WRONG_WORDS,
            )
        callers = theft.callers_in(seen)
    found = callers.get(given.staff)
    if found is None:
        raise Failure(f"there is no caller {given.staff}. Nothing was changed", WRONG_WORDS)
    if found.role not in OFFICE:
        words = f"--vehicle {found.subject}" if found.role == "driver" else found.subject
        raise Failure(
            f"caller {given.staff} is {found.told()}: say deploy/stolen-key {words}, and --caller {given.staff} with a "
            "new key. Nothing was changed",
            WRONG_WORDS,
        )
    return found


def tell_old_key(given: argparse.Namespace, copies: stolen.Copies, before: Any) -> None:
    """What became of the key that the caller had."""
    if not copies.now or copies.named:
        print(
            f"NOT KNOWN: whether the stolen key is nobody's. A copy of now shows it, on the desk's machine as root ({copies.why})"
        )
        return
    digests = {it.digest for it in theft.callers_in(copies.now).values()}
    if before.digest == digest_of(key_made_or_in(given.new_key)):
        print(
            f"NOT KNOWN: whether the stolen key is nobody's. Caller {given.staff} had the key in {given.new_key} already"
        )
    elif before.digest in digests:
        raise Failure(f"the key that caller {given.staff} had still works: a copy of now has it")
    else:
        print("the stolen key is nobody's")


def tell_deeds(given: argparse.Namespace, copies: stolen.Copies) -> None:
    """What the record has of the caller since the theft."""
    since = stolen.moment_of_theft(given, copies)
    from_when = f" since {since:%Y-%m-%d %H:%M}" if since else ""
    day = f" --from {since:%Y-%m-%d}" if since else ""
    words = argparse.Namespace(
        folder=pathlib.Path(given.record),
        agency=pathlib.Path(given.agency_file),
        site="",
        copy=copies.now,
        roster=pathlib.Path(given.roster),
        language="en",
        first=None,
        last=None,
    )
    try:
        asked = command.asked_of(words)
    except (places.Wrong, OSError, ValueError) as error:
        print(
            f"NOT KNOWN: what the key did{from_when} ({error}). The record says it on the desk's machine: bin/journal caller "
            f"{given.staff}{day}"
        )
        return
    trips = {}
    if copies.now:
        with theft.tables_of(copies.now) as tables:
            trips = left_behind.trips_in(tables)
    deeds = record.deeds_of(asked, given.staff, since, trips)
    for it in deeds.warnings:
        print(f"NOT CERTAIN: {it}")
    print(
        f"caller {given.staff}{from_when}: {len(deeds.findings)} writes by the record. The person's own are among them: strike "
        f"these out together. All requests: bin/journal caller {given.staff}{day}"
    )
    stolen.tell(deeds.findings, stolen.telephones(given.roster))
    print(record.told_reads(deeds))


def run(given: argparse.Namespace, line: Line, copies: stolen.Copies) -> int:
    """The whole: the status."""
    found = caller_of(given, copies)
    if given.new_key:
        given.caller = given.staff
        stolen.replace_key(given, line, copies, found.role, 0)
    with copies.fresh():
        if given.new_key:
            tell_old_key(given, copies, found)
        elif not given.since and not copies.before:
            print(
                f"caller {given.staff} is {found.told()}; without --since all is told that the record has"
            )
        tell_deeds(given, copies)
    if found.role == "admin":
        print(
            "An admin's key can make other callers: look at each of them on the Admin page, and at bin/journal keys"
        )
    return 0
