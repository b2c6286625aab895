#!/usr/bin/env python3
"""deploy/stolen-key RIDER --url URL --clerk KEYFILE --backup COPY: what came of a rider's stolen key, and what to do.

COPY is a backup of before the theft. Each row of the rider that differs from it now is told: trips that were canceled,
moved and booked, and entries of the case file, each with what to do; then whom to call, in order of pickup. On the
desk's machine, as root, it makes a fresh copy of the desk's file for that (or --now names one); elsewhere the case file
cannot be compared, and it says so. Without COPY it says what it cannot know, and lists the rider's trips.

First give the rider another key: --admin KEYFILE --caller NUMBER --new-key FILE, where NUMBER is the rider's as a
caller. A copy of the desk's file has to show that it is; another number is refused before anything is written, with the
right one. The new key is made in FILE where that is not there, and is tried by a write that changes nothing. Where the
thief has used up the numbers of writes, the rider gets another number as a caller, and it says which.

A second call with --cancel and numbers of the list, or --cancel all, cancels trips that were booked since.

--vehicle NUMBER in place of RIDER is for a driver's key: what it could read, and which outcomes and taps came since.
--staff CALLER is for the key of a clerk, a dispatcher, an examiner, an officer or an admin: each write that came by it, by
the record of who did what, with what to do, whose data it read, and whom to call.
"""

from __future__ import annotations

import argparse
import sys

from desk_tools.arguments import usage_of
from desk_tools.journal.places import AGENCY, FOLDER as RECORD
from desk_tools.ops import stolen, stolen_staff
from desk_tools.ops.asking import Asking, line_to
from desk_tools.ops.ending import Failure, run_script, WRONG_WORDS
from desk_tools.ops.whose_key import Owner
from desk_tools.setup.limits import NotAnswered, Wrong
from desk_tools.theft import NotReadable


def run(given: argparse.Namespace) -> int:
    line = line_to(given.url, given.certificate)
    copies = stolen.Copies(given.backup, given.now, given.agency)
    owner = None
    if given.staff:
        return stolen_staff.run(given, line, copies)
    if given.new_key:
        role, subject = ("driver", given.vehicle) if given.vehicle else ("rider", given.rider)
        owner = Owner(copies, given.caller, role, subject)
        owner.check()
        stolen.replace_key(given, line, copies, role, subject)
    with copies.fresh():
        if owner:
            owner.tell(given.new_key)
        if given.vehicle:
            stolen.check_vehicle(given, copies)
            return 0
        clerk = Asking(line, given.clerk)
        trips, others = stolen.check_rider(given, copies, clerk)
    return 1 if given.cancel and stolen.canceled(clerk, trips, given.cancel, others) else 0


def words_of(words: list[str]) -> argparse.Namespace:
    usage = usage_of("deploy/stolen-key", __doc__)
    usage.takes("rider RIDER", type=int, nargs="?")
    usage.takes("--vehicle NUMBER", "of a driver's key: the driver's vehicle", type=int)
    usage.takes("--staff CALLER", "of a key of the office: the caller's number", type=int)
    usage.takes("--url", "the desk's address", required=True)
    usage.takes("--clerk KEYFILE", "a clerk's key, for a rider's trips")
    usage.takes("--certificate FILE", "the site's certificate, where you made it yourself")
    usage.takes("--backup COPY", "a backup of before the theft")
    usage.takes("--now COPY", "a backup of now (one is made on the desk's machine)")
    usage.takes("--agency AGENCY", "the agency, where this machine has several")
    usage.takes("--after TRIP", "without a backup: only trips above it", type=int, default=0)
    usage.takes("--since TIME", "the theft, for the site's log: 2026-12-01T18:30")
    usage.takes("--cancel TRIP", "numbers of trips, or all", nargs="+")
    usage.takes("--admin KEYFILE")
    usage.takes("--caller NUMBER", type=int)
    usage.takes("--new-key FILE")
    usage.takes("--other-caller NUMBER", "a number that no caller has", type=int)
    usage.takes("--roster FILE", "names and telephones", default=stolen.ROSTER)
    usage.takes("--log FILE", "the site's log", nargs="+")
    usage.takes("--record FOLDER", f"the record of who did what ({RECORD})", default=str(RECORD))
    usage.takes(
        "--agency-file FILE", f"the agency's zone and names ({AGENCY})", default=str(AGENCY)
    )
    usage.takes("--site FOLDER", "the site's files", default=stolen.SITE)
    return usage.parse_args(words)


def main(words: list[str]) -> int:
    given = words_of(words)
    if [given.rider, given.vehicle, given.staff].count(None) != 2:
        raise Failure(
            "name a RIDER, a driver's --vehicle, or a caller of the office by --staff", WRONG_WORDS
        )
    if given.rider and not given.clerk:
        raise Failure("the trips of a rider take --clerk, a clerk's key", WRONG_WORDS)
    if (
        bool(given.admin) != bool(given.new_key)
        or given.new_key
        and not (given.caller or given.staff)
    ):
        raise Failure("--admin, --caller and --new-key go together", WRONG_WORDS)
    try:
        return run(given)
    except (Wrong, NotAnswered, NotReadable) as failure:
        raise Failure(str(failure)) from None


if __name__ == "__main__":
    sys.exit(run_script("stolen-key", main, sys.argv[1:]))
