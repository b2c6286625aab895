#!/usr/bin/env python3
"""deploy/clock-check [AGENCY]: compares the machine's clock with what the desk has, before it serves; the unit runs it.

A clock that is more than a day after the moment at which the desk last ran, or more than a minute before it, ends this
with one sentence and status 1, and the desk does not start. So does one by which entries or trips are of days that have
not come. A person looks at the clock, sets it right, and where it is right says `clock-check --really`: then the desk
starts. --stopped notes the moment as the desk ends. --report looks whether the clock jumped while the desk runs. The
environment may give FILE, the database, and ZONE, the agency's zone.
"""

from __future__ import annotations

import os
import sys
import time

from desk_tools.arguments import Usage
from desk_tools.ops import clock
from desk_tools.ops.ending import Failure, run_script
from desk_tools.ops.places import Desk


def main(words: list[str]) -> None:
    usage = Usage(
        "deploy/clock-check",
        description=__doc__.partition("\n\n")[0],
        epilog="the environment may give FILE and ZONE",
    )
    usage.takes("agency AGENCY", "the agency's short name (main)", nargs="?")
    task = usage.add_mutually_exclusive_group()
    task.add_argument(
        "--really", action="store_true", help="the clock is right: the desk may serve by it"
    )
    task.add_argument("--stopped", action="store_true", help="note the moment, as the desk ends")
    task.add_argument(
        "--report", action="store_true", help="say whether the clock jumped while the desk runs"
    )
    given = usage.parse_args(words)
    desk, now, uptime = Desk(given.agency), time.time(), clock.uptime_now()
    if given.stopped:
        clock.note_stop(desk, now, uptime)
        return
    fault = (
        clock.fault_of_running(desk, now, uptime)
        if given.report
        else clock.fault_at_start(desk, os.environ.get("ZONE"), now)
    )
    if given.really:
        clock.accept(desk, now, uptime)
        print(f"deploy/clock-check: {fault or 'the clock is as it was'}; it is taken as right")
        return
    if fault:
        if not given.report:
            clock.note_refusal(desk)
        name = f" {given.agency}" if given.agency else ""
        raise Failure(
            f"{fault}. Set the clock right; if it is right, say as root: clock-check --really{name}"
        )
    if not given.report:
        clock.note_start(desk, now, uptime)


if __name__ == "__main__":
    sys.exit(run_script("clock-check", main, sys.argv[1:]))
