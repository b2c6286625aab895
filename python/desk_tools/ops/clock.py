"""Whether the machine's clock is where it was when the desk was last seen to run."""

from __future__ import annotations

import contextlib
import dataclasses
import datetime
import json
import math
import os
import time
from pathlib import Path
from typing import Any, TYPE_CHECKING

from desk_tools import law
from desk_tools.days import number_of
from .content import content_in, day_of
from .ending import Failure
from .pages import in_memory

if TYPE_CHECKING:
    from desk_tools.ops.places import Desk

DAY, MINUTE = 86_400, 60
# What a clock may be set forward by, as the desk runs, and be taken for right.
SHORT = 3_600
BOOKED_AHEAD = law.DAYS_AHEAD
FIRST_YEAR, LAST_YEAR = 2000, 2099


@dataclasses.dataclass
class Run:
    """What the file `last-stop` has of the desk's last run: a moment of the clock, and of one that nobody sets."""

    moment: float
    uptime: float
    is_stopped: bool
    # The start after it was refused, so that its end is none of the desk's.
    is_refused: bool = False
    # What a person has said is no sign of a jump: moments of files, and days of entries and trips.
    forgiven: list[Any] = dataclasses.field(default_factory=list)

    def expected(self, uptime: float) -> float:
        """What the clock should say, of the same run of the machine."""
        return self.moment + max(0, uptime - self.uptime)


def uptime_now() -> float:
    return time.clock_gettime(time.CLOCK_BOOTTIME)


def path_of(desk: Desk) -> str:
    return f"{desk.folder}/last-stop"


def last_run(desk: Desk) -> Run | None:
    """What was noted last, or None where nothing was, or nothing that can be read."""
    try:
        return Run(**json.loads(Path(path_of(desk)).read_text("utf-8")))
    except (OSError, ValueError, TypeError):
        return None


def put(desk: Desk, run: Run) -> None:
    """Notes it, whole or not at all. A disk that is full keeps no desk from its start."""
    path = path_of(desk)
    with contextlib.suppress(OSError):
        Path(f"{path}.new").write_text(json.dumps(dataclasses.asdict(run)), "utf-8")
        owner = os.stat(desk.folder)
        if os.geteuid() == 0:
            os.chown(f"{path}.new", owner.st_uid, owner.st_gid)
        os.replace(f"{path}.new", path)


def note_start(desk: Desk, now: float, uptime: float) -> None:
    run = last_run(desk)
    put(desk, Run(now, uptime, False, forgiven=run.forgiven if run else []))


def note_refusal(desk: Desk) -> None:
    run = last_run(desk)
    if run:
        put(desk, dataclasses.replace(run, is_refused=True))


def note_stop(desk: Desk, now: float, uptime: float) -> None:
    """The desk has ended. Where the clock jumped as it ran, the moment is the one by the clock that nobody sets."""
    run = last_run(desk)
    if run is None:
        put(desk, Run(now, uptime, True))
    elif not run.is_stopped and not run.is_refused:
        is_jump = uptime >= run.uptime and jump_of(now, run.expected(uptime), SHORT)
        put(
            desk,
            dataclasses.replace(
                run, moment=run.expected(uptime) if is_jump else now, uptime=uptime, is_stopped=True
            ),
        )


def accept(desk: Desk, now: float, uptime: float) -> None:
    """A person says that the clock is right: what speaks against it is forgiven, and the moment is noted."""
    entered, booked = days_of_file(desk)
    forgiven = [*moments_of_files(desk), *(it for it in (entered, booked) if it is not None)]
    put(desk, Run(now, uptime, True, forgiven=forgiven))


def moments_of_files(desk: Desk) -> list[int]:
    """The moments at which the desk wrote to its files last."""
    return [int(os.stat(it).st_mtime) for it in (desk.file, desk.log) if os.path.exists(it)]


def last_seen(desk: Desk) -> float | None:
    """The last moment at which the desk ran, by the clock of then. Where its end was not noted it may have run on."""
    run = last_run(desk)
    if run and run.is_stopped:
        return run.moment
    forgiven = run.forgiven if run else []
    moments = [it for it in moments_of_files(desk) if it not in forgiven] + (
        [run.moment] if run else []
    )
    return max(moments, default=None)


def local_day(now: float, zone: str | None) -> datetime.date:
    """The agency's day; where its zone is not known, the latest day that it is anywhere."""
    if zone is None:
        return datetime.datetime.utcfromtimestamp(now + 14 * 3600).date()
    before = os.environ.get("TZ")
    os.environ["TZ"] = zone
    time.tzset()
    try:
        return datetime.date(*time.localtime(now)[:3])
    finally:
        if before is None:
            del os.environ["TZ"]
        else:
            os.environ["TZ"] = before
        time.tzset()


def moment_told(moment: float) -> str:
    return f"{datetime.datetime.utcfromtimestamp(moment):%Y-%m-%d %H:%M:%S} UTC"


def jump_of(now: float, seen: Any, forward: float = DAY) -> str | None:
    """What is wrong with the clock beside the moment at which the desk was seen last; or None."""
    if seen is None:
        return None
    if now < seen - MINUTE:
        return (
            f"the clock says {moment_told(now)}, and the desk ran at {moment_told(seen)}: the clock went back, "
            "or was ahead then"
        )
    if now > seen + forward:
        return (
            f"the clock says {moment_told(now)}, and the desk ran last at {moment_told(seen)}, "
            "more than a day before"
        )
    return None


def days_of_file(desk: Desk) -> tuple[int | None, int | None]:
    """The newest day of an entry and of a trip; none of a file that cannot be read: the desk says what is wrong."""
    with contextlib.suppress(OSError, Failure), contextlib.closing(
        in_memory(desk.file)
    ) as connection:
        content = content_in(connection, desk.file)
        return content.last_entry_day, content.last_day
    return None, None


def days_ahead(today: datetime.date, entered: int | None, booked: int | None) -> str | None:
    """What is wrong with the clock beside the days of the file; or None."""
    if entered is not None and entered > number_of(today):
        return (
            f"it is {today}, and a case file has an entry of {day_of(entered)}: the clock went back, "
            "or was ahead then"
        )
    if booked is not None and booked > number_of(today) + BOOKED_AHEAD:
        return (
            f"it is {today}, and a trip is booked on {day_of(booked)}, more than {BOOKED_AHEAD} days ahead: the "
            f"clock went back, "
            "or was ahead then"
        )
    return None


def fault_of_year(now: float) -> str | None:
    year = datetime.datetime.utcfromtimestamp(now).year
    if FIRST_YEAR <= year <= LAST_YEAR:
        return None
    return f"the clock says {moment_told(now)}, outside the years {FIRST_YEAR} to {LAST_YEAR}"


def fault_at_start(desk: Desk, zone: str | None, now: float) -> str | None:
    """Why the desk should not serve by this clock; or None."""
    run = last_run(desk)
    forgiven = run.forgiven if run else []
    days = [None if it in forgiven else it for it in days_of_file(desk)]
    # (where nothing was noted yet, a file that was not written for days is no sign of a jump)
    forward = DAY if run else math.inf
    return (
        fault_of_year(now)
        or jump_of(now, last_seen(desk), forward)
        or days_ahead(local_day(now, zone), *days)
    )


def fault_of_running(desk: Desk, now: float, uptime: float) -> Any:
    """Why the clock of a desk that runs is not the one by which it began; or None."""
    run = last_run(desk)
    if run is None or run.is_stopped or uptime < run.uptime:
        return fault_of_year(now)
    return fault_of_year(now) or jump_of(now, run.expected(uptime))
