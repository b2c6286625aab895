"""Takes what the site wrote into the record: the unit's work each five minutes."""

import fcntl
import json
import logging
import os
import signal
import time
from collections.abc import Callable
from datetime import datetime, timezone
from pathlib import Path

from desk_tools.journal import chain, lines
from desk_tools.journal.places import PART, Places
from desk_tools.setup import whole_file

SECONDS, STEP = 10.0, 0.05
LOG = logging.getLogger("journal")


def now() -> str:
    """The moment by the machine's clock."""
    return lines.told(datetime.now(timezone.utc))


def is_open(path: Path) -> bool:
    """Whether another process has the file open: then the kernel gives nobody a lease on it to write."""
    try:
        number = os.open(path, os.O_RDWR)
    except FileNotFoundError:
        return False
    try:
        fcntl.fcntl(number, fcntl.F_SETLEASE, fcntl.F_WRLCK)
        fcntl.fcntl(number, fcntl.F_SETLEASE, fcntl.F_UNLCK)
        return False
    except BlockingIOError:
        return True
    finally:
        os.close(number)


def wait_for(condition: Callable[[], bool]) -> bool:
    """Whether it came to hold within ten seconds."""
    finish = time.monotonic() + SECONDS
    while not condition():
        if time.monotonic() > finish:
            return False
        time.sleep(STEP)
    return True


def reopen(pid_file: Path) -> None:
    """Tells nginx to open its logs anew; where none runs nobody writes."""
    try:
        os.kill(int(pid_file.read_text(encoding="ascii")), signal.SIGUSR1)
    except (OSError, ValueError):
        LOG.info("no nginx runs by %s", pid_file)


def rotate(places: Places, last: int, pid_file: Path) -> None:
    """Puts what nginx wrote aside under the next number, and has nginx begin a new file."""
    try:
        if not places.requests.stat().st_size:
            return
    except FileNotFoundError:
        return
    number = max([last, *(it for it, _ in places.parts())]) + 1
    os.rename(places.requests, places.folder / f"{PART}{number:06}")
    whole_file.folder_synced(places.folder)
    reopen(pid_file)


def take_part(writer: chain.Writer, number: int, part: Path) -> int:
    """Adds the lines of a part that no entry holds yet, and removes it. Returns how many it added.

    Half a line at its end is one too: nobody writes to it any more.
    """
    if number != writer.part or writer.taken < 0:
        writer.add(chain.noted("taken", part=number, at=now()))
    found = [chain.safe(it) for it, _ in chain.lines_of(part)][writer.taken :]
    writer.add(*found)
    part.unlink()
    return len(found)


def take(places: Places, pid_file: Path, finish: Callable[[chain.File], None]) -> int:
    """Takes all that is there, closes the file of a day that is over, and returns how many lines were added.

    `finish` is called with each closed file, also with one of an earlier run that did not come so far.
    """
    with places.locked():
        writer = chain.Writer(places.record)
        # What a run that was ended left half taken comes first, so that no day is closed in the middle of it.
        added = sum(
            take_part(writer, number, it) for number, it in places.parts() if number <= writer.part
        )
        day = places.today()
        if not writer.is_closed and day != writer.day:
            writer.close(now())
        if writer.is_closed:
            writer.open(day, writer.site or places.site, now())
        rotate(places, writer.part, pid_file)
        for number, part in places.parts():
            if not wait_for(lambda path=part: not is_open(path)):  # type: ignore[misc]
                LOG.warning("%s is still written to, and waits for the next time", part.name)
                break
            added += take_part(writer, number, part)
        for file in chain.files_in(places.record)[:-1]:
            finish(file)
        return added


def note(places: Places, kind: str, **fields: object) -> None:
    """Adds a note of this tool to the record."""
    with places.locked():
        writer = chain.Writer(places.record)
        if writer.is_closed:
            writer.open(places.today(), writer.site or places.site, now())
        writer.add(json.dumps({"note": kind, "at": now(), **fields}).encode())
