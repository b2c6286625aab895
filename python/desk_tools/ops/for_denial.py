"""Copies of the desk's file for denials that dispatch marked: the state is there when an advocate asks why."""

from __future__ import annotations

import glob
import json
import os
import time
from typing import Any

from desk_tools import event_log
from .backing_up import Backup
from .ending import WRONG_WORDS, Failure
from .places import Desk
from .zones import now_at

NOTE = "denial-{}.json"
# A log that was rotated so long ago has no mark that still waits for its copy.
ROTATED_WITHIN = 7 * 86_400


def open_marks(folder: str, log: str) -> list[event_log.Told]:
    """The marks of the site's log, and of what was just rotated, for which the folder has no copy yet, the oldest first."""
    try:
        earlier = rotated(log)
        # (between a rotation and the next line there may be none)
        found = event_log.read(
            [*earlier, *([log] if os.path.exists(log) or not earlier else [])]
        ).of("marks")
    except event_log.UnreadableLog as error:
        raise Failure(str(error)) from None
    return [it for it in found if not os.path.exists(f"{folder}/{NOTE.format(it.id)}")]


def rotated(log: str) -> list[str]:
    """The logs into which this one was rotated within a week: its name with a day behind it, as logrotate gives it."""
    since = time.time() - ROTATED_WITHIN
    return sorted(
        it for it in glob.glob(f"{glob.escape(log)}-[0-9]*") if os.path.getmtime(it) >= since
    )


def free_name(desk: Desk, folder: str) -> str:
    """A copy's name, which has the second; a second copy of one second waits for the next."""
    while os.path.exists(f"{folder}/{(name := f'denial-{now_at(desk):%Y-%m-%d-%H%M%S}.db')}"):
        time.sleep(0.1)
    return name


def copy_for(folder: str, agency: Any, most: int) -> str:
    """Makes one copy for all marks that have none, and a note of each beside it; says what was done."""
    desk = Desk(agency)
    log = os.environ.get("TALLY") or desk.agency.tally
    if not os.path.isdir(folder):
        raise Failure(f"there is no folder {folder}", WRONG_WORDS)
    marks = open_marks(folder, log)
    if not marks:
        return "no denial is marked that has no copy"
    name = free_name(desk, folder)
    told = Backup(desk, f"{folder}/{name}", most).make().told()
    for it in marks:
        note = {
            "copy": name,
            **{key: str(value) for key, value in it.fields.items() if value is not None},
        }
        with open(
            os.open(
                f"{folder}/{NOTE.format(it.id)}.new", os.O_WRONLY | os.O_CREAT | os.O_TRUNC, 0o600
            ),
            "w",
            encoding="utf-8",
        ) as file:
            file.write(json.dumps(note) + "\n")
        os.replace(f"{folder}/{NOTE.format(it.id)}.new", f"{folder}/{NOTE.format(it.id)}")
    asked = ", ".join(
        f"{it.fields['day']} at {int(str(it.fields['minute'])) // 60:02}:{int(str(it.fields['minute'])) % 60:02}"
        for it in marks
    )
    count = "1 marked denial: a trip" if len(marks) == 1 else f"{len(marks)} marked denials: trips"
    return f"{told}\nit is kept for {count} asked for on {asked}"
