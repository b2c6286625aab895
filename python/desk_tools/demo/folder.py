"""The folder in which an office lives: one office at a time, whole or not there, and kept for the next time."""

from __future__ import annotations

import datetime
import fcntl
import json
import os
import shutil
import sqlite3
from contextlib import closing

from desk_tools.days import number_of
from desk_tools.demo import building, past, rows, site
from desk_tools.demo.serving import Trouble

STATE, LOCK, SAID = "office.json", "lock", "desk.said"
OWN = [
    STATE,
    LOCK,
    SAID,
    building.DATABASE,
    f"{building.DATABASE}-wal",
    f"{building.DATABASE}-shm",
    f"{building.DATABASE}.kept",
    building.KEYS,
    building.AGENCY,
    building.ROSTER,
    building.DRIVERS,
    building.DENIED,
    site.SITE,
    site.NGINX,
]
ROOM, MOST_DAYS_ADDED = 100_000_000, 90


def default() -> str:
    return os.path.join(
        os.environ.get("XDG_DATA_HOME") or os.path.expanduser("~/.local/share"), "desk-office"
    )


class Folder:
    """An office's folder, which this process alone has until it ends."""

    def __init__(self, path: str) -> None:
        self.path = os.path.abspath(path)
        try:
            os.makedirs(self.path, mode=0o700, exist_ok=True)
            others = [it for it in os.listdir(self.path) if it not in OWN]
            if others and not os.path.exists(f"{self.path}/{LOCK}"):
                raise Trouble(
                    f"{self.path} is no folder of an office and has other files, such as {others[0]}; name another one"
                )
            self.lock = open(f"{self.path}/{LOCK}", "a+", encoding="ascii")
        except OSError as error:
            raise Trouble(
                f"{error.filename or self.path} cannot be used: {error.strerror}"
            ) from None
        self.take()

    def take(self) -> None:
        try:
            fcntl.flock(self.lock, fcntl.LOCK_EX | fcntl.LOCK_NB)
        except OSError:
            self.lock.seek(0)
            where = self.lock.read().strip()
            raise Trouble(
                f"an office runs in {self.path} already{f', at {where}' if where else ''}; end that one, or name "
                "another folder"
            ) from None
        self.tell("")

    def tell(self, address: str) -> None:
        """Leaves the address for whoever finds the folder taken."""
        self.lock.truncate(0)
        self.lock.write(address)
        self.lock.flush()

    def day(self) -> datetime.date | None:
        """The day as of which a whole office is here, or None."""
        try:
            with open(f"{self.path}/{STATE}", encoding="ascii") as file:
                return datetime.date.fromisoformat(json.load(file)["day"])
        except (OSError, ValueError, KeyError, TypeError):
            return None

    def mark(self, day: datetime.date) -> None:
        """Says that the office is whole, as of that day."""
        building.write_text(f"{self.path}/{STATE}.new", json.dumps({"day": day.isoformat()}) + "\n")
        os.replace(f"{self.path}/{STATE}.new", f"{self.path}/{STATE}")

    def clear(self) -> None:
        """Takes away all files of an office, its mark first."""
        for name in OWN:
            path = f"{self.path}/{name}"
            if os.path.isdir(path):
                shutil.rmtree(path)
            elif name != LOCK and os.path.exists(path):
                os.remove(path)

    def need_room(self) -> None:
        free = shutil.disk_usage(self.path).free
        if free < ROOM:
            raise Trouble(
                f"{self.path} has room for {free // 1_000_000} megabytes, and an office takes {ROOM // 1_000_000}"
            )


def roll_on(folder: Folder, today: datetime.date, day: datetime.date) -> None:
    """Ends the trips that are over, and adds the days that are missing since that day. `undo` undoes it."""
    file, minute = f"{folder.path}/{building.DATABASE}", building.minute_now()
    with closing(sqlite3.connect(file)) as database:
        database.execute("PRAGMA wal_checkpoint(TRUNCATE)").fetchall()
    shutil.copy(file, f"{file}.kept")
    with closing(sqlite3.connect(file)) as database, database:
        rows.end_trips(database, today, minute)
        taken = {it for it, in database.execute("SELECT DISTINCT day FROM trips")}
        trips = past.trips_between(
            today, minute, past.LAST_TRIPS + 1 - (today - day).days, past.LAST_TRIPS
        )
        rows.write_trips(database, [it for it in trips if number_of(it[1]) not in taken])


def undo(folder: Folder) -> None:
    """Puts the file back as it was before `roll_on`."""
    file = f"{folder.path}/{building.DATABASE}"
    for name in f"{file}-wal", f"{file}-shm":
        if os.path.exists(name):
            os.remove(name)
    os.replace(f"{file}.kept", file)
