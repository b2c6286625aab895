"""Calls made at a desk over a file: by `desk serve` with the clock that `faketime` shows, and by `desk travel` between runs of it."""

from __future__ import annotations

import datetime
import os
import shlex
import shutil
import subprocess
from collections.abc import Iterator
from typing import Self

from second import tables
from second.desk import Desk as SecondDesk
from second.trials.calls import ADMINS_KEY, TRAVEL, Call, message_of
from serving import (
    HOURS_EAST,
    SECONDS,
    ZONE,
    Desk,
    difference,
    faults_of_database,
    ran,
    received_from,
    rows,
)

WRAPPER = """#!/bin/sh
export LD_PRELOAD={library} FAKETIME_TIMESTAMP_FILE={moment} FAKETIME_NO_CACHE=1 FAKETIME_DONT_FAKE_MONOTONIC=1 TZ=UTC0
exec {program} "$@"
"""


def library() -> str | None:
    """The library by which `faketime` shows another clock, or None where it is not installed."""
    if not shutil.which("faketime"):
        return None
    told = subprocess.run(
        ["faketime", "2025-03-10 08:00:00", "env"], capture_output=True, text=True, timeout=SECONDS
    )
    found = [
        line.partition("=")[2]
        for line in told.stdout.splitlines()
        if line.startswith("LD_PRELOAD=")
    ]
    return found[0].split(":")[0] if found else None


class FiledDesk:
    """A desk over a new file in a folder, with a clock that shows what it is told. It is killed when it is left."""

    def __init__(self, program: str, folder: str) -> None:
        self.file, self.moment, self.folder = f"{folder}/desk.db", f"{folder}/moment", folder
        self.program = f"{folder}/desk"
        places = {
            "library": library() or "",
            "moment": self.moment,
            "program": os.path.abspath(program),
        }
        with open(self.program, "w", encoding="utf-8") as wrapper:
            wrapper.write(WRAPPER.format(**{name: shlex.quote(it) for name, it in places.items()}))
        os.chmod(self.program, 0o755)
        self.show("2000-01-02", 0)
        self.served: Desk | None = None
        made = ran(self.program, "init", self.file, ADMINS_KEY)
        if made.returncode:
            raise OSError(f"init: {made}")

    def __enter__(self) -> Self:
        return self

    def __exit__(self, *_: object) -> None:
        self.stop()

    def stop(self) -> None:
        if self.served:
            self.served.kill()
        self.served = None

    def show(self, day: str, minute: int) -> None:
        """The agency's clocks show this moment from now on."""
        local = datetime.datetime.fromisoformat(day) + datetime.timedelta(minutes=minute)
        with open(f"{self.moment}.new", "w", encoding="utf-8") as file:
            file.write(f"{local - datetime.timedelta(hours=HOURS_EAST)}\n")
        os.replace(f"{self.moment}.new", self.moment)

    def answer(self, call: Call) -> bytes | str:
        """The bytes of a reply, or what `desk travel` prints."""
        self.show(call.day, call.minute)
        if call.method == TRAVEL:
            return self.travel(call)
        self.served = self.served or Desk(self.program, self.file)
        with self.served.connected() as connection:
            connection.sendall(message_of(call))
            return received_from(connection)

    def travel(self, call: Call) -> str:
        self.stop()
        csv = f"{self.folder}/times.csv"
        with open(csv, "w", encoding="utf-8") as file:
            file.write(call.body)
        told = ran(self.program, "travel", self.file, ZONE, call.key, call.number, call.path, csv)
        if told.returncode in (0, 1):
            return str(told.stdout.decode().rstrip("\n"))
        return f"status {told.returncode}, {told.stderr!r}"


def faults_of_rows(file: str, wanted: SecondDesk) -> Iterator[str | None]:
    """For each table None, or how the rows of a file that nobody uses differ from those of the second desk."""
    yield from faults_of_database(file)
    for table, its_rows in tables.rows(wanted).items():
        yield difference(f"rows of {table}", its_rows, sorted(rows(file, tables.QUERIES[table])))
