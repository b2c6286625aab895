"""The desk asked about a copy of its file: what stands for a rider, when a van is where, and whether a pattern holds.

The program serves a copy of the copy, in a folder of its own, to callers that are made for it. So whatever is asked, even
by a write, changes nothing that anybody keeps.
"""

from __future__ import annotations

import contextlib
import csv
import datetime
import hashlib
import http.client
import io
import json
import os
import re
import secrets
import shutil
import sqlite3
import subprocess
import tempfile
from collections.abc import Iterator
from dataclasses import dataclass
from pathlib import Path

from desk_tools import asking, installed
from desk_tools.journal.places import Wrong
from desk_tools.journal.replaying import library
from desk_tools.ports import free_port
from desk_tools.tables import KEYS, ROLES

SECONDS, TRIES, MOST_CALLERS, MOST_HOURS, NOON = 60, 20, 1_000, 24, 12
# The version of the tables that the program serves.
VERSION = 2
FAULT = re.compile(r"fault (\d+) row (\d+)")
# The faults of a port that another program has, and of rows of no sound state; the row is the table's number.
NO_PORT, UNSOUND = "6", "31"
ASKING = CLERK, EXAMINER, DISPATCHER = tuple(map(ROLES.index, ("clerk", "examiner", "dispatcher")))
STOP = re.compile(r"(\d\d):(\d\d) (PICK|DROP) trip (\d+)\b.*")
PICKUP, DROP = range(2)


class Refused(Exception):
    """Why the desk does not answer about the copy, in one sentence."""


@dataclass(frozen=True)
class Standing:
    """What stands for a rider on a day, in the desk's words. `until` is the last day of a grant."""

    word: str
    is_suspended: bool
    until: datetime.date | None


@dataclass(frozen=True)
class Stop:
    """A stop of a sheet: the minute of the day at which it begins, and its kind, PICKUP or DROP."""

    trip: int
    kind: int
    minute: int


class ServedCopy:
    """A desk that serves a copy, as it was at the copy's moment, seen on one day."""

    def __init__(self, port: int, keys: dict[int, str]) -> None:
        self.port, self.keys = port, keys
        self.written: dict[int, int] = {}
        self.standings: dict[tuple[int, datetime.date], Standing] = {}

    def standing(self, rider: int, day: datetime.date) -> Standing:
        """What stands for the rider on the day. Each is asked once."""
        if (rider, day) not in self.standings:
            said = json.loads(self._read(f"/riders/{rider}/standing/{day}", CLERK))
            until = said.get("until")
            self.standings[rider, day] = Standing(
                said["standing"],
                said["suspended"],
                datetime.date.fromisoformat(until) if until else None,
            )
        return self.standings[rider, day]

    def is_overdue(self, rider: int, today: datetime.date) -> bool:
        """Whether an appeal is overdue. Presumption is told first, so the application is refused in this copy to look behind it."""
        found = self.standing(rider, today).word
        if found == "presumed":
            entry = {"entry": "refuse", "reasons": "to look behind the presumption"}
            if self._write(f"/riders/{rider}/entries", EXAMINER, entry):
                said = json.loads(self._read(f"/riders/{rider}/standing/{today}", CLERK))
                found = said["standing"]
        return found == "appeal-overdue"

    def has_pattern(self, rider: int) -> bool:
        """Whether a notice about missed trips would be taken today: in this copy it is."""
        entry = {"entry": "notice", "basis": "to see whether a pattern holds"}
        return self._write(f"/riders/{rider}/entries", CLERK, entry)

    def sheet(self, day: datetime.date) -> list[Stop]:
        """The stops of all vans on a day, van by van, in their order."""
        found = map(STOP.fullmatch, self._read(f"/days/{day}/sheet", DISPATCHER).splitlines())
        return [
            Stop(int(it[4]), (PICKUP, DROP)[it[3] == "DROP"], 60 * int(it[1]) + int(it[2]))
            for it in found
            if it
        ]

    def dues(self, day: datetime.date) -> dict[int, int]:
        """What is due of each trip of a day, in cents."""
        rows = csv.DictReader(io.StringIO(self._read(f"/days/{day}/trips.csv", DISPATCHER)))
        return {int(it["trip"]): int(it["due"]) for it in rows}

    def _read(self, path: str, role: int) -> str:
        try:
            desk = asking.Desk(f"http://127.0.0.1:{self.port}", self.keys[role], patience=0)
            found = desk.get(path)
        except (asking.Refused, asking.NotAnswered) as error:
            raise Refused(str(error)) from None
        if found is None:
            raise Refused(f"the desk knows nothing of {path}")
        return found

    def _write(self, path: str, role: int, body: dict[str, str]) -> bool:
        """Whether a write is taken."""
        self.written[role] = self.written.get(role, 0) + 1
        heads = {"Desk-Key": self.keys[role], "Desk-Number": str(self.written[role])}
        connection = http.client.HTTPConnection("127.0.0.1", self.port, timeout=SECONDS)
        try:
            connection.request("POST", path, json.dumps(body), heads)
            reply = connection.getresponse()
            said = reply.read().decode("utf-8", "replace").strip()
        except (OSError, http.client.HTTPException) as error:
            raise Refused(f"the desk does not answer {path} ({error})") from None
        finally:
            connection.close()
        if reply.status not in (200, 422):
            raise Refused(f"the desk answers {path} with {reply.status}: {said}")
        return reply.status == 200


def program_of(given: Path | None) -> Path:
    """The program that is named, or that DESK names, or the one that is installed. Raises Refused where there is none."""
    named = given or (Path(os.environ["DESK"]) if os.environ.get("DESK") else None)
    found = [named] if named else [it for it in installed.PROGRAMS if it.exists()]
    if not found:
        raise Refused("the desk is asked, and its program is not installed: name it by --program")
    if not os.access(found[0], os.X_OK) or found[0].is_dir():
        raise Refused(f"there is no program {found[0]}: name the desk's by --program")
    return found[0].resolve()


@contextlib.contextmanager
def served(program: Path, copy: Path, today: datetime.date | None = None) -> Iterator[ServedCopy]:
    """Serves a copy of the copy, for which it is `today`, where that matters. Raises Refused where the desk does not take it."""
    with tempfile.TemporaryDirectory(prefix="desk-asked-") as name:
        file = Path(name, "desk.db")
        try:
            shutil.copyfile(copy, file)
            bring_up(program, file)
            keys = put_callers(file)
        except (OSError, sqlite3.Error) as error:
            raise Refused(f"{copy} can't be copied for the desk: {error}") from None
        now = datetime.datetime.now(datetime.timezone.utc)
        zone, clock = zone_and_clock(today or now.date(), now)
        process, port = started(program, file, zone, clock)
        try:
            yield ServedCopy(port, keys)
        finally:
            ended(process)


def bring_up(program: Path, file: Path) -> None:
    """Makes a file of an older version one of this program's. Raises Refused where `desk migrate` does not take it."""
    with contextlib.closing(sqlite3.connect(file)) as database:
        if database.execute("SELECT version FROM desk").fetchall() == [(VERSION,)]:
            return
    words = [str(program), "migrate", str(file)]
    ran = subprocess.run(
        words, capture_output=True, stdin=subprocess.DEVNULL, text=True, check=False
    )
    if ran.returncode:
        said = why(ran.stderr.strip())
        raise Refused(f"the desk does not bring it up to version {VERSION}: {said}")


def put_callers(file: Path) -> dict[int, str]:
    """Adds a caller for each role that asks, or takes the last ones where there is no room. The key of each role."""
    keys = {role: secrets.token_hex(16) for role in ASKING}
    with contextlib.closing(sqlite3.connect(file)) as database:
        there = {number for number, in database.execute("SELECT id FROM callers")}
        free = (it for it in range(2, MOST_CALLERS + 2 + len(keys)) if it not in there)
        has_room = len(there) + len(keys) <= MOST_CALLERS
        numbers = free if has_room else iter(sorted(there)[-len(keys) :])
        for (role, key), number in zip(keys.items(), numbers):
            database.execute("DELETE FROM kept WHERE caller = ?", (number,))
            digest = hashlib.sha256(key.encode()).digest()
            database.execute("REPLACE INTO callers VALUES (?, ?, 0, ?)", (number, role, digest))
        database.commit()
    return keys


def zone_and_clock(today: datetime.date, now: datetime.datetime) -> tuple[str, dict[str, str]]:
    """A zone in which it is that day now, nearest to noon; and the environment of a clock that shows it, where no zone does."""
    local = [(it, now + datetime.timedelta(hours=it)) for it in range(-MOST_HOURS, MOST_HOURS + 1)]
    there = [(abs(it.hour - NOON), hours) for hours, it in local if it.date() == today]
    if there:
        # (the rule of a zone counts hours to the west)
        return f"<ASK>{-min(there)[1]:+d}", {}
    try:
        clock = {"LD_PRELOAD": library(), "FAKETIME": f"@{today} 12:00:00", "TZ": "UTC0"}
    except Wrong as error:
        raise Refused(
            f"{today} is not now, and a desk that is asked of it takes faketime: {error}"
        ) from None
    return "UTC0", {**clock, "FAKETIME_DONT_FAKE_MONOTONIC": "1"}


def started(
    program: Path, file: Path, zone: str, clock: dict[str, str]
) -> tuple[subprocess.Popen[bytes], int]:
    """The process of a desk that listens, and its port."""
    said = ""
    for _ in range(TRIES):
        port = free_port()
        words = [str(program), "serve", str(file), zone, str(port), "1000000"]
        try:
            process = subprocess.Popen(
                words, stdin=subprocess.DEVNULL, stderr=subprocess.PIPE, env={**os.environ, **clock}
            )
        except OSError as error:
            raise Refused(f"{program}: {error.strerror}") from None
        assert process.stderr is not None
        said = process.stderr.readline().decode("utf-8", "replace").strip()
        if said.startswith("listening"):
            return process, port
        ended(process)
        fault = FAULT.search(said)
        if not fault or fault[1] != NO_PORT:
            break
    raise Refused(f"the desk does not open it: {why(said)}")


def why(said: str) -> str:
    """What a fault says: the table whose rows are unsound has its name."""
    fault, tables = FAULT.search(said), [*KEYS]
    if fault and fault[1] == UNSOUND and 1 <= int(fault[2]) <= len(tables):
        return (
            f"the rows of table {tables[int(fault[2]) - 1]} are those of no sound state (fault 31)"
        )
    return said or "it ended without a word"


def ended(process: subprocess.Popen[bytes]) -> None:
    """Ends a desk, and removes what a moved clock leaves in shared memory."""
    process.kill()
    process.wait()
    if process.stderr:
        process.stderr.close()
    for name in f"faketime_shm_{process.pid}", f"sem.faketime_sem_{process.pid}":
        with contextlib.suppress(OSError):
            os.unlink(f"/dev/shm/{name}")
