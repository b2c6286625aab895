"""The database of a town: made once for a program by the desk itself, and copied by each file of checks."""
import contextlib
import datetime
import fcntl
import glob
import hashlib
import http.client
import inspect
import json
import os
import re
import shutil
import sqlite3
import subprocess
import time
from collections.abc import Callable, Iterator
from pathlib import Path
from typing import Any

import people

from desk_tools.tree import TOP
from serving import free_port, ran

ROOT = TOP
PATIENCE, STEP = 200, 0.1


class Trouble(Exception):
    """What was waited for did not come, or is not as it should be."""


def matched(pattern: str, text: str) -> re.Match[str]:
    """What the pattern finds in the text, where it has to be."""
    if found := re.search(pattern, text):
        return found
    raise Trouble(f"{pattern!r} is not in {text[:300]!r}")


def until(
    what: str | Callable[[], str], condition: Callable[..., Any], patience: float = PATIENCE
) -> Any:
    """What the condition gives as soon as it is true; each wait has this bound."""
    end = time.monotonic() + patience
    while True:
        if found := condition():
            return found
        if time.monotonic() > end:
            raise Trouble(what() if callable(what) else what)
        time.sleep(STEP)


def moment(day: str, hour: str) -> str:
    """A moment of the town's clocks as the library of faketime reads it: in UTC."""
    here = datetime.datetime.fromisoformat(f"{day} {hour}").replace(tzinfo=people.ZONE)
    return f"{here.astimezone(datetime.timezone.utc):%Y-%m-%d %H:%M:%S}\n"


def clocked(clock: str) -> dict[str, str]:
    """The environment of a program that reads this clock; FAKETIME_LIBRARY may name another library than Debian's."""
    library: str = os.environ.get("FAKETIME_LIBRARY", "") or next(
        iter(glob.glob("/usr/lib/*/faketime/libfaketime.so.1")), ""
    )
    return {
        **os.environ,
        "LD_PRELOAD": library,
        "FAKETIME_TIMESTAMP_FILE": clock,
        "FAKETIME_NO_CACHE": "1",
        "FAKETIME_DONT_FAKE_MONOTONIC": "1",
        "TZ": "UTC",
    }


class Desk:
    """A desk that serves a file by the clock, asked without the site."""

    def __init__(self, program: str, file: str, clock: str) -> None:
        self.program, self.file, self.clock, self.port = program, file, clock, free_port()
        self.process: subprocess.Popen[bytes] | None = None

    def set_clock(self, day: str, hour: str = people.NOON) -> None:
        Path(self.clock).write_text(moment(day, hour), "ascii")

    def start(self) -> None:
        words = [self.program, "serve", self.file, people.ZONE_OF_DESK, str(self.port), "1000000"]
        self.process = subprocess.Popen(
            words, env=clocked(self.clock), stdin=subprocess.DEVNULL, stderr=subprocess.PIPE
        )
        assert self.process.stderr
        said = self.process.stderr.readline().decode()
        if not said.startswith("listening"):
            raise Trouble(f"desk serve says {said!r}")

    def stop(self) -> None:
        if self.process:
            self.process.kill()
            self.process.wait()
            if self.process.stderr:
                self.process.stderr.close()
            self.process = None

    def ask(
        self,
        method: str,
        path: str,
        key: str,
        number: int | None = None,
        fields: dict[str, Any] | None = None,
    ) -> Any:
        line = http.client.HTTPConnection("127.0.0.1", self.port, timeout=120)
        with contextlib.closing(line):
            headers = {"Desk-Key": key, **({"Desk-Number": str(number)} if number else {})}
            line.request(method, path, None if fields is None else json.dumps(fields), headers)
            reply = line.getresponse()
            text = reply.read().decode()
            return json.loads(text) if "json" in (reply.headers.get("Content-Type") or "") else text

    def travel(self, day: str, folder: str) -> None:
        Path(f"{folder}/times.csv").write_text(people.travel_file(), "ascii")
        words: list[str | int] = [
            self.file,
            people.ZONE_OF_DESK,
            people.key_for("dispatcher"),
            100,
            day,
            f"{folder}/times.csv",
        ]
        given = ran(self.program, "travel", *words, env=clocked(self.clock))
        if given.stdout != b"done\n":
            raise Trouble(f"travel: {given}")


def requests_of(vans: int) -> Iterator[tuple[str, str, dict[str, Any]]]:
    """What makes the agency on its first day, as (holder, path, fields)."""
    digest = {
        holder: hashlib.sha256(key.encode()).hexdigest()
        for holder, key in people.keys_of(vans).items()
    }
    callers = [
        (
            "admin",
            "/callers",
            {"id": number, "role": role, "subject": subject, "digest": digest[holder]},
        )
        for number, role, subject, holder in people.callers_of(vans)
    ]
    yield from [it for it in callers if not it[2]["subject"]]
    yield "admin", "/policy", people.POLICY
    for number, _, _, x, y, _ in people.PLACES:
        yield "admin", "/places", {"id": number, "x": x, "y": y, "core": False}
    for route in people.agency_file(vans)["routes"]:
        yield "admin", "/routes", {name: value for name, value in route.items() if name != "name"}
    for van, _ in people.vans_of(vans):
        yield "dispatcher", "/vehicles", {
            "id": van,
            "from_day": people.FIRST_DAY,
            "days": people.EVERY_DAY,
            "depot": 5,
            "capacity": 6,
            "opens": 360,
            "closes": 1320,
            "duration": 960,
            "chairs": 1,
        }
    for rider in people.RIDERS:
        yield "clerk", "/riders", {
            "id": rider.number,
            "kind": "visitor" if rider.number == people.VISITOR else "resident",
            "attendant": rider.number in people.WITH_ATTENDANT,
            "wheelchair": rider.number in people.WITH_WHEELCHAIR,
        }
    yield from [it for it in callers if it[2]["subject"]]
    for number in [*people.GRANTED, people.WAITING, people.CONDITIONAL]:
        yield "clerk", f"/riders/{number}/entries", {"entry": "complete"}
    for number, condition in [
        *((it, "always") for it in people.GRANTED),
        (people.CONDITIONAL, "months:4,5"),
    ]:
        yield "examiner", f"/riders/{number}/entries", {
            "entry": "grant",
            "until": people.GRANTED_UNTIL,
            "conditions": [condition],
        }


def make_database(program: str, vans: int, folder: str) -> str:
    """The file of a town with so many vans and the trips of a day; of a new desk where there are none."""
    file, keys = f"{folder}/desk.db", people.keys_of(vans)
    numbers: dict[str, int] = {}
    made = ran(program, "init", file, people.ADMINS_KEY)
    if made.returncode:
        raise Trouble(f"init: {made}")
    if not vans:
        return file
    desk = Desk(program, file, f"{folder}/clock")
    desk.set_clock(people.FIRST_DAY)

    def asked(holder: str, path: str, fields: dict[str, Any]) -> Any:
        numbers[holder] = numbers.get(holder, 0) + 1
        reply = desk.ask("POST", path, keys[holder], numbers[holder], fields)
        if "denied" in reply:
            numbers[holder] -= 1
        return reply

    with contextlib.ExitStack() as ending:
        ending.callback(desk.stop)
        desk.start()
        for holder, path, fields in requests_of(vans):
            reply = asked(holder, path, fields)
            if "denied" in reply:
                raise Trouble(f"POST {path} {fields} as {holder}: {reply}")
        desk.stop()
        desk.travel(people.FIRST_DAY, folder)
        desk.set_clock(people.TODAY)
        desk.start()
        for fields in people.wishes(vans):
            asked("clerk", "/trips", fields)
    return file


def copy_of_database(program: str, vans: int, towns: str, file: str) -> None:
    """Copies the database of such a town, which is made where it is not there yet."""
    os.makedirs(towns, exist_ok=True)
    with open(program, "rb") as binary, open(people.__file__, "rb") as names:
        made_by = inspect.getsource(requests_of) + inspect.getsource(make_database)
        version = hashlib.sha256(binary.read() + names.read() + made_by.encode()).hexdigest()[:16]
    kept = f"{towns}/{version}-{vans}"
    with open(f"{towns}/lock-{vans}", "w", encoding="ascii") as lock:
        fcntl.flock(lock, fcntl.LOCK_EX)
        if not os.path.isdir(kept):
            with contextlib.suppress(FileNotFoundError):
                shutil.rmtree(f"{kept}.new")
            os.makedirs(f"{kept}.new")
            make_database(program, vans, f"{kept}.new")
            os.rename(f"{kept}.new", kept)
    with contextlib.closing(sqlite3.connect(f"{kept}/desk.db")) as whole:
        with contextlib.closing(sqlite3.connect(file)) as copy:
            whole.backup(copy)
