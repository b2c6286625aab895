"""Makes the files of an office: its database with the made past, the agency's file, the roster, and a denied trip."""

from __future__ import annotations

import csv
import datetime
import json
import os
import secrets
import time
from collections.abc import Callable, Iterator
from pathlib import Path
from typing import Any

from desk_tools.demo import past, rows, town
from desk_tools.demo.keys import write_keys
from desk_tools.demo.serving import ran, Trouble

DATABASE, KEYS, AGENCY, ROSTER = "desk.db", "keys.json", "agency.json", "roster.csv"
DRIVERS, DENIED = "drivers.csv", "denied"
CALLERS = [*past.STAFF, *past.DRIVERS, *past.RIDERS_WITH_KEYS]
# From when on the agency is there: before the first application.
FIRST_DAY = -70
# Trips that no van takes: in the evening home from the hospital, and still later home from the train.
RIDER, LATE, HOME = 104, 1_300, 21
STATION, LATER, WEST = 10, 1_375, 25


def use_clock() -> None:
    """From here on this program goes by the clocks of the town."""
    os.environ["TZ"] = town.ZONE_RULE
    time.tzset()


def minute_now() -> int:
    now = time.localtime()
    return now.tm_hour * 60 + now.tm_min


def noon_zone(today: Any) -> str:
    """A zone whose clocks show midday of that day now, so that no midnight comes between two requests."""
    now = datetime.datetime.now(datetime.timezone.utc)
    midnight = datetime.datetime.combine(today, datetime.time(), datetime.timezone.utc)
    return f"<DAY>{int((now - midnight).total_seconds() // 3600) - 12:+d}"


def write_text(path: str, text: str) -> None:
    Path(path).write_text(text, "utf-8")


def write_rows(path: str, lines: list[Any]) -> None:
    with open(path, "w", encoding="utf-8", newline="") as file:
        csv.writer(file, lineterminator="\n").writerows(lines)


def write_agency(folder: str, people: list[town.Rider]) -> None:
    """The agency's own files, from which those of the site are derived."""
    write_text(f"{folder}/{AGENCY}", json.dumps(town.agency(), indent=1, ensure_ascii=False) + "\n")
    write_rows(f"{folder}/{ROSTER}", town.roster_rows(people))
    write_rows(
        f"{folder}/{DRIVERS}",
        [("rider", "name", "note"), *((it.id, it.name, it.note) for it in people)],
    )


def make_database(program: str, file: str) -> None:
    """An empty desk. Nobody has the key of its admin yet."""
    made = ran(program, "init", file, secrets.token_hex(16))
    if made.returncode:
        raise Trouble(
            f"the desk makes no database {file}: {made.stderr.decode(errors='replace').strip()}"
        )


def late_wishes(today: datetime.date) -> Iterator[list[str | int]]:
    """Trips in the evening, when the bus lines still run: first on a Sunday, when few vans are on duty."""
    days = [today + datetime.timedelta(days=it) for it in range(2, 9)]
    for day in sorted(days, key=lambda it: it.isoweekday() != 7):
        yield [RIDER, day.isoformat(), LATE, town.HOSPITAL, HOME, "none", 0, 0]
    yield [RIDER, days[0].isoformat(), LATER, STATION, WEST, "none", 0, 0]


def write_denial(
    program: str, folder: str, work: str, keys: dict[str, str], today: datetime.date
) -> None:
    """A trip that no van can take, with the log that shows why. It asks a copy in `work`: the desk serves meanwhile."""
    file, room, said = f"{work}/{DATABASE}", f"{folder}/{DENIED}", b""
    for words in late_wishes(today):
        log = ran(program, "explain", file, town.ZONE_RULE, keys["dispatcher"], *words)
        said = log.stdout[:200] + log.stderr[:200]
        if log.returncode == 0:
            os.makedirs(room, exist_ok=True)
            Path(f"{room}/refusal.log").write_bytes(log.stdout)
            judged = ran(
                program,
                "audit",
                f"{room}/refusal.log",
                file,
                town.ZONE_RULE,
                keys["dispatcher"],
                *words,
            )
            write_text(f"{room}/README.txt", denial_text(words, judged.stdout.decode().strip()))
            return
    raise Trouble(
        f"the desk denies no trip for want of a van: {said.decode(errors='replace').strip()}"
    )


def denial_text(words: list[Any], judged: str) -> str:
    rider, day, wish, start, end, *_ = words
    asked = " ".join(map(str, words))
    return (
        f"Rider {rider} asks for a trip on {day} at {wish // 60:02}:{wish % 60:02} from place {start} to place {end}.\n"
        "The desk denies it: no vehicle. refusal.log goes through each van and each place in its route, and says what\n"
        f"is in the way. The desk's own checker was asked whether the log shows that. It says: {judged}.\n\n"
        "With the office stopped, these commands do the same in the office's folder:\n\n"
        f"  desk explain desk.db {town.ZONE_RULE} KEY {asked} > refusal.log\n"
        f"  desk audit refusal.log desk.db {town.ZONE_RULE} KEY {asked}\n\n"
        "KEY is the dispatcher's, which the office prints. docs/AUDIT.md tells how to read the log.\n"
    )


def make(program: str, folder: str, today: datetime.date, step: Callable[..., Any]) -> None:
    """All files of an office, in an empty folder."""
    people, file = town.riders(), f"{folder}/{DATABASE}"
    keys = write_keys(f"{folder}/{KEYS}", CALLERS)
    with step("writing the agency's file and the roster of 200 riders"):
        write_agency(folder, people)
    with step("making the database: three weeks of trips behind, and ten days ahead"):
        make_database(program, file)
        trips = past.trips_between(today, minute_now(), past.FIRST_TRIPS, past.LAST_TRIPS)
        rows.write_office(file, people, keys, today, trips, FIRST_DAY)
