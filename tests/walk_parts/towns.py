"""A town made by a seed: tests/browser's town, ten weeks later, with riders of every standing and homes that are shared."""

import csv
import datetime
import hashlib
import io
import os
import random
import subprocess
import time
from pathlib import Path
from typing import Any

import people
import town as base
from database import ROOT, Trouble
from serving import free_port

from walk_parts.cases import WITHOUT_LETTER
from walk_parts.recorder import Recorder

EARLIEST, START = datetime.date.fromisoformat(people.TODAY), datetime.date(2025, 5, 19)
FIRST_RIDER, FIRST_CALLER = 1100, 500
# First name, last name: two pairs have the same, and names are written in many ways.
NAMES = [
    "Mary McDonald",
    "Mary McDonald",
    "José Núñez",
    "Ana Núñez-Ortiz",
    "Seán O’Brien",
    "Nguyễn Thị Hồng",
    "Walter Kowalski",
    "Irene Kowalski",
    "Jo Li",
    "Maximiliana Featherstonehaugh-Cholmondeley",
    "D'Angelo Russo",
    "María del Carmen de la Cruz",
    "Bob Smith",
    "Bob Smith",
    "Zoë Brontë",
    "Ole Åsen",
    "Fatima al-Zahra",
    "Xu Wei",
    "Peter Van der Berg",
    "Ines Pérez",
]
# Each standing is somebody's, whatever the seed.
STANDINGS = [
    "always",
    "always",
    "waits",
    "presumed",
    "presumed tomorrow",
    "conditional",
    "temporary",
    "refused",
    "refused sixty",
    "refused long",
    "appeal waits",
    "appeal overdue",
    "appeal denied",
    "suspended",
    "noticed",
    "visitor",
    "always",
    "nolift",
    "always",
    "suspension appealed",
]
HOMES = [11, 12, 13, 14]


def day_at(offset: int) -> str:
    """The day so many days from the first day of the walk."""
    return (START + datetime.timedelta(days=offset)).isoformat()


class Person:
    """A rider of the walk."""

    def __init__(
        self, number: int, name: str, standing: str, home: int | None, choice: random.Random
    ) -> None:
        self.number, self.name, self.standing, self.home = number, name, standing, home
        self.telephone = f"(315) 555-{number}"
        self.language = "es" if choice.random() < 0.2 else "en"
        self.usual = choice.sample([1, 2, 3, 6, 7, 8, 9], 2)
        self.attendant, self.wheelchair = choice.random() < 0.3, choice.random() < 0.25
        self.kind = "visitor" if standing == "visitor" else "resident"


class WalkTown(base.Town):
    """Desk, site and files. `ask` speaks to the desk itself, beside the site and beside what is recorded."""

    def __init__(self, program: str, folder: str, towns: str, seed: int) -> None:
        choice = random.Random(f"town {seed}")
        super().__init__(program, folder, 1 if choice.random() < 0.5 else 3, towns)
        self.middle.close()
        self.middle = self.recorder = Recorder(free_port(), self.desk.port)
        self.choice = choice
        shuffled = STANDINGS[:]
        choice.shuffle(shuffled)
        self.riders = [
            Person(FIRST_RIDER + at, name, shuffled[at], choice.choice([*HOMES, None]), choice)
            for at, name in enumerate(NAMES)
        ]
        self.numbers: dict[str, int] = {}
        self.last_minute = choice.choice([1439, 1439, 1380, 1425])
        self.tally_log = f"{folder}/tally.log"
        self.ahead = 0
        self.worklists: list[str] = []
        self.known_letters: dict[int, list[tuple[int, str]]] = {}

    # The agency's files.

    def agency(self) -> dict[str, Any]:
        """The agency's own file: shared homes, and lines that end where the seed says."""
        whole: dict[str, Any] = people.agency_file(self.vans)
        for place in whole["places"]:
            mine = [it.number for it in self.riders if it.home == place["id"]]
            if mine and place["private"]:
                place["private"] = sorted({*mine, place["private"]})
        for line in whole["routes"]:
            line["last"] = self.last_minute
        return whole

    def write_files(self, **changed: Any) -> None:
        """The site's files by bin/site-files."""
        if not hasattr(self, "riders"):
            super().write_files(**changed)
            return
        head = ["rider", "name", "telephone", "language", "home", "usual", "aid", "note"]
        rows = [list(map(str, it[:8])) for it in people.RIDERS]
        rows += [
            [
                str(it.number),
                it.name,
                it.telephone,
                it.language,
                str(it.home or ""),
                ";".join(map(str, it.usual)),
                "",
                "",
            ]
            for it in self.riders
        ]
        text = io.StringIO()
        csv.writer(text, lineterminator="\n").writerows([head, *rows])
        base.write_site_files(
            self.folder, {**self.agency(), **changed}, text.getvalue(), people.drivers_file()
        )
        self.write_drivers_files()

    # What happened before the walk.

    def ask(self, holder: str, path: str, fields: dict[str, Any] | None = None) -> Any:
        """The desk's own reply, to a read or to a write."""
        key = self.keys[holder]
        if fields is None:
            return self.desk.ask("GET", path, key)
        number = self.numbers.get(holder, self.number) + 1
        reply = self.desk.ask("POST", path, key, number, fields)
        if reply.get("denied") == "desk.number":
            number += 1_000_000
            reply = self.desk.ask("POST", path, key, number, fields)
        self.numbers[holder] = number
        return reply

    def sure(self, holder: str, path: str, fields: dict[str, Any]) -> Any:
        """The same of what has to be taken."""
        reply = self.ask(holder, path, fields)
        if "denied" in reply:
            raise Trouble(f"the town cannot be made: POST {path} {fields} as {holder}: {reply}")
        return reply

    def make(self) -> None:
        """Makes the town's past, day by day, up to the first day of the walk."""
        self.make_callers()
        for line in self.agency()["routes"]:
            self.sure(
                "admin", "/routes", {name: value for name, value in line.items() if name != "name"}
            )
        past: dict[int, list[tuple[str, str, dict[str, Any]]]] = {}
        for rider in self.riders:
            for offset, holder, path, fields in past_of(rider):
                past.setdefault(offset, []).append((holder, path, fields))
        for offset in sorted(past):
            for holder, path, fields in past[offset]:
                self.happens(offset, holder, path, fields)
        self.today = day_at(0)
        self.desk.set_clock(self.today)
        self.fill_the_days()

    def make_callers(self) -> None:
        """Records and keys of the riders, and keys of staff for further windows."""
        self.desk.set_clock(EARLIEST.isoformat())
        for rider in self.riders:
            self.sure(
                "clerk",
                "/riders",
                {
                    "id": rider.number,
                    "kind": rider.kind,
                    "attendant": rider.attendant,
                    "wheelchair": rider.wheelchair,
                },
            )
            holder = f"rider {rider.number}"
            self.keys[holder] = people.key_for(holder)
            self.sure(
                "admin",
                "/callers",
                {
                    "id": FIRST_CALLER + rider.number,
                    "role": "rider",
                    "subject": rider.number,
                    "digest": hashlib.sha256(self.keys[holder].encode()).hexdigest(),
                },
            )

    def happens(self, offset: int, holder: str, path: str, fields: dict[str, Any]) -> None:
        """One thing of the past. A trip that was missed is booked the day before and ends as missed."""
        self.desk.set_clock(day_at(offset))
        if path != "missed":
            self.sure(holder, path, fields)
            return
        reply = self.sure("third clerk", "/trips", {**fields, "day": day_at(offset + 1)})
        self.desk.set_clock(day_at(offset + 1), "23:30")
        self.sure("dispatcher", f"/trips/{reply['trip']}/outcome", {"outcome": "missed-rider"})

    def fill_the_days(self) -> None:
        """Trips of the next days, and on one of them until no van takes one more; some of today."""
        choice = self.choice
        may = [
            it
            for it in self.riders
            if it.standing in ("always", "presumed", "temporary", "appeal overdue")
        ]
        self.desk.set_clock(day_at(-1))
        for day in (0, 1, 2, 3):
            for _ in range(choice.randint(6, 12) * (1 if self.vans == 1 else 2)):
                self.book_one(choice.choice(may).number, day_at(day), choice)
        self.desk.set_clock(self.today)
        self.full_day = day_at(choice.randint(1, 5))
        for _ in range(40 * self.vans):
            self.book_one(choice.choice(people.GRANTED), self.full_day, choice)

    def book_one(self, rider: int, day: str, choice: random.Random) -> None:
        """A trip somewhere, if the desk takes it."""
        start, end = choice.sample([1, 2, 3, 6, 7, 8, 9], 2)
        self.ask(
            "third clerk",
            "/trips",
            {
                "rider": rider,
                "day": day,
                "wish": choice.randint(380, 1320),
                "from": start,
                "to": end,
                "by": None,
                "attendant": False,
                "companions": 0,
            },
        )

    def trips(self, rider: int) -> list[dict[str, Any]]:
        """A rider's trips, as the desk has them now."""
        found: list[dict[str, Any]] = self.ask("third clerk", f"/riders/{rider}/trips").get(
            "trips", []
        )
        return found

    def letters(self, rider: int) -> list[tuple[int, str]]:
        """A rider's letters with their places in the case file. None changes, so those that are known are not read again."""
        known = self.known_letters.setdefault(rider, [])
        entry, without = (known[-1][0] + 1 if known else 0), 0
        while without <= WITHOUT_LETTER:
            text = self.ask("third clerk", f"/riders/{rider}/letters/{entry}")
            without = 0 if isinstance(text, str) else without + 1
            if isinstance(text, str):
                known.append((entry, text))
            entry += 1
        return known

    def write_worklist(self) -> None:
        """What waits, of a copy of the desk's file, as each night's unit makes it."""
        path = f"{self.folder}/site/staff/worklist.html"
        words = [
            f"{ROOT}/bin/worklist",
            self.copied(),
            "--html",
            path,
            "--today",
            self.today,
            "--program",
            self.desk.program,
            "--agency",
            f"{self.folder}/source-agency.json",
            "--roster",
            f"{self.folder}/source-roster.csv",
        ]
        made = subprocess.run(words, capture_output=True, text=True, check=False)
        if made.returncode:
            raise Trouble(f"bin/worklist: {made.stderr}")
        self.worklists.append(Path(path).read_text("utf-8"))

    def now(self) -> datetime.datetime:
        """What the town's clock shows."""
        return datetime.datetime.fromtimestamp(time.time() + self.ahead, people.ZONE)

    def goes_to(self, moment: datetime.datetime) -> None:
        """The town's clock goes on from this moment. It runs, as clocks do: a page asks again after so many seconds of it. The night makes the list of what waits."""
        self.ahead = round(moment.timestamp() - time.time())
        Path(f"{self.desk.clock}.new").write_text(f"{self.ahead:+d}\n", "ascii")
        # (a program that reads an empty file would believe the machine's clock)
        os.replace(f"{self.desk.clock}.new", self.desk.clock)
        if (day := self.now().date().isoformat()) != self.today or not self.worklists:
            self.today = day
            self.write_worklist()
            self.write_drivers_files()

    def tally_lines(self) -> list[str]:
        """The lines of the site's log of what it was told."""
        if not os.path.exists(self.tally_log):
            return []
        return Path(self.tally_log).read_text("utf-8").splitlines()


Past = list[tuple[int, str, str, dict[str, Any]]]


def past_of(rider: Person) -> Past:
    """What brought a rider to the standing of the first day, as (days from it, holder, path, fields)."""
    path = f"/riders/{rider.number}/entries"

    def grant(offset: int, until: int, *conditions: str) -> Past:
        return [
            (offset - 5, "clerk", path, {"entry": "complete"}),
            (
                offset,
                "examiner",
                path,
                {
                    "entry": "grant",
                    "until": day_at(until),
                    "conditions": list(conditions) or ["always"],
                },
            ),
        ]

    def refuse(offset: int) -> Past:
        return [
            (offset - 5, "clerk", path, {"entry": "complete"}),
            (
                offset,
                "examiner",
                path,
                {
                    "entry": "refuse",
                    "reasons": "You can reach each bus stop near your home, and each bus has a lift.",
                },
            ),
        ]

    def appeal(offset: int) -> Past:
        return [(offset, "clerk", path, {"entry": "appeal", "against": 1})]

    heard = {"entry": "heard"}
    trip = {
        "rider": rider.number,
        "wish": 600,
        "from": 1,
        "to": 2,
        "by": None,
        "attendant": False,
        "companions": 0,
    }
    missed: Past = [*grant(-50, 200), (-10, "clerk", "missed", trip)]
    noticed: Past = [
        *missed,
        (-8, "clerk", path, {"entry": "notice", "basis": "A trip of this month was missed."}),
    ]
    suspended: Past = [
        *noticed,
        (-7, "officer", path, {"entry": "notice-heard"}),
        (
            -6,
            "officer",
            path,
            {
                "entry": "suspend",
                "starts": day_at(-5),
                "ends": day_at(8),
                "reasons": "Trips were missed without a call.",
            },
        ),
    ]
    pasts: dict[str, Past] = {
        "always": grant(-40, 200),
        "waits": [(-5, "clerk", path, {"entry": "complete"})],
        "presumed": [(-22, "clerk", path, {"entry": "complete"})],
        "presumed tomorrow": [(-20, "clerk", path, {"entry": "complete"})],
        "conditional": grant(-40, 200, "months:1,2,12", "farther:2640"),
        "nolift": grant(-40, 90, "nolift"),
        "temporary": grant(-40, 3),
        "refused": refuse(-3),
        "refused sixty": refuse(-60),
        "refused long": refuse(-61),
        "appeal waits": [*refuse(-40), *appeal(-20)],
        "appeal overdue": [*refuse(-45), *appeal(-40), (-31, "officer", path, heard)],
        "appeal denied": [
            *refuse(-45),
            *appeal(-40),
            (-20, "officer", path, heard),
            (
                -10,
                "officer",
                path,
                {"entry": "appeal-denied", "reasons": "The hearing showed nothing new."},
            ),
        ],
        "suspended": suspended,
        "noticed": noticed,
        "suspension appealed": [*suspended, (-3, "clerk", path, {"entry": "appeal", "against": 4})],
        "visitor": [],
    }
    return pasts[rider.standing]
