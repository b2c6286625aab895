"""Tries deploy/archive: `try-archive PROGRAM`.

A file with three years of trips of residents and visitors, with stops and wheelchair marks, is divided on a day. A dry
run says what would be done, and does nothing. Then each row is in the archive or stays, the desk opens both files and
prints of a day what it printed before, a second archive can follow, and a visitor may ride on the same days as before.
What may not be done is refused and changes nothing: a day of the last 366, a file that another process has, an archive
that is there. A row that is lost on the way is found, and a kill before each step leaves the earlier file or the new
one, whole. That no visitor's years are counted otherwise afterwards is tried with random days of use.

The last line is 'N passed, M failed', and the exit status 1 where something failed.
"""
import contextlib
import datetime
import hashlib
import os
import random
import re
import shutil
import signal
import sqlite3
import subprocess
import sys
import tempfile

from desk_tools.tree import TOP
from desk_tools.ops.archiving import days_that_count
from desk_tools.ops.locking import locked
from serving import (
    SECONDS,
    content_of,
    content_of_copy,
    difference,
    faults_of_database,
    ran,
    tally,
    told_program,
)

KEY, ZONE = "radio", "UTC0"
EPOCH = datetime.date(1970, 1, 1)
TODAY = (datetime.date.today() - EPOCH).days
FIRST, CUT = TODAY - 1100, TODAY - 500
VANS, A_DAY, EACH = 2, 4, 28
RESIDENT, VISITOR = 0, 1
DATED = ("trips", "stops", "trip_chairs")
SEED, TURNS = 37137, 1000
# (a program that is not proved opens a file slowly)
LONG = 10 * SECONDS
PERIOD, MOST_DAYS = 365, 21
JUDGE = "#!/bin/sh\necho desk.key\nexit 1\n"
RUNNER = """
import os, signal, sys
from desk_tools.ops import archiving
from desk_tools.ops.archiving import Archive
from desk_tools.ops.ending import run_script
from desk_tools.ops.places import Desk

def die(*_, **__):
    os.kill(os.getpid(), signal.SIGKILL)

def after(name, statement):
    plain = getattr(archiving, name)
    def changed(database, division):
        plain(database, division)
        database.execute(statement)
    setattr(archiving, name, changed)

exec(sys.argv[3])
sys.exit(run_script("archive", lambda _: print(*Archive(Desk(), sys.argv[1], sys.argv[2]).make(), sep=chr(10)), []))
"""


def day_of(number):
    return (EPOCH + datetime.timedelta(days=number)).isoformat()


# A file with years.


def trips():
    """A_DAY trips of each van on each EACH-th day; every fourth was cancelled, and some were missed."""
    number = 0
    for day in range(FIRST, TODAY + 10, EACH):
        for van in range(1, VANS + 1):
            for turn in range(A_DAY):
                number += 1
                rider = 1 + number % 12
                status = 1 if turn == 3 else 0 if day >= TODAY else 3 if number % 11 == 0 else 2
                yield number, rider, day, 600, 1, 1, -1, 0, 0, 200, 0, 0, van, 540, 555, status


def fill(program, file):
    """A desk with riders 1 to 12, of whom the odd ones are visitors and each fourth comes in a wheelchair."""
    if ran(program, "init", file, "abc").returncode:
        raise OSError("init")
    every = list(trips())
    standing = [it for it in every if it[15] != 1]
    with contextlib.closing(sqlite3.connect(file)) as db, db:
        db.execute(
            "INSERT INTO callers VALUES (2, 4, 0, ?)", (hashlib.sha256(KEY.encode()).digest(),)
        )
        db.execute("INSERT INTO places VALUES (1, 0, 0, 0)")
        db.executemany(
            "INSERT INTO vehicles VALUES (?, ?, 127, 1, 4, 0, 1439, 1439)",
            ((it, FIRST) for it in range(1, VANS + 1)),
        )
        db.executemany(
            "INSERT INTO vehicle_chairs VALUES (?, ?, 2)",
            ((it, FIRST) for it in range(1, VANS + 1)),
        )
        db.executemany("INSERT INTO riders VALUES (?, ?, 0)", ((it, it % 2) for it in range(1, 13)))
        db.executemany("INSERT INTO rider_chairs VALUES (?)", ((it,) for it in (4, 8, 12)))
        db.executemany(f"INSERT INTO trips VALUES ({', '.join('?' * 16)})", every)
        db.executemany(
            "INSERT INTO trip_chairs VALUES (?)", ((it[0],) for it in every if it[1] % 4 == 0)
        )
        places = {}
        for it in standing:
            for kind in (0, 1):
                at = places[it[12], it[2]] = places.get((it[12], it[2]), -1) + 1
                db.execute(
                    "INSERT INTO stops VALUES (?, ?, ?, ?, ?)", (it[12], it[2], at, it[0], kind)
                )
        db.execute("UPDATE desk SET last_trip = ?", (len(every) + 5,))
    return file


def printed(program, file, number):
    """What the desk prints of a day, of a copy, so that nothing is left beside the file."""
    with tempfile.TemporaryDirectory() as folder:
        shutil.copyfile(file, f"{folder}/copy.db")
        words = [program, "trips", f"{folder}/copy.db", ZONE, KEY, day_of(number)]
        return subprocess.run(words, capture_output=True, timeout=LONG).stdout


# Visitors.


def may_use(uses, day):
    """Whether a visitor may ride on the day, as docs/RULES.md has it."""
    days = sorted({*uses, day})
    opening = days[0]
    for it in days:
        opening = it if it <= day and it >= opening + PERIOD else opening
    return sum(opening <= it < opening + PERIOD for it in days) <= MOST_DAYS


def faults_of_years():
    """With the days that stay each later day may be used exactly where it might be with all of them."""
    chance = random.Random(SEED)
    fault = None
    for _ in range(TURNS):
        today, cut = 1500, chance.randrange(300, 1500 - 366 + 1)
        count = chance.choice((2, 3, 5, 10, 40, 120))
        uses = {chance.randrange(0, today + 14): chance.random() < 0.8 for _ in range(count)}
        staying = days_that_count(uses, cut)
        # (a trip without an outcome may be told as missed, and is then no use; but none that is in the archive alone)
        left = {
            it
            for it, is_ridden in uses.items()
            if is_ridden or it < cut and it not in staying or chance.random() < 0.7
        }
        kept = {it for it in left if it >= cut or it in staying}
        for day in range(today, today + 15):
            if may_use(left, day) != may_use(kept, day):
                fault = f"with a cut on {cut}, day {day} is counted otherwise: {sorted(uses.items())}; {staying} stay"
    yield fault


# An archive.


class Office:
    """A file of years in a folder of its own, and the program that judges it."""

    def __init__(self, program, folder):
        self.program, self.folder = program, folder
        self.whole, self.state, self.file = (
            f"{folder}/whole.db",
            f"{folder}/state",
            f"{folder}/state/desk.db",
        )
        self.archive, self.judge = f"{folder}/archives/old.db", f"{folder}/judge"
        os.mkdir(f"{folder}/archives")
        with open(self.judge, "w", encoding="utf-8") as text:
            text.write(JUDGE)
        os.chmod(self.judge, 0o755)
        fill(program, self.whole)
        self.content = content_of(self.whole)
        self.fresh()

    def fresh(self):
        shutil.rmtree(self.state, ignore_errors=True)
        os.mkdir(self.state, 0o700)
        shutil.copyfile(self.whole, self.file)
        with contextlib.suppress(FileNotFoundError):
            os.remove(self.archive)

    def environment(self, program=None):
        return {**os.environ, "FILE": self.file, "DESK": program or self.judge}

    def archived(self, *words, program=None):
        return subprocess.run(
            [f"{TOP}/deploy/archive", *words],
            env=self.environment(program),
            capture_output=True,
            text=True,
            timeout=LONG,
        )

    def changed(self, change):
        return subprocess.run(
            [sys.executable, "-B", "-c", RUNNER, day_of(CUT), self.archive, change],
            env=self.environment(),
            capture_output=True,
            text=True,
            timeout=SECONDS,
        )

    def is_as_before(self):
        with open(self.whole, "rb") as before, open(self.file, "rb") as now:
            return before.read() == now.read()

    def faults_of_refused(self, label, wanted, told, status=1):
        is_told = (
            told.returncode == status
            and wanted in told.stderr
            and (status == 2 or told.stderr.count("\n") == 1)
        )
        yield None if is_told else f"{label}: {said_by(told)}"
        yield difference(f"{label}: the file is as before", True, self.is_as_before())
        yield difference(f"{label}: the files", ["desk.db"], os.listdir(self.state))
        yield difference(f"{label}: the archives", [], os.listdir(f"{self.folder}/archives"))


def said_by(told):
    return f"status {told.returncode}, {told.stdout!r}, {told.stderr!r}"


def faults_of_dry_run(office):
    told = office.archived(day_of(CUT), "--dry-run")
    old = sum(1 for row in office.content["trips"] if row[2] < CUT)
    wanted = (
        rf": {old:,} of {len(office.content['trips']):,} trips, .*(\d+) of these trips stay too"
    )
    yield None if told.returncode == 0 and re.search(
        wanted, told.stdout, re.DOTALL
    ) else f"a dry run: {said_by(told)}"
    yield difference("a dry run: the file is as before", True, office.is_as_before())
    yield difference("a dry run: the files", ["desk.db"], os.listdir(office.state))


def faults_of_refusals(office):
    latest = EPOCH + datetime.timedelta(days=TODAY - 366)
    for label, words, wanted, status in (
        (
            "a day of the last 366",
            [str(latest + datetime.timedelta(days=2)), office.archive],
            "the last 366 days stay",
            2,
        ),
        ("no day", ["2024-02-30", office.archive], "is no day", 2),
        ("no archive", [day_of(CUT)], "ARCHIVE is missing", 2),
        ("a day before all", [day_of(FIRST), office.archive], "there are no trips before", 1),
        (
            "a folder that is not there",
            [day_of(CUT), f"{office.folder}/nowhere/old.db"],
            "there is no folder",
            2,
        ),
    ):
        yield from office.faults_of_refused(label, wanted, office.archived(*words), status)
    with locked(office.file):
        yield from office.faults_of_refused(
            "a file that another has",
            "stop the desk first",
            office.archived(day_of(CUT), office.archive),
        )


def faults_of_archive(office):
    """Each row is where it belongs, the desk opens both, and prints what it printed."""
    program, days = office.program, [
        FIRST,
        FIRST + EACH * 10,
        FIRST + EACH * ((CUT - FIRST) // EACH + 5),
    ]
    before = [printed(program, office.whole, it) for it in days]
    told = office.archived(day_of(CUT), office.archive, program=program)
    yield None if told.returncode == 0 else f"an archive: {said_by(told)}"
    old, now = content_of_copy(office.archive), content_of_copy(office.file)
    yield from (
        difference(f"table {it}", (office.content[it],) * 2, (old[it], now[it]))
        for it in office.content
        if it not in DATED
    )
    yield difference(
        "the trips of the archive",
        [it for it in office.content["trips"] if it[2] < CUT],
        old["trips"],
    )
    yield difference(
        "the trips of the days that stay",
        [it for it in office.content["trips"] if it[2] >= CUT],
        [it for it in now["trips"] if it[2] >= CUT],
    )
    for table in DATED:
        yield difference(
            f"all rows of {table}", {*office.content[table]}, {*old[table], *now[table]}
        )
    count = sum(1 for it in now["trips"] if it[2] < CUT)
    yield None if 0 < count < 100 else f"{count} trips stay for visitors"
    after = [
        printed(program, office.archive, days[0]),
        printed(program, office.archive, days[1]),
        printed(program, office.file, days[2]),
    ]
    yield difference("what is printed of days", before, after)
    yield difference(
        "what the desk's file has of an old day",
        1,
        printed(program, office.file, days[0]).count(b"\n"),
    )
    for path in (office.archive, office.file):
        yield from faults_of_database(path)
        yield difference(f"the mode of {path}", 0o600, os.stat(path).st_mode & 0o777)
    yield difference("files beside", 2, len(os.listdir(office.state)))
    yield from faults_of_uses(office, now)


def faults_of_uses(office, now):
    """Each visitor may ride on the same days as before."""
    for rider in range(1, 13, 2):
        uses = [
            {row[2] for row in it["trips"] if row[1] == rider and row[15] in (0, 2)}
            for it in (office.content, now)
        ]
        days = range(TODAY, TODAY + 15)
        yield difference(
            f"the days of visitor {rider}",
            [may_use(uses[0], it) for it in days],
            [may_use(uses[1], it) for it in days],
        )


def faults_of_second(office):
    """A year later a second archive takes what stayed."""
    told = office.archived(day_of(CUT + 100), f"{office.folder}/archives/second.db")
    yield None if told.returncode == 0 else f"a second archive: {said_by(told)}"
    first, second, now = (
        content_of_copy(it)
        for it in (office.archive, f"{office.folder}/archives/second.db", office.file)
    )
    for table in DATED:
        yield difference(
            f"all rows of {table} in three files",
            {*office.content[table]},
            {*first[table], *second[table], *now[table]},
        )
    os.remove(f"{office.folder}/archives/second.db")


def faults_of_lost_rows(office):
    """A row that is lost or changed on the way is found before anything is replaced."""
    for label, change, wanted in (
        (
            "a trip that is lost",
            'after("keep_before", "DELETE FROM trips WHERE id = (SELECT min(id) FROM trips WHERE status = 1)")',
            "belongs",
        ),
        (
            "a mark that is lost",
            'after("keep_after", "DELETE FROM trip_chairs WHERE trip = (SELECT max(trip) FROM trip_chairs)")',
            "belongs",
        ),
        (
            "a fare that is changed",
            'after("keep_after", "UPDATE trips SET fare = 201 WHERE id = (SELECT max(id) FROM trips)")',
            "belongs",
        ),
        (
            "a rider more",
            'after("keep_before", "INSERT INTO riders VALUES (99, 0, 0)")',
            "more rows",
        ),
        (
            "a stop of no trip",
            'after("keep_after", "UPDATE stops SET trip = 1")',
            "refers to no row",
        ),
    ):
        office.fresh()
        yield from office.faults_of_refused(label, wanted, office.changed(change))


def faults_of_kills(office):
    """A kill before each step leaves the earlier file, in its place or in the folder that keeps it."""
    with open(office.whole, "rb") as file:
        whole = file.read()
    for step in (
        "copied",
        "judge",
        "keep_before",
        "keep_after",
        "check_rows",
        "give_name",
        "tempfile.mkdtemp",
        "os.rename",
        "synced",
    ):
        office.fresh()
        told = office.changed(f"archiving.{step} = die")
        yield difference(f"a kill at {step}", -signal.SIGKILL, told.returncode)
        there = [
            f"{path}/{name}"
            for path, _, names in os.walk(office.state)
            for name in names
            if name == "desk.db"
        ]
        found = []
        for path in there:
            with open(path, "rb") as file:
                found.append(file.read())
        yield None if whole in found else f"a kill at {step}: the earlier file is gone"
        now = content_of_copy(office.file) if os.path.exists(office.file) else office.content
        is_known = now in (office.content, office.expected)
        yield None if is_known else f"a kill at {step}: the desk's file is neither the earlier nor the new one"


def faults(program, folder):
    yield from faults_of_years()
    office = Office(program, folder)
    yield from faults_of_dry_run(office)
    yield from faults_of_refusals(office)
    yield from faults_of_archive(office)
    office.expected = content_of_copy(office.file)
    yield from faults_of_second(office)
    yield from faults_of_lost_rows(office)
    yield from faults_of_kills(office)


def main(words):
    program, _ = told_program(words, __doc__)
    with tempfile.TemporaryDirectory(prefix="desk-archive-") as folder:
        return tally("deploy/try-archive", faults(program, folder))


if __name__ == "__main__":
    sys.exit(main(sys.argv[1:]))
