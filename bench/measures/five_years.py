"""What the desk does over a file of years: `bench/five_years PROGRAM`, or with --make FILE only that file.

Makes the file of an agency with 50 vans, 20,000 riders and 1,500,000 trips, some five years of them, and one of the same
agency with only the plans of the coming fourteen days, which both have. PROGRAM opens each and serves it; reads, bookings
and a backup are measured, and beside the larger file what C's SQLite takes to read or write the same rows. Each
figure is the least of three turns, by the clock on the wall and by that of the processor. The second holds where other
work runs on the machine. The files are in FOLDER, which tells the disk, or in a new folder of the machine's temporary one.
"""
import argparse
import collections
import contextlib
import datetime
import itertools
import os
import re
import shutil
import sqlite3
import subprocess
import sys
import tempfile
import time

from desk_tools.tree import TOP
from many_rows import (BUSIEST, CLERKS_KEY, DISPATCHERS_KEY, RIDER, RIDERS_KEY, RIDERS_TRIPS, THE_VISITOR, Years, number_of,
                       sizes_of)
from measuring import Cost, as_deployed, cost_of, has_deployed_allocator, held, least, machine, processor_of
from serving import ADMINS_KEY, TODAY, TOMORROW, Desk, message_of

TRIPS, RIDERS, TURNS, DAYS_AHEAD = 1_500_000, 20_000, 3, 14
BOOKINGS, VISITS, READS = 100, 12, 20
OWN_TRIPS, BUSIEST_TRIPS = f"the {RIDERS_TRIPS} trips of a rider", "the trips of the busiest rider"
EXPORT, BOOKING = "the export of a day", "a resident's booking"
OPENING, BACKUP = "an opening", "a backup"
THE_DAY = TOMORROW + datetime.timedelta(days=1)
GRANTED = 1
# A resident with no trips of note, and those after.
SOME_RIDER = 1_000


class Figures:
    """Milliseconds or seconds by name, of one file or of C's SQLite."""

    def __init__(self):
        self.costs = {}

    def put(self, name, cost, unit):
        self.costs[name] = cost
        scale = {"s": 1, "ms": 1_000}[unit]
        print(f"    {name}: {cost.wall * scale:.2f} {unit}, {cost.processor * scale:.2f} of a processor", flush=True)


# Of a desk that serves.


def reads():
    """Each read that is measured: its message."""
    asked = {
        OWN_TRIPS: (f"/riders/{RIDER}/trips", RIDERS_KEY),
        BUSIEST_TRIPS: (f"/riders/{BUSIEST}/trips", CLERKS_KEY),
        "a standing": (f"/riders/{RIDER}/standing/{THE_DAY}", RIDERS_KEY),
        "a letter": (f"/riders/{RIDER}/letters/{GRANTED}", RIDERS_KEY),
        "a manifest": (f"/vehicles/7/manifest/{THE_DAY}", DISPATCHERS_KEY),
        "the sheet of a day": (f"/days/{THE_DAY}/sheet", DISPATCHERS_KEY),
        EXPORT: (f"/days/{THE_DAY}/trips.csv", DISPATCHERS_KEY),
    }
    return {name: message_of("GET", path, key) for name, (path, key) in asked.items()}


class Clerk:
    """Writes of one caller, whose numbers rise."""

    def __init__(self, desk):
        self.desk, self.number = desk, 0

    def write(self, path, body):
        self.number += 1
        return self.desk.sent(message_of("POST", path, CLERKS_KEY, self.number, body))

    def book(self, rider, at):
        """The reply to a booking; which one it is depends on `at` alone."""
        day = TOMORROW + datetime.timedelta(days=at % (DAYS_AHEAD - 1))
        body = {"rider": rider, "day": day, "wish": 360 + at * 37 % 840, "from": 1 + at * 13 % 100, "to": 1 + (at * 13 + 41) % 100,
                "attendant": False, "companions": 0}
        return self.write("/trips", body)

    def booked(self, count, rider_of):
        """What a booking costs in the middle of so many. Each is cancelled, so the plans stay as they are."""
        costs = []
        for at in range(count):
            cost, reply = cost_of(lambda at=at: self.book(rider_of(at), at), self.desk.process.pid)
            if reply.status != 200:
                sys.exit(f"bench/five_years: booking {at} was answered {reply}")
            costs.append(cost)
            self.write(f"/trips/{reply.body['trip']}/cancel", {})
        return mean(costs)


def mean(costs):
    return Cost(*(sum(it) / len(costs) for it in zip(*costs)))


def read_again(desk, message, count):
    """What a read costs, of so many. The first is not counted: its texts are parsed, its pages read."""
    first = desk.sent(message)
    if first is None or first.status != 200:
        sys.exit(f"bench/five_years: {message[:60]} was answered {first}")
    return mean([cost_of(lambda: desk.sent(message), desk.process.pid)[0] for _ in range(count)])


def measure_serving(desk, figures, turns):
    for name, message in reads().items():
        figures.put(name, least(read_again(desk, message, READS) for _ in range(turns)), "ms")
    clerk = Clerk(desk)
    asked = {BOOKING: (BOOKINGS, lambda at: SOME_RIDER + at), "a visitor's booking": (VISITS, lambda at: THE_VISITOR)}
    for name, (count, rider_of) in asked.items():
        clerk.booked(2, rider_of)
        figures.put(name, least(clerk.booked(count, rider_of) for _ in range(turns)), "ms")


def measure_backup(program, file, desk, figures):
    """A backup while the desk serves. Most of its time the desk opens the copy."""
    copy = f"{file}.backup"
    environment = {**os.environ, "FILE": file, "PROCESS": f"echo {desk.process.pid}", "DESK": program}
    began = time.monotonic()
    with subprocess.Popen([f"{TOP}/deploy/backup", copy], env=environment, stdout=subprocess.PIPE, text=True) as backup:
        said = backup.stdout.read()
        _, status, usage = os.wait4(backup.pid, 0)
        backup.returncode = os.waitstatus_to_exitcode(status)
    if backup.returncode:
        sys.exit(f"bench/five_years: deploy/backup ended with {backup.returncode}: {said}")
    figures.put(BACKUP, Cost(time.monotonic() - began, usage.ru_utime + usage.ru_stime), "s")
    print(f"    the desk stood still for {re.search(r'still for ([0-9]+) ', said)[1]} ms of it", flush=True)
    os.remove(copy)


def started(program, file):
    """A desk that serves, and what its opening cost."""
    began = time.monotonic()
    desk = Desk(program, file)
    return desk, Cost(time.monotonic() - began, processor_of(desk.process.pid))


def served_in(desk, words):
    desk.get(f"/riders/{RIDER}/trips", RIDERS_KEY)
    print(f"    serves in {held(desk.process):.0f} MB {words}", flush=True)


def started_again(program, file, figures, name, openings):
    """A desk that serves, after so many openings."""
    costs = []
    for at in range(openings):
        desk, cost = started(program, file)
        costs.append(cost)
        if at < openings - 1:
            desk.kill()
    figures.put(name, least(costs), "s")
    print(f"    in {held(desk.process, most=True):.0f} MB at most", flush=True)
    return desk


def measure(program, file, figures, given):
    """All of one file. What serves is the program with the units' allocator, where there is one."""
    deployed = as_deployed() if has_deployed_allocator() else contextlib.nullcontext()
    with deployed, started_again(program, file, figures, OPENING, given.openings) as desk:
        served_in(desk, "with the units' allocator")
        measure_serving(desk, figures, given.turns)
        served_in(desk, "after that")
        if not given.few:
            measure_backup(program, file, desk, figures)
    if not given.few:
        with started_again(program, file, figures, "an opening with the C library's allocator", 1) as desk:
            served_in(desk, "with the C library's allocator")


# C's SQLite, as Python has it.


@contextlib.contextmanager
def connected(file):
    with contextlib.closing(sqlite3.connect(file, isolation_level=None)) as database:
        database.execute("PRAGMA synchronous = FULL")
        yield database


def read_all(file):
    """Checks the file as its opening does, and reads each row."""
    with connected(file) as database:
        for check in "integrity_check", "foreign_key_check":
            database.execute(f"PRAGMA {check}").fetchall()
        tables = [name for name, in database.execute("SELECT name FROM sqlite_master WHERE type = 'table'")]
        for table in tables:
            collections.deque(database.execute(f"SELECT * FROM {table}"), 0)


TRIPS_OF = "SELECT trips.*, trip_chairs.trip IS NOT NULL FROM trips LEFT JOIN trip_chairs ON trip_chairs.trip = id WHERE {} = ? ORDER BY id"


def write_booking(database, number):
    """The rows of a booking: a trip, its two stops, the kept reply and the last number."""
    database.execute("BEGIN IMMEDIATE")
    day = number_of(THE_DAY)
    database.execute("INSERT INTO trips VALUES (?, 9, ?, 600, 1, 2, -1, 0, 0, 350, 2, 50, 99, 585, 600, 0)", (number, day))
    for kind in (0, 1):
        database.execute("INSERT INTO stops VALUES (99, ?, ?, ?, ?)", (day, 2 * number + kind, number, kind))
    database.execute("INSERT OR REPLACE INTO kept VALUES (2, ?, ?, ?)", (number, bytes(90), bytes(21)))
    database.execute("UPDATE desk SET last_trip = ?", (number,))
    database.execute("COMMIT")


def measure_beside(file, figures, turns):
    """Of the same file, which no desk serves now. It is of no use to a desk afterwards."""
    own = os.getpid()

    def put(name, unit, count, task):
        def many():
            for _ in range(count):
                task()
        figures.put(name, least(Cost(*(it / count for it in cost_of(many, own)[0])) for _ in range(turns)), unit)

    put(OPENING, "s", 1, lambda: read_all(file))
    with connected(file) as database:
        numbers = itertools.count(database.execute("SELECT last_trip FROM desk").fetchone()[0] + 1)
        rider, day = TRIPS_OF.format("rider"), TRIPS_OF.format("day")
        for name, text, value in ((OWN_TRIPS, rider, RIDER), (BUSIEST_TRIPS, rider, BUSIEST), (EXPORT, day, number_of(THE_DAY))):
            put(name, "ms", READS, lambda text=text, value=value: database.execute(text, (value,)).fetchall())
        put(BOOKING, "ms", BOOKINGS, lambda: write_booking(database, next(numbers)))


# The whole.


def told_table(smaller, larger, beside):
    """The figures once more, by the processor's clock, as rows for bench/README.md."""
    print("\n| What | Days ahead | Years | Years by days ahead | C's SQLite | The desk by it |\n|---|---|---|---|---|---|")
    for name, cost in larger.costs.items():
        small, plain = smaller.costs[name].processor, beside.costs.get(name)
        scale, unit = (1, "s") if name.startswith((OPENING, BACKUP)) else (1_000, "ms")
        other = f"{plain.processor * scale:.2f} {unit} | {cost.processor / plain.processor:.1f}" if plain else "|"
        print(f"| {name} | {small * scale:.2f} {unit} | {cost.processor * scale:.2f} {unit} | {cost.processor / small:.2f} | {other} |")


def made(program, file, trips, given):
    began = time.monotonic()
    if trips and given.years:
        shutil.copyfile(given.years, file)
    else:
        Years(trips, given.riders, TODAY, DAYS_AHEAD).make(program, file, ADMINS_KEY)
    sizes, size = sizes_of(file)
    print(f"{sizes.trips} trips, {sizes.stops} stops, {sizes.marks} marks, {given.riders} riders: {size / 1e6:.1f} MB, "
          f"made in {time.monotonic() - began:.0f} s", flush=True)
    return sizes, size


def compare(program, given, folder):
    small, large = f"{folder}/ahead.db", f"{folder}/years.db"
    print(machine())
    few, few_bytes = made(program, small, 0, given)
    smaller, larger, beside = Figures(), Figures(), Figures()
    measure(program, small, smaller, given)
    many, many_bytes = made(program, large, given.trips, given)
    print(f"    {(many_bytes - few_bytes) / max(many.trips - few.trips, 1):.0f} bytes a trip, with its stops and marks", flush=True)
    measure(program, large, larger, given)
    print("C's SQLite over the same file", flush=True)
    measure_beside(large, beside, given.turns)
    told_table(smaller, larger, beside)
    print(machine())


def main(words):
    usage = argparse.ArgumentParser(prog="bench/five_years", description=__doc__.partition("\n\n")[0])
    usage.add_argument("program", metavar="PROGRAM")
    usage.add_argument("--trips", type=int, default=TRIPS, help=f"how many, at least, those ahead too ({TRIPS})")
    usage.add_argument("--riders", type=int, default=RIDERS, help=f"how many, 2,000 to 100,000 ({RIDERS})")
    usage.add_argument("--turns", type=int, default=TURNS, help=f"of which the least counts ({TURNS})")
    usage.add_argument("--openings", type=int, default=TURNS, help=f"of which the least counts ({TURNS})")
    usage.add_argument("--few", action="store_true", help="leave out the backup and the C library's allocator, two openings")
    usage.add_argument("--years", metavar="FILE", help="take this one, made with --make today, instead of a new one")
    usage.add_argument("--folder", help="where the files are made")
    usage.add_argument("--make", metavar="FILE", help="make this new file, and measure nothing")
    given = usage.parse_args(words)
    if not 2_000 <= given.riders <= 100_000 or given.trips < 0 or min(given.turns, given.openings) < 1:
        usage.error("RIDERS are 2,000 to 100,000, TRIPS are not below 0, TURNS and OPENINGS not below 1")
    program = os.path.abspath(given.program)
    if not os.access(program, os.X_OK):
        usage.error(f"there is no program {program}")
    if given.make:
        if os.path.exists(given.make):
            usage.error(f"{given.make} is there already")
        made(program, given.make, given.trips, given)
        return
    with tempfile.TemporaryDirectory(dir=given.folder) as folder:
        compare(program, given, folder)


if __name__ == "__main__":
    main(sys.argv[1:])
