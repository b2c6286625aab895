"""What a database takes as it grows: `bench/opening PROGRAM [RIDERS ENTRIES TRIPS] [FOLDER]`.

Makes a database with so many residents (100,000), so many entries in the case file of each (20) and so many trips (100,000), 30 a vehicle
and day, and has PROGRAM print the trips of a day on which there are none: how long that takes, and in how much memory, is what opening
takes. Then PROGRAM serves it: its memory is told after the first request. Trips are booked, each on a connection of its own. Where
Debian's libjemalloc2 is installed that comes once more, over a copy, in the environment of deploy/desk@.service. Beside it stand databases with
few riders, and with 1,000 trips and as many as that, so that what the rows take is told. The files are in FOLDER, which tells the disk, or in a
new folder of the machine's temporary one. A figure is of the machine it was taken on; compare figures of one machine.
"""
import datetime
import os
import shutil
import sys
import tempfile
import time

import many_rows
from many_rows import COMPLETE, GRANT, OnePlace
from measuring import as_deployed, has_deployed_allocator, held, opened
from serving import ADMINS_KEY, LINE, TOMORROW, TRIP, Desk, asked_in_turn

KEY = "radio"
BOOKINGS, MOST_RIDERS, DAYS_AHEAD = 300, 100, 13


def entries(riders, count):
    """Applications and grants in turn."""
    for rider in range(1, riders + 1):
        for place in range(count):
            kind, until, conditions = (GRANT, OnePlace.FIRST_DAY + 1_000, "always") if place % 2 else (COMPLETE, -1, "")
            yield rider, place, kind, OnePlace.FIRST_DAY + place, 1, until, -1, conditions, ""


def fill(file, riders, per_rider, count):
    """Puts an agency with all these rows into a new desk's tables."""
    many_rows.fill(file, [
        ("callers", [(2, many_rows.DISPATCHER, 0, many_rows.digest_of(KEY))]),
        ("places", [(1, 0, 0, 0)]),
        ("vehicles", OnePlace.vehicles()),
        ("riders", ((it, 0, 0) for it in range(1, riders + 1))),
        ("entries", entries(riders, per_rider)),
        ("trips", OnePlace.trips(count, lambda at: at % riders + 1)),
        ("stops", OnePlace.stops(count)),
    ], last_trip=count)


def booked(program, file, riders):
    """Megabytes in which the program serves, and milliseconds of a booking, from its connection to its reply."""
    with Desk(program, file) as desk:
        asked_in_turn(desk, [("/routes", ADMINS_KEY, 1, {**LINE, "points": [[0, 0], [9, 0]]})])
        megabytes = held(desk.process)
        trips = [{**TRIP, "rider": 1 + at % min(riders, MOST_RIDERS), "day": TOMORROW + datetime.timedelta(days=at % DAYS_AHEAD),
                  "wish": 120 + at % 200 * 6, "to": 1} for at in range(BOOKINGS)]
        began = time.monotonic()
        asked_in_turn(desk, [("/trips", KEY, 1 + at, trip) for at, trip in enumerate(trips)])
        return megabytes, (time.monotonic() - began) / BOOKINGS * 1_000


def tell(program, file, riders, allocator):
    cost, megabytes = opened(program, file, KEY)
    serves_in, a_booking = booked(program, file, riders)
    print(f"    {allocator}: opened in {cost.wall:.2f} s ({cost.processor:.2f} of a processor) and {megabytes:.0f} MB | "
          f"serves in {serves_in:.0f} MB | a booking {a_booking:.2f} ms", flush=True)


def measure(program, file, riders, per_rider, count):
    many_rows.init(program, file, ADMINS_KEY)
    fill(file, riders, per_rider, count)
    size, rows = os.path.getsize(file), riders + riders * per_rider + 3 * count
    print(f"{riders} riders, {riders * per_rider} entries, {count} trips ({size / 1e6:.0f} MB on the disk, {rows} rows)", flush=True)
    copy = shutil.copyfile(file, f"{file}.copy")
    tell(program, file, riders, "the C library's allocator")
    if has_deployed_allocator():
        with as_deployed():
            tell(program, copy, riders, "as deployed")


def main(words):
    if not words:
        sys.exit(__doc__)
    program, *more = words
    sizes = [int(it) for it in more if it.isdigit()] or [100_000, 20, 100_000]
    folders = [it for it in more if not it.isdigit()]
    with tempfile.TemporaryDirectory(dir=folders[0] if folders else None) as room:
        for at, size in enumerate([(100, 2, 0), (100, 2, 1_000), (100, 2, sizes[2]), sizes]):
            measure(program, f"{room}/{at}.db", *size)


if __name__ == "__main__":
    main(sys.argv[1:])
