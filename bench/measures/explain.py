"""What a refusal's log takes on a day of full routes: `bench/explain PROGRAM [VEHICLES] [FOLDER]`.

Makes databases of one day with so many vehicles (50), whose routes are full, and of the same day with one vehicle. PROGRAM explains why one
trip more finds no vehicle, and audits the log: how long each takes, in how much memory, and how long the log is. There are three days: with
100 stops a route, where each place has too many; with 98 stops, where each has too many aboard; and with 98 stops, where each comes home too
late, so that each place is shown by a raise for each visit. The last one's log has some 230 megabytes for 50 vehicles, and takes its time.
Ratios stand beside: audit by explain, both less what the opening of the database takes; all vehicles by one of them; and, for one vehicle,
audit by the plain reading of logs in Python, of tests/audits. The files are in FOLDER, which tells the disk, or in a new folder of the
machine's temporary one. It needs /usr/bin/time. A figure is of the machine it was taken on; compare figures of one machine.
"""
import collections
import datetime
import os
import subprocess
import sys
import tempfile
import time

import many_rows
from audits import logs
from many_rows import FullRoutes
from serving import ADMINS_KEY, TOMORROW, ZONE

KEY = many_rows.DISPATCHERS_KEY
DAY = TOMORROW.toordinal() - datetime.date(1970, 1, 1).toordinal()
EMPTY_DAY = "2099-12-31"
VEHICLES = 50
# The least of so many runs counts, since others who use the machine only add to it; of long ones fewer, once they took so many seconds.
RUNS, ENOUGH = 3, 20
# Measures a process of its own; a child's peak as Python sees it begins at Python's.
TIME = "/usr/bin/time"

KINDS = [
    FullRoutes("100 stops, too many", 50, 4, 0),
    FullRoutes("98 stops, too full", 49, 1, 1),
    FullRoutes("98 stops, too late", 49, 4, 0),
]
# What a command took, and what it printed.
Taken = collections.namedtuple("Taken", "seconds megabytes")
Figures = collections.namedtuple("Figures", "explain audit opening lines bytes cases")


def measured(words, output):
    """The least seconds and the peak of a command, whose standard output goes into a file."""
    seconds, megabytes = [], []
    while len(seconds) < RUNS and sum(seconds) < ENOUGH:
        with open(output, "wb") as out, tempfile.NamedTemporaryFile("r") as peak:
            began = time.monotonic()
            run = subprocess.run([TIME, "-f", "%M", "-o", peak.name, *words], stdout=out)
            seconds.append(time.monotonic() - began)
            if run.returncode:
                sys.exit(f"bench/explain: {' '.join(words)} ends with {run.returncode}")
            megabytes.append(int(peak.read()) / 1_000)
    return Taken(min(seconds), max(megabytes))


def lines_in(log):
    """How many lines the log has, how many bytes, and how many cases."""
    count = cases = 0
    with open(log, "rb") as file:
        for line in file:
            count, cases = count + 1, cases + line.startswith(b"CASE")
    return count, os.path.getsize(log), cases


def figures(program, room, kind, vehicles):
    file, log, answer = f"{room}/desk.db", f"{room}/log", f"{room}/answer"
    for name in (file, f"{file}-wal"):
        if os.path.exists(name):
            os.remove(name)
    subprocess.run([program, "init", file, ADMINS_KEY], stdout=subprocess.DEVNULL, check=True)
    kind.fill(file, DAY, vehicles)
    asked = [file, ZONE, *kind.question(vehicles, TOMORROW)]
    explain = measured([program, "explain", *asked], log)
    audit = measured([program, "audit", log, *asked], answer)
    opening = measured([program, "trips", file, ZONE, KEY, EMPTY_DAY], answer)
    return Figures(explain, audit, opening, *lines_in(log))


def plain_seconds(kind, log):
    """What the plain reading takes, which has to find the log of one vehicle right."""
    shared = {"service": FullRoutes.SERVICE, "ride": FullRoutes.RIDE, "chairs": 0}
    route = [stop for number, *_, window_from, window_to, _ in kind.trips(DAY, 1)
             for stop in logs.stops_of(number, 1, 1, (window_from, window_to), None, seats=1, **shared)]
    vehicle = logs.Vehicle(1, 1, FullRoutes.OPENS, kind.closes(), 1439, kind.seats, 0, route)
    asked = logs.stops_of(None, 1, 1, logs.wished_window(FullRoutes.WISH), None, seats=1 + kind.companions, **shared)
    with open(log, "rb") as file:
        text = file.read()
    began = time.monotonic()
    answer = logs.answer(text, [vehicle], asked, lambda start, goal: 0)
    if answer != "yes":
        sys.exit(f"bench/explain: the plain reading says {answer} of a log of one vehicle, {kind.name}")
    return time.monotonic() - began


def net(taken, opening):
    return max(taken.seconds - opening.seconds, 1e-3)


def show(kind, vehicles, found):
    ratio = net(found.audit, found.opening) / net(found.explain, found.opening)
    print(f"{vehicles} vehicles of {kind.name} | explain {found.explain.seconds:.2f} s in {found.explain.megabytes:.0f} MB"
          f" | log {found.bytes / 1e6:.2f} MB, {found.lines} lines, {found.cases} cases, {found.lines / max(found.cases, 1):.1f} lines each"
          f" | audit {found.audit.seconds:.2f} s in {found.audit.megabytes:.0f} MB | opening {found.opening.seconds:.2f} s in"
          f" {found.opening.megabytes:.0f} MB | audit {ratio:.2f} times explain", flush=True)


def measure(program, room, kind, vehicles):
    """Prints the figures of one vehicle and of all, and their ratios."""
    one = figures(program, room, kind, 1)
    show(kind, 1, one)
    plain = plain_seconds(kind, f"{room}/log")
    print(f"    audit {net(one.audit, one.opening) / plain:.4f} times the plain reading in Python, {plain:.2f} s", flush=True)
    found = figures(program, room, kind, vehicles)
    show(kind, vehicles, found)
    by_one = [net(getattr(found, it), found.opening) / net(getattr(one, it), one.opening) for it in ("explain", "audit")]
    print(f"    {vehicles} vehicles by one: explain {by_one[0]:.1f} times, audit {by_one[1]:.1f} times, log {found.bytes / one.bytes:.1f} times",
          flush=True)


def main(words):
    if not words or not os.path.isfile(words[0]):
        sys.exit(__doc__)
    if not os.access(TIME, os.X_OK):
        sys.exit(f"bench/explain: {TIME} is not there")
    program, *more = words
    vehicles = next((int(it) for it in more if it.isdigit()), VEHICLES)
    folder = next((it for it in more if not it.isdigit()), None)
    with tempfile.TemporaryDirectory(dir=folder) as room:
        for kind in KINDS:
            measure(os.path.abspath(program), room, kind, vehicles)


if __name__ == "__main__":
    main(sys.argv[1:])
