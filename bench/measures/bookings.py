"""Asks a rehearsal to book trips, and prints how many it books in a second, by vehicles on duty and by trips already kept.

Each day a desk of one place and visitors by the hundred books trips for the last day that may be booked, as many as fill the
routes of its vehicles (30 each), at one minute of that day, so that each booking looks at every place of every route. A figure is
the processor time of a whole run less that of one which ends before its last days, over the bookings of those days: what a booking
takes where so many trips are kept. Of it the planner: what the choice of a place takes alone where the same routes are filled, at
some of those bookings, by `bench/run planner`. bin/desk has to have built the program. A figure is of the machine it was taken on;
compare figures of one machine."""
import collections
import datetime
import hashlib
import os
import re
import resource
import statistics
import subprocess
import sys
import tempfile

from desk_tools.tree import TOP

PROGRAM = os.path.join(TOP, "crates", "pt_app", "out", "pt_app")
FIRST_DAY = datetime.date(2025, 1, 6)
AHEAD = 14
FULL_ROUTE = 30
VISITOR_DAYS = 21
LAST_DAYS = 5
SAMPLES = 30
KEYS = {1: "abc", 2: "clerk", 3: "dispatcher"}


def post(day, caller, numbers, path, body):
    """A write of a caller at the first minute of the day."""
    numbers[caller] += 1
    return (f"@ {day} 0\nPOST {path} HTTP/1.1\r\nDesk-Key: {KEYS[caller]}\r\nDesk-Number: {numbers[caller]}\r\n"
            f"Content-Length: {len(body)}\r\n\r\n{body}")


def agency(numbers, vehicles, riders):
    """The messages that make a desk of so many vehicles and visitors."""
    for caller, role in ((2, "clerk"), (3, "dispatcher")):
        digest = hashlib.sha256(KEYS[caller].encode()).hexdigest()
        yield post(FIRST_DAY, 1, numbers, "/callers", f'{{"id":{caller},"role":"{role}","subject":0,"digest":"{digest}"}}')
    yield post(FIRST_DAY, 1, numbers, "/policy", '{"base":175,"transfer":0,"fare":350,"service":0,"extra_ride":30,'
               '"min_missed":3,"percent":10,"span_days":30}')
    yield post(FIRST_DAY, 1, numbers, "/places", '{"id":1,"x":0,"y":0,"core":false}')
    yield post(FIRST_DAY, 1, numbers, "/routes", '{"id":1,"width":3960,"points":[[0,0],[20000,0]],"accessible":true,'
               '"days":[1,2,3,4,5,6,7],"first":0,"last":1439}')
    for vehicle in range(1, vehicles + 1):
        yield post(FIRST_DAY, 3, numbers, "/vehicles", f'{{"id":{vehicle},"from_day":"2025-01-01","days":[1,2,3,4,5,6,7],'
                   '"depot":1,"capacity":10,"opens":0,"closes":1439,"duration":1439}')
    for rider in range(1, riders + 1):
        yield post(FIRST_DAY, 2, numbers, "/riders", f'{{"id":{rider},"kind":"visitor","attendant":false}}')


def rider_of(turn, trip, vehicles):
    """The visitor who books this trip of this day: others after so many days as a visitor may ride."""
    return 1 + turn // VISITOR_DAYS * vehicles * FULL_ROUTE + trip


def bookings(numbers, vehicles, days):
    """The messages that fill the routes of so many days, each rider's days no more than a visitor may ride."""
    for turn in range(days):
        today = FIRST_DAY + datetime.timedelta(days=turn)
        day = today + datetime.timedelta(days=AHEAD)
        for trip in range(vehicles * FULL_ROUTE):
            body = (f'{{"day":"{day}","wish":600,"attendant":false,"companions":0,"from":1,"to":1,'
                    f'"rider":{rider_of(turn, trip, vehicles)}}}')
            yield post(today, 2, numbers, "/trips", body)


def processor_seconds():
    """What the programs that have ended took of the processor."""
    usage = resource.getrusage(resource.RUSAGE_CHILDREN)
    return usage.ru_utime + usage.ru_stime


def rehearsed(vehicles, days):
    """Processor seconds of a desk of so many vehicles whose routes are full on so many days, and the replies by status."""
    numbers = collections.Counter()
    riders = rider_of(days - 1, vehicles * FULL_ROUTE - 1, vehicles) if days else 0
    asked = [*agency(numbers, vehicles, riders), *bookings(numbers, vehicles, days)]
    with tempfile.TemporaryFile() as sent, tempfile.TemporaryFile() as replies:
        sent.write("".join(asked).encode())
        sent.seek(0)
        begun = processor_seconds()
        subprocess.run([PROGRAM, "rehearse", "abc"], stdin=sent, stdout=replies, check=True)
        seconds = processor_seconds() - begun
        replies.seek(0)
        statuses = collections.Counter(re.findall(rb"HTTP/1\.1 (\d+) ", replies.read()))
    if statuses != {b"200": len(asked)}:
        sys.exit(f"bench/bookings: {statuses} to {len(asked)} requests")
    return seconds


def figure(vehicles, days):
    """Prints what a booking takes on the last of so many days."""
    before = max(days - LAST_DAYS, 0)
    seconds = min(rehearsed(vehicles, days) for _ in range(3)) - min(rehearsed(vehicles, before) for _ in range(3))
    filled = vehicles * FULL_ROUTE
    each = max(seconds, 1e-9) / (filled * (days - before))
    print(f"{vehicles} vehicles, {filled * before} to {filled * days} trips kept: {1 / each:.0f} bookings a second, "
          f"{each * 1e6:.0f} microseconds each")


def instance(vehicles, trips):
    """The routes of so many vehicles with the first trips of a day, and the next trip with its place, as `bench/planner` reads them."""
    yield f"PTI 1\nname {vehicles}-{trips}\nplaces 1\n0\nvehicles {vehicles}"
    for vehicle in range(1, vehicles + 1):
        first = (vehicle - 1) * FULL_ROUTE
        last = min(max(trips, first), first + FULL_ROUTE)
        yield f"vehicle {vehicle} 1 10 0 1439 1439 {2 * (last - first)}"
        for trip in range(last, first, -1):
            yield f"stop {trip} P 1 540 555 0 1 30\nstop {trip} D 1 0 1439 0 1 30"
    stops = 2 * (trips % FULL_ROUTE) + 2
    yield f"asked 1\nask {trips + 1} 1 1 540 660 1439 0 30 1"
    yield " ".join(map(str, ["best", 0, trips // FULL_ROUTE + 1, 0, 0, 0, *[540] * (stops + 1)]))
    yield "end\n"


def planner(sizes):
    """Microseconds of the choice of a place alone, by vehicles: the mean over bookings that fill their routes."""
    with tempfile.TemporaryDirectory() as room:
        files = {}
        for vehicles in sizes:
            filled = vehicles * FULL_ROUTE
            for sample in range(SAMPLES):
                path = os.path.join(room, f"{vehicles}-{sample}.txt")
                with open(path, "w", encoding="ascii") as file:
                    file.write("\n".join(instance(vehicles, filled * (2 * sample + 1) // (2 * SAMPLES))))
                files[path] = vehicles
        told = subprocess.run([os.path.join(TOP, "bench", "run"), "planner", *files], check=True, stdout=subprocess.PIPE,
                              text=True).stdout
    taken = collections.defaultdict(list)
    for path, nanoseconds in re.findall(r"^(\S+) possible (\d+) ", told, re.M):
        taken[files[path]].append(int(nanoseconds))
    return {vehicles: statistics.mean(each) / 1000 for vehicles, each in taken.items()}


def main():
    if not os.access(PROGRAM, os.X_OK):
        sys.exit("bench/bookings: the program is not built: run bin/desk --help first")
    alone = planner((10, 50))
    for vehicles, days in ((10, 5), (10, 40), (50, 1), (50, 10), (50, 40), (50, 62)):
        figure(vehicles, days)
        print(f"    of it the planner: {alone[vehicles]:.0f} microseconds")


main()
