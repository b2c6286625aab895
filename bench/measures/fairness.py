"""What others wait for while one key asks for dear reads or denied writes: `bench/fairness PROGRAM`.

A desk serves an agency of 50 vans, whose working day has 1,000 trips. One key asks for one kind of read, or sends one write
that is denied, 30 times a second or fewer; others ask for a rider's standing, 20 times a second. The number of a denied write
stays free, so its key can send the same bytes again. Each request has a connection of its own. Of the others are
said the milliseconds in the middle and at the 99th of a hundred. Of the one key's are said the milliseconds by the clock on
the wall and by that of the processor. The first row has nobody beside them. A request goes to the desk itself, without the
limits of deploy/desk.nginx. The exit status is 1 where the others wait more than 10 milliseconds in the middle. Where other
work runs on the machine they wait for that too: then look at the processor's clock.
"""
import argparse
import os
import sys
import tempfile
import threading
import time

from many_rows import BUSIEST, CLERKS_KEY, DISPATCHERS_KEY, RIDER, RIDERS_KEY, Years
from measuring import machine, processor_of
from serving import ADMINS_KEY, TODAY, TOMORROW, TRIP, Desk, message_of

TRIPS, RIDERS, DAYS_AHEAD = 100_000, 20_000, 14
DEAR_RATE, OTHERS_RATE, SECONDS = 30, 20, 15
GOAL = 10

NOBODYS_NUMBER = 999_999


def read_of(path, key):
    """A read, and the status of its reply."""
    return message_of("GET", path, key), 200


def booking_of(rider, key, status, **wish):
    """A booking that is denied, and the status of its reply."""
    return message_of("POST", "/trips", key, 1, {**TRIP, "rider": rider, **wish}), status


DEAR = {
    "nobody": None,
    "the export of a day": read_of(f"/days/{TOMORROW}/trips.csv", DISPATCHERS_KEY),
    "the sheet of a day": read_of(f"/days/{TOMORROW}/sheet", DISPATCHERS_KEY),
    "a manifest": read_of(f"/vehicles/7/manifest/{TOMORROW}", DISPATCHERS_KEY),
    "the trips of the busiest rider": read_of(f"/riders/{BUSIEST}/trips", CLERKS_KEY),
    "a letter": read_of(f"/riders/{RIDER}/letters/1", RIDERS_KEY),
    "a trip for another rider, which is denied": booking_of(BUSIEST, RIDERS_KEY, 403),
    "a trip for no rider, which is denied": booking_of(NOBODYS_NUMBER, CLERKS_KEY, 404),
    "a trip for too many, which is denied": booking_of(BUSIEST, CLERKS_KEY, 422, attendant=True),
}
CHEAP = read_of(f"/riders/{RIDER}/standing/{TOMORROW}", RIDERS_KEY)


def ask_at(desk, asked, rate, until, took):
    """Asks at this rate, or as fast as replies come; the milliseconds that each took are added."""
    message, status = asked
    turn = time.monotonic()
    while turn < until:
        began = time.monotonic()
        reply = desk.sent(message)
        took.append((time.monotonic() - began) * 1_000)
        if reply is None or reply.status != status:
            raise OSError(f"{message[:60]} was answered {reply}")
        turn = max(turn + 1 / rate, time.monotonic())
        time.sleep(max(turn - time.monotonic(), 0))


def beside(desk, asked, rate, seconds):
    """The milliseconds of the others' requests and of the one key's, and the seconds that the desk had a processor."""
    others, dear = [], []
    until = time.monotonic() + seconds
    askers = [threading.Thread(target=ask_at, args=(desk, CHEAP, OTHERS_RATE, until, others))]
    if asked:
        askers.append(threading.Thread(target=ask_at, args=(desk, asked, rate, until, dear)))
    processor = processor_of(desk.process.pid)
    for it in askers:
        it.start()
    for it in askers:
        it.join()
    return sorted(others), sorted(dear), processor_of(desk.process.pid) - processor


def middle(sorted_values):
    return sorted_values[len(sorted_values) // 2]


def at_99(sorted_values):
    return sorted_values[len(sorted_values) * 99 // 100]


def slow_others(desk, given):
    """Prints a row for each kind of request; the kinds beside which the others wait too long."""
    print("| One key asks for | A second | Each takes | Of a processor | Others, in the middle | Others, 99th |\n|---|---|---|---|---|---|")
    slow, of_a_cheap_one = [], 0
    for name, asked in DEAR.items():
        others, dear, processor = beside(desk, asked, given.rate, given.seconds)
        if dear:
            its = (f"{len(dear) / given.seconds:.0f} | {middle(dear):.1f} ms | "
                   f"{(processor - len(others) * of_a_cheap_one) / len(dear) * 1_000:.1f} ms")
        else:
            its, of_a_cheap_one = "| |", processor / len(others)
        print(f"| {name} | {its} | {middle(others):.1f} ms | {at_99(others):.1f} ms |", flush=True)
        if middle(others) > GOAL:
            slow.append(name)
    return slow


def main(words):
    usage = argparse.ArgumentParser(prog="bench/fairness", description=__doc__.partition("\n\n")[0])
    usage.add_argument("program", metavar="PROGRAM")
    usage.add_argument("--rate", type=float, default=DEAR_RATE, help="dear requests a second, at most (%(default)s)")
    usage.add_argument("--trips", type=int, default=TRIPS, help="of the agency (%(default)s)")
    usage.add_argument("--seconds", type=float, default=SECONDS, help="for each kind of request (%(default)s)")
    given = usage.parse_args(words)
    if given.rate <= 0 or given.seconds <= 0 or given.trips < 0:
        usage.error("RATE and SECONDS have to be above 0, and TRIPS not below 0")
    program = os.path.abspath(given.program)
    if not os.access(program, os.X_OK):
        usage.error(f"there is no program {program}")
    print(machine())
    with tempfile.TemporaryDirectory() as folder:
        file = Years(given.trips, RIDERS, TODAY, DAYS_AHEAD).make(program, f"{folder}/years.db", ADMINS_KEY)
        with Desk(program, file) as desk:
            slow = slow_others(desk, given)
    print(machine())
    return 1 if slow else 0


if __name__ == "__main__":
    sys.exit(main(sys.argv[1:]))
