"""Tears two bookings, as a power cut does: `cuts PROGRAM`.

What a booking writes is taken from the files of a desk that serves, just before it and just after its reply. Then the same files are made
with only some of its sectors written: the first ones, every third number of them, and all; and sets that chance chooses, with what was
there before, or zero bytes, in place of the others. Each time the trips that the program prints have to be those of before the booking or of
after it, and the booking, sent again with its number, gets the reply that it got. The first booking is written to the log alone. The second
comes when the log is full, so that this is first copied into the database, and then begins anew. The last line is 'N passed, M failed', and
the exit status 1 where something failed.
"""
import itertools
import os
import random
import shutil
import sys
import tempfile

from serving import (
    ADMINS_KEY,
    POLICY,
    TOMORROW,
    TRIP,
    ZONE,
    Desk,
    Refused,
    difference,
    faults_of_database,
    make_agency,
    ran,
    rows,
    tally,
    told_program,
)
from tearing import files_of, put_files, sectors_of, torn

# Each cut starts the program three times, and a write has some hundred sectors, or some hundreds with a copy of the log.
EVERY, SETS = 3, 40
# The number of the first write that only fills the log, and the most of these.
FIRST, MOST_WRITES = 1_000, 2_000
SEED = 37131
NUMBER = 100
BOOKING = {"rider": 9, **TRIP, "wish": 1200, "to": 1, "from": 3}


def booked(program, file):
    """The reply to the booking over this file, and the trips of its day after that."""
    with Desk(program, file) as desk:
        told = desk.post("/trips", "hello", NUMBER, BOOKING)
    return told, ran(program, "trips", file, ZONE, "radio", TOMORROW).stdout


def faults_of_cut(program, folder, files, trips, reply):
    """For each thing that a desk over these files has to tell: None, or what is wrong with it."""
    os.mkdir(folder)
    file = f"{folder}/agency.db"
    put_files(folder, files)
    told = ran(program, "trips", file, ZONE, "radio", TOMORROW)
    yield None if told.returncode == 0 and told.stdout in trips else f"{folder}: {told}"
    yield difference(f"{folder}: the booking once more", (reply, trips[1]), booked(program, file))
    yield from faults_of_database(file)
    kept = rows(file, "SELECT number FROM kept JOIN callers ON caller = id WHERE role = 1")
    yield difference(f"{folder}: the numbers that were kept", [(NUMBER,)], kept)
    shutil.rmtree(folder)


def sets_of(sectors):
    """Which sectors are written: the first ones, so many and then some more, to all of them, and sets that chance chooses."""
    yield from (sectors[:count] for count in (*range(0, len(sectors), EVERY), len(sectors)))
    chance = random.Random(SEED)
    yield from ([it for it in sectors if chance.random() < 0.9] for _ in range(SETS))


def torn_sets(sectors):
    """Sets of the database's sectors, where the log is copied first; and with all of these on the disk, of the log's, which begins anew."""
    log = [it for it in sectors if it[0].endswith("-wal")]
    database = [it for it in sectors if it not in log]
    if database:
        yield from sets_of(database)
    yield from ([*database, *written] for written in sets_of(log))


def writes_before_a_copy(program, folder):
    """After how many writes of the policy the next write has the log copied into the database first."""
    file = make_agency(program, folder)
    with Desk(program, file) as desk:
        database = files_of(file)["agency.db"]
        for count in range(MOST_WRITES):
            desk.post("/policy", ADMINS_KEY, FIRST + count, POLICY)
            if files_of(file)["agency.db"] != database:
                return count
    raise Refused(f"{MOST_WRITES} writes, and no copy of the log")


def faults(program, folder, writes):
    """The faults of a booking that is torn after so many writes of the policy."""
    os.mkdir(folder)
    file = make_agency(program, folder)
    with Desk(program, file) as desk:
        for count in range(writes):
            desk.post("/policy", ADMINS_KEY, FIRST + count, POLICY)
        before = files_of(file)
        reply = desk.post("/trips", "hello", NUMBER, BOOKING)
        after = files_of(file)
    trips = []
    for at, files in enumerate((before, after)):
        os.mkdir(f"{folder}/{at}")
        put_files(f"{folder}/{at}", files)
        trips.append(
            ran(program, "trips", f"{folder}/{at}/agency.db", ZONE, "radio", TOMORROW).stdout
        )
    is_told = reply is not None and reply.status == 200 and trips[0] != trips[1]
    yield None if is_told else f"the booking: {reply}, {trips}"
    sectors = list(sectors_of(before, after))
    yield None if sectors else "the booking wrote nothing"
    yield difference(
        f"after {writes} writes the log is copied",
        writes > 0,
        before["agency.db"] != after["agency.db"],
    )
    for at, written in enumerate(torn_sets(sectors)):
        yield from faults_of_cut(
            program, f"{folder}/cut-{at}", torn(before, after, written), trips, reply
        )


def main(words):
    program, more = told_program(words, __doc__)
    if more:
        sys.exit(__doc__)
    with tempfile.TemporaryDirectory() as folder:
        writes = writes_before_a_copy(program, folder)
        return tally(
            "cuts",
            itertools.chain(
                faults(program, f"{folder}/log", 0), faults(program, f"{folder}/copy", writes)
            ),
        )


if __name__ == "__main__":
    sys.exit(main(sys.argv[1:]))
