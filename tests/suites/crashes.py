"""Kills a desk while it writes: `crashes [ROUNDS] PROGRAM`, 50 rounds where no number is given.

Eight clerks send writes at once, each one after another, one on each connection: riders, trips, cancelled trips. In their middle, at a
moment that chance chooses, the program gets SIGKILL. It is started again, and whatever was answered has to be there, as it was answered.
Each clerk's write whose reply did not come is sent again with its number. So many writes that there are twenty a round come after the last.
At the end the rows are those of the answered writes and no others, and SQLite's integrity_check finds the file whole. The last line
is 'N passed, M failed', and the exit status 1 where something failed.
"""
import random
import sys
import tempfile
import threading
import time

from serving import (
    ADMINS_KEY,
    Desk,
    Refused,
    TOMORROW,
    TRIP,
    difference,
    faults_of_database,
    make_agency,
    rows,
    tally,
    told_program,
)

ROUNDS, WRITES, CLERKS = 50, 20, 8
# Each clerk's riders have numbers of its own.
FIRST_RIDER, RIDERS = 1000, 100_000
# The numbers of the writes that make the agency are below it, and its callers.
FIRST_NUMBER, FIRST_CALLER = 100, 100
SEED = 37131
STATUSES = ["booked", "cancelled"]


class Clerk:
    """Sends writes one after another, and knows what was answered."""

    def __init__(self, file, at):
        self.key = f"clerk {at}"
        self.first_rider = FIRST_RIDER + at * RIDERS
        self.number = FIRST_NUMBER
        self.riders = []
        self.trips = dict(rows(file, "SELECT id, status FROM trips"))
        # (trips of the agency's own day are not all rider 9's)
        self.others = max(self.trips)
        self.answered = 0
        self.open = []

    def next_write(self):
        """The path and the body of the next write: a rider, a trip, and then that it is cancelled."""
        turn = self.number % 3
        if turn == 1:
            return "/trips", {"rider": 9, **TRIP, "wish": 1200, "to": 1}
        if turn == 2 and self.open:
            return f"/trips/{self.open[-1]}/cancel", {}
        return "/riders", {
            "id": self.first_rider + self.number,
            "kind": "visitor",
            "attendant": False,
        }

    def write(self, desk):
        """Whether the next write was answered; what is wrong with its reply is raised."""
        path, body = self.next_write()
        told = desk.post(path, self.key, self.number, body)
        if told is None:
            return False
        if told.status != 200 and not (path == "/trips" and told.body == {"denied": "no vehicle"}):
            raise Refused(f"POST {path} as {self.number}: {told}")
        self.number += 1
        self.answered += 1
        if told.status == 200:
            self.know(path, body, told.body)
        return True

    def know(self, path, body, told):
        if path == "/riders":
            self.riders.append(body["id"])
        elif path == "/trips":
            self.trips[told["trip"]] = 0
            self.open.append(told["trip"])
        else:
            self.trips[self.open.pop()] = 1

    def write_on(self, desk, wrong):
        """Writes until the program is killed. What is wrong with a reply is added to the list."""
        try:
            while self.write(desk):
                pass
        except Refused as error:
            wrong.append(str(error))

    def faults(self, desk):
        """What was answered and is not told by the desk."""
        told = desk.get("/riders/9/trips", self.key)
        kept = (
            {it["trip"]: it["status"] for it in told.body["trips"]}
            if told and told.status == 200
            else {}
        )
        pending = self.next_write()[0]
        lost = {
            it: kept.get(it)
            for it, status in self.trips.items()
            if it > self.others
            and kept.get(it) != STATUSES[status]
            and str(it) not in pending.split("/")
        }
        yield f"{self.key}: after {self.answered} answers the desk tells of trips {lost}" if lost else None
        last = (
            desk.get(f"/riders/{self.riders[-1]}/standing/{TOMORROW}", self.key)
            if self.riders
            else None
        )
        yield None if last is None or last.status == 200 else f"rider {self.riders[-1]}: {last}"


def make_clerks(program, file):
    """The clerks, each a caller of its own."""
    clerks = [Clerk(file, at) for at in range(CLERKS)]
    with Desk(program, file) as desk:
        for at, clerk in enumerate(clerks):
            body = {"id": FIRST_CALLER + at, "role": "clerk", "subject": 0, "key": clerk.key}
            told = desk.post("/callers", ADMINS_KEY, FIRST_NUMBER + at, body)
            if told is None or told.status != 200:
                raise Refused(f"{clerk.key}: {told}")
    return clerks


def faults_of_rows(file, clerks):
    """What was answered and is not in the rows, or is there and was not answered."""
    kept = [
        it for it, in rows(file, f"SELECT id FROM riders WHERE id >= {FIRST_RIDER} ORDER BY id")
    ]
    yield difference("the riders", sorted(it for clerk in clerks for it in clerk.riders), kept)
    trips = {it: status for clerk in clerks for it, status in clerk.trips.items()}
    yield difference("the trips", trips, dict(rows(file, "SELECT id, status FROM trips")))


def faults_of_round(program, file, clerks, writes, seconds):
    """All write at once until the program is killed, so many seconds after the first clerk did so many writes. Then what was answered is
    looked for."""
    wrong = []
    with Desk(program, file) as desk:
        for _ in range(writes):
            clerks[0].write(desk)
        clients = [threading.Thread(target=clerk.write_on, args=(desk, wrong)) for clerk in clerks]
        killer = threading.Timer(seconds, desk.process.kill)
        for it in (killer, *clients):
            it.start()
        for it in (killer, *clients):
            it.join()
    yield from wrong
    with Desk(program, file) as desk:
        for clerk in clerks:
            yield from clerk.faults(desk)
            yield None if clerk.write(
                desk
            ) else f"{clerk.key}: the write {clerk.number} is not answered when it comes again"


def seconds_a_write(program, file, clerk):
    with Desk(program, file) as desk:
        begun = time.monotonic()
        for _ in range(WRITES):
            clerk.write(desk)
        return (time.monotonic() - begun) / WRITES


def all_faults(program, rounds):
    chance = random.Random(SEED)
    with tempfile.TemporaryDirectory() as folder:
        try:
            file = make_agency(program, folder)
            clerks = make_clerks(program, file)
            each = seconds_a_write(program, file, clerks[0])
            for _ in range(rounds):
                yield from faults_of_round(
                    program,
                    file,
                    clerks,
                    chance.randrange(WRITES // 4),
                    chance.uniform(0, WRITES * each),
                )
        except (Refused, OSError) as error:
            yield str(error)
            return
        with Desk(program, file) as desk:
            while sum(it.answered for it in clerks) < WRITES * (rounds + 1) and clerks[0].write(
                desk
            ):
                pass
            for clerk in clerks:
                yield from clerk.faults(desk)
        yield from faults_of_rows(file, clerks)
        yield from faults_of_database(file)
        answered = sum(it.answered for it in clerks)
        print(
            f"tests/crashes: {answered} writes of {CLERKS} clerks were answered, {rounds} times the program was killed in their middle"
        )


def main(words):
    program, given = told_program(words, __doc__)
    if len(given) > 1 or not all(it.isdigit() for it in given):
        print(__doc__, end="", file=sys.stderr)
        return 2
    return tally("tests/crashes", all_faults(program, int(given[0]) if given else ROUNDS))


if __name__ == "__main__":
    sys.exit(main(sys.argv[1:]))
