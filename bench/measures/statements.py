"""What a request over a file has the kit's SQLite do: `bench/statements PROGRAM`. It takes valgrind.

A desk serves under callgrind, so what it does is counted, and not timed. First it serves the small agency of
tests/serving.py. It is asked for trips of one day, each behind those before it, then for one before them all, which moves
their stops; for that one once more; for one that no vehicle takes; for a cancellation; for the trips of their rider; and
for the sheet of their day. Of each request are said the texts that read tables and those that write, how many of both were
parsed (the connection keeps them), and the instructions of the whole and of the commit.

Then it serves an agency of 50 vans at three sizes, which have the same plans for the days ahead. Of each kind of request
are said the rows that were read and the pages that were looked at. The exit status is 1 where some request reads more rows
of a larger agency. With --small or --sizes it does the one or the other.
"""
import argparse
import collections
import contextlib
import glob
import os
import shutil
import sqlite3
import subprocess
import sys
import tempfile

from many_rows import BOOKED, CLERKS_KEY, DISPATCHERS_KEY, RIDER, RIDERS_KEY, THE_VISITOR, Years, number_of
from serving import ADMINS_KEY, LAST_DAY, TODAY, TOMORROW, TRIP, VAN, Desk, make_agency

CLERK, DISPATCHER = "hello", "radio"
VISITOR, FIRST_NUMBER = 9, 7
WISHES = (660, 720, 780, 840, 900, 960, 1020)
COUNTED = {
    "reads": "sqlite::connection::Connection::query_near", "writes": "sqlite::transaction::Transaction::execute",
    "parsed": "sqlite_syntax::statement::parse_at", "commit": "sqlite::connection::Connection::commit",
    "found": "sqlite_store::store::FileStoreStore::get", "next": "sqlite_store::store::FileStoreStore::next",
    "pages": "sqlite_pool::backing::Backing::load::",
}
# Each has more than fourteen days before today, on which trips of the days ahead were booked.
SIZES, DAYS_AHEAD, RIDERS_EACH = (15_000, 40_000, 100_000), 2, 5
# A row more here and there is no growth: a leaf of an index ends elsewhere.
SOME_ROWS, A_TWENTIETH = 5, 0.05

Counts = collections.namedtuple("Counts", "status reads writes parsed rows pages total commit")


# Counting.


def counts_of(path):
    """All instructions of a dump, and by function how often it was called and what its calls took in all."""
    names, calls, took, total = {}, collections.Counter(), collections.Counter(), 0
    called = None
    with open(path, encoding="utf-8", errors="replace") as dump:
        for line in dump:
            key, _, value = line.rstrip("\n").partition("=")
            if key in ("fn", "cfn"):
                number, _, name = value.partition(" ")
                names.setdefault(number, name)
                function = names[number]
            elif key == "calls":
                calls[function] += int(value.split()[0])
                called = function
            elif called is not None and value == "":
                took[called] += int(line.split()[-1])
                called = None
            elif line.startswith("totals:"):
                total = int(line.split()[1])
    return total, calls, took


def of_function(counts, start):
    return sum(count for name, count in counts.items() if name.startswith(start))


def control(process, *words):
    subprocess.run(["callgrind_control", *words, str(process)], capture_output=True, check=True)


class Counting:
    """A desk under callgrind."""

    def __init__(self, desk, folder):
        self.desk, self.folder, self.process = desk, folder, desk.process.pid
        control(self.process, "--instr=on")

    def measured(self, ask):
        """The counts of a request."""
        control(self.process, "--zero")
        reply = ask()
        control(self.process, "--dump")
        dump = max(glob.glob(f"{self.folder}/dump.{self.process}.*"), key=os.path.getmtime)
        total, calls, took = counts_of(dump)
        counted = {name: of_function(calls, start) for name, start in COUNTED.items()}
        return Counts(reply.status if reply else None, counted["reads"], counted["writes"], counted["parsed"],
                      counted["found"] + counted["next"], counted["pages"], total, of_function(took, COUNTED["commit"]))


@contextlib.contextmanager
def counting(program, file, folder):
    """The desk over this file. It is not counted before it serves."""
    wrapped = f"{folder}/under-callgrind"
    with open(wrapped, "w", encoding="utf-8") as script:
        script.write("#!/bin/sh\nexec valgrind -q --tool=callgrind --instr-atstart=no "
                     f'--callgrind-out-file={folder}/dump.%p {program} "$@"\n')
    os.chmod(wrapped, 0o755)
    with Desk(wrapped, file) as desk:
        yield Counting(desk, folder)


# The small agency.


def show_small(counted, label, ask):
    it = counted.measured(ask)
    print(f"{label:24}{it.status:>6}{it.reads:>8}{it.writes:>8}{it.parsed:>8}{it.total:>14,}{it.commit:>14,}", flush=True)


def ask_in_turn(counted):
    desk, number = counted.desk, FIRST_NUMBER

    def write(label, path, body):
        show_small(counted, label, lambda: desk.post(path, CLERK, number, body))

    print(f"{'request':24}{'status':>6}{'reads':>8}{'writes':>8}{'parsed':>8}{'instructions':>14}{'of the commit':>14}")
    trip = {"rider": VISITOR, **TRIP, "day": TOMORROW + (TOMORROW - TODAY), "to": 3}
    for wish in WISHES:
        write(f"a trip at {wish // 60}:{wish % 60:02}", "/trips", {**trip, "wish": wish})
        number += 1
    before_all = {**trip, "wish": 420}
    write("one before them all", "/trips", before_all)
    write("the same write again", "/trips", before_all)
    number += 1
    write("no vehicle", "/trips", {**trip, "wish": 10})
    write("a cancellation", f"/trips/{len(WISHES) + 4}/cancel", {})
    for label, path, key in ("a rider's trips", f"/riders/{VISITOR}/trips", CLERK), ("a sheet", f"/days/{trip['day']}/sheet", DISPATCHER):
        show_small(counted, label, lambda path=path, key=key: desk.get(path, key))


# Three sizes.


def requests(file, riders):
    """Each kind of request twice, as method, path, key and body: the first parses its texts, the second is counted."""
    with contextlib.closing(sqlite3.connect(f"file:{file}?immutable=1", uri=True)) as database:
        last, = database.execute("SELECT last_trip FROM desk").fetchone()
        ended = [it for it, in database.execute("SELECT id FROM trips WHERE day = ? AND status = ? AND vehicle = 7 LIMIT 2",
                                                (number_of(TODAY), BOOKED))]
    trip = {**TRIP, "from": 5, "to": 27}
    by_kind = {
        "a caller": [("POST", "/callers", ADMINS_KEY, {"id": 90 + it, "role": "clerk", "subject": 0, "key": f"k{it}"}) for it in (1, 2)],
        "a vehicle": [("POST", "/vehicles", DISPATCHERS_KEY, {**VAN, "id": 7, "from_day": LAST_DAY, "capacity": 8 - it}) for it in (0, 1)],
        "a vehicle that is booked": [("POST", "/vehicles", DISPATCHERS_KEY, {**VAN, "id": 7 + it, "from_day": TODAY}) for it in (0, 1)],
        "a rider": [("POST", "/riders", CLERKS_KEY, {"id": riders + it, "kind": "resident", "attendant": False}) for it in (1, 2)],
        "an application": [("POST", f"/riders/{riders + it}/entries", CLERKS_KEY, {"entry": "complete"}) for it in (1, 2)],
        "a resident's booking": [("POST", "/trips", CLERKS_KEY, {"rider": it, **trip}) for it in (501, 502)],
        "a visitor's booking": [("POST", "/trips", CLERKS_KEY, {"rider": THE_VISITOR, **trip, "wish": 700 + it}) for it in (0, 5)],
        "no vehicle": [("POST", "/trips", CLERKS_KEY, {"rider": 503 + it, **trip, "wish": 10}) for it in (0, 1)],
        "a change": [("POST", f"/trips/{last + it}/change", CLERKS_KEY, {**trip, "wish": 900}) for it in (1, 2)],
        "a cancellation": [("POST", f"/trips/{last + it}/cancel", CLERKS_KEY, {}) for it in (3, 4)],
        "an outcome": [("POST", f"/trips/{it}/outcome", DISPATCHERS_KEY, {"outcome": "ridden"}) for it in ended],
        "the 100 trips of a rider": [("GET", f"/riders/{RIDER}/trips", RIDERS_KEY, None)] * 2,
        "a standing": [("GET", f"/riders/{RIDER}/standing/{TOMORROW}", RIDERS_KEY, None)] * 2,
        "a visitor's standing": [("GET", f"/riders/{THE_VISITOR}/standing/{TOMORROW}", CLERKS_KEY, None)] * 2,
        "a letter": [("GET", f"/riders/{RIDER}/letters/1", RIDERS_KEY, None)] * 2,
        "a manifest": [("GET", f"/vehicles/7/manifest/{TOMORROW}", DISPATCHERS_KEY, None)] * 2,
        "the sheet of a day": [("GET", f"/days/{TOMORROW}/sheet", DISPATCHERS_KEY, None)] * 2,
        "the export of a day": [("GET", f"/days/{TOMORROW}/trips.csv", DISPATCHERS_KEY, None)] * 2,
    }
    return by_kind


def counts_of_size(program, trips, folder):
    """Of each kind of request, what it has the tables of an agency of that size do."""
    riders = max(trips // RIDERS_EACH, 2_000)
    file = Years(trips, riders, TODAY, DAYS_AHEAD).make(program, f"{folder}/{trips}.db", ADMINS_KEY)
    asked = requests(file, riders)
    numbers, found = collections.Counter(), {}
    with counting(program, file, folder) as counted:
        def ask(method, path, key, body):
            numbers[key] += body is not None
            return counted.desk.ask(method, path, key, numbers[key] if body is not None else None, body)

        for kind, (first, second) in asked.items():
            ask(*first)
            found[kind] = counted.measured(lambda second=second: ask(*second))
    print(f"counted {len(found)} requests over {trips:,} trips", file=sys.stderr, flush=True)
    return found


def is_flat(counts):
    few, most = min(it.rows for it in counts), max(it.rows for it in counts)
    return most <= few * (1 + A_TWENTIETH) + SOME_ROWS


def compare_sizes(program, sizes, folder):
    """The counts as rows for bench/README.md; the kinds of requests that read more of a larger agency."""
    by_size = [counts_of_size(program, it, folder) for it in sizes]
    titles = ", ".join(f"{it:,}" for it in sizes)
    print(f"\n| Request | Status | Texts that read | Rows read, of {titles} trips | Pages looked at | Millions of instructions |\n|" +
          "---|" * 6)
    growing = []
    for kind in by_size[0]:
        counts = [it[kind] for it in by_size]
        rows, pages = (", ".join(f"{getattr(it, name):,}" for it in counts) for name in ("rows", "pages"))
        instructions = ", ".join(f"{it.total / 1_000_000:.1f}" for it in counts)
        statuses = ", ".join(dict.fromkeys(str(it.status) for it in counts))
        print(f"| {kind} | {statuses} | {counts[-1].reads} | {rows} | {pages} | {instructions} |", flush=True)
        if not is_flat(counts):
            growing.append(kind)
    return growing


def main(words):
    usage = argparse.ArgumentParser(prog="bench/statements", description=__doc__.partition("\n\n")[0])
    usage.add_argument("program", metavar="PROGRAM")
    which = usage.add_mutually_exclusive_group()
    which.add_argument("--small", action="store_true", help="only the small agency")
    which.add_argument("--sizes", metavar="N,N..", nargs="?", const=",".join(map(str, SIZES)),
                       help="only the agency of 50 vans, with so many trips (%(const)s)")
    given = usage.parse_args(words)
    program = os.path.realpath(given.program)
    if not os.access(program, os.X_OK) or not shutil.which("valgrind"):
        usage.error(f"there is no program {program}, or no valgrind")
    sizes = (given.sizes or ",".join(map(str, SIZES))).split(",")
    if not all(it.isdigit() for it in sizes):
        usage.error(f"{given.sizes!r} are no numbers with commas between them")
    with tempfile.TemporaryDirectory() as folder:
        if not given.sizes:
            with counting(program, make_agency(program, folder), folder) as counted:
                ask_in_turn(counted)
        growing = [] if given.small else compare_sizes(program, [int(it) for it in sizes], folder)
    for kind in growing:
        print(f"bench/statements: {kind} reads more rows of a larger agency")
    return 1 if growing else 0


if __name__ == "__main__":
    sys.exit(main(sys.argv[1:]))
