"""Moves a whole town in by the documents' commands, in their order, and times each: `moving_town [ADDRESSES] PROGRAM`.

A town of 40 lines, 3,000 addresses (or so many) and 500 riders, whose tables are as spreadsheets save them, goes from files to the first
day's papers: docs/MOVING-IN.md, then docs/SITE-FILES.md, docs/STANDING-ORDERS.md and docs/GUIDE.md. Each command has to end well, and
what the desk has at the end is counted. The seconds by the clock and of the processor stand beside each command. The last line is 'N passed, M failed',
and the exit status 1 where something failed.
"""
import csv
import json
import os
import resource
import subprocess
import sys
import tempfile
import time
from pathlib import Path

from desk_tools.tree import TOP
import serving
import town_parts as parts
from serving import TODAY, TOMORROW, ZONE, difference, tally, told_program

LINES, ADDRESSES, RIDERS, VANS, SECONDS = 40, 3_000, 500, 40, 1_800
KEYS = {
    it: f"keys/{at}-{it}"
    for at, it in enumerate(("admin", "clerk", "dispatcher", "examiner", "officer"), 1)
}
CLOCK = {**os.environ, "TZ": ZONE, "OPENBLAS_NUM_THREADS": "1"}


class Town:
    """The folder of the town, the desk that is served, and how long each command took."""

    def __init__(self, program, folder, count):
        self.program, self.folder, self.count, self.desk, self.took, self.said = (
            program,
            folder,
            count,
            None,
            [],
            "",
        )
        # (a small town, for a short look, has fewer of all)
        self.lines, self.riders = (
            (LINES, RIDERS) if count >= 2 * RIDERS else (LINES // 4, count // 2)
        )

    def begin(self):
        """The files, and an empty desk."""
        parts.write_forms(self.folder, TODAY, self.lines, self.count, self.riders, VANS)
        os.mkdir(f"{self.folder}/keys", 0o700)
        Path(f"{self.folder}/{KEYS['admin']}").write_text("first-key", "ascii")
        serving.ran(self.program, "init", f"{self.folder}/desk.db", "first-key")
        self.serve()

    def serve(self):
        self.desk = serving.Desk(self.program, f"{self.folder}/desk.db")

    def run(self, command, *words, ends=(0,), sends=True):
        """None where a command ends as it should. Its seconds are kept."""
        given = [f"{TOP}/bin/{command}", *map(str, words)]
        given += ["--url", f"http://127.0.0.1:{self.desk.port}"] if sends else []
        began, spent = time.monotonic(), seconds_of_children()
        run = subprocess.run(
            given,
            cwd=self.folder,
            env=CLOCK,
            capture_output=True,
            text=True,
            timeout=SECONDS,
            check=False,
        )
        self.took.append(
            (
                f"{command} {' '.join(map(str, words))}",
                time.monotonic() - began,
                seconds_of_children() - spent,
            )
        )
        self.said = run.stdout
        name, seconds, spent = self.took[-1]
        print(f"{seconds:8.1f} {spent:8.1f} s  {name[:110]}", flush=True)
        return (
            None
            if run.returncode in ends
            else f"{given} ends with {run.returncode}: {run.stdout[-600:]}{run.stderr[-900:]}"
        )

    def keys(self, *roles):
        return [it for role in roles for it in (f"--{role}", KEYS[role])]

    def shown(self):
        clock, spent = (sum(it[at] for it in self.took) / 60 for at in (1, 2))
        print(f"{clock:8.1f} {spent:8.1f} minutes of the machine, {len(self.took)} commands")


def seconds_of_children():
    """The processor's seconds of all commands so far."""
    used = resource.getrusage(resource.RUSAGE_CHILDREN)
    return used.ru_utime + used.ru_stime


def faults_of_moving_in(town):
    """MOVING-IN.md, from the feed to the riders."""
    yield town.run("move-in", "routes", "feed.zip", "--plan", sends=False)
    yield town.run("move-in", "routes", "feed.zip", *town.keys("admin"))
    yield town.run("move-in", "places", "places.csv", *town.keys("admin"))
    # (some addresses lie outside every corridor, and are refused by their rows)
    yield town.run(
        "move-in",
        "gather",
        "addresses.csv",
        "--riders",
        "people.csv",
        "--plan",
        ends=(1,),
        sends=False,
    )
    yield town.run(
        "move-in", "gather", "addresses.csv", "--riders", "people.csv", ends=(1,), sends=False
    )
    yield town.run("move-in", "places", "gathered-places.csv", *town.keys("admin"))
    yield town.run("move-in", "callers", "callers.csv", *town.keys("admin"))
    yield town.run("move-in", "write", "/policy", "policy.json", *town.keys("admin"))
    yield town.run("move-in", "vehicles", "vehicles.csv", *town.keys("dispatcher"))
    yield town.run("move-in", "times", "--speed", 25, "--detour", 1.4, sends=False)
    yield town.run("move-in", "times", "--check", "times.csv", sends=False)
    town.desk.kill()
    key = Path(f"{town.folder}/{KEYS['dispatcher']}").read_text("ascii").strip()
    given = serving.ran(
        town.program,
        "travel",
        f"{town.folder}/desk.db",
        ZONE,
        key,
        int(time.time()),
        TODAY,
        f"{town.folder}/times.csv",
    )
    yield None if given.stdout == b"done\n" else f"desk travel: {given}"
    town.serve()
    # (a rider whose home lies outside every corridor is refused)
    yield town.run("move-in", "people", "people.csv", ends=(0, 1), sends=False)
    yield town.run("move-in", "riders", "cut-riders.csv", *town.keys("clerk", "examiner"))


def faults_of_first_day(town):
    """What the pages need, the standing orders of the first day, and its papers."""
    os.mkdir(f"{town.folder}/site")
    words = "agency.json --roster cut-roster.csv --addresses cut-addresses.csv site".split()
    # (a home outside every corridor has no place, and is named)
    yield town.run("site-files", *words, ends=(0, 1), sends=False)
    parts.write_orders(town.folder, TOMORROW)
    yield town.run(
        "standing-orders",
        "orders.csv",
        *town.keys("clerk", "dispatcher"),
        "--agency",
        "share.json",
        ends=(0, 1),
    )
    yield town.run("move-in", "read", f"/days/{TOMORROW}/sheet", *town.keys("dispatcher"))
    sheet = town.said
    yield town.run("driver-files", "site", "--key", KEYS["dispatcher"], "--today", TODAY)
    yield town.run(
        "trip-exchange",
        "site",
        "--key",
        KEYS["dispatcher"],
        "--day",
        TOMORROW,
        "--output",
        "trips.json",
    )
    with open(f"{town.folder}/report.csv", encoding="utf-8") as file:
        results = [it["result"] for it in csv.DictReader(file)]
    booked = (
        serving.rows(f"{town.folder}/copy.db", "SELECT count(*) FROM trips")[0][0]
        if copied(town)
        else 0
    )
    yield difference("trips on the day sheet", f"TRIPS {booked}", sheet.strip().splitlines()[-1])
    # (a trip may be denied by the rules, as for a grant of other months; most are booked)
    yield None if booked >= town.riders // 2 else f"{booked} trips of {town.riders} riders are booked: {[(it, results.count(it)) for it in set(results)]}"
    with open(f"{town.folder}/trips.json", encoding="utf-8") as file:
        homes = [it["tripRequest"]["pickupAddress"]["street"] for it in json.load(file)["trips"]]
    yield None if homes and all(
        homes
    ) else f"{sum(not it for it in homes)} trips of {len(homes)} begin at no address"
    drivers = [it for it in os.listdir(f"{town.folder}/site/drivers") if it.isdigit()]
    yield None if drivers else "no driver has files"
    print(f"{town.riders} riders, {len(homes)} trips of the first day in {len(drivers)} vans")


def copied(town):
    """A copy of the desk's file, once the desk has ended."""
    town.desk.kill()
    serving.copy_database(f"{town.folder}/desk.db", f"{town.folder}/copy.db")
    return True


def faults(program, count):
    with tempfile.TemporaryDirectory(prefix="desk-town-") as folder:
        town = Town(program, folder, count)
        town.begin()
        print("   clock  processor")
        try:
            yield from faults_of_moving_in(town)
            yield from faults_of_first_day(town)
            there = serving.rows(f"{folder}/copy.db", "SELECT count(*) FROM riders")[0][0]
            yield difference(
                "riders at the desk, and those refused for their homes",
                town.riders,
                there + refused_in(folder),
            )
        finally:
            town.desk.kill()
        town.shown()


def refused_in(folder):
    path = f"{folder}/refused-people.csv"
    if not os.path.exists(path):
        return 0
    with open(path, encoding="utf-8", newline="") as file:
        return len(list(csv.reader(file))) - 1


if __name__ == "__main__":
    named, more = told_program(sys.argv[1:], __doc__)
    sys.exit(tally("tests/moving_town", faults(named, int(more[0]) if more else ADDRESSES)))
