"""Tries bin/closed-days at a desk, and how bin/standing-orders passes over a closed day: `closed_days PROGRAM`.

A holiday is played from a feed to the call list: bin/move-in finds it, the site's file has it, bin/closed-days cancels as the
agency and tells the site, also where the site is away or the run was cut off, and bin/worklist lists whom to call. The last line is 'N passed, M failed', and the exit status 1 where something failed.
"""
import csv
import datetime
import fcntl
import json
import os
import shutil
import subprocess
import sys
import tempfile
import zipfile

from desk_tools.tree import TOP
import serving
from desk_tools.setup import feed
from desk_tools import event_log
from serving import ADMINS_KEY, TODAY, TOMORROW, TRIP, ZONE, difference, tally, told_program, write
from stand_in_site import StandInSite

CLOCK, NAME = {**os.environ, "TZ": ZONE}, '=Ann "Lee"'
LATER, FAR = TODAY + datetime.timedelta(days=5), TODAY + datetime.timedelta(days=40)
ROSTER = f'rider,name,telephone\n7,"=Ann ""Lee""",555-0107\n'
ORDERS = "rider,weekdays,wish,from,to\n7,1-7,9:00,1,2\n"


class Trial:
    """A desk with an agency, and the files that the command reads."""

    def __init__(self, desk, folder, file):
        self.desk, self.folder, self.file, self.numbers = desk, folder, file, 100
        write(f"{folder}/radio", "radio\n")
        write(f"{folder}/hello", "hello\n")
        write(f"{folder}/roster.csv", ROSTER)
        write(f"{folder}/orders.csv", ORDERS)

    def book(self, day, wish=600):
        self.numbers += 1
        reply = self.desk.post(
            "/trips", "hello", self.numbers, {**TRIP, "rider": 7, "day": day, "wish": wish}
        )
        return reply.body["trip"]

    def agency(self, closed):
        write(f"{self.folder}/agency.json", json.dumps({"name": "Town", "closed": closed}))

    def run(self, *more, key="radio", tool="closed-days", url=None):
        words = [
            f"{TOP}/bin/{tool}",
            "--agency",
            "agency.json",
            "--url",
            url or f"http://127.0.0.1:{self.desk.port}",
            "--dispatcher",
            key,
            "--roster",
            "roster.csv",
            *more,
        ]
        done = subprocess.run(
            words,
            cwd=self.folder,
            env=CLOCK,
            capture_output=True,
            text=True,
            timeout=100,
            check=False,
        )
        return done.returncode, done.stdout + done.stderr

    def listed(self):
        with open(f"{self.folder}/closed-days.csv", encoding="utf-8", newline="") as file:
            return [
                (it["day"], it["trip"], it["name"], it["telephone"], it["canceled"])
                for it in csv.DictReader(file)
            ]

    def status_of(self, trip):
        trips = self.desk.get("/riders/7/trips", "hello").body["trips"]
        return next(it["status"] for it in trips if it["trip"] == trip)


def faults_of_list(trial):
    """What the command tells and does otherwise than it must, run by run."""
    first, other = trial.book(LATER), trial.book(TOMORROW)
    trial.agency([{"day": FAR.isoformat(), "name": "Far"}])
    yield difference("without a closed day", (0, "No day of the next 14 is closed.\n"), trial.run())
    trial.agency(
        [
            {"day": LATER.isoformat(), "name": "Christmas Day"},
            {"day": "2026-13-01"},
            {"name": "no day"},
        ]
    )
    status, said = trial.run()
    # (a day that can't be read is never done with: the nightly unit fails, and somebody looks)
    yield difference("where one is closed", 2, status)
    for words in [
        f"{LATER} (Christmas Day) is closed; 1 trip is booked on it.",
        f"trip {first}, {NAME} (7), pickup ",
        "555-0107",
        'closed[1].day: "2026-13-01" is no day, such as "2026-12-25"',
        "closed[2]: it is left out",
    ]:
        yield None if words in said else f"{words!r} is not said: {said}"
    yield difference("nothing is canceled unasked", "booked", trial.status_of(first))
    status, said = trial.run("--cancel")
    yield difference(
        "canceled",
        (2, True),
        (
            status,
            "1 trip is canceled; " in said
            and "1 cancellation is kept, and the site was not told: --site names it" in said,
        ),
    )
    yield difference("the closed day's trip", "cancelled", trial.status_of(first))
    yield difference("the other day's trip", "booked", trial.status_of(other))
    row = (LATER.isoformat(), str(first), f"'{NAME}", "555-0107", "yes")
    yield difference("the call list", [row], trial.listed())
    second = trial.book(LATER, 900)
    yield difference("a later run", 2, trial.run("--cancel")[0])
    yield difference(
        "the list after it",
        [row, (LATER.isoformat(), str(second), f"'{NAME}", "555-0107", "yes")],
        trial.listed(),
    )
    yield difference("a third run", 2, trial.run("--cancel")[0])
    yield difference("the list is kept", len(trial.listed()), 2)


def faults_of_reader(trial):
    """A reader who goes away leaves nothing undone, and is no error."""
    trip = trial.book(LATER, 660)
    trial.agency([{"day": LATER.isoformat(), "name": "Christmas Day"}])
    words = [
        f"{TOP}/bin/closed-days",
        "--agency",
        "agency.json",
        "--url",
        f"http://127.0.0.1:{trial.desk.port}",
        "--dispatcher",
        "radio",
        "--cancel",
    ]
    reads, writes = os.pipe()
    os.close(reads)
    # (each line is written at once, as where there are more than fit a buffer)
    ran = subprocess.run(
        words,
        cwd=trial.folder,
        env={**CLOCK, "PYTHONUNBUFFERED": "1"},
        stdout=writes,
        stderr=subprocess.PIPE,
        text=True,
        timeout=100,
        check=False,
    )
    os.close(writes)
    yield difference(
        "a reader who goes away",
        (0, "", "cancelled"),
        (ran.returncode, ran.stderr, trial.status_of(trip)),
    )


def faults_of_input(trial):
    """What bad input comes to."""
    status, said = trial.run(key="hello")
    yield difference(
        "a clerk's key", (status, "this takes a caller of another role" in said), (2, True)
    )
    status, said = trial.run("--patience", "1", url=f"http://127.0.0.1:{serving.free_port()}")
    yield difference("no desk", (status, "does not answer" in said), (3, True))
    for closed in ("2026-12-25", ["2026-12-25"], [{"day": "2026-13-25"}]):
        trial.agency(closed)
        status, said = trial.run()
        yield difference(
            f"closed days that can't be read: {said}",
            (2, True),
            (status, "agency.json: closed" in said),
        )
    trial.agency([{"day": LATER.isoformat(), "name": "Christmas Day"}])
    write(f"{trial.folder}/closed-days.csv", "a,b\n1,2\n")
    trial.book(LATER, 700)
    status, said = trial.run("--do", "close")
    yield difference(
        "a word that is none", (status, "'close' is neither list nor cancel" in said), (2, True)
    )
    ran = trial.run("--do", "")
    yield difference(f"no word: {ran[1]}", 1, ran[0])
    status, said = trial.run("--site", "no site")
    yield difference(
        "a site that is none", (status, "no site is no site such as" in said), (2, True)
    )
    status, said = trial.run("--cancel")
    yield difference(
        "another file in place of the list",
        (status, "is not a call list of this program" in said),
        (2, True),
    )
    heads = "day,window_from,window_to,trip,rider,name,telephone,vehicle,canceled\n"
    for row, wanted in (
        ("2026-12-25,nine,570,4,7,Ann,,1,yes", "row 3: window_from 'nine' is no whole number"),
        ("2026-12-25,540,570,trip 4,7,Ann,,1,yes", "row 3: trip 'trip 4' is no whole number"),
        ("Christmas,540,570,4,7,Ann,,1,yes", "row 3: day 'Christmas' is no day"),
    ):
        write(
            f"{trial.folder}/closed-days.csv", f"{heads}2026-12-25,540,570,3,7,Ann,,1,yes\n{row}\n"
        )
        status, said = trial.run("--cancel")
        yield difference(
            f"free text in the list: {said}",
            (2, True, 1),
            (status, wanted in said, said.count("bin/closed-days:")),
        )


def faults_of_orders(trial):
    """Standing orders book nothing on a closed day."""
    words = [
        f"{TOP}/bin/standing-orders",
        "orders.csv",
        "--agency",
        "agency.json",
        "--plan",
        "--today",
        TODAY.isoformat(),
    ]
    ran = subprocess.run(
        words, cwd=trial.folder, env=CLOCK, capture_output=True, text=True, timeout=100, check=False
    )
    yield difference("trips of the plan", ran.stdout.count("line 2, rider 7"), 13)
    wanted = (
        f"{LATER:%a} {LATER} is closed (Christmas Day): 1 trip of standing orders is passed over"
    )
    yield None if wanted in ran.stdout else f"{wanted!r} is not said: {ran.stdout}"


# A holiday, from the feed to the call list.

HOLIDAY = TODAY + datetime.timedelta(days=6)


def write_feed(path, closed):
    """A feed of one line each day, along the places, which rests on these days."""
    rows = {
        "agency": ["agency_name,agency_url,agency_timezone", "Town,http://town,"],
        "routes": ["route_id,route_short_name,route_type", "1,1,3"],
        "trips": ["trip_id,route_id,service_id", "a,1,all"],
        "stops": ["stop_id,stop_lat,stop_lon", "a,44.0,-93.05", "b,44.0,-92.95"],
        "stop_times": [
            "trip_id,arrival_time,departure_time,stop_id,stop_sequence",
            "a,06:00:00,06:00:00,a,1",
            "a,22:00:00,22:00:00,b,2",
        ],
        "calendar": [
            "service_id,start_date,end_date," + ",".join(feed.WEEKDAYS),
            f"all,{TODAY:%Y%m%d},{TODAY + datetime.timedelta(days=60):%Y%m%d},1,1,1,1,1,1,1",
        ],
        "calendar_dates": [
            "service_id,date,exception_type",
            *(f"all,{it:%Y%m%d},2" for it in closed),
        ],
    }
    with zipfile.ZipFile(path, "w") as archive:
        for name, lines in rows.items():
            archive.writestr(f"{name}.txt", "\n".join([*lines, ""]))


def faults_of_holiday(trial):
    """The holiday of a feed, from `move-in routes --plan` to the rider's row of the call list."""
    os.remove(f"{trial.folder}/closed-days.csv")
    at, trips = f"http://127.0.0.1:{trial.desk.port}", [
        trial.book(HOLIDAY),
        trial.book(HOLIDAY, 800),
    ]
    write(f"{trial.folder}/admin", ADMINS_KEY)
    trial.agency([{"day": TOMORROW.isoformat(), "name": "Founders Day"}])
    write_feed(f"{trial.folder}/feed.zip", [HOLIDAY])

    def run(*words):
        done = subprocess.run(
            [f"{TOP}/bin/{words[0]}", *words[1:]],
            cwd=trial.folder,
            env=CLOCK,
            capture_output=True,
            text=True,
            timeout=100,
            check=False,
        )
        return done.returncode, done.stdout + done.stderr

    routes = ["move-in", "routes", "feed.zip", "--from", TODAY.isoformat()]
    status, said = run(*routes, "--plan")
    yield difference("the plan's end", 0, status)
    for words in [
        f"  {HOLIDAY}",
        ": new",
        f"  {TOMORROW} (Founders Day): in agency.json already",
        f"{TOMORROW} is closed in agency.json, and buses run on it",
    ]:
        yield None if words in said else f"the plan does not say {words!r}: {said}"
    yield None if f"of 4 {HOLIDAY:%A}s" not in said else f"the closed day is told of a route as well: {said}"
    yield difference("what a plan writes", [TOMORROW.isoformat()], closed_of(trial))
    yield difference("the routes are put", 0, run(*routes, "--url", at, "--admin", "admin")[0])
    yield difference(
        "what is written", [TOMORROW.isoformat(), HOLIDAY.isoformat()], closed_of(trial)
    )
    yield difference(
        "a second run",
        (0, [TOMORROW.isoformat(), HOLIDAY.isoformat()]),
        (run(*routes, "--url", at, "--admin", "admin")[0], closed_of(trial)),
    )
    trial.agency([{"day": HOLIDAY.isoformat(), "name": "Christmas Day"}])
    shutil.copy(f"{trial.folder}/agency.json", f"{trial.folder}/holiday.json")
    os.makedirs(f"{trial.folder}/site", exist_ok=True)
    yield difference("the site's files", 0, run("site-files", "agency.json", "site")[0])
    with open(f"{trial.folder}/site/agency.json", encoding="utf-8") as file:
        yield difference(
            "what the pages read",
            [{"day": HOLIDAY.isoformat(), "name": "Christmas Day"}],
            json.load(file)["closed"],
        )
    status, said = trial.run("--do", "list")
    yield difference(
        "what is booked is listed", (1, True), (status, "2 trips are booked on it" in said)
    )
    with StandInSite(503, 99) as site:
        status, said = trial.run("--do", "cancel", "--site", site.address)
        yield difference("a site that is away", (0, True), (status, "4 cancellations wait" in said))
    yield difference("both trips", ["cancelled"] * 2, [trial.status_of(it) for it in trips])
    with StandInSite() as site:
        for _ in range(2):
            status, said = trial.run("--do", "cancel", "--site", site.address)
            yield difference("a site that takes all", (0, False), (status, "cancellations" in said))
        told = [event_log.told_of(it) for it in site.told]
        # (those of earlier runs, which named no site, are told too)
        yield difference(
            "what the site was told",
            [("cancellations", it, "agency") for it in trips],
            sorted((it.kind, it.fields["trip"], it.fields["by"]) for it in told)[2:],
        )
        yield from faults_of_cut_off(trial, site)
        write(f"{trial.folder}/tally.log", "".join(f"{it.decode()}\n" for it in site.told))
    yield difference(
        "the call list",
        [(HOLIDAY.isoformat(), str(it), f"'{NAME}", "555-0107", "yes") for it in trips],
        trial.listed()[:2],
    )


def faults_of_waiting(trial, program):
    """Once the desk has ended, its file is a copy: the dispatcher reads there whom to call."""
    copy = f"{trial.folder}/desk-copy.db"
    serving.copy_database(trial.file, copy)
    words = [
        f"{TOP}/bin/worklist",
        copy,
        "--agency",
        "holiday.json",
        "--roster",
        "roster.csv",
        "--tally",
        "tally.log",
        "--today",
        TODAY.isoformat(),
        "--program",
        program,
    ]
    ran = subprocess.run(
        words, cwd=trial.folder, capture_output=True, text=True, timeout=100, check=False
    )
    waits = ran.stdout[ran.stdout.find("TRIPS ON CLOSED DAYS") :].split("\n\n")[0]
    yield difference(
        f"whom to call: {ran.stdout[:300]}{ran.stderr}",
        (0, 3, 3),
        (ran.returncode, waits.count("Christmas Day"), waits.count("canceled: call the rider")),
    )


def closed_of(trial):
    with open(f"{trial.folder}/agency.json", encoding="utf-8") as file:
        return [it["day"] for it in json.load(file)["closed"]]


def faults_of_cut_off(trial, site):
    """A run that was cut off after the desk had canceled: the site is told at the next run, once."""
    trip, before = trial.book(HOLIDAY, 900), len(site.told)
    path = f"/tally/cancellations?id={'7' * 26}&trip={trip}&by=agency&at={TODAY}T12:00:00"
    with open(f"{trial.folder}/closed-days.jsonl", "a", encoding="utf-8") as file:
        file.write(json.dumps({"key": str(trip), "state": "held", "path": path}) + '\n{"key":"1')
    with open(f"{trial.folder}/closed-days.csv", "a", encoding="utf-8") as file:
        file.write(f"{HOLIDAY},900,915,{trip},7,Ann,555-0107,1,no\r\n")
    trial.numbers += 1
    trial.desk.post(f"/trips/{trip}/cancel", "radio", 4_000_000_000, {})
    with open(f"{trial.folder}/closed-days.lock", "a", encoding="utf-8") as file:
        fcntl.flock(file, fcntl.LOCK_EX)
        status, said = trial.run("--do", "cancel", "--site", site.address)
    yield difference(
        "a second run at once",
        (2, "bin/closed-days: another run is at work in .: wait until it has ended\n"),
        (status, said),
    )
    status, said = trial.run("--do", "cancel", "--site", site.address)
    told = [event_log.told_of(it).fields["trip"] for it in site.told[before:]]
    yield difference(f"after a run that was cut off: {said}", (0, [trip]), (status, told))
    listed = [it[-1] for it in trial.listed() if it[1] == str(trip)]
    yield difference("the call list after a run that was cut off", ["yes"], listed)


def faults_of_versions(trial):
    """Vehicles that come near their last version are named before anything is sent."""
    head = "number,name,from_day,days,depot,capacity,opens,closes,duration,chairs\n"
    for count, wanted in (14, False), (15, True):
        rows = "".join(
            f"1,Van,{TODAY + datetime.timedelta(days=100 + it)},1-7,1,4,6:00,20:00,600,0\n"
            for it in range(count)
        )
        write(f"{trial.folder}/vehicles.csv", head + rows)
        write(f"{trial.folder}/agency.json", '{"places": [{"id": 1}]}')
        ran = subprocess.run(
            [f"{TOP}/bin/move-in", "vehicles", "vehicles.csv", "--plan"],
            cwd=trial.folder,
            capture_output=True,
            text=True,
            timeout=100,
            check=False,
        )
        said = f"vehicle 1 has {count} versions with this table, and the desk takes 20 of a vehicle, for good"
        yield None if ran.returncode == 0 and (
            said in ran.stdout
        ) == wanted else f"{count} versions: {ran}"


def main():
    program, _ = told_program(sys.argv[1:], f"{__doc__.splitlines()[0]}\n")
    with tempfile.TemporaryDirectory(prefix="desk-closed-") as folder:
        file = serving.make_agency(program, folder)
        with serving.Desk(program, file) as desk:
            trial = Trial(desk, folder, file)
            faults = [
                *faults_of_list(trial),
                *faults_of_input(trial),
                *faults_of_orders(trial),
                *faults_of_holiday(trial),
                *faults_of_versions(trial),
                *faults_of_reader(trial),
            ]
        faults += faults_of_waiting(trial, program)
    return tally("tests/closed_days", faults)


if __name__ == "__main__":
    sys.exit(main())
