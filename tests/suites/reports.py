"""Tries bin/reports: `reports PROGRAM`.

The figures of the day of examples/day, and those of two months of a small agency, are compared with figures worked by
hand; a month of the demonstration office with a plain count; planned times with the sheets of the desk itself; and files, logs and words that are wrong with the sentence that
each gets. It takes curl and sqlite3. The last line is 'N passed, M failed', and the exit status 1 where something
failed.
"""
import collections
import csv
import datetime
import fcntl
import html.parser
import io
import itertools
import json
import math
import os
import random
import re
import subprocess
import sys
import tempfile
import zipfile
from pathlib import Path

from desk_tools.tree import TOP
import serving
from desk_tools.days import number_of
from desk_tools.setup import feed, keys
from desk_tools.demo import building, past, rows, town
from desk_tools.reports import copies
from serving import TOMORROW, difference, tally

REPORTS, SECONDS, SEED = f"{TOP}/bin/reports", 120, 20261128
# That of the reports: DESK names the program that is tried.
ENVIRONMENT = dict(os.environ)
RULES = "no vehicle,37.125,37.127(e),37.125(h),37.123(b),37.123(f),37.131(b),37.131(a),37.131(e)"
HEADER = (
    "month,asked,booked,"
    + ",".join(f"denied {it}" for it in RULES.split(","))
    + ",cancelled,cancelled_early,cancelled_late,cancelled_by_agency,cancelled_untold,ridden,missed_by_rider,"
    "missed_by_operator,without_outcome,to_come,pickups_early,pickups_on_time,pickups_late,pickups_untold,on_time_percent,"
    "appointments_on_time,appointments_late,appointments_untold,"
    "minutes_aboard_planned,minutes_aboard_driven,rides_timed,rides_over_limit,vehicle_hours,"
    "trips_per_vehicle_hour\n"
)
NTD_HEADER = (
    "mode,day,service,vehicles_operated,riders,companions,attendants,unlinked_passenger_trips,"
    "ada_unlinked_passenger_trips,no_shows_by_rider,missed_by_operator,cancelled,without_outcome,"
    "to_come,fares_cents\n"
)
TRIPS_HEADER = (
    "Trip,Rider,Name,Telephone,Day,Requested,Requested time,Sent to the desk,Promised from,Promised to,"
    "From,To,By,Vehicle,Attendant,"
    "Companions,Wheelchair,Fare ($),Due ($),State,Pickup planned,Drop planned,Arrived,Aboard,Dropped\r\n"
)


def run_of(*words):
    return subprocess.run(
        [REPORTS, *map(str, words)],
        capture_output=True,
        text=True,
        timeout=SECONDS,
        env=ENVIRONMENT,
    )


def csv_told(*words):
    """What a report prints, with its line ends, or what it says of a failure."""
    ran = subprocess.run(
        [REPORTS, *map(str, words)], capture_output=True, timeout=SECONDS, env=ENVIRONMENT
    )
    return ran.stdout.decode() if ran.returncode == 0 else ran


def line_of(kind, query, its_id=None):
    return f"2026-02-27T09:00:00-06:00\t/tally/{kind}\tid={its_id or keys.made()}&{query}\n"


def booking(trip, day, mode, minute):
    return line_of(
        "bookings",
        f"day={day}&trip={trip}&mode={mode}&minute={minute}&from=540&to=570&channel=page&at={day}T08:00:00",
    )


def denial(day, rule, its_id=None):
    return line_of("denials", f"day={day}&minute=540&rule={rule}", its_id)


def tap(trip, event, at):
    return line_of("stops", f"vehicle=1&trip={trip}&event={event}&at={at}")


def cancellation(trip, by, at):
    return line_of("cancellations", f"trip={trip}&by={by}&at={at}")


def write(path, *lines):
    with open(path, "wb") as file:
        file.writelines(it if isinstance(it, bytes) else it.encode() for it in lines)
    return path


# The day of examples/day.

# Its vehicle goes by this plan, with 2 minutes of service at each stop:
#   09:00 PICK 1   09:15 PICK 2   09:26 DROP 2   09:28 DROP 1   14:00 PICK 3   14:20 DROP 3
# The rider missed trip 1, trip 2 was ridden, the operator missed trip 3, trip 4 was cancelled, and a fifth was denied
# by 37.131(b), as it was for the same day. The log says besides: the vehicle was there for trip 1 at 09:05:00, within
# 09:00-09:15; and for trip 2 at 09:31:00, a minute after 09:15-09:30 had ended. Rider 8 was aboard from 09:33:30 to
# 09:45:00. Trip 4 was cancelled the day before, at 09:30, more than a day before its window.
#
#   asked                 4 booked + 1 denied = 5
#   on time               1 of 1 on time + 1 late = 50 percent
#   aboard, as planned    09:15 and 2 minutes is 09:17; to 09:26 these are 9 minutes
#   aboard, as driven     09:33:30 to 09:45:00 is 11 minutes 30 seconds, 11.5; below the limit of 9 + 20 minutes
#   vehicle hours         09:00 to 14:20 and 2 minutes, 14:22: 5 hours 22 minutes, 322 / 60 = 5.37
#   trips a vehicle hour  1 / (322 / 60) = 0.19
OF_THE_DAY = (
    "all,5,4,0,0,0,0,0,0,1,0,0,1,1,0,0,0,1,1,1,0,0,0,1,1,0,50.0,0,0,0,9.0,11.5,1,0,5.37,0.19\n"
)
# Rider 8 rode alone and paid 3.50. One vehicle carried a rider.
OF_THE_DATABASE = "1,1,0,0,1,1,1,1,1,0,0,350\n"
# Trip 1 is due for rider 7 and a companion: 2 x 3.50 = 7.00. Place 3's name would be a formula.
OF_THE_TRIPS = [
    '1,7,"Núñez, Ana",\'+1 555 0101,{day},be there by,11:00,10:00,09:00,09:15,Depot,2,11:00,Van <1>,no,1,no,3.50,7.00,'
    "missed by the rider,09:00,09:28,09:05:00,,\r\n",
    "2,8,Bo Lind,,{day},around,09:30,10:15,09:15,09:30,'=SUM(A1),2,,Van <1>,no,0,yes,3.50,3.50,ridden,09:15,09:26,09:31:00,09:33:30,"
    "09:45:00\r\n",
    "3,9,,,{day},,,15:00,14:00,14:15,2,Depot,,Van <1>,yes,0,no,3.50,3.50,missed by the operator,14:00,14:20,,,\r\n",
    "4,8,Bo Lind,,{day},,,15:00,14:00,14:15,2,'=SUM(A1),,Van <1>,no,0,yes,3.50,3.50,cancelled,,,,,\r\n",
]
# Stands before the program, and keeps the example's file when its desk was stopped.
KEEPING = """#!/bin/sh
if [ "$1" = trips ] && [ ! -e {copy} ]; then {program} "$@" || exit $?; exec sqlite3 "$2" '.backup {copy}'; fi
exec {program} "$@"
"""


def example_of(program, folder):
    """A copy of the example's file, and its two days."""
    copy, keeper = f"{folder}/desk-example.db", f"{folder}/keeper"
    write(keeper, KEEPING.format(program=program, copy=copy))
    os.chmod(keeper, 0o755)
    ran = subprocess.run(
        [f"{TOP}/examples/day", keeper],
        capture_output=True,
        text=True,
        timeout=SECONDS,
        env={**os.environ, "PORT": str(serving.free_port())},
    )
    if ran.returncode:
        raise OSError(
            f"examples/day ends with {ran.returncode}: {ran.stdout[-500:]}{ran.stderr[-500:]}"
        )
    day = copies.day_of(serving.rows(copy, "SELECT max(day) FROM trips")[0][0])
    return copy, day - datetime.timedelta(days=1), day


def faults_of_example(program, folder):
    copy, before, day = example_of(program, folder)
    log = write(
        f"{folder}/tally.log",
        booking(1, day, "around", 600),
        booking(1, day, "by", 660),
        booking(2, day, "around", 570),
        denial(before, "37.131(b)"),
        cancellation(4, "rider", f"{before}T09:30:00"),
        tap(1, "arrived", f"{day}T09:05:00"),
        tap(1, "no-show-rider", f"{day}T09:20:10"),
        tap(2, "arrived", f"{day}T09:31:00"),
        tap(2, "aboard", f"{day}T09:33:30"),
        tap(2, "dropped", f"{day}T09:45:00"),
        tap(3, "no-show-agency", f"{day}T14:40:00"),
    )
    told = csv_told("months", copy, "--tally", log)
    yield difference(
        "examples/day by month",
        (HEADER, OF_THE_DAY),
        (told.partition("\n")[0] + "\n", last_line(told)),
    )
    told = csv_told("ntd", copy)
    service = {6: "Saturday", 7: "Sunday"}.get(day.isoweekday(), "weekday")
    wanted = (
        NTD_HEADER
        + f"DR,{day},{service},{OF_THE_DATABASE}"
        + f"DR,total,1 day operated,{OF_THE_DATABASE}"
    )
    yield difference("examples/day for the National Transit Database", wanted, told[: len(wanted)])
    agency = write(
        f"{folder}/agency.json",
        json.dumps(
            {
                "name": "Hill & Dale",
                "vehicles": [{"id": 1, "name": "Van <1>"}],
                "places": [{"id": 1, "name": "Depot"}, {"id": 3, "name": "=SUM(A1)"}],
            }
        ),
    )
    roster = write(
        f"{folder}/roster.csv", 'rider,name,telephone\n7,"Núñez, Ana",+1 555 0101\n8,Bo Lind,\n'
    )
    told = csv_told("trips", copy, "--tally", log, "--agency", agency, "--roster", roster)
    wanted = "\ufeff" + TRIPS_HEADER + "".join(OF_THE_TRIPS).replace("{day}", str(day))
    yield difference("examples/day as a spreadsheet", wanted, told)
    yield from faults_of_page(folder, copy, log, agency)
    yield from faults_of_notes(folder, copy, day, agency)


def last_line(text):
    return text.splitlines(keepends=True)[-1]


class Page(html.parser.HTMLParser):
    """A page as a screen reader has it: each row by the head of the row, by the heads of columns, and its sentences."""

    def __init__(self, text):
        super().__init__()
        self.cells, self.sentences, self.heads, self.row, self.tag = {}, [], [], [], None
        self.feed(text)

    def handle_starttag(self, tag, attributes):
        self.tag = (tag, dict(attributes).get("scope"))
        if tag == "tr":
            self.row = []
        if self.tag in (("th", "row"), ("td", None)):
            self.row.append("")
        if tag == "thead":
            self.heads = []

    def handle_data(self, text):
        if self.tag == ("th", "col"):
            self.heads.append(text)
        elif self.tag in (("th", "row"), ("td", None)):
            self.row[-1] += text
        elif self.tag == ("p", None):
            self.sentences.append(text)

    def handle_endtag(self, tag):
        self.tag = None
        if tag == "tr" and self.row:
            self.cells.setdefault(self.row[0], {}).update(zip(self.heads[1:], self.row[1:]))


def noted(vehicle, day, trip, text, at):
    return line_of("notes", f"vehicle={vehicle}&day={day}&trip={trip}&text={text}&at={at}")


def faults_of_notes(folder, copy, day, agency):
    """The day's report has its notes by their time, each once, and none of another day."""
    late = noted(1, day, 1, "left%20at%20the%20side%20door", f"{day}T10:20:00")
    other = day - datetime.timedelta(days=1)
    log = write(
        f"{folder}/notes.log",
        late,
        late,
        noted(1, day, 0, "%3Dflat%20tire%2C%20Van%207", f"{day}T10:15:00"),
        noted(1, other, 0, "of%20the%20day%20before", f"{other}T10:15:00"),
    )
    words = ["day", copy, "--tally", log, "--agency", agency, "--from", day, "--to", day]
    wanted = f'Day,Time,Vehicle,Trip,Note\n{day},10:15,Van <1>,,"\'=flat tire, Van 7"\n{day},10:20,Van <1>,1,left at the side door\n'
    yield difference("the notes of a day", wanted, csv_told(*words))
    run_of(*words, "--html", f"{folder}/page.html")
    text = Path(f"{folder}/page.html").read_text("utf-8")
    for part in "Notes of the day", "left at the side door", "Van &lt;1&gt;", "Trips asked for":
        yield None if part in text else f"the day's page does not say {part!r}"
    ran = run_of("day", copy, "--from", day, "--to", day)
    yield difference(
        "a day without a log",
        ("Day,Time,Vehicle,Trip,Note\n", True),
        (ran.stdout, "--tally" in ran.stderr),
    )


def page_in(path):
    return Page(Path(path).read_text("utf-8"))


def faults_of_page(folder, copy, log, agency):
    """The page says the same figures, leaves out rules that denied nothing, and names what no source holds."""
    ran = run_of(
        "months", copy, "--tally", log, "--agency", agency, "--html", f"{folder}/page.html"
    )
    page = page_in(f"{folder}/page.html")
    wanted = {
        "Trips asked for: booked and denied": "5",
        "Cancelled early": "1",
        "Pickups late": "1",
        "Minutes aboard a ride, as planned": "9.0",
        "Minutes aboard a ride, as driven": "11.5",
        "Vehicle hours, as planned": "5.37",
        "Trips ridden per vehicle hour": "0.19",
    }
    got = {it: page.cells.get(it, {}).get("All") for it in wanted}
    yield difference("the page's figures", (0, "", wanted), (ran.returncode, ran.stderr, got))
    denied = {it.split(":")[0] for it in page.cells if it.startswith("Denied")}
    yield difference("the page's rules", {"Denied, no vehicle", "Denied, 37.131(b)"}, denied)
    said = " ".join(page.sentences)
    for part in (
        "no source has miles",
        "less than 120 minutes before",
        "The log begins on 2026-02-27",
    ):
        yield None if part in said else f"the page does not say {part!r}: {said}"
    run_of("months", copy, "--html", f"{folder}/page.html")
    page = page_in(f"{folder}/page.html")
    yield difference(
        "a page without a log",
        (None, None, "1"),
        tuple(
            page.cells.get(it, {}).get("All")
            for it in ("Cancelled early", "Pickups late", "Ridden")
        ),
    )
    is_said = "Without the site's log (--tally) nothing says what was denied" in " ".join(
        page.sentences
    )
    yield None if is_said else f"a page without a log does not say so: {page.sentences}"
    run_of("ntd", copy, "--html", f"{folder}/page.html")
    page = page_in(f"{folder}/page.html")
    unlinked = page.cells["Unlinked passenger trips, all of them under the ADA"]["All"]
    yield difference("the page of the database", "1", unlinked)


# Two months of a small agency.

# The desk's three trips are given this day, and a fourth the last day of the month before. In March trip 1 was ridden,
# the rider missed trip 2, and trip 3 was cancelled; in February the operator missed trip 4.
DAY, BEFORE = datetime.date(2026, 3, 1), datetime.date(2026, 2, 28)
# In March: 09:00 PICK 1, 09:20 DROP 1, 10:00 PICK 2, 10:13 DROP 2, with 2 minutes of service. So trip 1 takes 09:02 to
# 09:20, 18 minutes; the vehicle 09:00 to 10:15, 75 minutes, 1.25 hours; and 1 trip / 1.25 = 0.8. In February nobody was
# carried or awaited.
WITHOUT = HEADER + (
    "2026-02,,1,,,,,,,,,,0,,,,,0,0,1,0,0,,,,,,,,,,,,,0.0,\n"
    "2026-03,,3,,,,,,,,,,1,,,,,1,1,0,0,0,,,,,,,,,18.0,,,,1.25,0.8\n"
    "all,,4,,,,,,,,,,1,,,,,1,1,1,0,0,,,,,,,,,18.0,,,,1.25,0.8\n"
)
# The log has two denials for lack of a vehicle in March (one told twice), and one as too late in May. In April there is
# nothing. Trip 3 was cancelled at 12:00 and its window begins at 14:00, 120 minutes later: that is still early. Trip 1
# came at 09:15:59, within the last minute of 09:00-09:15, and its rider was aboard from 09:16 to 09:54:01: a second
# longer than 18 + 20 minutes, which is 38.0 rounded. Nobody tapped for trip 2.
LOG = [
    denial("2026-03-01", "no%20vehicle", "1" * 26),
    denial("2026-03-31", "no+vehicle"),
    denial("2026-03-01", "no%20vehicle", "1" * 26),
    denial("2026-05-01", "37.131(b)"),
    tap(1, "arrived", "2026-03-01T09:15:59"),
    tap(1, "aboard", "2026-03-01T09:16:00"),
    tap(1, "dropped", "2026-03-01T09:54:01"),
    cancellation(3, "rider", "2026-03-01T12:00:00"),
    # (a second tap, one of another day, one of a trip that is not there, and a second cancellation count nothing)
    tap(1, "arrived", "2026-03-01T09:30:00"),
    tap(2, "arrived", "2026-02-27T10:00:00"),
    tap(99, "arrived", "2026-03-01T09:00:00"),
    cancellation(3, "agency", "2026-03-01T13:59:00"),
]
MARCH = "5,3,2,0,0,0,0,0,0,0,0,1,1,0,0,0,1,1,0,0,0,0,1,0,1,100.0,1,0,0,18.0,38.0,1,1,1.25,0.8\n"
WITH_LOG = HEADER + (
    "2026-02,1,1,0,0,0,0,0,0,0,0,0,0,0,0,0,0,0,0,1,0,0,0,0,0,0,,0,0,0,,,0,0,0.0,\n"
    "2026-03,"
    + MARCH
    + "2026-04,0,0,0,0,0,0,0,0,0,0,0,0,0,0,0,0,0,0,0,0,0,0,0,0,0,,0,0,0,,,0,0,0.0,\n"
    "2026-05,1,0,0,0,0,0,0,0,1,0,0,0,0,0,0,0,0,0,0,0,0,0,0,0,0,,0,0,0,,,0,0,0.0,\n"
    "all,7,4,2,0,0,0,0,0,1,0,0,1,1,0,0,0,1,1,1,0,0,0,1,0,1,100.0,1,0,0,18.0,38.0,1,1,1.25,0.8\n"
)
# On trip 1 rode a rider, a companion and an attendant: 3 persons. Due are 2 x 3.50.
NTD_OF_MARCH = "DR,total,1 day operated,1,1,1,1,3,3,1,0,1,0,0,700\n"
# What is told of trip 3's cancellation: the words, and its early, late, by agency, untold.
CANCELLED = [
    (["rider", "2026-03-01T12:00:01"], [], "0,1,0,0"),
    (["rider", "2026-03-01T12:00:01"], ["--late", "119"], "1,0,0,0"),
    (["rider", "2026-02-28T23:59:59"], ["--late", "841"], "0,1,0,0"),
    (["agency", "2026-02-20T10:00:00"], [], "0,0,1,0"),
    (None, [], "0,0,0,1"),
]


def end(database):
    """How the trips ended, and a fourth one of the month before. The vehicle and its driving times hold since then."""
    day, before = number_of(DAY), number_of(BEFORE)
    for table, column, value in (
        ("trips", "day", day),
        ("stops", "day", day),
        ("vehicles", "from_day", before),
        ("travel", "from_day", before),
    ):
        database.execute(f"UPDATE {table} SET {column} = ?", (value,))
    for trip, status in ((1, copies.RIDDEN), (2, copies.MISSED_BY_RIDER)):
        database.execute("UPDATE trips SET status = ? WHERE id = ?", (status, trip))
    database.execute("UPDATE trips SET companions = 1, attendant = 1 WHERE id = 1")
    row = list(database.execute("SELECT * FROM trips WHERE id = 1").fetchone())
    row[0], row[2], row[-1] = 4, before, copies.MISSED_BY_OPERATOR
    database.execute(f"INSERT INTO trips VALUES ({', '.join('?' * len(row))})", row)
    for kind in 0, 1:
        database.execute("INSERT INTO stops VALUES (1, ?, ?, 4, ?)", (before, kind, kind))
    database.execute("UPDATE desk SET last_trip = 4")


def made_months(program, folder):
    file, copy = serving.make_agency(program, folder), f"{folder}/copy.db"
    serving.copy_database(file, copy)
    serving.with_database(copy, end)
    return copy, write(f"{folder}/tally.log", *LOG)


def faults_of_what_is_to_come(folder, copy):
    """Trips of the copy's day and later are to come; those of days before are over, and without an outcome."""
    other = f"{folder}/to-come.db"
    serving.copy_database(copy, other)
    made = number_of(datetime.date.fromtimestamp(os.stat(other).st_mtime))

    def put(database):
        database.execute("UPDATE trips SET status = ?", (copies.BOOKED,))
        database.execute("DELETE FROM stops")
        for trip, day in (1, made - 1), (2, made), (3, made + 1), (4, made + 2):
            database.execute("UPDATE trips SET day = ? WHERE id = ?", (day, trip))
            for kind in 0, 1:
                database.execute(
                    "INSERT INTO stops SELECT vehicle, day, ?, id, ? FROM trips WHERE id = ?",
                    (kind, kind, trip),
                )

    serving.with_database(other, put)
    for report in "months", "ntd":
        told = {
            it.get("day", "total"): it
            for it in csv.DictReader(io.StringIO(run_of(report, other).stdout))
        }["total"]
        yield difference(
            f"what is over and what is to come, by {report}",
            ("1", "3"),
            (told["without_outcome"], told["to_come"]),
        )


def faults_of_months(folder, copy, log):
    yield from faults_of_what_is_to_come(folder, copy)
    ran = run_of("months", copy)
    is_told = ran.stderr.startswith("bin/reports: Without the site's log (--tally) nothing says")
    yield difference("without a log", (0, WITHOUT, True), (ran.returncode, ran.stdout, is_told))
    ran = run_of("months", copy, "--tally", log)
    yield difference("with a log", (0, WITH_LOG, ""), (ran.returncode, ran.stdout, ran.stderr))
    wanted = HEADER + f"2026-03,{MARCH}all,{MARCH}"
    for words in ["--month", "2026-03"], ["--from", DAY, "--to", "2026-03-31"]:
        yield difference(
            f"March alone by {words}", wanted, csv_told("months", copy, "--tally", log, *words)
        )
    told = csv_told("ntd", copy, "--month", "2026-03").splitlines(keepends=True)
    yield difference("March for the National Transit Database", NTD_OF_MARCH, told[2])
    nothing = "0,0,0,0,0,0,0,0,0,0,0,0,0,0,0,0,0,0,0,0,0,0,0,0,0,,0,0,0,,,0,0,0.0,\n"
    yield difference(
        "a month in which nothing was",
        HEADER + f"2027-01,{nothing}all,{nothing}",
        csv_told("months", copy, "--tally", log, "--month", "2027-01"),
    )
    for said, words, wanted in CANCELLED:
        other = write(f"{folder}/other.log", *([cancellation(3, *said)] if said else []))
        told = csv_told("months", copy, "--tally", other, *words)
        got = ",".join(last_line(told).split(",")[13:17])
        yield difference(f"a cancellation told as {said} with {words}", wanted, got)
    first = f"{folder}/first.db"
    serving.copy_database(copy, first)
    serving.with_database(first, serving.put_back)
    yield difference("a file of version 1", WITH_LOG, csv_told("months", first, "--tally", log))
    yield difference("its trips", csv_told("trips", copy), csv_told("trips", first))
    os.makedirs(f"{folder}/backups")
    for name in "desk-2026-03-02-0230.db", "desk-2026-03-01-0230.db":
        serving.copy_database(copy, f"{folder}/backups/{name}")
    run_of("months", f"{folder}/backups", "--html", f"{folder}/page.html")
    said = page_in(f"{folder}/page.html").sentences[0]
    yield None if "desk-2026-03-02-0230.db" in said else f"the newest of a folder: {said}"


# Planned times, beside the desk's own.

PLACES, VANS, ASKED = 9, 3, 60


def random_agency(desk, chance):
    """An agency with more places and vans, whose riders may ride only a little longer than the direct way."""
    number = 20
    for place in range(4, PLACES + 1):
        number += 1
        desk.post(
            "/places",
            serving.ADMINS_KEY,
            number,
            {
                "id": place,
                "x": chance.randint(0, 20_000),
                "y": chance.randint(-3_000, 3_000),
                "core": False,
            },
        )
    desk.post("/policy", serving.ADMINS_KEY, 40, {**serving.POLICY, "extra_ride": 6, "service": 3})
    for van in range(1, VANS + 1):
        desk.post(
            "/vehicles",
            "radio",
            van,
            {**serving.VAN, "id": van, "depot": van, "duration": 300 + 150 * van},
        )
    for rider in range(20, 40):
        desk.post("/riders", "hello", rider, {"id": rider, "kind": "visitor", "attendant": False})


def ask_trips(desk, chance):
    booked = 0
    for number in range(100, 100 + ASKED):
        start, goal = chance.sample(range(1, PLACES + 1), 2)
        wish = chance.randint(420, 1_080)
        reply = desk.post(
            "/trips",
            "hello",
            number,
            {
                "rider": chance.randint(20, 39),
                "day": TOMORROW,
                "wish": wish,
                "from": start,
                "to": goal,
                "by": chance.choice([None, wish + 60]),
                "attendant": False,
                "companions": chance.randint(0, 1),
            },
        )
        booked += reply.status == 200
    return booked


def faults_of_corrections(folder, copy, log):
    """A no-show that was none: trip 2 of March was ridden. Rows that are wrong are named, and the others are used."""
    table = write(
        f"{folder}/corrections.csv",
        "trip,outcome,who,why\r\n",
        "2,ridden,Dana,two phones disagreed\r\n",
        "2,missed-operator,Dana,second row\r\n",
        "0,ridden,Dana,x\r\n",
        "2,gone,Dana,x\r\n",
        "1,ridden,,x\r\n",
        "99,ridden,Dana,x\r\n",
    )
    before = open(copy, "rb").read()
    ran = run_of(
        "months",
        copy,
        "--tally",
        log,
        "--month",
        "2026-03",
        "--corrections",
        table,
        "--html",
        f"{folder}/corrected.html",
    )
    columns = dict(zip(HEADER.strip().split(","), ran.stdout.split("\n")[1].split(",")))
    yield difference(
        "ridden and missed by the rider",
        ("2", "0"),
        (columns["ridden"], columns["missed_by_rider"]),
    )
    for said in [
        "row 3: trip 2 stands in row 2 already, which counts",
        "row 4: trip '0'",
        "row 5: outcome 'gone'",
        "row 6: who corrected it",
        "trip 99 has no outcome in this copy",
        "1 outcome is counted as corrected by ",
    ]:
        yield None if said in ran.stderr else f"{said!r} is not said: {ran.stderr}"
    with open(f"{folder}/corrected.html", encoding="utf-8") as file:
        yield None if "1 outcome is counted as corrected" in file.read() else "the page does not say it"
    yield difference("the copy's bytes", before, open(copy, "rb").read())
    ran = run_of("months", copy, "--corrections", write(f"{folder}/other.csv", "a,b\n1,2\n"))
    yield difference(
        "another table",
        (1, True),
        (ran.returncode, "has no column trip in row 1, which names the columns" in ran.stderr),
    )


def faults_of_plans(program, folder):
    """Each planned time of the spreadsheet is the one of the desk's sheet of the day."""
    chance, file, times = random.Random(SEED), f"{folder}/agency.db", f"{folder}/times.csv"
    places = range(1, PLACES + 1)
    write(
        times,
        "from,to,minutes\n",
        *(
            f"{it},{other},{chance.randint(4, 30)}\n"
            for it in places
            for other in places
            if it != other
        ),
    )
    serving.ran(program, "init", file, serving.ADMINS_KEY)
    with serving.Desk(program, file) as desk:
        serving.asked_in_turn(desk, serving.AGENCY)
        random_agency(desk, chance)
    serving.ran(program, "travel", file, serving.ZONE, "radio", 50, serving.TODAY, times)
    with serving.Desk(program, file) as desk:
        booked = ask_trips(desk, chance)
        sheet = desk.get(f"/days/{TOMORROW}/sheet", "radio").body
    serving.copy_database(file, f"{folder}/copy.db")
    wanted = {
        (trip, kind): at
        for at, kind, trip in re.findall(r"(?m)^(\d\d:\d\d) (PICK|DROP) trip (\d+)", sheet)
    }
    got = {}
    for row in csv.DictReader(
        io.StringIO(csv_told("trips", f"{folder}/copy.db").removeprefix("\ufeff"))
    ):
        got |= {
            (row["Trip"], "PICK"): row["Pickup planned"],
            (row["Trip"], "DROP"): row["Drop planned"],
        }
    yield None if booked > ASKED // 2 else f"only {booked} random trips were booked: {sheet}"
    yield difference("planned times", wanted, got)


# What a reviewer asks of a month: March of the demonstration office, which knows its past.

REVIEWED, ON_FIRST = "2026-03", datetime.date(2026, 4, 1)
LOCAL = dict(
    zip(
        ("clerk", "rider", "telephone", "app", "standing-order"),
        ("clerk", "rider", "telephone system", "rider's app", "standing orders"),
    )
)
TOLD_BY = {"clerk": "office", "rider": "other"}
# A bus each half hour of each day along Main Street: its stops lie 5,000 feet apart, and it takes 5 minutes from one to the next.
BUS_STOPS, BUS_PAUSE, BUS_FEET, BUS_SECONDS = range(-4, 5), 1_800, 5_000, 300


def made_office(program, folder):
    """The demonstration office as of 1 April 2026, its made past in March, and its places in feet by their numbers."""
    os.environ["TZ"], before = town.ZONE_RULE, os.environ.get("TZ")
    file = f"{folder}/desk.db"
    callers = building.write_keys(f"{folder}/keys.json", building.CALLERS)
    building.write_agency(folder, town.riders())
    building.make_database(program, file)
    rows.write_office(
        file,
        town.riders(),
        callers,
        ON_FIRST,
        past.trips_between(ON_FIRST, 720, -31, -1),
        building.FIRST_DAY,
    )
    os.environ.pop("TZ")
    os.environ.update({"TZ": before} if before else {})
    write(
        f"{folder}/plane.json", json.dumps({"latitude": town.LATITUDE, "longitude": town.LONGITUDE})
    )
    return file


def told_line(kind, query, told_by=""):
    return line_of(kind, query)[:-1] + f"\t{told_by}\n"


def log_of_march(folder, file, chance):
    """What the site was told in March, and beside it a plain count of it: each line adds to the count what it is to be."""
    lines, count = [], collections.Counter()
    query = "SELECT id, day, vehicle, window_from, window_to, latest, status FROM trips ORDER BY id"
    for trip, number, vehicle, begins, ends, latest, status in serving.rows(file, query):
        day = copies.day_of(number)
        midnight = datetime.datetime.combine(day, datetime.time())

        def moment(second):
            return (midnight + datetime.timedelta(seconds=second)).isoformat()

        asked = begins + chance.choice([-61, -60, 0, 15, 60, 61])
        if 0 <= asked <= 1_439 and chance.random() < 0.9:
            lines.append(
                told_line(
                    "bookings",
                    f"day={day}&trip={trip}&mode=around&minute={asked}&from={begins}&to={ends}&channel=page&at={day}T00:00:00",
                )
            )
            count["requested time on record"] += 1
            count["promised more than an hour from the request"] += abs(begins - asked) == 61
        if status == copies.CANCELLED:
            by = chance.choice(["rider", "agency", None])
            lines += (
                [told_line("cancellations", f"trip={trip}&by={by}&at={day}T00:00:00")] if by else []
            )
            count[f"canceled by {by}"] += 1
        if status in (copies.RIDDEN, copies.MISSED_BY_RIDER):
            second, name = chance.choice(
                [
                    (60 * begins - 1, "early"),
                    (60 * begins, "on time"),
                    (60 * ends + 59, "on time"),
                    (60 * ends + 60, "late"),
                    (60 * (ends + 31), "late"),
                    (None, "arrival not known"),
                ]
            )
            count[name] += 1
            count["more than 30 minutes late"] += second == 60 * (ends + 31)
            lines += (
                [
                    told_line(
                        "stops", f"vehicle={vehicle}&trip={trip}&event=arrived&at={moment(second)}"
                    )
                ]
                if second is not None
                else []
            )
        if status == copies.RIDDEN:
            aboard = max(60 * begins, second or 0) + 120
            dropped = chance.choice([aboard + 600, aboard + 1_800, None])
            if second is not None:
                lines.append(
                    told_line(
                        "stops", f"vehicle={vehicle}&trip={trip}&event=aboard&at={moment(aboard)}"
                    )
                )
                count["rides with both ends known"] += dropped is not None
                count["seconds aboard"] += dropped - aboard if dropped else 0
            lines += (
                [
                    told_line(
                        "stops", f"vehicle={vehicle}&trip={trip}&event=dropped&at={moment(dropped)}"
                    )
                ]
                if dropped
                else []
            )
            if latest >= 0:
                count[
                    "drop-off not known"
                    if dropped is None
                    else "there in time"
                    if dropped < 60 * (latest + 1)
                    else "there too late"
                ] += 1
        if status == copies.MISSED_BY_RIDER and chance.random() < 0.7:
            lines.append(
                told_line(
                    "no-shows",
                    f"vehicle={vehicle}&day={day}&trip={trip}&from={begins}&to={ends}&wait=6&at={moment(60 * ends + 400)}",
                )
            )
            count["no-shows with window, arrival and wait"] += name in ("early", "on time")
        count[("booked", "canceled", "ridden", "no-shows", "missed trips")[status]] += 1
    for _ in range(200):
        rule, channel, leg = (
            chance.choice(RULES.split(",")),
            chance.choice([*LOCAL]),
            chance.random() < 0.1,
        )
        day = ON_FIRST - datetime.timedelta(days=chance.randint(-10, 40))
        leg = leg and rule == "no vehicle"
        said = f"day={day}&minute=540&rule={rule.replace(' ', '%20')}&channel={channel if channel not in TOLD_BY else 'page'}&mode=by&at={day}T08:00:00"
        lines.append(
            told_line("denials", said + ("&leg=lost" if leg else ""), TOLD_BY.get(channel, "other"))
        )
        if day.month == 3:
            count[LOCAL[channel], rule] += 1
            count["denied"] += 1
            count["denied for lack of capacity"] += rule == "no vehicle"
            count["ways back lost"] += leg
    chance.shuffle(lines)
    return write(f"{folder}/tally.log", *lines), count


def feed_of_town(path):
    """A feed of one line, along Main Street."""

    def clock(second):
        return f"{second // 3600:02}:{second // 60 % 60:02}:{second % 60:02}"

    files = {
        "agency": ["agency_name,agency_url,agency_timezone", "T,http://t,America/Chicago"],
        "routes": ["route_id,route_short_name,route_type", "1,1,3"],
        "trips": ["trip_id,route_id,service_id"],
        "stop_times": ["trip_id,arrival_time,departure_time,stop_id,stop_sequence"],
        "stops": [
            "stop_id,stop_name,stop_lat,stop_lon",
            *(f"s{it},S,{','.join(map(str, town.position(it * BUS_FEET, 0)))}" for it in BUS_STOPS),
        ],
        "calendar": [
            "service_id,start_date,end_date," + ",".join(feed.WEEKDAYS),
            "all,20260101,20261231,1,1,1,1,1,1,1",
        ],
    }
    for way, stops in ("east", BUS_STOPS), ("west", [*BUS_STOPS][::-1]):
        for start in range(6 * 3_600, 22 * 3_600, BUS_PAUSE):
            files["trips"].append(f"{way}{start},1,all")
            files["stop_times"] += [
                f"{way}{start},{clock(start + at * BUS_SECONDS)},{clock(start + at * BUS_SECONDS)},s{stop},{at}"
                for at, stop in enumerate(stops)
            ]
    with zipfile.ZipFile(path, "w") as archive:
        for name, lines in files.items():
            archive.writestr(f"{name}.txt", "\n".join([*lines, ""]))
    return path


def by_bus(points, origin, goal, minute):
    """The minutes of a trip by that line, by trying each pair of stops."""
    best = None
    for start in BUS_STOPS:
        for end in BUS_STOPS:
            walks = [
                math.dist(points[at], (stop * BUS_FEET, 0))
                for at, stop in ((origin, start), (goal, end))
            ]
            if start == end or max(walks) > 3_960:
                continue
            first, last = (math.ceil(it / 4.4) for it in walks)
            along = 4 + start if end > start else 4 - start
            bus = next(
                (
                    it
                    for it in range(
                        6 * 3_600 + along * BUS_SECONDS, 22 * 3_600 + along * BUS_SECONDS, BUS_PAUSE
                    )
                    if 60 * minute + first <= it
                ),
                None,
            )
            if bus is not None:
                arrives = bus + abs(end - start) * BUS_SECONDS + last
                best = min(best or (10**9, 0), (arrives, first - bus))
    return None if best is None else -(-(best[0] + best[1]) // 60)


def faults_of_review(program, folder):
    """The files of a month, each figure beside a plain count, and each comparison with the bus beside a plain search."""
    file = made_office(program, folder)
    log, count = log_of_march(folder, file, random.Random(SEED))
    words = [
        "review",
        file,
        "--month",
        REVIEWED,
        "--tally",
        log,
        "--agency",
        f"{folder}/agency.json",
    ]
    ran = run_of(
        *words, "--folder", f"{folder}/march", "--feed", feed_of_town(f"{folder}/feed.zip")
    )
    yield difference("its end", (0, ""), (ran.returncode, ran.stderr))
    read = {
        it: [*csv.DictReader(open(f"{folder}/march/{it}.csv", encoding="utf-8-sig", newline=""))]
        for it in ("figures", "trips", "denials", "denials-by-month", "no-shows", "missed-trips")
    }
    figures = {it["figure"]: it["value"] for it in read["figures"]}
    for name in (
        "requested time on record",
        "promised more than an hour from the request",
        "early",
        "on time",
        "late",
        "more than 30 minutes late",
        "arrival not known",
        "there in time",
        "there too late",
        "drop-off not known",
        "ridden",
        "no-shows",
        "missed trips",
        "canceled",
        "no-shows with window, arrival and wait",
        "denied",
        "denied for lack of capacity",
        "ways back lost",
        "rides with both ends known",
    ):
        yield difference(name, str(count[name]), figures[name])
    yield difference("requests", str(count["denied"] + len(read["trips"])), figures["requests"])
    known = count["early"] + count["on time"] + count["late"]
    yield difference(
        "on time, percent",
        str(round(100 * count["on time"] / known, 1)),
        figures["on time, percent"],
    )
    mean = count["seconds aboard"] / 60 / count["rides with both ends known"]
    yield difference("minutes aboard, mean", str(round(mean, 1)), figures["minutes aboard, mean"])
    got = {
        (row["channel"], rule): int(row[rule])
        for row in read["denials-by-month"]
        for rule in RULES.split(",")
        if row["channel"] != "all"
    }
    wanted = {key: count[key] for key in itertools.product(LOCAL.values(), RULES.split(","))}
    yield difference("denials by rule and channel", wanted, got)
    yield difference("denials one by one", count["denied"], len(read["denials"]))
    yield difference(
        "no-shows and missed trips",
        (count["no-shows"], count["missed trips"]),
        (len(read["no-shows"]), len(read["missed-trips"])),
    )
    by = collections.Counter(it["canceled_by"] for it in read["trips"])
    yield difference(
        "who canceled",
        [count[f"canceled by {it}"] for it in ("rider", "agency", None)],
        [by[it] for it in ("rider", "agency", "not known")],
    )
    points = {number: (x, y) for number, _, _, x, y, _ in town.PLACES}
    asked = {
        trip: rest
        for trip, *rest in serving.rows(file, "SELECT id, origin, goal, window_from FROM trips")
    }
    buses = {it["trip"]: it["fixed_route_minutes"] for it in read["trips"]}
    wanted = {str(trip): str(by_bus(points, *rest) or "") for trip, rest in asked.items()}
    # (a position has six digits, which moves a walk by some feet)
    off = [
        it
        for it in wanted
        if bool(wanted[it]) != bool(buses[it])
        or wanted[it]
        and abs(int(wanted[it]) - int(buses[it])) > 1
    ]
    yield difference("minutes by bus", [], [(it, wanted[it], buses[it]) for it in off][:5])
    yield None if sum(map(bool, wanted.values())) > 60 else "the line serves hardly any trip"
    compared = collections.Counter(
        it["compared_with"] for it in read["trips"] if it["state"] == "ridden"
    )
    yield difference(
        "compared with",
        (
            figures["rides compared with fixed route"],
            figures["rides compared with the direct drive"],
        ),
        (str(compared["fixed route"]), str(compared["direct drive"])),
    )
    text = open(f"{folder}/march/index.html", encoding="utf-8").read()
    for said in (
        "Paratransit in March 2026, Chervil Falls Transit",
        "What is not known",
        "missed trips",
        "<dt>direct_drive_minutes</dt>",
    ):
        yield None if said in text else f"the page does not say {said!r}"
    yield from faults_of_review_words(folder, file, words)


def faults_of_review_words(folder, file, words):
    """An empty month says so; what is no month, a folder that is taken and a feed without a plane get a sentence each."""
    ran = run_of("review", file, "--month", "2027-01", "--folder", f"{folder}/empty")
    text = (
        open(f"{folder}/empty/index.html", encoding="utf-8").read()
        if ran.returncode == 0
        else ran.stderr
    )
    yield None if "Nothing was booked for 2027-01" in text else f"an empty month: {text[:500]}"
    yield refused(
        "no month",
        run_of("review", file, "--month", "March", "--folder", f"{folder}/x"),
        "is no month YYYY-MM",
        2,
    )
    yield refused(
        "a span",
        run_of("review", file, "--from", "2026-03-01", "--folder", f"{folder}/x"),
        "review takes --month YYYY-MM",
        2,
    )
    yield refused(
        "a taken folder", run_of(*words, "--folder", f"{folder}/march"), "is no empty folder"
    )
    yield refused(
        "a feed without a plane",
        run_of(
            "review",
            file,
            "--month",
            REVIEWED,
            "--folder",
            f"{folder}/x",
            "--feed",
            f"{folder}/feed.zip",
        ),
        "--feed takes --plane FOLDER",
    )
    yield refused(
        "a feed that is none",
        run_of(*words, "--folder", f"{folder}/x", "--feed", file),
        "is no zip",
    )
    yield None if not os.path.exists(f"{folder}/x") else "a folder was made for nothing"
    ran = run_of(
        "review",
        file,
        "--month",
        "2027-02",
        "--agency",
        f"{folder}/agency.json",
        "--folder",
        f"{folder}/later",
        "--feed",
        f"{folder}/feed.zip",
    )
    text = (
        open(f"{folder}/later/index.html", encoding="utf-8").read()
        if ran.returncode == 0
        else ran.stderr
    )
    yield None if "The timetable tells nothing of the month: nothing runs from 2027-02-01" in text else f"a feed of another year: {text[:500]}"


# What is wrong.


def refused(label, ran, wanted, status=1):
    """One sentence, and nothing on standard output."""
    lines = ran.stderr.splitlines()
    is_so = ran.returncode == status and not ran.stdout and len(lines) >= 1 and wanted in lines[-1]
    return None if is_so and (status == 2 or len(lines) == 1) else f"{label}: {ran}"


def faults_of_copies(folder, copy):
    for report in "months", "ntd", "trips":
        yield refused(
            "no file", run_of(report, f"{folder}/none.db"), "none.db can't be read: No such file"
        )
        yield refused(
            "a text",
            run_of(report, write(f"{folder}/text.db", "trip,rider\n")),
            "is no database of SQLite",
        )
        yield refused(
            "an empty file", run_of(report, write(f"{folder}/empty.db")), "is no database of SQLite"
        )
        content = Path(copy).read_bytes()
        for length in 40, 99, 4_096, len(content) // 2, len(content) - 1:
            said = f"was cut: it has {length:,} bytes of "
            yield refused(
                f"cut to {length}",
                run_of(report, write(f"{folder}/cut.db", content[:length])),
                said,
            )
    os.mkfifo(f"{folder}/pipe.db")
    yield refused("a pipe", run_of("months", f"{folder}/pipe.db"), "pipe.db is no file")
    os.makedirs(f"{folder}/nothing")
    yield refused(
        "a folder of nothing",
        run_of("months", f"{folder}/nothing"),
        "has no backup named desk-*.db",
    )
    other = f"{folder}/other.db"
    serving.with_database(other, lambda it: it.execute("CREATE TABLE notes (a)"))
    yield refused(
        "another program's file",
        run_of("months", other),
        "no sound copy of a desk's file: no such table",
    )
    write(f"{copy}-wal", "")
    yield refused(
        "a log beside it", run_of("months", copy), "-wal, beside it: this is a desk's own file"
    )
    os.remove(f"{copy}-wal")
    with open(copy, "r+b") as file:
        fcntl.lockf(file, fcntl.LOCK_EX, copies.LOCKED, copies.FIRST_LOCKED)
        yield refused(
            "a locked file",
            run_of("months", copy),
            f"process {os.getpid()} has {copy} open and locked",
        )
    for change, said in (
        (
            "UPDATE desk SET version = 9",
            "has tables of version 9, and versions 1 and 2 are read here",
        ),
        ("UPDATE trips SET day = 9999999 WHERE id = 3", "the copy has the day 9999999"),
        ("UPDATE trips SET status = 9 WHERE id = 2", "trip 2 has the status 9"),
        (
            "UPDATE travel SET minutes = 500",
            "the desk does not open it: the rows of table travel are those of no sound state (fault 31)",
        ),
        (
            "DELETE FROM vehicles",
            "the desk does not open it: the rows of table vehicles are those of no sound state (fault 31)",
        ),
        ("DROP TABLE stops", "no such table: stops"),
    ):
        os.remove(other)
        serving.copy_database(copy, other)
        serving.with_database(other, lambda it, change=change: it.execute(change))
        yield refused(change, run_of("months", other), said)
    yield from faults_of_bytes(folder, copy, content)
    yield refused(
        "a page that can't be written",
        run_of("ntd", copy, "--html", f"{folder}/none/page.html"),
        "No such file",
    )
    yield refused(
        "no agency",
        run_of("ntd", copy, "--html", f"{folder}/page.html", "--agency", f"{folder}/none.json"),
        "none.json",
    )
    yield refused(
        "no roster",
        run_of("trips", copy, "--roster", f"{folder}/none.csv"),
        "none.csv can't be read",
    )


def faults_of_bytes(folder, copy, content):
    """A file with wrong bytes is read, or refused by a sentence."""
    path = f"{folder}/bytes.db"
    write(path, content.replace(b"CREATE TABLE stops", b"CREATE \xffABLE stops"))
    yield refused(
        "a name of wrong bytes", run_of("months", path), "is no sound copy of a desk's file: "
    )
    serving.copy_database(copy, path)
    for name, other in ("NOT NULL", ""), ("", "NOT NULL"):
        serving.with_database(
            path,
            lambda it, name=name, other=other: emptied(
                it, f"fare INTEGER {name}", f"fare INTEGER {other}"
            ),
        )
    yield refused(
        "an empty column",
        run_of("ntd", path),
        "is no sound copy of a desk's file: NULL value in trips.fare",
    )
    chance = random.Random(SEED)
    for number in range(20):
        broken = bytearray(content)
        for at in chance.sample(range(100, len(content)), chance.choice([1, 3, 30])):
            broken[at] = chance.randrange(256)
        ran = run_of("trips", write(path, bytes(broken)))
        is_so = (
            ran.returncode == 0
            or ran.returncode == 1
            and not ran.stdout
            and ran.stderr.count("\n") == 1
        )
        yield None if is_so else f"the random bytes {number}: {ran}"


def emptied(database, text, other):
    """Has the tables' text changed, and a column emptied where that lets it be."""
    database.execute("PRAGMA writable_schema = ON")
    database.execute(
        "UPDATE sqlite_master SET sql = replace(sql, ?, ?) WHERE name = 'trips'", (text, other)
    )
    database.commit()
    database.execute("PRAGMA writable_schema = RESET")
    if not other.endswith("NOT NULL"):
        database.execute("UPDATE trips SET fare = NULL WHERE id = 2")


def faults_of_logs(folder, copy):
    """Lines of any bytes are named and counted, and those round them count."""
    chance, log = random.Random(SEED), f"{folder}/broken.log"
    broken = [
        bytes(chance.choices([it for it in range(256) if it != 10], k=chance.randint(1, 200)))
        + b"\n"
        for _ in range(500)
    ]
    broken += [b"\n", b"\0" * 100_000 + b"\n", LOG[0].encode()[:-1] + b"\xff\n"]
    broken += [
        it.encode()
        for it in (
            cancellation(3, "nobody", DAY),
            tap(1, "arrived", "0001-01-01T00:00:00"),
            denial("9999-12-31", "37.125"),
        )
    ]
    chance.shuffle(broken)
    write(log, *(it for pair in zip(LOG, broken) for it in pair), *broken[len(LOG) :])
    ran = run_of("months", copy, "--tally", log)
    yield difference("a log of any bytes", (0, WITH_LOG), (ran.returncode, ran.stdout))
    said = ran.stderr.splitlines()
    wanted = 11, f"bin/reports: {len(broken)} lines could not be read, and not counted"
    yield difference("its sentences", wanted, (len(said), said[-1] if said else ""))
    yield refused(
        "no log", run_of("months", copy, "--tally", f"{folder}/none.log"), "none.log can't be read"
    )
    yield refused(
        "a folder as log",
        run_of("months", copy, "--tally", folder),
        "can't be read: Is a directory",
    )
    yield refused(
        "no gzip",
        run_of("trips", copy, "--tally", write(f"{folder}/log.gz", *LOG)),
        "log.gz can't be read",
    )


def faults_of_words(copy):
    for text in (
        "2026-13",
        "2026-00",
        "2026-3",
        "26-03",
        "March",
        "1999-12",
        "2026-03-01",
        "20２６-03",
        "",
    ):
        yield refused(
            f"the month {text!r}", run_of("months", copy, "--month", text), "is no month YYYY-MM", 2
        )
    for text in "2026-02-30", "March", "20260301", "1999-12-31":
        yield refused(
            f"the day {text!r}", run_of("ntd", copy, "--from", text), "is no day YYYY-MM-DD", 2
        )
    for words, said in (
        (
            ["--from", "2026-03-02", "--to", "2026-03-01"],
            "the day of --to is before that of --from",
        ),
        (
            ["--month", "2026-03", "--to", "2026-03-01"],
            "--month is given, and so are --from or --to",
        ),
        (["--late", "-1"], "argument --late"),
        (["--late", "1441"], "no number of minutes from 0 to 1440"),
    ):
        yield refused(f"the words {words}", run_of("months", copy, *words), said, 2)
    yield refused("no report", run_of(copy), "invalid choice", 2)
    yield refused("no words", run_of(), "required", 2)


def all_faults(program):
    with tempfile.TemporaryDirectory() as folder:
        yield from faults_of_example(program, folder)
    with tempfile.TemporaryDirectory() as folder:
        yield from faults_of_plans(program, folder)
    with tempfile.TemporaryDirectory() as folder:
        yield from faults_of_review(program, folder)
    with tempfile.TemporaryDirectory() as folder:
        copy, log = made_months(program, folder)
        yield from faults_of_months(folder, copy, log)
        yield from faults_of_corrections(folder, copy, log)
        before = Path(copy).read_bytes()
        yield from faults_of_copies(folder, copy)
        yield from faults_of_logs(folder, copy)
        yield from faults_of_words(copy)
        yield None if Path(copy).read_bytes() == before else f"{copy} was changed"


if __name__ == "__main__":
    if len(sys.argv) != 2:
        sys.exit("usage: reports PROGRAM")
    ENVIRONMENT["DESK"] = os.path.realpath(sys.argv[1])
    sys.exit(tally("tests/reports", all_faults(os.path.realpath(sys.argv[1]))))
