"""Tries bin/standing-orders at a desk: `standing_orders PROGRAM`.

A night's orders are booked at a desk that serves, by a program that is killed at every fifth request, run twice, and
run with a clock that is wrong; each rule that refuses a trip is told. Beside that a desk's rules in place of the
program let it be killed at each of its steps. The last line is 'N passed, M failed', and the exit status 1 where
something failed.
"""
import csv
import datetime
import io
import json
import os
import shutil
import signal
import subprocess
import sys
import tempfile
from pathlib import Path
from types import SimpleNamespace

from desk_tools.tree import TOP
import serving
import standing_parts as parts
from desk_tools.setup import tables
from desk_tools.setup.limits import Wrong
from desk_tools import event_log
from moving_stands import Relay
from desk_tools.standing_orders import plan, share, table
from serving import (
    ADMINS_KEY,
    EACH_DAY,
    LAST_DAY,
    LINE,
    TODAY,
    TOMORROW,
    VAN,
    ZONE,
    difference,
    told_program,
    write,
)
from stand_in_site import StandInSite

TOOL, SECONDS, CLOCK = f"{TOP}/bin/standing-orders", 120, {**os.environ, "TZ": ZONE}
MOST_RUNS = 40
PLANS_OF_PAGES = """
import { readFileSync } from "node:fs";
import { requestsOf } from "%s/pages/parts/wishes.js";
const isSent = (said) => (it, at, all) => said.mode !== "not-before" || all.findIndex(({ wish }) => wish === it.wish) === at;
const pairs = (said) => requestsOf(said).filter(isSent(said)).map(({ wish, by }) => [wish, by]);
console.log(JSON.stringify(JSON.parse(readFileSync(0, "utf8")).map(pairs)));
"""
HEADER = (
    "rider,weekdays,wish,by,from,to,companions,attendant,first_day,last_day,skip_days,order,mode\n"
)
NIGHT = "7,1-7,9:00 am,,1,2,1,yes,,{last},,\n7,Mon-Sun,14:00,15:30,2,1,,,,{last},{skipped},back\n"
# What is refused: a row, and by which rule.
REFUSED = [
    ("7,{weekday},9:00,,1,2,2,no,,,,", "37.123(f)"),
    ("7,{weekday},9:00,,1,4,,,,,,", "37.131(a)"),
    ("7,{weekday},9:00,,5,5,,,,,,", "37.131(e)"),
    ("7,{weekday},9:00,,1,6,,,,,,", "no vehicle"),
    ("8,{weekday},9:00,,1,2,,,,,,", "37.125"),
    ("10,{weekday},9:00,,1,2,,,,,,", "37.123(b)"),
    ("11,{weekday},9:00,,1,2,,,,,,", "desk.unknown"),
    ("7,{weekday},9:00,,1,99,,,,,,", "desk.unknown"),
]
WRONG = [
    ("7,1-7,9:00,,1,2,,,,,,,before", "mode 'before' is none of around, not before, by"),
    ("7,1-7,9:00,,1,2,,,,,,,by", "by is missing, and mode is by"),
    ("7,1-7,25:00,,1,2,,,,,,", "wish '25:00' is no time HH:MM"),
    ("7,1-7,0:30 pm,,1,2,,,,,,", "wish '0:30 pm' is no time such as 9:30 am"),
    ("7,,9:00,,1,2,,,,,,", "weekdays is missing"),
    ("0,1,9:00,,1,2,,,,,,", "rider '0' is no whole number from 1 to 4294967295"),
    (
        "7,8,9:00,,1,2,,,,,,",
        "weekdays '8' are no weekdays such as 1-5, 1 3 7 or Mon-Fri, where 1 is Monday",
    ),
    ("7,1,9:00,,1,2,,maybe,,,,", "attendant 'maybe' is neither yes nor no"),
    ("7,1,9:00,,1,2,,,2/30/2026,,,", "first_day '2/30/2026' is no day YYYY-MM-DD of 2000 to 2099"),
    ("7,1,9:00,,1,2,,,2026-12-02,2026-12-01,,", "its last day is before its first"),
    (
        "7,1,9:00,,1,2,,,,,2026-12-24..2025-01-01,",
        "skip_days '2026-12-24..2025-01-01' are no days from one to another, 366 at most",
    ),
    ("7,1,9:00,,1,2,,,,,,twice", "order 'twice' stands in line 2 already"),
    ("7,1 3,8:00,,1,2,,,,,,", "it is the same trip as line 3"),
    ("7,1,9:00,,1,2,,,,,,,,x", "it has 14 cells, and row 1 names 13 columns"),
]
# One order as different programs save it, and what the plan says of that.
AS_SAVED = [
    ("utf-8-sig", ",", "2026-12-01", "9:00", ""),
    ("cp1252", ",", "12/1/2026", "9:00:00 AM", "first_day: 1 days were read as M/D/YYYY"),
    ("utf-16", "\t", "46357", "9:00 am", "first_day: 1 days were read as Excel's count of days"),
    ("utf-8", ";", "12/1/26", "09:00:00", "semicolons between the columns"),
]


def town(program, folder):
    """An agency with more riders, places and a key of the tool's own; the folder has the files of the tool."""
    file = serving.make_agency(program, folder)
    requests = [
        ("/callers", ADMINS_KEY, 12, {"id": 8, "role": "clerk", "subject": 0, "key": "standing"}),
        ("/places", ADMINS_KEY, 13, {"id": 4, "x": 500_000, "y": 0, "core": False}),
        ("/places", ADMINS_KEY, 14, {"id": 5, "x": 0, "y": 90_000, "core": False}),
        ("/places", ADMINS_KEY, 15, {"id": 6, "x": 100, "y": 0, "core": False}),
        (
            "/routes",
            ADMINS_KEY,
            16,
            {**LINE, "id": 2, "points": [[0, 90_000], [9, 90_000]], "first": 0, "last": 60},
        ),
        ("/vehicles", "radio", 3, {**VAN, "id": 2, "from_day": TODAY, "days": EACH_DAY}),
        ("/riders", "hello", 7, {"id": 8, "kind": "resident", "attendant": False}),
        ("/riders", "hello", 8, {"id": 10, "kind": "resident", "attendant": False}),
        ("/riders/10/entries", "hello", 9, {"entry": "complete"}),
        (
            "/riders/10/entries",
            "panel",
            2,
            {"entry": "grant", "until": LAST_DAY, "conditions": ["farther:100000"]},
        ),
    ]
    with serving.Desk(program, file) as desk:
        serving.asked_in_turn(desk, requests)
    return file


def faults_of_spreadsheets(room):
    """A table is read as a spreadsheet saved it, and the plan says how."""
    for at, (encoding, mark, first, wish, said) in enumerate(AS_SAVED):
        folder = f"{room}/saved{at}"
        os.makedirs(folder)
        line = [
            "007",
            "1-7",
            wish,
            "",
            "1",
            "2",
            "0",
            "NO",
            first,
            "",
            "12/24/2026..12/25/2026",
            "Señal",
        ]
        Path(f"{folder}/orders.csv").write_bytes(
            "\r\n".join([HEADER.strip().upper().replace(",", mark), mark.join(line), ""]).encode(
                encoding
            )
        )
        run = subprocess.run(
            [TOOL, "orders.csv", "--plan", "--today", "2026-11-29"],
            cwd=folder,
            env=CLOCK,
            capture_output=True,
            text=True,
            timeout=SECONDS,
        )
        wanted = "  Tue 2026-12-01, order Señal, rider 7 at 09:00 from 1 to 2"
        is_right = (
            run.returncode == 0
            and wanted in run.stdout
            and said in run.stdout
            and "2026-11-30, order" not in run.stdout
        )
        yield None if is_right else f"{AS_SAVED[at]}: {run}"
        Path(f"{folder}/capacity.csv").write_bytes(
            f"Weekday{mark}Hour{mark}Trips\r\nMon-Fri{mark}9.0{mark}012\r\n".encode(encoding)
        )
        found = share.capacity_in(f"{folder}/capacity.csv")
        yield difference(f"capacity as {encoding}", {(day, 9): 12 for day in range(1, 6)}, found)


def tool_folder(folder, text):
    os.makedirs(folder)
    write(f"{folder}/orders.csv", HEADER + text)
    write(f"{folder}/clerk", "standing\n")
    write(f"{folder}/dispatcher", "radio\n")
    write(f"{folder}/agency.json", '{"subscription_share": null, "clock": 24}')
    return folder


def command(port, *words):
    url = f"http://127.0.0.1:{port}"
    return [TOOL, "orders.csv", "--url", url, "--clerk", "clerk", "--agency", "agency.json", *words]


def run_of(folder, port, *words):
    return subprocess.run(
        command(port, *words),
        cwd=folder,
        env=CLOCK,
        capture_output=True,
        text=True,
        timeout=SECONDS,
    )


def report_of(folder):
    with open(f"{folder}/report.csv", encoding="utf-8") as file:
        return list(csv.DictReader(file))


def booked(desk, rider):
    """The rider's trips that stand, without the one that the agency began with."""
    trips = desk.get(f"/riders/{rider}/trips", "hello").body["trips"]
    return sorted(
        (it["day"], it["wish"], it["from"], it["to"], it["by"], it["companions"], it["attendant"])
        for it in trips
        if it["trip"] > 3 and it["status"] == "booked"
    )


def last_day():
    return TODAY + datetime.timedelta(days=5)


def night():
    """A night's orders, and the trips that they have. The first of tomorrow is there already, at another time."""
    skipped = TODAY + datetime.timedelta(days=3)
    days = [TODAY + datetime.timedelta(days=it) for it in range(1, 6)]
    # (an hour later less the lead, and such a minute to be there by that no pickup is more than an hour late)
    wanted = [(str(it), 585, 1, 2, 653, 1, True) for it in days[1:]]
    wanted += [(str(it), 885, 2, 1, 930, 0, False) for it in days if it != skipped]
    return NIGHT.format(last=last_day(), skipped=skipped), sorted(wanted)


# At a desk.


def faults_of_night(program, file, folder):
    """A night books each trip once, also when it is run again, without its file, and with a clock that is wrong."""
    text, wanted = night()
    tool_folder(folder, text)
    with serving.Desk(program, file) as desk:
        run = run_of(folder, desk.port)
        first = f"Standing orders, {TODAY}: 8 booked, 1 there already, 0 refused, 0 lines that are wrong"
        yield difference(
            "a night", (0, first, ""), (run.returncode, run.stdout.splitlines()[0], run.stderr)
        )
        is_told = (
            "order back, rider 7 at 14:00 from 2 to 1: trip 4, pickup from 13:45" in run.stdout
        )
        yield None if is_told else f"what is said of a night: {run.stdout}"
        yield difference("its trips", wanted, booked(desk, 7))
        rows = sorted((it["day"], it["wish"], it["result"]) for it in report_of(folder))
        there = [(str(TOMORROW), "09:00", "there")]
        told = sorted(
            there + [(it[0], "09:00" if it[1] == 585 else "14:00", "booked") for it in wanted]
        )
        yield difference("its report", told, rows)
        for change in ("again", "lost", "forward", "back"):
            words = {
                "forward": ["--today", str(TODAY + datetime.timedelta(days=30))],
                "back": ["--today", str(TODAY - datetime.timedelta(days=10))],
            }.get(change, [])
            if change == "lost":
                os.remove(f"{folder}/standing-orders.jsonl")
            run = run_of(folder, desk.port, *words)
            yield None if "Traceback" not in run.stderr else run.stderr
            yield difference(f"the trips after a run: {change}", wanted, booked(desk, 7))
        run = run_of(folder, desk.port)
        there = sum(it["result"] == "there" for it in report_of(folder))
        yield difference("a night in the end", (0, 9), (run.returncode, there))
        yield from faults_of_cancelled(desk, folder)


def faults_of_cancelled(desk, folder):
    """What was cancelled is not booked again."""
    trip = max(int(it["trip"]) for it in report_of(folder))
    desk.post(f"/trips/{trip}/cancel", "hello", 100, {})
    run = run_of(folder, desk.port)
    is_told = (
        run.returncode == 0 and f"trip {trip} was cancelled, and is not booked again" in run.stdout
    )
    yield None if is_told else f"a trip that was cancelled: {run}"
    yield difference("how many are booked after it", 7, len(booked(desk, 7)))


def faults_of_modes(program, file, folder):
    """No window begins more than the lead before a time, before one that it is not to be before, or too late to be there."""
    weekday, day = (TODAY + datetime.timedelta(days=2)).isoweekday(), TODAY + datetime.timedelta(
        days=2
    )
    rows = [("9:00", "", "around"), ("11:00", "", "Not before"), ("13:00", "14:30", "by")]
    tool_folder(
        folder,
        "".join(
            f"7,{weekday},{wish},{by},{1 + at % 2},{2 - at % 2},,,,{day},,{at},{mode}\n"
            for at, (wish, by, mode) in enumerate(rows)
        ),
    )
    with serving.Desk(program, file) as desk:
        run = run_of(folder, desk.port)
        windows = [it["window_from"] for it in report_of(folder) if it["day"] == str(day)]
        is_right = windows[:2] == ["08:45", "11:00"] and "13:00" <= windows[2] <= "14:25"
        yield None if run.returncode == 0 and is_right else f"the windows of each mode: {windows}, {run}"
        again = run_of(folder, desk.port)
        yield None if again.returncode == 0 and "0 booked" in again.stdout else f"each mode, run again: {again}"


def faults_of_kills(program, file, folder):
    """A program that is killed at every fifth request, and run again, books each trip once."""
    text, wanted = night()
    tool_folder(folder, text)
    with serving.Desk(program, file) as desk, Relay(desk.port, 5) as relay:
        status = -signal.SIGKILL
        for _ in range(MOST_RUNS):
            relay.program = subprocess.Popen(
                command(relay.port), cwd=folder, env=CLOCK, stdout=subprocess.DEVNULL
            )
            status = relay.program.wait(SECONDS)
            if status != -signal.SIGKILL:
                break
        yield difference("a night that was killed", (0, True), (status, relay.kills >= 3))
        yield difference("its trips", wanted, booked(desk, 7))


def faults_of_refusals(program, file, folder):
    """Each rule is told, in text and in the report; a night after it, what is possible then is booked."""
    text = "\n".join(row for row, _ in REFUSED).format(weekday=TOMORROW.isoweekday()) + "\n"
    tool_folder(folder, text)
    with serving.Desk(program, file) as desk:
        run = run_of(folder, desk.port)
        day = str(TOMORROW + datetime.timedelta(days=7))
        rows = [(it["order"], it["rule"]) for it in report_of(folder) if it["day"] == day]
        wanted = [(f"line {at}", rule) for at, (_, rule) in enumerate(REFUSED, 2)]
        yield difference("rules that refuse", (1, wanted), (run.returncode, rows))
        told = [rule for _, rule in REFUSED if f": {rule}: " not in run.stdout]
        yield difference("rules that the text does not tell", [], told)
        write(f"{folder}/orders.csv", HEADER + "7,1-7,7:00,,1,2,,,,,,\n")
        run_of(folder, desk.port, "--today", str(TODAY + datetime.timedelta(days=20)))
        yield difference(
            "a clock that is wrong by weeks",
            {"37.131(b)"},
            {it["rule"] for it in report_of(folder)},
        )
        for words, said in (
            (["--clerk", "none"], "can't be read"),
            (["--clerk", "agency.json"], "nobody has the key"),
        ):
            run = run_of(folder, desk.port, *words)
            yield None if run.returncode == 2 and said in run.stderr else f"{words}: {run}"
    run = run_of(folder, desk.port, "--patience", "0")
    yield None if run.returncode == 3 and "does not answer" in run.stderr else f"a desk that is gone: {run}"


def faults_of_told(program, file, folder):
    """The site is told each denial once, over a site that is not named, away, or refuses."""
    day = TODAY + datetime.timedelta(days=2)
    rows = f"7,{day.isoweekday()},9:00,,1,6,,,,{day},,full\n8,{day.isoweekday()},9:30,,1,2,,,,{day},,none\n"
    tool_folder(folder, rows + f"7,{day.isoweekday()},9:45,,1,99,,,,{day},,unknown\n")
    with serving.Desk(program, file) as desk:
        run = run_of(folder, desk.port)
        yield None if "2 denials are kept, and the site was not told:" in run.stdout else f"no site: {run}"
        with StandInSite(503, 99) as site:
            run = run_of(folder, desk.port, "--site", f"http://127.0.0.1:{site.server_port}")
            yield None if run.returncode == 1 and "2 denials wait" in run.stdout else f"a site that is away: {run}"
        with StandInSite(400, 1) as site:
            run = run_of(folder, desk.port, "--site", f"http://127.0.0.1:{site.server_port}")
            is_told = (
                "the site refuses 1 denial with status 400" in run.stdout
                and "denial waits" not in run.stdout
                and "denials wait" not in run.stdout
            )
            yield None if is_told else f"a site that refuses: {run}"
            for _ in range(2):
                run = run_of(folder, desk.port, "--site", f"http://127.0.0.1:{site.server_port}")
                yield None if "denials" not in run.stdout else f"a site that takes all: {run.stdout}"
            events = [event_log.told_of(it) for it in site.told]
        wanted = [
            (day, 540, "no vehicle", "standing-order", "around"),
            (day, 570, "37.125", "standing-order", "around"),
        ]
        got = [
            tuple(it.fields[name] for name in ("day", "minute", "rule", "channel", "mode"))
            for it in events
        ]
        yield difference("what the site was told", wanted, sorted(got))
        for site in "@", "@none":
            yield difference(
                f"--site {site}", 1, run_of(folder, desk.port, "--site", site).returncode
            )
        run = run_of(folder, desk.port, "--site", "no site")
        yield difference(
            "a site that is none",
            (2, "bin/standing-orders: no site is no site such as https://desk.example.org\n"),
            (run.returncode, run.stderr),
        )


def faults_of_share(program, file, folder):
    """At most the share of an hour's trips is booked: of those that stand, or of those that the agency says."""
    weekday = (TODAY + datetime.timedelta(days=2)).isoweekday()
    tool_folder(
        folder,
        f"7,{weekday},10:00,,1,2,,,,,,\n7,{weekday},10:15,,2,1,,,,,,\n9,{weekday},10:30,,1,3,,,,,,\n",
    )
    write(f"{folder}/agency.json", '{"subscription_share": 50}')
    with serving.Desk(program, file) as desk:
        run = run_of(folder, desk.port)
        yield None if run.returncode == 2 and "37.133(b)" in run.stderr else f"a share that can't be counted: {run}"
        run = run_of(folder, desk.port, "--dispatcher", "dispatcher")
        yield difference(
            "an hour without trips", {"37.133(b)"}, {it["rule"] for it in report_of(folder)}
        )
        day = TODAY + datetime.timedelta(days=2)
        trip = {"rider": 9, "day": day, "from": 2, "to": 3, "attendant": False, "companions": 0}
        desk.post("/trips", "hello", 50, {**trip, "wish": 690})
        run_of(folder, desk.port, "--dispatcher", "dispatcher")
        results = [it["result"] for it in report_of(folder) if it["day"] == str(day)]
        yield difference("an hour with a trip", ["booked", "refused", "refused"], results)
        write(f"{folder}/capacity.csv", f"weekday,hour,trips\n{weekday},10,4\n")
        run_of(folder, desk.port, "--capacity", "capacity.csv")
        results = [it["result"] for it in report_of(folder) if it["day"] == str(day)]
        yield difference("an hour of four trips", ["there", "booked", "refused"], results)


# Without a desk.


def faults_of_tables(folder):
    """Rows that are wrong are named, and the others are taken."""
    head = "7,1,10:00,,1,2,,,,,,twice\n7,1-5,8:00,,1,2,,,,,,\n"
    for row, said in WRONG:
        write(f"{folder}/orders.csv", f"{HEADER}{head}{row}\n")
        orders, faults, _ = table.orders_in(f"{folder}/orders.csv")
        wanted = 2, [(f"line 4 of {folder}/orders.csv", said)]
        yield difference(f"the row {row}", wanted, (len(orders), faults))
    write(f"{folder}/orders.csv", "Rider;weekdays\n")
    try:
        yield f"a table without columns: {table.orders_in(f'{folder}/orders.csv')}"
    except Wrong as wrong:
        yield None if "has no column wish" in str(wrong) else f"a table without columns: {wrong}"
    times = {
        "9:00": 540,
        "12:00 am": 0,
        "12:30 PM": 750,
        "1:05p.m.": 785,
        "23:59": 1439,
        "2 pm": 840,
        "noon": 720,
    }
    yield difference("times", times, {it: tables.time_of_day(it) for it in times})
    days = {
        "1-5": [1, 2, 3, 4, 5],
        "Mon-Fri": [1, 2, 3, 4, 5],
        "Monday, wed Fri": [1, 3, 5],
        "7": [7],
    }
    yield difference("weekdays", days, {it: tables.weekdays(it) for it in days})
    write(f"{folder}/orders.csv", HEADER + head)
    run = subprocess.run(
        [TOOL, "orders.csv", "--plan"], cwd=folder, env=CLOCK, capture_output=True, text=True
    )
    yield None if run.returncode == 0 and "Nothing was sent." in run.stdout else f"--plan: {run}"
    run = subprocess.run([TOOL], cwd=folder, capture_output=True, text=True)
    yield difference("no words", 2, run.returncode)


def faults_of_plans():
    """What is sent is what the pages send, for each quarter of an hour, mode and lead; not before a minute, what is bound."""
    agency = {"places": [{"id": 1, "x": 0, "y": 0}, {"id": 2, "x": 30_000, "y": 40_000}, {"id": 3}]}
    cases = [
        (mode, minute, by, goal, lead)
        for mode in plan.MODES
        for minute in range(0, 1440, 15)
        for by in (None, minute + 45, minute + 200)
        for goal in (2, 3)
        for lead in (0, 15, 60)
        if (mode != plan.BY or by is not None) and (by is None or by < 1440)
    ]
    said, sent = [], []
    for mode, minute, by, goal, lead in cases:
        planner = plan.Planner({**agency, "lead": lead})
        order = SimpleNamespace(mode=mode, wish=minute, by=by, origin=1, goal=goal)
        at = by if mode == plan.BY else minute
        said.append(
            {
                "mode": mode,
                "minute": at,
                "by": None if mode == plan.BY else by,
                "drive": planner.drive(order),
                "lead": lead,
                "change": False,
            }
        )
        sent.append([[it.wish, it.by] for it in planner.requests(order)])
    run = subprocess.run(
        ["node", "--input-type=module", "-e", PLANS_OF_PAGES % TOP],
        input=json.dumps(said),
        capture_output=True,
        text=True,
        timeout=SECONDS,
    )
    pages = json.loads(run.stdout or "[]")
    yield None if run.returncode == 0 and len(pages) == len(
        cases
    ) > 1000 else f"the plans of the pages: {run.stderr}"
    wrong = [
        (case, theirs, ours) for case, theirs, ours in zip(cases, pages, sent) if theirs != ours
    ]
    yield difference("plans that are others than those of the pages", [], wrong[:3])


def faults_of_available():
    """What is available in an hour is what was carried then in the last four weeks, or stands, or is said."""

    def reader(counts):
        class Reader:
            def get(self, path):
                day = datetime.date.fromisoformat(path.split("/")[2])
                text = io.StringIO(
                    "window_to,status\n"
                    + "600,ridden\n" * counts.get(day, 0)
                    + "600,cancelled\n" * 9
                )
                return parts.Reply(200, text.read())

        return Reader()

    day, today = parts.MONDAY + datetime.timedelta(days=14), parts.MONDAY
    for back, wanted in ((0, 4), (7, 1), (14, 4), (21, 4), (35, 4), (42, 1)):
        counts = {day - datetime.timedelta(days=back): 4 - (back == 0)}
        got = share.Share(50, today, reader(counts)).available(day, 10)
        yield difference(f"what is available by trips {back} days before", wanted, got)
    got = share.Share(50, today, reader({}), {(1, 10): 7}).available(day, 10)
    yield difference("what the agency says is available", 7, got)


def all_faults(program):
    with tempfile.TemporaryDirectory() as folder:
        yield from faults_of_tables(folder)
        yield from faults_of_spreadsheets(folder)
        yield from faults_of_plans()
        yield from faults_of_available()
        yield from parts.all_faults()
        file = town(program, folder)
        for each in (
            faults_of_night,
            faults_of_modes,
            faults_of_kills,
            faults_of_refusals,
            faults_of_told,
            faults_of_share,
        ):
            copy = f"{folder}/{each.__name__}.db"
            serving.copy_database(file, copy)
            yield from each(program, copy, f"{folder}/{each.__name__}")
            shutil.rmtree(f"{folder}/{each.__name__}")


def main(words):
    program, _ = told_program(words, __doc__)
    return serving.tally("tests/standing_orders", all_faults(program))


if __name__ == "__main__":
    sys.exit(main(sys.argv[1:]))
