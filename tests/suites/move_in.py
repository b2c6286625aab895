"""Tries bin/move-in at a desk: `move_in PROGRAM`.

It runs docs/MOVING-IN.md, command by command, and compares what that prints; the environment's MOVING_IN names another
copy of the page. Then the same agency moves in once more, through a site that is asked too much now and then, by a program that is
killed at every tenth request. Each
stop of the feed is asked for at the desk; feeds that can't be read, tables of driving times and a month's figures are
compared with what is known of them by hand or by sqlite3. The last line is 'N passed, M failed', and the exit status 1
where something failed.
"""
import csv
import datetime
import io
import json
import os
import random
import re
import shutil
import signal
import subprocess
import sys
import tempfile
from pathlib import Path

from desk_tools.tree import TOP
import moving_parts as parts
import serving
from desk_tools.setup import agency_file, carry, example, keys, plane as geometry
from moving_parts import CLOCK, LEAST, MOVE_IN, PUTTING, SECONDS, SEED, agency_of, moved, rehearsed
from moving_stands import Relay
from serving import TODAY, ZONE, difference, free_port, rows, tally, told_program

PAGE = os.environ.get("MOVING_IN") or f"{TOP}/docs/MOVING-IN.md"
BLOCK = re.compile(r"^```sh\n(.*?)^```\n(?:\n```text\n(.*?)^```\n)?", re.M | re.S)
DATE = re.compile(r"\d{4}-\d\d-\d\d")
MOST_RUNS = 60


def last_line(run):
    return (run.stdout.splitlines() or [""])[-1]


# The page.


def faults_of_page(program, town):
    """For each block of the page None, or how what it prints differs."""
    if not os.path.exists(PAGE):
        yield f"there is no {PAGE}"
        return
    blocks = BLOCK.findall(Path(PAGE).read_text("utf-8"))
    printed, said = run_of_page(program, town, blocks)
    pieces = re.split(r"(?m)^== \d+\n", printed)
    for at, (commands, wanted) in enumerate(blocks):
        if at >= len(pieces) - 1:
            yield f"the page: this was not run to its end:\n{commands}{said[-2000:]}"
            return
        got = DATE.sub("DAY", pieces[at])
        what = f"the page, what this prints:\n{commands}"
        yield difference(what, DATE.sub("DAY", wanted), got) if wanted else None


def run_of_page(program, town, blocks):
    """What the commands of the page print, a line after those of each block, and what they say on standard error."""
    script = "".join(f"{commands}echo '== {at}'\n" for at, (commands, _) in enumerate(blocks))
    os.makedirs(f"{town}-bin")
    os.symlink(program, f"{town}-bin/desk")
    path = f"{town}-bin:{os.environ['PATH']}"
    given = {**os.environ, "ZONE": ZONE, "PORT": str(free_port()), "TOWN": town, "PATH": path}
    command, pipe = ["bash", "-e", "-o", "pipefail", "-c", script], subprocess.PIPE
    run = subprocess.Popen(
        command,
        cwd=TOP,
        env=given,
        stdin=subprocess.DEVNULL,
        stdout=pipe,
        stderr=pipe,
        text=True,
        start_new_session=True,
    )
    try:
        return run.communicate(timeout=SECONDS)
    finally:
        end(run)


def end(run):
    """Ends what a run of the page left, such as a desk that serves."""
    try:
        os.killpg(run.pid, signal.SIGKILL)
    except ProcessLookupError:
        pass
    run.wait()


# The same again, by a program that is killed over and over.

SAME = {
    "callers": "SELECT * FROM callers",
    "places": "SELECT * FROM places",
    "fixed": "SELECT * FROM fixed",
    "vehicles": "SELECT * FROM vehicles",
    "riders": "SELECT * FROM riders",
    "entries": "SELECT * FROM entries",
    "desk": "SELECT base, transfer, fare, service, extra_ride, min_missed, percent, span_days FROM desk",
    # (the page's clerk and dispatcher write once more than this)
    "kept": "SELECT * FROM kept WHERE caller IN (1, 4)",
}


def faults_of_kills(program, town, folder):
    """A run that is killed at every tenth request and run again leaves the rows of the page's."""
    os.makedirs(folder)
    for name in "feed.zip places.csv callers.csv vehicles.csv riders.csv policy.json".split():
        shutil.copy(f"{town}/{name}", folder)
    shutil.copytree(f"{town}/keys", f"{folder}/keys")
    serving.ran(program, "init", f"{folder}/desk.db", "first-key")
    with serving.Desk(program, f"{folder}/desk.db") as desk, Relay(desk.port, 10) as relay:
        for words in PUTTING:
            yield done_at_last(words, folder, relay)
        yield None if relay.kills > 5 else f"only {relay.kills} runs were killed"
        yield None if relay.refusals > 5 else f"only {relay.refusals} requests were too much"
    for table, query in SAME.items():
        wanted, got = (sorted(rows(f"{it}/desk.db", query)) for it in (town, folder))
        yield difference(f"{table} after a run that was killed", wanted, got)
    yield difference("agency.json after a run that was killed", agency_of(town), agency_of(folder))


def done_at_last(words, folder, relay):
    """None where a command ends well once it was run often enough."""
    command = [MOVE_IN, *words, "--url", f"http://127.0.0.1:{relay.port}", "--patience", "30"]
    for _ in range(MOST_RUNS):
        with open(f"{folder}/said", "w+b") as said:
            relay.program = subprocess.Popen(
                command, cwd=folder, env=CLOCK, stdin=subprocess.DEVNULL, stdout=said, stderr=said
            )
            status = relay.program.wait(SECONDS)
            if status == 0:
                return None
            if status != -signal.SIGKILL:
                said.seek(0)
                return f"{' '.join(words)} ends with {status}: {said.read().decode()}"
    return f"{' '.join(words)} did not end in {MOST_RUNS} runs"


# Whom the corridors serve, by the desk.


def faults_of_corridors(program, town):
    """Each visit of each trip of the feed is served by the fixed routes of its own route; what lies farther is not."""
    agency, plane, found = agency_of(town), geometry.kept_plane(town), example.tables(TODAY)
    point_of = {stop: plane.point(*position) for stop, _, *position in found["stops"][1:]}
    route_of = {trip: (route, service) for route, service, trip, *_ in found["trips"][1:]}
    chance = random.Random(SEED)
    for route, name in example.ROUTES.items():
        own = [it for it in agency["routes"].values() if it["name"] == name]
        stops = [it for it in point_of if it.startswith(route)]
        asked = []
        for trip, _, time, stop, _ in found["stop_times"][1:]:
            if route_of[trip][0] == route:
                minute = int(time[:2]) * 60 + int(time[3:5])
                weekday = chance.choice(weekdays_of(found, route_of[trip][1]))
                asked.append(
                    (stops.index(stop), (weekday - 1 + minute // 1440) % 7 + 1, minute % 1440)
                )
        told = rehearsed(program, own, [point_of[it] for it in stops], asked)
        yield difference(f"stops of {name} at the desk", {"no vehicle"}, {*told})
    points = [
        (x, y) for x, y in [(LEAST, 0), (-LEAST, 7_777), (0, 20_000 + LEAST), (0, -20_000 - LEAST)]
    ]
    farther = [(x + (x > 0) - (x < 0), y if x else y + (y > 0) - (y < 0)) for x, y in points]
    told = rehearsed(
        program, [agency["routes"]["1"]], points + farther, [(at, 2, 600) for at in range(8)]
    )
    yield difference(
        "3,960 and 3,961 feet from a line", ["no vehicle"] * 4 + ["37.131(a)"] * 4, told
    )


def weekdays_of(found, service):
    """The weekdays on which a service of the example runs within four weeks."""
    usual = next(it for it in found["calendar"] if it[0] == service)
    changed = {(it[0], it[1]): it[2] for it in found["calendar_dates"][1:]}
    days = [TODAY + datetime.timedelta(days=it) for it in range(28)]
    runs = [
        it
        for it in days
        if changed.get((service, f"{it:%Y%m%d}"), 1 if usual[it.isoweekday()] == "1" else 2) == 1
    ]
    return sorted({it.isoweekday() for it in runs})


# The month's figures, and what else is asked of the town's desk.

INTO_TRIPS = f"INSERT INTO trips VALUES({','.join('?' * 16)})"
INTO_STOPS = f"INSERT INTO stops VALUES({','.join('?' * 5)})"


def add_month(database):
    """200 trips of twenty days, in two vehicles, of every outcome. Each that stands has its two stops at its place."""
    chance, epoch, places = random.Random(SEED), datetime.date(1970, 1, 1).toordinal(), {}
    for at in range(200):
        number, day, wish = at + 2, TODAY.toordinal() - epoch + 2 + at // 10, 540 + 30 * (at % 10)
        # (day 0 of the count is a Thursday, and vehicle 2 rests at weekends)
        vehicle = 1 + at % 2 if (day + 3) % 7 < 5 else 1
        status, party = chance.choice([0, 1, 2, 2, 2, 2, 3, 4]), (
            chance.randint(0, 1),
            chance.randint(0, 1),
        )
        settled = 350, 3, 30, vehicle, wish, wish + 15
        database.execute(
            INTO_TRIPS, (number, 101 + at % 12, day, wish, 1, 1, -1, *party, *settled, status)
        )
        if status != 1:
            place = places.get((vehicle, day), 0)
            database.executemany(
                INTO_STOPS, [(vehicle, day, place + it, number, it) for it in (0, 1)]
            )
            places[vehicle, day] = place + 2
    database.execute("UPDATE desk SET last_trip = ?", (number,))


FIGURES = """
    SELECT date(day * 86400, 'unixepoch'), count(DISTINCT CASE WHEN status = 2 THEN vehicle END), sum(status = 2),
        sum((status = 2) * companions), sum((status = 2) * attendant),
        sum((status = 2) * (1 + companions + attendant)), sum(status = 3), sum(status = 4), sum(status = 1),
        sum(status = 0), sum((status = 2) * fare * (1 + companions))
    FROM trips GROUP BY day ORDER BY day"""
SHOWN = """
    vehicles_operated riders companions attendants unlinked_passenger_trips no_shows_by_rider
    missed_by_operator cancelled to_come fares_cents
""".split()


def faults_of_report(town):
    """The figures of a month are what sqlite3 adds up."""
    sums = rows(f"{town}/desk.db", FIGURES)
    serving.copy_database(f"{town}/desk.db", f"{town}/month.db")
    words = [f"{TOP}/bin/reports", "ntd", "month.db", "--program", f"{town}-bin/desk"]
    run = subprocess.run(
        words,
        cwd=town,
        env=parts.CLOCK,
        capture_output=True,
        text=True,
        timeout=parts.SECONDS,
        check=False,
    )
    yield None if run.returncode == 0 else f"bin/reports ntd: {run}"
    told = list(csv.DictReader(io.StringIO(run.stdout)))
    days = [
        (it["day"], *(int(it[name]) for name in SHOWN)) for it in told if DATE.fullmatch(it["day"])
    ]
    yield difference("the figures of 200 trips", sums, days)
    total = next(it for it in told if it["day"] == "total")
    wanted = [
        max(it[1] for it in sums),
        *(sum(it[at] for it in sums) for at in range(2, len(SHOWN) + 1)),
    ]
    yield difference("their total", wanted, [int(total[it]) for it in SHOWN])


RIDERS = """number,kind,attendant,until,conditions
101,resident,yes,{far},always
102,resident,no,{near},always
103,visitor,no,,
120,resident,no,{past},always
121,resident,no,2027-02-30,always
122,resident,no,{far},sometimes
123,resident,no,{far},
123,visitor,no,,
124,visitor,no,{far},
125,resident,no,,
"""
REFUSED = """what,reason,number,kind,attendant,until,conditions
line 5 of more.csv,"the certification ended on {past}; the rider was not put, since nothing could be granted",120,resident,no,{past},always
line 6 of more.csv,until '2027-02-30' is no day YYYY-MM-DD of 2000 to 2099,121,resident,no,2027-02-30,always
line 7 of more.csv,"conditions 'sometimes' are none such as always, nolift, months:1,2,12 (rising) or farther:5280",122,resident,no,{far},sometimes
line 9 of more.csv,line 8 has the same number,123,visitor,no,,
line 10 of more.csv,"a visitor has no certification here, so until has to be empty",124,visitor,no,{far},
rider 102,"the rider has a grant until {near} for months:1,2,3,11,12; farther:5280, which is not replaced",102,resident,no,{near},always
rider 103,"desk.exists: the desk has it already, and it is not replaced",103,visitor,no,,
"""


def faults_of_refusals(desk, town):
    """Rows that are refused are told with their reasons, and the others go on; run again, nothing more is put."""
    days = {
        name: TODAY + datetime.timedelta(days=it)
        for name, it in (("far", 365), ("near", 30), ("past", -1))
    }
    Path(f"{town}/more.csv").write_text(RIDERS.format(**days), "utf-8")
    url = f"http://127.0.0.1:{desk.port}"
    words = [
        "riders",
        "more.csv",
        "--url",
        url,
        "--clerk",
        "keys/2-clerk",
        "--examiner",
        "keys/4-examiner",
    ]
    for put, there in ((3, 0), (0, 3)):
        run = moved(town, *words)
        wanted = (
            f"riders: {put} put, {there} there already, 7 refused; ./refused-riders.csv says why"
        )
        yield difference(
            "riders of whom some are refused", (1, wanted), (run.returncode, last_line(run))
        )
        with open(f"{town}/refused-riders.csv", encoding="utf-8") as file:
            yield difference("what is said of them", REFUSED.format(**days), file.read())
    for key, said in (
        ("keys/3-dispatcher", "another role"),
        ("policy.json", "nobody has the key in policy.json"),
    ):
        run = moved(town, "places", "places.csv", "--url", url, "--admin", key)
        yield None if run.returncode == 2 and said in run.stderr else f"places with {key}: {run}"
    run = moved(town, "places", "places.csv", "--url", url, "--admin", "keys/1-admin")
    yield difference(
        "places without a journal", "places: 0 put, 7 there already, 0 refused", last_line(run)
    )


HOMES = """number,kind,attendant,until,home
131,resident,no,,4
132,resident,no,,5
133,resident,no,,5
134,resident,no,,2
135,resident,no,,1
136,resident,no,,77
"""
PRIVATE = """number,name,latitude,longitude,note,private
1,Garage,44.9723145,-93.2630673,,yes
2,Main and River,44.9780743,-93.2642269,"gate, code 4",no
3,North End Clinic,45.0299119,-93.2592018,,maybe
"""


def faults_of_homes(desk, town):
    """Riders' homes become private to them; what places.csv or the agency says of a place is kept."""
    for name, text in (("homes.csv", HOMES), ("private.csv", PRIVATE)):
        Path(f"{town}/{name}").write_text(text, "utf-8")
    url = f"http://127.0.0.1:{desk.port}"
    moved(town, "places", "private.csv", "--url", url, "--admin", "keys/1-admin")
    with open(f"{town}/refused-places.csv", encoding="utf-8") as file:
        said = "private 'maybe' is neither yes, no nor a rider's number"
        yield difference("a mark that is none", 1, file.read().count(said))
    words = [
        "riders",
        "homes.csv",
        "--url",
        url,
        "--clerk",
        "keys/2-clerk",
        "--examiner",
        "keys/4-examiner",
    ]
    before, plan = agency_of(town)["places"], moved(town, "riders", "homes.csv", "--plan")
    names = [before[it]["name"] for it in ("4", "5")]
    wanted = [
        "  2 places become private, since a rider lives there:",
        f"    place 4, {names[0]}, to rider 131",
        f"    place 5, {names[1]}, to riders 132, 133",
    ]
    told = [it for it in plan.stdout.splitlines() if it in wanted]
    now = agency_of(town)["places"]
    yield difference("a plan of homes", (wanted, before), (told, now))
    run = moved(town, *words)
    wanted = "homes: 2 places are private to their riders now, 1 of them to more than one"
    yield difference("what is said of homes", (1, wanted), (run.returncode, last_line(run)))
    yield None if "line 7 of homes.csv: the home, place 77, was not put yet" in run.stdout else f"a lost home: {run}"
    run = moved(town, *words)
    yield None if "homes:" not in run.stdout else f"homes once more: {run}"
    plan = moved(town, "riders", "homes.csv", "--plan")
    yield None if "private" not in plan.stdout else f"a plan of homes that are private: {plan}"
    moved(town, "places", "places.csv", "--url", url, "--admin", "keys/1-admin")
    places = agency_of(town)["places"]
    wanted = {"1": True, "2": False, "3": None, "4": 131, "5": [132, 133], "6": None, "7": None}
    yield difference(
        "whose places they are",
        wanted,
        {number: it.get("private") for number, it in places.items()},
    )
    yield difference("a note", "gate, code 4", places["2"].get("note"))


def faults_of_agency_file(town):
    """agency.json is what the pages read: its fields are all right, and the site's files come of it."""
    agency = json.loads(Path(f"{town}/agency.json").read_text("utf-8"))
    said = {"name": "Lake Town Transit", "zone": "America/Chicago", "telephone": "612-555-0100"}
    yield difference("what agency.json says", said, {name: agency.get(name) for name in said})
    modes = {
        it: os.stat(f"{town}/{it}").st_mode & 0o777
        for it in ("desk.db", "agency.json", "keys/1-admin")
    }
    yield difference("files that others read", {it: 0o600 for it in modes}, modes)
    kinds = {name: [type(it["id"]) for it in agency[name]] for name in agency_file.LISTS}
    yield difference(
        "its lists", {"places": [int] * 7, "routes": [int] * 8, "vehicles": [int] * 2}, kinds
    )
    command = [f"{TOP}/bin/site-files", "agency.json", "site"]
    run = subprocess.run(command, cwd=town, capture_output=True, text=True, timeout=SECONDS)
    yield difference("site-files of it", (0, ""), (run.returncode, run.stderr))
    plane = geometry.kept_plane(town)
    far = [
        it["id"]
        for it in agency["places"]
        if plane.point(it["latitude"], it["longitude"]) != (it["x"], it["y"])
    ]
    yield difference("places whose position is not their point", [], far)


def faults_of_old_agency(town, folder):
    """The file of an earlier move-in is read, and written as it is defined; one with a fault is left alone."""
    os.makedirs(folder)
    agency = agency_of(town)
    with open(f"{folder}/agency.json", "w", encoding="utf-8") as file:
        json.dump({**agency, "first_day_of_week": 0}, file)
    yield difference("an old agency.json", agency, agency_of(folder))
    carry.keep_agency(folder, agency_of(folder))
    texts = [
        agency_file.text_of(agency_file.read(f"{it}/agency.json").agency) for it in (town, folder)
    ]
    yield difference("an old agency.json, written anew", *texts)
    Path(f"{folder}/agency.json").write_text('{"zone": "Chicago"}', "utf-8")
    run = moved(folder, "times")
    wanted = 2, (
        'bin/move-in: ./agency.json has a fault: zone: "Chicago" is not an IANA zone, such as '
        '"America/New_York". Mend it or move the file away\n'
    )
    yield difference("an agency.json with a fault", wanted, (run.returncode, run.stderr))


def faults_of_keys(town):
    """Made keys are those that people can type, in any of the forms in which they type them."""
    made = [keys.made() for _ in range(20)]
    yield None if all(
        re.fullmatch("[0-9a-hjkmnp-tv-z]{26}", it) for it in made
    ) else f"made keys: {made}"
    typed = [f" {it[:5].upper()}-{it[5:13]} {it[13:]}\t" for it in made]
    yield difference("typed keys", made, [keys.normalized(it) for it in typed])
    others = ["first-key", "ABC", made[0][:25], f"{made[0]}a", f"{made[0][:25]}u"]
    yield difference("other keys", others, [keys.normalized(it) for it in others])
    yield None if re.fullmatch(
        "[0-9a-z]{26}", Path(f"{town}/keys/2-clerk").read_text("ascii")
    ) else "the clerk's key is no made key"


def faults_of_new_feed(desk, town):
    """Where the feed has a route less, the last fixed route gets no weekdays."""
    found = example.tables(TODAY)
    found["trips"] = [it for it in found["trips"] if it[0] != "market"]
    example.write_feed(f"{town}/next.zip", found)
    url = f"http://127.0.0.1:{desk.port}"
    run = moved(town, "routes", "next.zip", "--url", url, "--admin", "keys/1-admin")
    yield difference(
        "a feed with a route less", "routes: 8 put, 0 there already, 0 refused", last_line(run)
    )
    is_told = "8: 5 Market Bus: the feed has it no more, so it gets no weekdays" in run.stdout
    yield None if is_told else f"what it says: {run.stdout}"
    yield difference("its route in agency.json", [], agency_of(town)["routes"]["8"]["days"])


def faults_of_office(program, town):
    """All that is asked of the town's desk once the page is done."""
    serving.with_database(f"{town}/desk.db", add_month)
    yield from faults_of_report(town)
    with serving.Desk(program, f"{town}/desk.db") as desk:
        yield from faults_of_refusals(desk, town)
        yield from faults_of_homes(desk, town)
        yield from faults_of_new_feed(desk, town)
    days = rows(f"{town}/desk.db", "SELECT days FROM fixed WHERE id = 8")
    yield difference("the weekdays of the route that is gone", [(0,)], days)


def all_faults(program):
    with tempfile.TemporaryDirectory() as folder:
        town = f"{folder}/town"
        try:
            yield from faults_of_page(program, town)
            yield from faults_of_agency_file(town)
            yield from faults_of_old_agency(town, f"{folder}/old")
            yield from faults_of_keys(town)
            yield from faults_of_kills(program, town, f"{folder}/again")
            yield from faults_of_corridors(program, town)
            yield from parts.faults_of_times(town, f"{folder}/many")
            yield from faults_of_office(program, town)
        except (OSError, subprocess.TimeoutExpired) as error:
            yield f"{type(error).__name__}: {error}"
        yield from parts.faults_of_lines()
        yield from parts.faults_of_hours()
        yield from parts.faults_of_cities(f"{folder}/cities")
        yield from parts.faults_of_feeds(f"{folder}/feeds")
        yield from parts.faults_of_numbers(f"{folder}/numbers")
        yield from parts.faults_of_room(f"{folder}/room")


def main(words):
    program, _ = told_program(words, __doc__)
    return tally("tests/move_in", all_faults(program))


if __name__ == "__main__":
    sys.exit(main(sys.argv[1:]))
