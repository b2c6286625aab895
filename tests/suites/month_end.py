"""Tries what is counted at a month's end, over a copy of a desk's file: `month_end PROGRAM`.

`bin/reports ntd --forms` gives the miles and hours that drivers reported, and says what nobody did; `bin/reports invoices` what sponsors pay, with sums to the cent.
The last line is 'N passed, M failed', and the exit status 1 where something failed.
"""
import csv
import os
import subprocess
import sys
import tempfile

from desk_tools.tree import TOP
import serving
from desk_tools import events
from serving import TOMORROW, TRIP, difference, tally, told_program, write

MONTH, NEXT = (
    f"{TOMORROW:%Y-%m}",
    f"{TOMORROW.year + TOMORROW.month // 12}-{TOMORROW.month % 12 + 1:02}",
)
RIDDEN, MISSED = 2, 3
SPONSORS = "rider,sponsor,from,to,rate,by\n7,County Aging,2026-01-01,,14.50,trip\n9,Medicaid,,{day},2.35,mile\n"
PLACES = (
    '{"name": "Town Rides", "places": [{"id": 1, "name": "Depot"}, {"id": 2, "name": "=Court"}]}'
)


def rows_in(path):
    with open(path, encoding="utf-8-sig", newline="") as file:
        return list(csv.DictReader(file))


def made(program, folder):
    """A copy in which trip 1 of rider 7 and trips 2 and 4 of rider 9 were ridden tomorrow, and trip 5 was a no-show."""
    file, copy = serving.make_agency(program, folder), f"{folder}/desk-copy.db"
    with serving.Desk(program, file) as desk:
        serving.asked_in_turn(
            desk,
            [
                ("/trips", "hello", 7, {**TRIP, "rider": 9, "wish": 800}),
                ("/trips", "hello", 8, {**TRIP, "rider": 9, "wish": 1000}),
            ],
        )
    serving.copy_database(file, copy)
    serving.with_database(
        copy,
        lambda it: it.execute(
            f"UPDATE trips SET status = CASE id WHEN 5 THEN {MISSED} ELSE {RIDDEN} END WHERE id IN (1, 2, 4, 5)"
        ),
    )
    return copy


def log_of(folder, *told):
    """The site's log with these events, each a kind and its fields."""
    lines = []
    for at, (kind, fields) in enumerate(told, 1):
        path = events.path_of(kind, {"id": f"{at:026}", **fields})
        lines.append(f"{TOMORROW}T20:00:00+00:00\t{path.replace('?', chr(9))}\tvehicle\n")
    return write(f"{folder}/tally.log", "".join(lines))


def pull(kind, minute, odometer, **more):
    return kind, {
        "vehicle": 1,
        "day": TOMORROW,
        "minute": minute,
        "odometer": odometer,
        "at": f"{TOMORROW}T{minute // 60:02}:{minute % 60:02}:00",
        **more,
    }


def tap(trip, event, at):
    return "stops", {"vehicle": 1, "trip": trip, "event": event, "at": f"{TOMORROW}T{at}:00"}


TAPS = [
    tap(1, "arrived", "09:50"),
    tap(1, "aboard", "09:55"),
    tap(1, "dropped", "10:25"),
    tap(2, "aboard", "11:00"),
    tap(2, "dropped", "11:20"),
]


# That of the reports: DESK names the program that is tried.
ENVIRONMENT = dict(os.environ)


def reports(folder, *words):
    done = subprocess.run(
        [f"{TOP}/bin/reports", *words],
        cwd=folder,
        capture_output=True,
        text=True,
        timeout=300,
        check=False,
        env=ENVIRONMENT,
    )
    return done.returncode, done.stdout, done.stderr


def faults_of_miles(folder, copy):
    log = log_of(
        folder,
        pull("pull_out", 560, 48_210),
        *TAPS,
        pull("pull_in", 740, 48_260, first_pickup=48_214, last_drop=48_252),
    )
    status, text, said = reports(
        folder,
        "ntd",
        copy,
        "--month",
        MONTH,
        "--tally",
        log,
        "--forms",
        "forms",
        "--html",
        "ntd.html",
    )
    yield difference(
        f"the forms: {said}",
        (0, ["miles.csv", "mr-20.csv", "rr-20.csv", "s-10.csv", "unreported.csv"]),
        (status, sorted(os.listdir(f"{folder}/forms"))),
    )
    yield None if "Of 1 vehicle days, 1 have pull-out and pull-in, 1 revenue miles, and 1 revenue hours" in said else f"what is missing is not said: {said}"
    found = {
        (it["service"], it["field"]): it["value"] for it in rows_in(f"{folder}/forms/s-10.csv")
    }
    wanted = {
        "Vehicle miles": "50",
        "Vehicle revenue miles": "38",
        "Deadhead miles": "12",
        "Vehicle hours": "3.00",
        "Vehicle revenue hours": "1.50",
        "Deadhead hours": "1.50",
        "Unlinked passenger trips": "3",
        "Vehicles operated in maximum service": "1",
        "Days operated": "1",
        "Passenger miles traveled": "",
    }
    yield difference("form S-10", wanted, {name: found.get(("all", name)) for name in wanted})
    monthly = {it["field"]: it["value"] for it in rows_in(f"{folder}/forms/mr-20.csv")}
    yield difference(
        "form MR-20",
        ("3", "38", "1.50", "1"),
        tuple(
            monthly[it]
            for it in (
                "Unlinked passenger trips",
                "Vehicle revenue miles",
                "Vehicle revenue hours",
                "Vehicles operated in maximum service",
            )
        ),
    )
    yield difference("nothing is missing", [], rows_in(f"{folder}/forms/unreported.csv"))
    yield difference(
        "the figures that were there before",
        reports(folder, "ntd", copy, "--month", MONTH)[1],
        text,
    )
    status, _, said = reports(
        folder, "ntd", copy, "--month", MONTH, "--tally", log, "--forms", "forms"
    )
    yield difference(
        f"a folder that is there: {said}", (1, True), (status, "is no empty folder" in said)
    )
    status, _, said = reports(folder, "ntd", copy, "--forms", "other")
    yield difference(f"no log: {said}", (1, False), (status, os.path.exists(f"{folder}/other")))
    reports(
        folder, "ntd", copy, "--month", MONTH, "--tally", log_of(folder, *TAPS), "--forms", "none"
    )
    yield difference(
        "what nobody reported",
        [("1", "no pull-out and no pull-in")],
        [
            (it["vehicle"], it["what nobody reported"])
            for it in rows_in(f"{folder}/none/unreported.csv")
        ],
    )
    yield difference(
        "and is not zero",
        [""] * 2,
        [it["value"] for it in rows_in(f"{folder}/none/mr-20.csv") if "revenue" in it["field"]],
    )


def faults_of_invoices(folder, copy):
    log, table = log_of(folder, *TAPS), write(
        f"{folder}/sponsors.csv", SPONSORS.format(day=TOMORROW)
    )
    agency = write(f"{folder}/agency.json", PLACES)
    words = [
        "invoices",
        copy,
        "--month",
        MONTH,
        "--sponsors",
        table,
        "--tally",
        log,
        "--agency",
        agency,
    ]
    status, text, said = reports(folder, *words, "--folder", "plan", "--plan")
    yield difference(
        f"the plan: {said}",
        (0, False, True),
        (status, os.path.exists(f"{folder}/plan"), "Nothing was written." in text),
    )
    status, text, said = reports(folder, *words, "--folder", "paid")
    # (places 1 and 2 are 15,297 feet apart, and places 1 and 3 are 9,055: 2.90 and 1.71 miles)
    yield difference(
        f"the invoices: {said}",
        (
            0,
            "County Aging: 1 trips, $14.50\nMedicaid: 2 trips, $10.84\nall: 3 trips, $25.34; 0 of them have no amount yet; nobody pays for 0 trips.\n",
        ),
        (status, text),
    )
    yield difference(
        "the files",
        [
            "01-county-aging.csv",
            "01-county-aging.html",
            "02-medicaid.csv",
            "02-medicaid.html",
            "summary.csv",
        ],
        sorted(os.listdir(f"{folder}/paid")),
    )
    rows = rows_in(f"{folder}/paid/02-medicaid.csv")
    yield difference(
        "each trip",
        [("2", "1.71", "4.02"), ("4", "2.90", "6.82")],
        [(it["trip"], it["quantity"], it["amount"]) for it in rows],
    )
    yield difference("a cell that is no formula", "'=Court", rows[1]["to"])
    cents = [
        round(float(it["amount"]) * 100)
        for name in ("01-county-aging", "02-medicaid")
        for it in rows_in(f"{folder}/paid/{name}.csv")
    ]
    yield difference("the sum of the trips", 2534, sum(cents))
    yield None if "Amount due: $10.84." in open(
        f"{folder}/paid/02-medicaid.html", encoding="utf-8"
    ).read() else "the page does not say what is due"
    hours = write(
        f"{folder}/hours.csv",
        "rider,sponsor,from,to,rate,by\n7,County,,,30,hour\n9,County,,,30,hour\n",
    )
    status, text, said = reports(
        folder,
        "invoices",
        copy,
        "--month",
        MONTH,
        "--sponsors",
        hours,
        "--tally",
        log,
        "--folder",
        "hours",
    )
    # (two trips of 50 minutes together, at $0.50 a minute; by hundredths of an hour it would be $24.90)
    yield difference(
        f"by the hour: {said}",
        (0, "County: 3 trips, $25.00\n", True),
        (status, text.splitlines(True)[0], "1 of them have no amount yet" in text),
    )
    rows = rows_in(f"{folder}/hours/01-county.csv")
    yield difference(
        "a trip without taps has no amount", [""], [it["amount"] for it in rows if it["note"]]
    )
    yield difference(
        "another month",
        "all: 0 trips, $0.00",
        reports(folder, "invoices", copy, "--month", NEXT, "--sponsors", table, "--folder", "next")[
            1
        ][:19],
    )


GROUPED = """{"name": "Town Rides", "places": [{"id": 1, "name": "Area 1", "private": [7]}, {"id": 2, "name": "Near 1 Mill St"}, {"id": 3, "name": "Shelter", "private": true}]}"""
ADDRESSES = "id,street,place,rider\n1,10 Elm St,1,7\n2,1 Mill St,2,\n3,9 Mill St,2,9\n4,3 Mill St,2,\nx,5 Mill St,2,\n"


def faults_of_addresses(folder, copy, program):
    """Homes at one place: a spreadsheet and a sponsor have the street, and a sponsor no home and no private place but the rider's own."""
    booked = {
        "day": TOMORROW,
        "trip": 1,
        "mode": "around",
        "minute": 600,
        "from": 600,
        "to": 615,
        "channel": "page",
        "at": f"{TOMORROW}T09:00:00",
        "to_address": 4,
    }
    log, table = log_of(folder, ("bookings", booked)), write(
        f"{folder}/sponsors.csv", SPONSORS.format(day=TOMORROW)
    )
    words = [
        "--month",
        MONTH,
        "--tally",
        log,
        "--agency",
        write(f"{folder}/grouped.json", GROUPED),
        "--addresses",
        write(f"{folder}/addresses.csv", ADDRESSES),
    ]
    status, text, said = reports(folder, "trips", copy, "--program", program, *words)
    ways = {
        it["Trip"]: (it["From"], it["To"])
        for it in csv.DictReader(text.lstrip("\ufeff").splitlines())
    }
    yield difference(
        f"the streets: {said}",
        (0, ("10 Elm St", "3 Mill St"), True),
        (status, ways.get("1"), "row 6: id" in said),
    )
    yield difference(
        "a place with the name of a group alone goes by its number",
        ("1", "9 Mill St"),
        ways.get("4"),
    )
    status, _, said = reports(
        folder, "invoices", copy, *words, "--sponsors", table, "--folder", "streets"
    )
    rows = {
        it["trip"]: (it["from"], it["to"])
        for name in ("01-county-aging", "02-medicaid")
        for it in rows_in(f"{folder}/streets/{name}.csv")
    }
    yield difference(
        f"the sponsor's: {said}",
        {"1": ("10 Elm St", "3 Mill St"), "2": ("1", "3"), "4": ("1", "9 Mill St")},
        rows,
    )
    with open(f"{folder}/streets/02-medicaid.html", encoding="utf-8") as page:
        shown = page.read()
    yield None if "9 Mill St" in shown and not any(
        it in shown for it in ("Area 1", "Shelter", "10 Elm St")
    ) else "the page has what is private to others"
    status, _, said = reports(
        folder,
        "trips",
        copy,
        "--program",
        program,
        *words[:-1],
        write(f"{folder}/bad.csv", "street\n1 Mill St\n"),
    )
    yield difference(
        f"a table without a number: {said}",
        (1, True),
        (status, "has no column id" in said and "Traceback" not in said),
    )


def faults_of_tables(folder, copy):
    """A table with faults: each is named by its row, and nothing is written."""
    table = write(
        f"{folder}/bad.csv",
        "rider,sponsor,from,to,rate,by\n8,County,,,1,trip\n7,County,,2026-06-30,1,trip\n7,Other,2026-06-30,,1,trip\n9,County,,,a lot,trip\n",
    )
    status, _, said = reports(
        folder, "invoices", copy, "--month", MONTH, "--sponsors", table, "--folder", "bad"
    )
    yield difference(
        f"a table with faults: {said}", (2, False), (status, os.path.exists(f"{folder}/bad"))
    )
    for wanted in (
        "row 2: rider 8 is none at the desk",
        "row 4: rider 7 has the day 2026-06-30 in row 3 already",
        "row 5: rate 'a lot' is no number of dollars",
        "nothing was written",
    ):
        yield None if wanted in said else f"{wanted!r} is not said: {said}"
    for content, wanted in (
        ("rider,sponsor\n", "has no column from"),
        ('rider,sponsor,from,to,rate,by\n7,"a', ""),
    ):
        status, _, said = reports(
            folder,
            "invoices",
            copy,
            "--month",
            MONTH,
            "--sponsors",
            write(f"{folder}/bad.csv", content),
            "--folder",
            "bad",
        )
        yield difference(
            f"{content!r}: {said}",
            (True, True, False),
            (
                status in (1, 2),
                wanted in said and "Traceback" not in said,
                os.path.exists(f"{folder}/bad"),
            ),
        )
    many = write(
        f"{folder}/many.csv",
        "rider,sponsor,from,to,rate,by\n"
        + "".join(f"{it},County,,,1,trip\n" for it in range(10, 200_010)),
    )
    status, _, said = reports(
        folder, "invoices", copy, "--month", MONTH, "--sponsors", many, "--folder", "bad"
    )
    # (a progress line is written over, and each time is a line here)
    lines = [it for it in said.splitlines() if not it.startswith("rows of sponsors read: ")]
    yield difference(
        "200,000 rows of riders who are none",
        (2, True),
        (status, len(lines) < 20 and "row 2: rider 10 is none" in said),
    )


def main():
    program, _ = told_program(sys.argv[1:], f"{__doc__.splitlines()[0]}\n")
    ENVIRONMENT["DESK"] = os.path.realpath(program)
    with tempfile.TemporaryDirectory(prefix="desk-month-") as folder:
        copy = made(program, folder)
        faults = [
            *faults_of_miles(folder, copy),
            *faults_of_invoices(folder, copy),
            *faults_of_addresses(folder, copy, program),
            *faults_of_tables(folder, copy),
        ]
    return tally("tests/month_end", faults)


if __name__ == "__main__":
    sys.exit(main())
