"""Tries bin/trip-exchange at a desk: `trip_exchange PROGRAM`.

A day's trips are written out of a served desk and a site's folder that bin/site-files made, and compared with the desk's own
manifest and export. No desk, another key, a folder that is none and a full disk get what each should. The last line is
'N passed, M failed', and the exit status 1 where something failed.
"""
import csv
import json
import os
import stat
import subprocess
import sys
import tempfile
from pathlib import Path

from desk_tools.tree import TOP
import serving
from serving import TOMORROW, difference, tally, told_program, write

SECONDS = 100
AGENCY = {
    "name": "Town Rides",
    "telephone": "555-0100",
    "zone": "America/Chicago",
    "vehicles": [{"id": 1, "name": "Van 12"}],
    "places": [
        {"id": 1, "name": "Mill", "latitude": 44.9, "longitude": -93.2},
        {"id": 2, "name": "Court", "note": "ramp"},
        {"id": 3, "name": "Clinic"},
    ],
}
ROSTER = "rider,name,telephone,language\n7,Ana Ruiz,555-0107,es\n9,Bo Lind,555-0109,en\n"
ADDRESSES = "id,street,place,rider,note\n5,12 Oak St,1,7,rear door\n"


def ran(command, *words):
    return subprocess.run(
        [f"{TOP}/bin/{command}", *map(str, words)],
        capture_output=True,
        text=True,
        timeout=SECONDS,
        check=False,
    )


def site_of(room):
    """A site's folder by bin/site-files."""
    for name, text in (
        ("agency.json", json.dumps(AGENCY)),
        ("roster.csv", ROSTER),
        ("addresses.csv", ADDRESSES),
        ("radio", "radio\n"),
        ("hello", "hello\n"),
    ):
        write(f"{room}/{name}", text)
    os.mkdir(f"{room}/site")
    made = ran(
        "site-files",
        f"{room}/agency.json",
        f"{room}/site",
        "--roster",
        f"{room}/roster.csv",
        "--addresses",
        f"{room}/addresses.csv",
    )
    if made.returncode:
        raise OSError(f"bin/site-files: {made}")


def faults_of_day(desk, room):
    """The day's trips beside the desk's own words."""
    at = [f"{room}/site", "--url", f"http://127.0.0.1:{desk.port}", "--day", TOMORROW]
    plan = ran("trip-exchange", *at, "--key", f"{room}/radio", "--plan")
    yield difference(
        f"--plan: {plan}",
        (0, True),
        (plan.returncode, "3 trips: 1 canceled, 2 scheduled\nNothing was written." in plan.stdout),
    )
    run = ran("trip-exchange", *at, "--key", f"{room}/radio", "--output", f"{room}/trips.json")
    yield difference(
        f"the run: {run}", (0, True), (run.returncode, "not compared with the report" in run.stdout)
    )
    yield difference("who reads it", 0o600, stat.S_IMODE(os.stat(f"{room}/trips.json").st_mode))
    held = json.loads(Path(f"{room}/trips.json").read_text("utf-8"))
    trips = {it["tripRequest"]["tripTicketId"]: it for it in held["trips"]}
    export = list(
        csv.DictReader(desk.get(f"/days/{TOMORROW}/trips.csv", "radio").body.splitlines())
    )
    yield difference("the trips of the export", [it["trip"] for it in export], [*trips])
    yield difference("a canceled one has no task", ["status", "tripRequest"], [*trips["3"]])
    for row in export[:2]:
        told = trips[row["trip"]]["tripTaskConfirmation"]
        minutes = [
            60 * int(told[name][11:13]) + int(told[name][14:16])
            for name in ("pickupWindowStartTime", "pickupWindowEndTime")
        ]
        yield difference("the window", [int(row["window_from"]), int(row["window_to"])], minutes)
        yield difference("what is due", int(row["due"]) / 100, float(told["fareAmount"]))
        for kind, name in (("PICK", "scheduledPickupTime"), ("DROP", "scheduledDropoffTime")):
            line = next(
                it
                for it in desk.get(f"/vehicles/1/manifest/{TOMORROW}", "radio").body.splitlines()
                if f"{kind} trip {row['trip']} " in it
            )
            yield difference(f"{kind} by the manifest", line[:5], told[name][11:16])
    asked = trips["1"]["tripRequest"]
    yield difference(
        "the home that is meant",
        ("12 Oak St", "Mill", 44.9),
        tuple(asked["pickupAddress"][it] for it in ("street", "addressName", "lat")),
    )
    yield difference(
        "the rider",
        ("Ana Ruiz", "555-0107", "es"),
        tuple(asked["customerInfo"][it] for it in ("name", "mobilePhone", "language")),
    )
    yield difference(
        "the vehicle",
        {"vehicleId": "1", "name": "Van 12"},
        trips["1"]["tripTaskConfirmation"]["vehicleInformation"],
    )
    ran(
        "trip-exchange",
        *at,
        "--key",
        f"{room}/radio",
        "--output",
        f"{room}/numbers.json",
        "--without-names",
    )
    text = Path(f"{room}/numbers.json").read_text("utf-8")
    yield None if "Ana" not in text and "555-0107" not in text and '"1006"' not in text else "names are there without names"


def faults_of_input(desk, room):
    at, key = ["--url", f"http://127.0.0.1:{desk.port}", "--output", f"{room}/none.json"], [
        "--key",
        f"{room}/radio",
    ]
    cases = (
        (
            ["trip-exchange", f"{room}/site", *at, "--key", f"{room}/hello", "--day", TOMORROW],
            2,
            "403",
        ),
        (["trip-exchange", f"{room}/site", *at, "--key", f"{room}/none"], 2, "none: No such file"),
        (["trip-exchange", f"{room}/none", *at, *key], 2, "is no folder"),
        (["trip-exchange", room, *at, *key, "--day", "2026-02-30"], 2, "is no day"),
        (["trip-exchange", f"{room}/site", *key], 2, "takes --output FILE, or --plan"),
        (["trip-exchange", f"{room}/site", "--url", "town", *key, "--plan"], 2, "is no address"),
        (
            [
                "trip-exchange",
                f"{room}/site",
                "--url",
                f"http://127.0.0.1:{serving.free_port()}",
                "--patience",
                "1",
                *key,
                "--plan",
            ],
            3,
            "run the same again",
        ),
        (
            [
                "trip-exchange",
                f"{room}/site",
                *at[:2],
                *key,
                "--day",
                TOMORROW,
                "--output",
                f"{room}/no/folder.json",
            ],
            1,
            "No such file",
        ),
    )
    for words, status, said in cases:
        run = ran(*words)
        yield None if run.returncode == status and said in run.stderr and "Traceback" not in run.stderr else f"{said}: {run}"
    yield difference("what is left", False, os.path.exists(f"{room}/none.json"))
    write(f"{room}/site/staff/places.json", "{")
    run = ran("trip-exchange", f"{room}/site", *at, *key, "--day", TOMORROW)
    yield None if run.returncode == 2 and "places.json is no JSON object" in run.stderr else f"a file that was cut: {run}"


def faults(program):
    with tempfile.TemporaryDirectory(prefix="desk-exchange-") as room:
        file = serving.make_agency(program, room)
        site_of(room)
        with serving.Desk(program, file) as desk:
            yield from faults_of_day(desk, room)
            yield from faults_of_input(desk, room)


if __name__ == "__main__":
    named, _ = told_program(sys.argv[1:], __doc__)
    sys.exit(tally("tests/trip_exchange", faults(named)))
