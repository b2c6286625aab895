"""Tries bin/flex-feed: its zones beside the corridors, by points on both sides of each edge, its trips, and bad input.

The last line is 'N passed, M failed', and the exit status 1 where something failed.
"""
import csv
import io
import json
import os
import random
import subprocess
import sys
import tempfile
import zipfile
from pathlib import Path

from desk_tools.tree import TOP
from desk_tools.setup import plane
from desk_tools.flex import outline
from serving import difference, tally

SEED, POINTS, NEAR = 20261130, 500, 60
MIDDLE = {"latitude": 44.0, "longitude": -93.0}
ROUTES = [
    {
        "id": 1,
        "width": 3960,
        "points": [[0, 0], [20000, 0], [20000, 30000]],
        "days": [1, 2, 3, 4, 5],
        "first": 300,
        "last": 1320,
    },
    {
        "id": 2,
        "width": 3960,
        "points": [[0, 0], [0, 30000], [20000, 30000]],
        "days": [1, 2, 3, 4, 5],
        "first": 300,
        "last": 1320,
    },
    {
        "id": 3,
        "width": 5280,
        "points": [[90000, 0], [60000, 9000]],
        "days": [1, 2, 3, 4, 5, 6],
        "first": 360,
        "last": 1439,
    },
]
AGENCY = {
    "name": "Town",
    "telephone": "555-0100",
    "zone": "America/Chicago",
    "closed": [{"day": "2026-12-25"}],
    "routes": ROUTES,
}
URL = ["--url", "https://town.example/rides", "--from", "2026-12-01"]


def ran(folder, *words, **given):
    for name, held in (
        ("agency.json", given.get("agency", AGENCY)),
        ("plane.json", given.get("middle", MIDDLE)),
    ):
        if held is None:
            os.remove(f"{folder}/{name}")
            continue
        Path(f"{folder}/{name}").write_text(json.dumps(held), "utf-8")
    done = subprocess.run(
        [f"{TOP}/bin/flex-feed", "agency.json", *words],
        cwd=folder,
        capture_output=True,
        text=True,
        timeout=200,
        check=False,
    )
    return done.returncode, done.stdout + done.stderr


def rows_in(archive, name):
    return list(csv.DictReader(io.StringIO(archive.read(name).decode())))


def is_in(zone, at):
    rings = [
        [[tuple(it) for it in ring] for ring in polygon]
        for polygon in zone["geometry"]["coordinates"]
    ]
    return any(
        outline.holds(it[0], at) and not any(outline.holds(hole, at) for hole in it[1:])
        for it in rings
    )


def wrong_points(zones):
    """How many points are on the wrong side, of the union of routes 1 and 2 and of route 3. Points near an edge are left out."""
    flat, chance = plane.Plane(**MIDDLE), random.Random(SEED)
    for zone, routes in zip(zones, (ROUTES[:2], ROUTES[2:])):
        wrong = 0
        for _ in range(POINTS):
            at = chance.uniform(-10_000, 100_000), chance.uniform(-10_000, 40_000)
            away = min(
                outline.distance(at, one, other) - it["width"]
                for it in routes
                for one, other in zip(it["points"], it["points"][1:])
            )
            latitude, longitude = flat.position(*at)
            wrong += abs(away) > NEAR and is_in(zone, (longitude, latitude)) != (away < 0)
        yield wrong


def faults_of_feed(folder):
    status, said = ran(folder, *URL, "--plan")
    yield difference(
        f"the plan: {said}",
        (0, True, ["agency.json", "plane.json"]),
        (status, "Nothing was written." in said, sorted(os.listdir(folder))),
    )
    status, said = ran(folder, *URL, "--output", "feed.zip", "--until", "16:30")
    yield difference(
        f"the feed: {said}", (0, True), (status, "2 zones, 4 trips between zones" in said)
    )
    with zipfile.ZipFile(f"{folder}/feed.zip") as archive:
        rule, times = rows_in(archive, "booking_rules.txt")[0], rows_in(archive, "stop_times.txt")
        zones, closed = json.loads(archive.read("locations.geojson"))["features"], rows_in(
            archive, "calendar_dates.txt"
        )
    wanted = {
        "booking_type": "2",
        "prior_notice_last_day": "1",
        "prior_notice_last_time": "16:30:00",
        "prior_notice_start_day": "14",
        "phone_number": "555-0100",
        "info_url": URL[1],
    }
    yield difference("how a trip is booked", wanted, {name: rule[name] for name in wanted})
    yield difference(
        "hours that two zones share",
        {("06:00:00", "22:00:00")},
        {
            (it["start_pickup_drop_off_window"], it["end_pickup_drop_off_window"])
            for it in times
            if it["trip_id"] == "trip-1-2"
        },
    )
    yield difference("the closed day", {"20261225"}, {it["date"] for it in closed})
    yield difference(
        "the zone with a hole", [2], [len(it) for it in zones[0]["geometry"]["coordinates"]]
    )
    yield difference("points on the wrong side", [0, 0], list(wrong_points(zones)))
    before = Path(f"{folder}/feed.zip").read_bytes()
    ran(folder, *URL, "--output", "feed.zip", "--until", "16:30")
    with open(f"{folder}/feed.zip", "rb") as file:
        yield difference("the same again, byte for byte", before, file.read())


def faults_of_input(folder):
    for agency, words, wanted in (
        ({**AGENCY, "routes": []}, URL, "has no routes"),
        ({**AGENCY, "telephone": ""}, URL, "has no telephone"),
        ({**AGENCY, "zone": "Nowhere"}, URL, "has no zone"),
        (AGENCY, ["--url", "town"], "is no address"),
        (AGENCY, [*URL, "--days", "0"], "--days"),
        (AGENCY, [*URL, "--until", "25:00"], "is no time"),
    ):
        status, said = ran(folder, *words, "--output", "none.zip", agency=agency)
        yield difference(
            f"{wanted}: {said}",
            (True, True, False),
            (
                status == 2,
                wanted in said and "Traceback" not in said,
                os.path.exists(f"{folder}/none.zip"),
            ),
        )
    status, said = ran(folder, *URL, "--output", "no/folder.zip")
    yield difference(f"no folder: {said}", (1, True), (status, "No such file or directory" in said))
    status, said = ran(folder, *URL, "--output", "other.zip", middle={"latitude": "x"})
    yield difference(
        f"a plane that is none: {said}", (2, False), (status, os.path.exists(f"{folder}/other.zip"))
    )
    status, said = ran(folder, *URL, "--output", "other.zip", middle=None)
    yield difference(f"no plane: {said}", (2, True), (status, "has no plane.json" in said))


def main():
    with tempfile.TemporaryDirectory(prefix="desk-flex-") as folder:
        return tally("tests/flex_feed", [*faults_of_feed(folder), *faults_of_input(folder)])


if __name__ == "__main__":
    sys.exit(main())
