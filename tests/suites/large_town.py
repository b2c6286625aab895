"""Groups many addresses, and takes driving times from the map of a metropolis: `large_town [ADDRESSES SIDE]`.

So many addresses of 40 lines, with the homes of one rider in twenty, go into a hundred places by `bin/move-in gather`: each is at a place that lies
in the corridors of at least its lines, and no home where its rider's grant holds less. Then `bin/move-in times --osm` reads a map of SIDE by SIDE
crossings, made here, and its table for a hundred places is held against a search of its own, and against stand-ins of OSRM and Valhalla that tell
what that search found. By hand: `large_town 100000 256`. The time by the clock, that of the processor and the memory of each command are printed. The
last line is 'N passed, M failed', and the exit status 1 where something failed.
"""
import csv
import os
import random
import resource
import subprocess
import sys
import tempfile
import time

import street_map

from desk_tools.tree import TOP
import town_parts as parts
from desk_tools.setup import carry, plane as geometry
from desk_tools.town import conditional, corridor
from moving_stands import Stand
from serving import TODAY, difference, tally

ADDRESSES, SIDE, LINES, PLACES, LOOKED, SEED, SECONDS = 6_000, 48, 40, 100, 1_000, 20261130, 1_800
PYTHON = "/usr/bin/python3"
# What a hundred places of a metropolis may take, by the processor's clock; what addresses may take, and a start.
MOST_OF_MAP, MOST_OF_ADDRESS, MOST_OF_START = 60, 0.003, 20


def timed(folder, *words):
    """How bin/move-in ends, and the seconds by the clock and of the processor; they are printed."""
    before, began = resource.getrusage(resource.RUSAGE_CHILDREN), time.monotonic()
    run = subprocess.run(
        [f"{TOP}/bin/move-in", *map(str, words)],
        cwd=folder,
        capture_output=True,
        text=True,
        timeout=SECONDS,
        check=False,
    )
    took, after = time.monotonic() - began, resource.getrusage(resource.RUSAGE_CHILDREN)
    spent = after.ru_utime + after.ru_stime - before.ru_utime - before.ru_stime
    print(
        f"{took:7.1f} s by the clock, {spent:7.1f} s of the processor, at most {after.ru_maxrss // 1024} MB: {' '.join(map(str, words))}",
        flush=True,
    )
    return run, spent


def table(path):
    with open(path, encoding="utf-8", newline="") as file:
        return list(csv.DictReader(file))


# Addresses.


def faults_of_addresses(folder, count):
    """A plan and a run over many addresses; each place is right for its addresses."""
    parts.write_forms(folder, TODAY, LINES, count, count // 20, 40)
    plane, routes = parts.fixed_routes_of(f"{folder}/feed.zip", TODAY)
    geometry.keep_plane(folder, plane, 0.0)
    carry.keep_agency(
        folder, {"routes": routes, "places": own_places(folder, plane), "vehicles": {}}
    )
    given = ["gather", "addresses.csv", "--riders", "people.csv"]
    plan, _ = timed(folder, *given, "--plan")
    is_told = "the 20 addresses farthest from their places:" in plan.stdout and os.path.exists(
        f"{folder}/gathered.svg"
    )
    yield None if plan.returncode == 1 and is_told else f"plan: {plan}"
    run, spent = timed(folder, *given)
    yield None if run.returncode == 1 and run.stdout.replace(
        ", gathered-places.csv, gathered-addresses.csv are", " is"
    ).startswith(plan.stdout.rpartition(chr(10) + "gathered")[0]) else f"gather: {run}"
    yield None if spent < MOST_OF_START + count * MOST_OF_ADDRESS else f"{count} addresses take {spent:.0f} seconds of the processor"
    yield None if " of " in run.stderr or spent < 4 else f"no progress line: {run.stderr[:200]}"
    yield from faults_of_places(folder, plane, corridor.lines_of(routes), count)


def own_places(folder, plane):
    """The places of the agency's own, by their numbers."""
    points = {
        it["number"]: (it["name"], *plane.point(float(it["latitude"]), float(it["longitude"])))
        for it in table(f"{folder}/places.csv")
    }
    return {
        number: {"name": name, "x": x, "y": y, "core": False}
        for number, (name, x, y) in points.items()
    }


def faults_of_places(folder, plane, lines, count):
    """All are at a place or are refused, and of some it is looked at one by one that their place is right."""
    found, refused = table(f"{folder}/gathered-addresses.csv"), table(
        f"{folder}/refused-gather.csv"
    )
    spots = {int(number): (it["x"], it["y"]) for number, it in own_places(folder, plane).items()}
    spots |= {
        int(it["number"]): (int(it["x"]), int(it["y"]))
        for it in table(f"{folder}/gathered-places.csv")
    }
    yield difference("all rows", count, len(found) + len(refused))
    yield difference("places", True, len(spots) <= PLACES)
    grants = {
        int(it["number"]): tuple(
            part.strip().lower() for part in it["conditions"].split(";") if part.strip()
        )
        for it in riders_of(f"{folder}/people.csv")
    }
    of_grants = [
        it for it in found if it["rider"] and conditional.conditions_of([int(it["rider"])], grants)
    ]
    served = {place: corridor.lines_at(point, False, lines) for place, point in spots.items()}
    wrong, less = [], []
    for it in random.Random(SEED).sample(found, min(LOOKED, len(found))) + of_grants:
        point, place = plane.point(float(it["latitude"]), float(it["longitude"])), int(it["place"])
        mask = corridor.lines_at(point, False, lines)
        wrong += [it["id"]] * (not mask or bool(mask & ~served[place]))
        if (
            it["rider"]
            and conditional.line_that_denies(
                point, spots[place], grants.get(int(it["rider"]), ()), lines
            )
            and "always" not in grants[int(it["rider"])]
        ):
            less.append(it["id"])
    yield difference("addresses whose place lacks one of their lines", [], wrong)
    yield difference("homes where the grant holds less than at the address", [], less)
    yield None if of_grants else "no home has a grant that counts"


def riders_of(path):
    with open(path, encoding="cp1252", newline="") as file:
        return [{name.lower(): cell for name, cell in it.items()} for it in csv.DictReader(file)]


# A map.


def faults_of_map(folder, side):
    """The times along the streets of a metropolis, beside a search of its own and stand-ins of two servers."""
    made = subprocess.run(
        [PYTHON, f"{TOP}/tests/street_map.py", f"{folder}/metropolis.osm.pbf", str(side)],
        capture_output=True,
        text=True,
        timeout=SECONDS,
        check=False,
    )
    if made.returncode:
        print("python3-pyosmium is not there: the map is left out")
        return
    print(f"a map of {int(made.stdout):,} nodes")
    crossings = places_on_map(folder, side)
    run, spent = timed(folder, "times", "--osm", "metropolis.osm.pbf")
    yield None if run.returncode == 0 and f"{PLACES * (PLACES - 1)} driving times between {PLACES} places" in run.stdout else f"times --osm: {run}"
    yield None if spent < MOST_OF_MAP else f"the map takes {spent:.0f} seconds of the processor"
    edges, seconds = street_map.edges_of(side), {}
    for a, start in crossings.items():
        minutes = street_map.plain_minutes(edges, start, crossings.values())
        seconds.update({(a, b): 60 * minutes[goal] for b, goal in crossings.items() if a != b})
    by_map = minutes_in(f"{folder}/times.csv")
    # (a place is on the plane's whole foot beside its crossing, and a minute is whole)
    far = [
        (pair, it, seconds[pair] / 60)
        for pair, it in by_map.items()
        if not seconds[pair] / 60 - 0.05 <= it <= seconds[pair] / 60 + 1.05
    ]
    yield difference("minutes beside a plain search", [], far[:5])
    yield difference("pairs", len(seconds), len(by_map))
    plane = geometry.kept_plane(folder)
    positions = {
        int(number): plane.position(it["x"], it["y"])
        for number, it in carry.kept_agency(folder)["places"].items()
    }
    for kind in ("osrm", "valhalla"):
        with Stand(kind, positions, lambda a, b: seconds.get((a, b), 0)) as stand:
            asked, _ = timed(
                folder,
                "times",
                f"--{kind}",
                f"http://127.0.0.1:{stand.port}",
                "--output",
                f"{kind}.csv",
            )
        told = minutes_in(f"{folder}/{kind}.csv") if asked.returncode == 0 else {}
        yield difference(f"{kind}: pairs", by_map.keys(), told.keys())
        yield difference(
            f"{kind}: pairs that differ from the map by more than a minute",
            [],
            [it for it, took in told.items() if abs(took - by_map[it]) > 1][:5],
        )


def places_on_map(folder, side):
    """A folder with a hundred places at crossings of the map."""
    chance, spots = random.Random(SEED), []
    while len(spots) < PLACES:
        spot = chance.randrange(side), chance.randrange(side)
        spots += [spot] * (spot not in spots)
    plane = geometry.plane_round([street_map.position_of(0, 0), street_map.position_of(side, side)])
    geometry.keep_plane(folder, plane, 0.0)
    points = {str(at): plane.point(*street_map.position_of(*it)) for at, it in enumerate(spots, 1)}
    carry.keep_agency(
        folder,
        {
            "routes": {},
            "places": {
                number: {"name": "", "x": x, "y": y, "core": False}
                for number, (x, y) in points.items()
            },
            "vehicles": {},
        },
    )
    return dict(enumerate(spots, 1))


def minutes_in(path):
    return {(int(it["from"]), int(it["to"])): int(it["minutes"]) for it in table(path)}


def faults(count, side):
    with tempfile.TemporaryDirectory(prefix="desk-large-") as folder:
        for name in ("town", "map"):
            os.mkdir(f"{folder}/{name}")
        yield from faults_of_addresses(f"{folder}/town", count)
        yield from faults_of_map(f"{folder}/map", side)


if __name__ == "__main__":
    if any(not it.isdigit() for it in sys.argv[1:]) or len(sys.argv) not in (1, 3):
        sys.exit(f"tests/large_town: this takes no words, or two numbers\n{__doc__}")
    given = [int(it) for it in sys.argv[1:]] or [ADDRESSES, SIDE]
    sys.exit(tally("tests/large_town", faults(*given)))
