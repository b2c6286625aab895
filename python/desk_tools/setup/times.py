"""Driving times between the places of an agency: the table that `desk travel` takes, and what is wrong with one."""

from __future__ import annotations

import argparse
import csv
import json
import math
import pathlib
import re
import urllib.request
from typing import Any

from desk_tools.setup import carry, gathering, plane as geometry
from desk_tools.setup.limits import DONE, LAST_MINUTE, SOME_REFUSED, Wrong

FEET_A_MINUTE = 88  # at one mile an hour
FASTEST = 70
HEADER = ["from", "to", "minutes"]
# So many places at most are named in one question to a server: Valhalla takes 50 in all.
BLOCK, SECONDS = 25, 60


def times(words: argparse.Namespace) -> int | None:
    """Writes a table, or looks through one."""
    agency = carry.kept_agency(words.folder)
    places = {
        int(number): (it["x"], it["y"]) for number, it in agency["places"].items() if "x" in it
    }
    if not places:
        raise Wrong(f"{words.folder}/agency.json has no places: run the command places first")
    if words.check:
        return checked(words.check, places)
    if sum(map(bool, (words.osrm, words.valhalla, words.osm))) > 1:
        raise Wrong("this takes one of --osrm, --valhalla and --osm")
    by = by_map if words.osm else by_server if words.osrm or words.valhalla else by_straight_lines
    minutes, told = by(words, places)
    if words.symmetric:
        minutes = {(a, b): max(it, minutes.get((b, a), it)) for (a, b), it in minutes.items()}
    missing = [(a, b) for a in places for b in places if a != b and (a, b) not in minutes]
    print(f"{len(minutes)} driving times between {len(places)} places, {told}")
    if missing:
        print(f"  {len(missing)} pairs have no way, such as {missing[0][0]} to {missing[0][1]}")
    if words.plan:
        print("Nothing was written.")
        return DONE
    path, rows = words.output or f"{words.folder}/times.csv", [
        (*pair, it) for pair, it in sorted(minutes.items())
    ]
    with open(path, "w", encoding="utf-8", newline="") as file:
        csv.writer(file, lineterminator="\n").writerows([HEADER, *rows])
    print(f"{path} is written")
    return DONE


def by_straight_lines(
    words: argparse.Namespace, places: dict[int, tuple[int, int]]
) -> tuple[dict[tuple[int, int], int], str]:
    """The times by straight lines: for a first day."""
    feet_a_minute = words.speed * FEET_A_MINUTE
    minutes = {
        (a, b): minutes_of(60 * words.detour * math.dist(places[a], places[b]) / feet_a_minute)
        for a in places
        for b in places
        if a != b
    }
    return minutes, (
        f"by straight lines at {words.speed:g} miles an hour and ways {words.detour:g} times as long. "
        "They are for a first day: put measured ones in their place"
    )


def minutes_of(seconds: float) -> int:
    """Whole minutes that are enough, one at least."""
    found = max(1, math.ceil(seconds / 60))
    if found > LAST_MINUTE:
        raise Wrong(f"a drive would take {found:,} minutes, and {LAST_MINUTE:,} are the most")
    return found


def by_map(words: Any, places: Any) -> Any:
    """The times along the streets of a map."""
    for name in ("osmium", "scipy"):
        gathering.needs(name)
    from desk_tools.town import streets

    numbers, positions = sorted(places), positions_of(words, places)
    progress = carry.Progress("steps", 3, after=2)
    try:
        progress.show(0, ": the map is read")
        found = streets.read(pathlib.Path(words.osm))
        progress.show(1, f": ways between {len(places)} places")
        times_found = streets.times(found, [positions[it] for it in numbers])
    except streets.NoMap as error:
        raise Wrong(str(error)) from None
    progress.end()
    for line in streets.told(numbers, times_found):
        print(f"  note: {line}")
    minutes = {
        (a, b): minutes_of(60 * float(it))
        for a, row in zip(numbers, times_found.minutes)
        for b, it in zip(numbers, row)
        if a != b and math.isfinite(it)
    }
    return minutes, f"along the streets of {words.osm}, without traffic"


def positions_of(
    words: argparse.Namespace, places: dict[int, tuple[int, int]]
) -> dict[int, tuple[float, float]]:
    """The latitudes and longitudes of places."""
    plane = geometry.kept_plane(words.folder)
    if plane is None:
        raise Wrong(
            f"{words.folder} has no plane.json, so the places have no latitudes and longitudes"
        )
    return {number: plane.position(*point) for number, point in places.items()}


# Servers.


def by_server(
    words: argparse.Namespace, places: dict[int, tuple[int, int]]
) -> tuple[dict[tuple[int, int], int], str]:
    """The times that a server of the agency's own tells."""
    positions = positions_of(words, places)
    numbers, minutes = sorted(places), {}
    url, asked = (words.osrm, osrm) if words.osrm else (words.valhalla, valhalla)
    blocks = [numbers[at : at + BLOCK] for at in range(0, len(numbers), BLOCK)]
    for sources in blocks:
        for goals in blocks:
            seconds = asked(url, [positions[it] for it in sources], [positions[it] for it in goals])
            for a, row in zip(sources, seconds):
                minutes.update(
                    {
                        (a, b): minutes_of(it)
                        for b, it in zip(goals, row)
                        if a != b and it is not None
                    }
                )
    return minutes, f"by the server at {url}"


def osrm(
    url: str, sources: list[tuple[float, float]], goals: list[tuple[float, float]]
) -> list[list[int | None]]:
    """Seconds from each source to each goal, by OSRM's table service."""
    points = ";".join(f"{longitude:.6f},{latitude:.6f}" for latitude, longitude in sources + goals)
    numbers = [str(it) for it in range(len(sources) + len(goals))]
    wanted = f"sources={';'.join(numbers[: len(sources)])}&destinations={';'.join(numbers[len(sources) :])}"
    told = fetched(f"{url.rstrip('/')}/table/v1/driving/{points}?annotations=duration&{wanted}")
    return table_in(
        url, told.get("durations") if told.get("code") == "Ok" else None, len(sources), len(goals)
    )


def valhalla(
    url: str, sources: list[tuple[float, float]], goals: list[tuple[float, float]]
) -> list[list[int | None]]:
    """Seconds from each source to each goal, by Valhalla's matrix service."""
    ends = {
        name: [
            {"lat": round(latitude, 6), "lon": round(longitude, 6)} for latitude, longitude in those
        ]
        for name, those in (("sources", sources), ("targets", goals))
    }
    rows: Any = fetched(f"{url.rstrip('/')}/sources_to_targets", {**ends, "costing": "auto"}).get(
        "sources_to_targets"
    )
    try:
        seconds = [[it["time"] for it in row] for row in rows]
    except (TypeError, KeyError):
        seconds = None
    return table_in(url, seconds, len(sources), len(goals))


def table_in(
    url: str, seconds: list[list[int | None]] | None, height: int, width: int
) -> list[list[int | None]]:
    """The table, once it is one of numbers and of the right size."""
    if (
        isinstance(seconds, list)
        and len(seconds) == height
        and all(isinstance(row, list) and len(row) == width for row in seconds)
        and all(
            it is None or isinstance(it, (int, float)) and it >= 0 for row in seconds for it in row
        )
    ):
        return seconds
    raise Wrong(f"{url} did not answer with a table of {height} times {width} durations")


def fetched(address: str, body: dict[str, Any] | None = None) -> dict[str, Any]:
    """The JSON that an address answers."""
    content = None if body is None else json.dumps(body).encode()
    request = urllib.request.Request(address, content, {"Content-Type": "application/json"})
    try:
        with urllib.request.build_opener(urllib.request.ProxyHandler({})).open(
            request, timeout=SECONDS
        ) as answer:
            told = json.load(answer)
    except (OSError, ValueError) as error:
        raise Wrong(f"{address.split('?')[0][:80]} gave no table: {error}") from None
    if not isinstance(told, dict):
        raise Wrong(f"{address.split('?')[0][:80]} gave no table")
    return told


# Looking through a table.


def checked(path: str, places: dict[int, tuple[int, int]]) -> int:
    """Lists what is wrong with a table: rows that are none, and rows that nobody can drive."""
    faults: list[str] = []
    minutes: dict[tuple[int, int], int] = {}
    for row, fields in enumerate(rows_of(path), 1):
        fault = fault_of_row(row, fields, places, minutes)
        if fault:
            faults.append(f"row {row}: {fault}")
    alone = [
        number
        for number in sorted(places)
        if len(places) > 1 and not any(number == a != b for a, b in minutes)
    ]
    for number in alone:
        faults.append(f"place {number} has no row from it to another place")
    for fault in faults:
        print(f"{path}, {fault}")
    print(
        f"{len(minutes)} rows, {len(faults)} faults, by straight lines at {FASTEST} miles an hour"
    )
    return SOME_REFUSED if faults else DONE


def rows_of(path: str) -> list[list[str]]:
    try:
        with open(path, encoding="utf-8-sig", newline="") as file:
            return [it for it in csv.reader(file) if it]
    except (OSError, UnicodeDecodeError, csv.Error) as error:
        raise Wrong(f"{path} can't be read: {error}") from None


def fault_of_row(
    row: int,
    fields: list[str],
    places: dict[int, tuple[int, int]],
    minutes: dict[tuple[int, int], int],
) -> str | None:
    """What is wrong with a row, or None; the minutes of a sound one are noted."""
    if row == 1:
        return None if fields == HEADER else f"it has to be {','.join(HEADER)}"
    if len(fields) != 3 or not all(re.fullmatch(r"[0-9]{1,10}", it) for it in fields):
        return "it has not three whole numbers"
    a, b, took = map(int, fields)
    lost = next((it for it in (a, b) if it not in places), None)
    if lost is not None or took > LAST_MINUTE:
        return (
            f"there is no place {lost}"
            if lost is not None
            else f"{took} minutes are more than {LAST_MINUTE}"
        )
    if minutes.setdefault((a, b), took) != took:
        return f"{a} to {b} stands above with {minutes[a, b]} minutes"
    least = math.dist(places[a], places[b]) / (FASTEST * FEET_A_MINUTE)
    if took < least:
        return f"from {a} to {b} in {took} minutes nobody can drive: the straight line takes {least:.1f}"
    return None
