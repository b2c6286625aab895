#!/usr/bin/env python3
"""Writes the service as a GTFS-Flex feed, from agency.json and the plane.json that move-in made beside it.

  bin/flex-feed AGENCY.json --url https://town.example/paratransit --output paratransit.zip
  bin/flex-feed AGENCY.json --url https://town.example/paratransit --plan

The feed has the corridors as zones, the hours of the fixed routes, the closed days, and how a trip is booked: 1 to 14 days
ahead, by telephone or at the address. docs/GUIDE.md, "What trip planners read", says what it leaves out. The exit status is
0 where the feed was written, 1 where it was not, and 2 for wrong words or input.
"""

from __future__ import annotations

import argparse
import datetime
import json
import os
import re
import sys
import zipfile
import zoneinfo
from collections.abc import Iterator
from typing import Any

from desk_tools import ending
from desk_tools.arguments import day_of, usage_of
from desk_tools.flex import checking, feed
from desk_tools.flex.outline import Line
from desk_tools.setup import agency_file, carry, plane, whole_file
from desk_tools.setup.limits import WRONG, Wrong

EACH_DAY, LAST_MINUTE, DAYS, MOST_DAYS = (1, 2, 3, 4, 5, 6, 7), 1_439, 365, 730
URL = re.compile(r"https?://[^\s/]+\S*")


def a_minute(text: str) -> int:
    found = re.fullmatch(r"([01]?[0-9]|2[0-3]):([0-5][0-9])", text, re.ASCII)
    if not found:
        raise argparse.ArgumentTypeError(f"{text!r} is no time such as 17:00")
    return 60 * int(found[1]) + int(found[2])


def words_of(arguments: list[str]) -> argparse.Namespace:
    parser = usage_of("bin/flex-feed", __doc__)
    parser.takes(
        "agency AGENCY.json",
        "the agency's file: its fixed routes, name, telephone, zone and closed days",
    )
    parser.takes("--url", "where riders read about the service, and book", required=True)
    parser.takes(
        "--until TIME",
        "until when tomorrow's trips are booked; 17:00 where it is not given",
        type=a_minute,
        default=a_minute("17:00"),
    )
    parser.takes(
        "--from DAY",
        "the first day of the feed; today where it is not given",
        dest="first",
        type=day_of,
    )
    parser.takes(
        "--days",
        f"how many days the feed holds, 1 to {MOST_DAYS}; {DAYS} where it is not given",
        type=int,
        default=DAYS,
    )
    parser.takes(
        "--plane FOLDER", "where plane.json is; the folder of AGENCY.json where it is not given"
    )
    parser.takes("--output FEED.zip", "the feed")
    parser.flag("--plan", "says what the feed would have, and writes nothing")
    words = parser.parse_args(arguments)
    if not words.output and not words.plan:
        parser.error("this takes --output FEED.zip, or --plan")
    if not 1 <= words.days <= MOST_DAYS:
        parser.error(f"--days is none of 1 to {MOST_DAYS}")
    if not URL.fullmatch(words.url):
        parser.error(f"--url {words.url!r} is no address such as https://town.example")
    return words


def agency_of(path: str) -> Any:
    """The agency's file, which has to have what a feed needs. What is wrong in it is named."""
    agency, faults = agency_file.read(path)
    for said in faults:
        print(f"bin/flex-feed: {path}: {said}", file=sys.stderr)
    missing = [it for it in ("name", "telephone", "zone", "routes") if not agency.get(it)]
    if missing:
        raise Wrong(f"{path} has no {missing[0]}, and a feed needs it")
    return agency


def service_of(words: argparse.Namespace, agency: Any) -> feed.Service:
    first = words.first or datetime.datetime.now(zoneinfo.ZoneInfo(agency["zone"])).date()
    closed = tuple(datetime.date.fromisoformat(it["day"]) for it in agency.get("closed", []))
    return feed.Service(
        " ".join(agency["name"].split()),
        agency["telephone"],
        words.url,
        agency["zone"],
        first,
        first + datetime.timedelta(days=words.days - 1),
        words.until,
        closed,
    )


def corridors_of(agency: Any) -> Iterator[feed.Corridor]:
    for it in agency["routes"]:
        hours = feed.Hours(
            tuple(sorted(set(it.get("days", EACH_DAY)))),
            it.get("first", 0),
            it.get("last", LAST_MINUTE),
        )
        yield feed.Corridor(
            Line(tuple((float(x), float(y)) for x, y in it["points"]), it["width"]), hours
        )


def position_of(words: argparse.Namespace) -> Any:
    folder = words.plane or os.path.dirname(os.path.abspath(words.agency))
    found = plane.kept_plane(folder)
    if not found:
        raise Wrong(
            f"{folder} has no plane.json, by which points become positions: move-in routes makes it. Name its folder by --plane"
        )
    return found.position


def write(path: str, files: dict[str, str]) -> None:
    """Writes the feed whole."""
    new = f"{path}.new"
    try:
        with zipfile.ZipFile(new, "w", zipfile.ZIP_DEFLATED) as archive:
            for name, text in files.items():
                archive.writestr(
                    zipfile.ZipInfo(name, (1980, 1, 1, 0, 0, 0)), text, zipfile.ZIP_DEFLATED
                )
        os.replace(new, path)
    except OSError:
        if os.path.exists(new):
            os.remove(new)
        raise
    whole_file.folder_synced(os.path.dirname(os.path.abspath(path)))


def main(arguments: list[str]) -> int | None:
    words = words_of(arguments)
    try:
        agency, position = agency_of(words.agency), position_of(words)
        zones, service = feed.zones_of(corridors_of(agency)), service_of(words, agency)
        print(
            f"{len(agency['routes'])} corridors, {len(zones)} zones by days and hours", flush=True
        )
        progress = carry.Progress("zones drawn", len(zones), after=2)
        drawn = feed.geojson_of(zones, position, progress.show)
        progress.end()
        files = feed.files_of(feed.tables_of(zones, service), drawn)
        faults = checking.faults_of(files)
        for said in faults[:10]:
            print(f"bin/flex-feed: {said}", file=sys.stderr)
        if faults:
            print(
                f"bin/flex-feed: the feed has {len(faults)} faults, and is not written",
                file=sys.stderr,
            )
            return 1
        core = sum(bool(it.get("core")) for it in agency.get("places", []))
        print(
            f"{service.first} to {service.last}: {len(json.loads(files['locations.geojson'])['features'])} zones, {files['trips.txt'].count(chr(10)) - 1} trips between zones. "
            f"{core} places of the core area are in the feed only where they lie in a corridor."
        )
        if words.plan:
            print("Nothing was written.")
        else:
            write(words.output, files)
            print(f"{words.output} is written")
        return 0
    except (Wrong, OSError) as error:
        return ending.told(
            "bin/flex-feed", error, WRONG if isinstance(error, Wrong) else 1, words.output
        )


if __name__ == "__main__":
    ending.run("bin/flex-feed", main)
