#!/usr/bin/env python3
"""Moves an agency in: its fixed routes, places, driving times, vehicles, callers and riders.

  bin/move-in routes FEED.zip        the fixed routes of a GTFS feed
  bin/move-in places CSV             places: number, name, note, latitude and longitude or x and y in feet, core,
                                     private
  bin/move-in gather CSV             groups the addresses of a town into the places that the desk takes
  bin/move-in times                  writes the driving times between the places, for `desk travel`
  bin/move-in vehicles CSV           vehicles: number, name, from_day, days, depot, capacity, opens, closes,
                                     duration, chairs
  bin/move-in callers CSV            callers, each with a key of its own: number, name, role, subject
  bin/move-in people CSV             cuts one table of riders into riders, roster and addresses of homes
  bin/move-in riders CSV             riders: number, kind, attendant, wheelchair, until, conditions, home
  bin/move-in write PATH JSON        one write of your own
  bin/move-in read PATH              one read
  bin/move-in example FOLDER         writes a small agency's files, to try all this with

`bin/move-in COMMAND --help` tells more. A command says what it would do and, with --plan, does no more; with --url it
then does it over the API. It may be run again at any time: what the desk has taken is not sent again. The folder
(--folder, else the one you are in) gets plane.json, agency.json, moved.jsonl, the folder keys, and refused-COMMAND.csv
where something was refused. The exit status is 0 where all was done, 1 where something was refused, 2 for wrong words
or input, and 3 where the desk did not answer: then run the same again.
"""

from __future__ import annotations

import argparse
import contextlib
import os
import sys
from collections.abc import Callable
from typing import Any

from desk_tools import ending
from desk_tools.arguments import Usage, day_of, usage_of
from desk_tools.setup import commands, example, gathering, riders, times, whole_file
from desk_tools.setup.limits import (
    GREATEST_WIDTH,
    LEAST_WIDTH,
    MOST_PLACES,
    MOST_ROUTES,
    NOT_ANSWERED,
    NotAnswered,
    WRONG,
    Wrong,
)


def number(low: int, high: int, kind: Callable[..., Any] = int) -> Callable[..., Any]:
    def read(text: str) -> float:
        try:
            found: float | None = kind(text)
        except ValueError:
            found = None
        if found is None or not low <= found <= high:
            raise argparse.ArgumentTypeError(f"{text!r} is no number from {low:,} to {high:,}")
        return found

    return read


def add_command(
    parsers: Any,
    name: str,
    do: Callable[..., Any],
    about: str,
    roles: tuple[Any, ...] | list[str] = (),
    has_plan: bool = True,
    plan: str = "says what it would do, and does nothing",
) -> Usage:
    """The parser of a command that goes to the desk with keys of these roles."""
    parser: Usage = parsers.add_parser(name, help=about, description=about)
    parser.set_defaults(do=do, plan=False)
    parser.takes("--folder", "where plane.json, agency.json and the other files are", default=".")
    if has_plan:
        parser.flag("--plan", plan)
    if roles:
        parser.takes("--url", "the desk's address, such as http://127.0.0.1:8437")
        parser.takes("--certificate FILE", "of an https address, where you made it yourself")
        parser.takes(
            "--patience SECONDS",
            "how long an answer is waited for (600)",
            type=number(0, 86_400),
            default=600,
        )
    for role in roles:
        parser.takes(f"--{role} FILE", f"the file with the {role}'s key")
    return parser


def add_routes(parsers: Any) -> None:
    parser = add_command(
        parsers, "routes", commands.routes, "Puts the fixed routes of a GTFS feed.", ["admin"]
    )
    parser.takes("feed FEED.zip")
    parser.takes("--from DAY", "the first day that counts (today)", dest="start", type=day_of)
    parser.takes("--days", "how many days from then count (28)", type=number(1, 366), default=28)
    parser.takes(
        "--width FEET",
        f"to each side of a line ({LEAST_WIDTH})",
        type=number(LEAST_WIDTH, GREATEST_WIDTH),
        default=LEAST_WIDTH,
    )
    parser.takes(
        "--tolerance FEET",
        "lines of a route that lie so near each other become one, and it becomes wider; where the "
        "feed would be too many, corridors reach so much farther at most (500)",
        type=number(0, GREATEST_WIDTH - LEAST_WIDTH),
        default=500,
    )
    parser.takes(
        "--pause MINUTES",
        "a longer pause between two trips parts the hours of a route (120)",
        type=number(0, 1440),
        default=120,
    )
    parser.takes(
        "--rounding MINUTES",
        "weekdays whose hours differ by so much at most become one, with the longer hours (0)",
        type=number(0, 1440),
        default=0,
    )
    parser.takes(
        "--most COUNT",
        f"where the feed would be more fixed routes, some become one ({MOST_ROUTES})",
        type=number(1, MOST_ROUTES),
        default=MOST_ROUTES,
    )
    parser.flag("--all-accessible", "each bus takes a wheelchair")
    parser.takes("--leave-out ROUTE", "route_ids that are left out", nargs="+", default=[])


def add_times(parsers: Any) -> None:
    about = "Writes the driving times between the places of agency.json, for `desk travel`."
    parser = add_command(parsers, "times", times.times, about)
    parser.takes("--output CSV", "the file that is written (times.csv in the folder)")
    parser.takes(
        "--speed MPH", "by straight lines: how fast (25)", type=number(1, 70, float), default=25.0
    )
    parser.takes(
        "--detour FACTOR",
        "by straight lines: how much longer the way is (1.4)",
        type=number(1, 10, float),
        default=1.4,
    )
    parser.takes("--osrm URL", "asks the table service of an OSRM server")
    parser.takes("--valhalla URL", "asks the table service of a Valhalla server")
    parser.takes("--osm FILE.osm.pbf", "goes along the streets of an extract of OpenStreetMap")
    parser.flag("--symmetric", "takes the longer time of the two ways for both")
    parser.takes(
        "--check CSV",
        "lists the rows of a table that nobody can drive, and those that `desk travel` refuses",
    )


def add_gather(parsers: Any) -> None:
    about = "Groups addresses into places, each served by at least the lines of its addresses. It sends nothing."
    parser = add_command(
        parsers,
        "gather",
        gathering.gather,
        about,
        plan="says what it would do, writes the map gathered.svg, and does no more",
    )
    parser.takes(
        "csv CSV", "id, street, latitude and longitude or x and y; place, note, rider, core"
    )
    parser.takes(
        "--most COUNT",
        f"how many places there may be, with those that stand ({MOST_PLACES})",
        type=number(1, MOST_PLACES),
        default=MOST_PLACES,
    )
    parser.takes("--speed MPH", "how fast (25)", type=number(1, 70, float), default=25.0)
    parser.takes(
        "--detour FACTOR",
        "how much longer the way is than the straight line (1.4)",
        type=number(1, 10, float),
        default=1.4,
    )
    parser.takes(
        "--riders CSV",
        "number and conditions of riders: no home with nolift or farther is put where the grant holds less",
    )
    parser.flag(
        "--serve-outside", "also takes addresses outside every corridor, which the desk then serves"
    )


def add_people(parsers: Any) -> None:
    about = "Cuts one table of riders into cut-riders.csv, cut-roster.csv and cut-addresses.csv. It sends nothing."
    parser = add_command(parsers, "people", gathering.people, about)
    parser.takes("csv CSV", "number, name, telephone, home_address, and what the desk needs")
    parser.takes(
        "--addresses CSV",
        "the addresses that are known (gathered-addresses.csv in the folder, if it is there)",
    )


def add_riders(parsers: Any) -> None:
    about = "Puts riders and grants what they are certified for."
    parser = add_command(parsers, "riders", riders.riders, about, ["clerk", "examiner"])
    parser.takes("csv CSV")
    parser.takes(
        "--as-of DAY",
        "puts nobody, and lists the riders whose certification ends soon after that day",
        type=day_of,
    )
    parser.takes("--within DAYS", "how soon (60)", type=number(0, 3660), default=60)


def add_own(parsers: Any) -> None:
    """The commands of one write and of one read, and the example."""
    parser = add_command(
        parsers,
        "write",
        riders.write,
        "Sends one write, whose fields a file holds.",
        commands.ROLES,
    )
    parser.takes("path PATH", "such as /policy")
    parser.takes("json JSON", "a file with one JSON object")
    parser = add_command(
        parsers, "read", riders.read, "Reads what a path tells.", commands.ROLES, has_plan=False
    )
    parser.takes("path PATH")
    about = "Writes a small agency's files into a folder."
    add_command(parsers, "example", example.example, about, has_plan=False).takes("into FOLDER")


def parser_of_all() -> Usage:
    parser = usage_of("bin/move-in", __doc__)
    parsers = parser.add_subparsers(required=True, metavar="COMMAND")
    add_routes(parsers)
    add_gather(parsers)
    add_times(parsers)
    add_people(parsers)
    add_riders(parsers)
    for name, do, about, role in [
        ("places", commands.places, "Puts the places of a table.", "admin"),
        ("vehicles", commands.vehicles, "Puts the vehicles of a table.", "dispatcher"),
        ("callers", commands.callers, "Makes keys and puts callers.", "admin"),
    ]:
        add_command(parsers, name, do, about, [role]).takes("csv CSV")
    add_own(parsers)
    return parser


def needs_address(words: argparse.Namespace) -> bool:
    """Whether the command goes to a desk, and was told none."""
    goes = hasattr(words, "url") and not getattr(words, "as_of", None)
    return goes and not words.plan and not words.url


def kept_alone(words: argparse.Namespace) -> contextlib.AbstractContextManager[Any]:
    """One run at a time writes the folder's agency.json; a plan and a list need not be alone."""
    is_writing = words.do in (commands.routes, commands.places, commands.vehicles, riders.riders)
    if is_writing and not words.plan and not getattr(words, "as_of", None):
        return whole_file.alone_in(words.folder)
    return contextlib.nullcontext()


def main(arguments: list[str]) -> int:
    words = parser_of_all().parse_args(arguments)
    try:
        if needs_address(words):
            raise Wrong("this takes either --plan or --url, the address of the desk")
        if not os.path.isdir(words.folder):
            raise Wrong(f"there is no folder {words.folder}")
        with kept_alone(words):
            return int(words.do(words) or 0)
    except (Wrong, NotAnswered, OSError) as error:
        status = NOT_ANSWERED if isinstance(error, NotAnswered) else WRONG
        return ending.told("bin/move-in", error, status, words.folder)
    except KeyboardInterrupt:
        print("\nbin/move-in: stopped; the same command goes on from here", file=sys.stderr)
        return NOT_ANSWERED


if __name__ == "__main__":
    ending.run("bin/move-in", main)
