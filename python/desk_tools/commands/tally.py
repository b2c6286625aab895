#!/usr/bin/env python3
"""Counts what people and programs told the site, from the site's log.

  bin/tally denials LOG..            denied trips by month, channel and rule, as CSV
  bin/tally bookings LOG..           what riders asked for, and what was promised, as CSV
  bin/tally cancellations LOG..      when trips were cancelled
  bin/tally stops LOG..              when drivers tapped at which stop
  bin/tally no-shows LOG..           no-shows, each with window, arrival and wait
  bin/tally notes LOG..              notes of the day
  bin/tally disagreements LOG..      outcomes told that differ from those on record
  bin/tally reviews LOG..            no-shows and disagreements that dispatch has settled
  bin/tally calls LOG..              whom dispatch called

Logs may be given in any order and packed by gzip. A line that can't be read is named and passed over; one that came
twice counts once. The exit status is 0 where the logs could be read, 1 where one could not, and 2 for wrong words.
"""

from __future__ import annotations

import argparse
import sys

from desk_tools import ending
from desk_tools.arguments import usage_of
from desk_tools.counting import counted
from desk_tools.setup import agency_file, tally_log, tally_tables, whole_file
from desk_tools.setup.limits import Wrong

MOST_NAMED = 10
LISTS = {
    "bookings": "what riders asked for, and what was promised",
    "cancellations": "when trips were cancelled",
    "stops": "when drivers tapped at which stop",
    "no-shows": "no-shows, each with window, arrival and wait",
    "notes": "notes of the day",
    "disagreements": "outcomes told that differ from those on record",
    "calls": "whom dispatch called",
    "reviews": "no-shows and disagreements that dispatch has settled",
}


def told_broken(log: tally_log.Log) -> None:
    """Names the first lines that could not be read, and says how many there are."""
    for said in log.broken[:MOST_NAMED]:
        print(f"bin/tally: {said}", file=sys.stderr)
    if log.broken:
        print(
            f"bin/tally: {counted(len(log.broken), 'line')} could not be read, and not counted",
            file=sys.stderr,
        )


def denials(words: argparse.Namespace) -> None:
    log = tally_log.read(words.logs)
    told_broken(log)
    print(tally_tables.denials_csv(log.denials), end="")
    if words.html:
        name = agency_file.read(words.agency).agency.get("name", "") if words.agency else ""
        whole_file.written(
            words.html, tally_tables.denials_page(log.denials, name, len(log.broken))
        )


def events(words: argparse.Namespace) -> None:
    log = tally_log.read(words.logs)
    told_broken(log)
    print(tally_tables.events_csv(words.kind, log.of[words.kind]), end="")


def words_of(arguments: list[str]) -> argparse.Namespace:
    parser = usage_of("bin/tally", __doc__)
    parsers = parser.add_subparsers(required=True, metavar="COMMAND")
    one = parsers.add_parser("denials", help="denied trips by month, channel and rule")
    one.set_defaults(do=denials)
    one.takes("logs LOG", nargs="+")
    one.takes("--html FILE", "writes the same as a page, to look at or to print")
    one.takes("--agency AGENCY.json", "whose name stands on the page")
    for kind, said in LISTS.items():
        one = parsers.add_parser(kind, help=said)
        one.set_defaults(do=events, kind=kind)
        one.takes("logs LOG", nargs="+")
    return parser.parse_args(arguments)


def main(arguments: list[str]) -> int:
    words = words_of(arguments)
    try:
        words.do(words)
        return 0
    except (Wrong, OSError) as error:
        return ending.told("bin/tally", error, 1)


if __name__ == "__main__":
    ending.run("bin/tally", main)
