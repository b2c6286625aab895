#!/usr/bin/env python3
"""Looks through a roster, the agency's own list of its riders, as docs/SITE-FILES.md defines it.

  bin/roster check FILE              says what is wrong, by row
  bin/roster drivers FILE            makes the smaller file for drivers: rider, name, note

The exit status is 0 where all was right, 1 where something was wrong, and 2 for wrong words.
"""

from __future__ import annotations

import argparse
import sys

from desk_tools import ending
from desk_tools.arguments import usage_of
from desk_tools.counting import counted
from desk_tools.setup import agency_file, roster_file, whole_file
from desk_tools.setup.limits import Wrong


def check(words: argparse.Namespace) -> bool:
    """Says what is wrong with a roster."""
    places = None
    if words.agency:
        places = {it["id"] for it in agency_file.read(words.agency).agency.get("places", [])}
    roster = roster_file.read(words.file, places)
    for fault in roster.faults:
        print(f"{words.file}, {fault}")
    print(f"{counted(len(roster.riders), 'rider')}, {counted(len(roster.faults), 'fault')}")
    return bool(roster.faults)


def drivers(words: argparse.Namespace) -> bool:
    """Makes the smaller file, of the riders whose rows are right."""
    roster = roster_file.read(words.file)
    for fault in roster.faults:
        print(f"bin/roster: {words.file}, {fault}", file=sys.stderr)
    text = roster_file.text_of(roster.riders, roster_file.DRIVERS_COLUMNS)
    if not words.output:
        sys.stdout.buffer.write(text.encode())
        return bool(roster.faults)
    try:
        whole_file.written(words.output, text)
    except OSError as error:
        raise Wrong(f"{words.output}: {error.strerror}") from None
    print(f"{words.output} has {counted(len(roster.riders), 'rider')}")
    return bool(roster.faults)


def words_of(arguments: list[str]) -> argparse.Namespace:
    parser = usage_of("bin/roster", __doc__)
    parsers = parser.add_subparsers(required=True, metavar="COMMAND")
    one = parsers.add_parser("check", help="says what is wrong, by row")
    one.set_defaults(do=check)
    one.takes("file FILE")
    one.takes("--agency AGENCY.json", "homes and usual places have to be places of this file")
    one = parsers.add_parser(
        "drivers", help="makes the smaller file for drivers: rider, name, note"
    )
    one.set_defaults(do=drivers)
    one.takes("file FILE")
    one.takes("--output CSV", "the file that is written, in place of standard output")
    return parser.parse_args(arguments)


def main(arguments: list[str]) -> int:
    words = words_of(arguments)
    try:
        return int(words.do(words))
    except Wrong as wrong:
        print(f"bin/roster: {wrong}", file=sys.stderr)
        return 1


if __name__ == "__main__":
    ending.run("bin/roster", main)
