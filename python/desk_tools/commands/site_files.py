#!/usr/bin/env python3
"""Makes the files that the site serves from the agency's own file, as docs/SITE-FILES.md defines them.

  bin/site-files /etc/desk/main.json --roster /etc/desk/main-roster.csv /var/lib/desk-site/main
  bin/site-files /etc/desk/main.json --roster /etc/desk/main-roster.csv /var/lib/desk-site --plan

Each thing that is wrong in a file is named, a line each, and what is right is used. Where a file can't be read at all,
nothing is written. The exit status is 0 where all was right, 1 where something was wrong, and 2 for wrong words.
"""

from __future__ import annotations

import argparse
import pathlib
import sys
from typing import Any

from desk_tools import ending
from desk_tools.arguments import usage_of
from desk_tools.counting import counted
from desk_tools.setup import agency_file, carry, duty_file, roster_file, site_files
from desk_tools.setup.limits import Wrong
from desk_tools.town import addresses, sheets, site_addresses


def words_of(arguments: list[str]) -> argparse.Namespace:
    parser = usage_of("bin/site-files", __doc__)
    parser.takes("agency AGENCY.json", "the agency's own file")
    parser.takes("--roster FILE", "the roster, for staff alone")
    parser.takes("--drivers FILE", "the smaller roster, for drivers")
    parser.takes("--duty FILE", "who drives what on which day, for staff alone")
    parser.takes("--addresses FILE", "the addresses of the town, each at a place")
    parser.flag("--plan", "says what is wrong and what it would write, and writes nothing")
    parser.takes("folder FOLDER", "what the site serves; other files in it stay as they are")
    return parser.parse_args(arguments)


def addresses_of(
    path: str, agency: dict[str, list[dict[str, Any]]]
) -> tuple[dict[str, str], list[Any]]:
    """The files of the addresses, and what is wrong with rows of the table."""
    try:
        found, sheet = addresses.read(pathlib.Path(path), None)
    except sheets.Unreadable as error:
        raise Wrong(str(error)) from None
    places = {it["id"]: it.get("private", False) for it in agency.get("places", [])}
    right, faults = site_addresses.checked(found, places)
    return site_addresses.texts_of(right, places), [
        *faults,
        *addresses.listed(sheet.refused, len(sheet.refused)),
    ]


def main(arguments: list[str]) -> int:
    words = words_of(arguments)
    try:
        agency, faults = agency_file.read(words.agency)
        told = [f"{words.agency}: {it}" for it in faults]
        places, rosters = {it["id"] for it in agency.get("places", [])}, {}
        for name in ("roster", "drivers"):
            path = getattr(words, name)
            roster = roster_file.read(path, places) if path else None
            rosters[name] = roster
            told += [f"{path}: {it}" for it in roster.faults] if roster else []
        duty, wrong_rows = duty_file.read(words.duty) if words.duty else ({}, [])
        told += [f"{words.duty}: {it}" for it in wrong_rows]
        texts = site_files.texts_of(agency, **rosters, duty=duty)
        if words.addresses:
            more, said = addresses_of(words.addresses, agency)
            texts.update(more)
            told += [f"{words.addresses}: {it}" for it in said]
        progress, plan = carry.Progress("files", len(texts), after=2), ""
        if words.plan:
            plan = site_files.planned(words.folder, texts, progress.show)
        else:
            site_files.put(words.folder, texts, progress.show)
        progress.end()
    except Wrong as wrong:
        print(f"bin/site-files: {wrong}", file=sys.stderr)
        return 1
    for it in told:
        print(f"bin/site-files: {it}", file=sys.stderr)
    print(
        f"{words.folder}: {counted(len(texts), 'file')}, {counted(len(told), 'fault')}"
        + (f": {plan}" if plan else "")
    )
    return 1 if told else 0


if __name__ == "__main__":
    ending.run("bin/site-files", main)
