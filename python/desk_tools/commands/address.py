#!/usr/bin/env python3
"""Adds an address to the table of addresses, at the nearest place that is served by at least the same lines.

  bin/address addresses.csv --folder TOWN --street "12 Elm St" --at 44.9778,-93.2650
  bin/address addresses.csv --folder TOWN --street "14 Elm St" --at 44.9779,-93.2651 --rider 1007 --note "rear door"

With --riders a home is at no place where the rider's grant, nolift or farther, holds less than at the home.
The folder has agency.json and plane.json, as bin/move-in leaves them. With --plan it says at which place the address would be,
and writes nothing. An id that is there already is replaced; without --id it gets the next one. Run bin/site-files afterwards.
The exit status is 0 where it was added, 1 where no place is right for it, and 2 for wrong words or input, or where another run has the table.
"""

from __future__ import annotations

import argparse
import contextlib
import sys

from desk_tools import ending
from desk_tools.arguments import usage_of
from desk_tools.setup import gathering, whole_file
from desk_tools.setup.limits import Wrong


def words_of(arguments: list[str]) -> argparse.Namespace:
    parser = usage_of("bin/address", __doc__)
    parser.takes("csv CSV", "the table of addresses; it is made where there is none")
    parser.takes("--folder", "where agency.json and plane.json are", default=".")
    parser.takes("--street", "the address, as people say it", required=True)
    parser.takes("--at LATITUDE,LONGITUDE", "where it is", required=True)
    parser.takes("--id NUMBER", "the number of the address")
    parser.takes("--note", "what a driver has to know", default="")
    parser.takes("--rider NUMBER", "whose home it is", default="")
    parser.takes(
        "--riders CSV",
        "number and conditions of riders: the home is at no place where its rider's grant holds less",
    )
    parser.flag("--plan", "says what it would do, and does nothing")
    return parser.parse_args(arguments)


def main(arguments: list[str]) -> int:
    words = words_of(arguments)
    try:
        with contextlib.nullcontext() if words.plan else whole_file.alone(words.csv):
            return gathering.join(words)
    except Wrong as wrong:
        print(f"bin/address: {wrong}", file=sys.stderr)
        return 2


if __name__ == "__main__":
    ending.run("bin/address", main)
