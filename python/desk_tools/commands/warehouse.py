#!/usr/bin/env python3
"""Writes the tables of a copy of the desk's file as CSV, for a data warehouse or a spreadsheet.

  bin/warehouse COPY.db FOLDER
  bin/warehouse COPY.db --plan

COPY.db is a backup; where it is a folder of backups, the newest is read. FOLDER is a new or empty folder. It gets a file
for each table, dictionary.csv with the meaning of each column, and last tables.csv with the rows of each: a folder without
it is not whole. Days, kinds and truth values are as people write them. What belongs to keys is never written. The exit
status is 0 where all is written, 1 where a file can't be read or written, and 2 for wrong words.
"""

from __future__ import annotations

import argparse
import pathlib
import sys
from typing import Any

from desk_tools import ending, warehouse
from desk_tools.arguments import usage_of
from desk_tools.counting import counted
from desk_tools.reports import copies
from desk_tools.setup.limits import Wrong
from desk_tools.tables import TABLES

NAME = "bin/warehouse"


def words_of(arguments: list[str]) -> argparse.Namespace:
    parser = usage_of(NAME, __doc__)
    parser.takes("copy COPY.db", "a backup, or a folder of backups named desk-*.db")
    parser.takes("folder FOLDER", "a new or empty folder", nargs="?")
    parser.flag("--plan", "says what it would write, and writes nothing")
    words = parser.parse_args(arguments)
    if not words.plan and not words.folder:
        parser.error("this takes FOLDER, or --plan")
    return words


def say(text: Any) -> None:
    print(f"{NAME}: {text}", file=sys.stderr, flush=True)


def main(arguments: list[str]) -> int:
    words = words_of(arguments)
    try:
        with copies.Copy(copies.found(words.copy)) as copy:
            tables = warehouse.Copy(copy.connection)
            print(f"{copy.path}, of {copy.made_on()}, tables of version {copy.version}:")
            if words.plan:
                counts = {name: tables.count(name) for name in TABLES}
            else:
                written = warehouse.write(tables, pathlib.Path(words.folder), say)
                counts = {it.name: it.rows for it in written}
    except (Wrong, warehouse.Unsound, warehouse.Unwritable) as error:
        say(error)
        return 1
    for name, rows in counts.items():
        print(f"  {name}: {counted(rows, 'row')}")
    print(
        "Nothing was written."
        if words.plan
        else f"{words.folder} has {len(counts)} tables, and {warehouse.DICTIONARY}"
    )
    return 0


if __name__ == "__main__":
    ending.run(NAME, main)
