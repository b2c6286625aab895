#!/usr/bin/env python3
"""deploy/archive DAY ARCHIVE [AGENCY]: takes the trips before DAY, with their stops and marks, out of the database of a
stopped desk into the new file ARCHIVE. With --dry-run it says what it would do, and needs no ARCHIVE.

The last 366 days always stay. The archive has all other tables too, so the desk's commands and any SQLite read it. Each
row of both files is compared with the earlier file, and the desk opens both, before the smaller file takes its place.
The earlier file stays in a folder beside it. The environment may give FILE, the database, and DESK, the program.
"""

from __future__ import annotations

import sys

from desk_tools.arguments import Usage
from desk_tools.ops.archiving import Archive
from desk_tools.ops.ending import run_script
from desk_tools.ops.places import Desk


def main(words: list[str]) -> None:
    usage = Usage(
        "deploy/archive",
        description=__doc__.partition("\n\n")[0],
        epilog="the environment may give FILE and DESK",
    )
    usage.takes("day DAY", "the first day that stays, YYYY-MM-DD")
    usage.takes("archive ARCHIVE", "the new file", nargs="?")
    usage.takes("agency AGENCY", "the agency's short name (main)", nargs="?")
    usage.flag("--dry-run", "say what would be done, and do nothing")
    given = usage.parse_args(words)
    if not given.archive and not given.dry_run:
        usage.error("ARCHIVE is missing")
    archive = Archive(Desk(given.agency), given.day, given.archive)
    for line in archive.dry_run() if given.dry_run else archive.make():
        print(f"deploy/archive: {line}")


if __name__ == "__main__":
    sys.exit(run_script("archive", main, sys.argv[1:]))
