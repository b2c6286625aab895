#!/usr/bin/env python3
"""deploy/diagnose [AGENCY]: says why the desk's store refuses or failed (fault 32): a full disk, permissions, another
process that has the file and which, a read-only file system, a file that was cut or has other bytes, a log that is
another file's, tables of an earlier version.

Run it as root; it changes nothing. While the desk serves it looks at the disk and the rights, and once the desk is
stopped at the file too. Status 0 says that it found no cause, 1 that it found one.
The unit runs it with --after-stop, which looks only where the desk ended by a fault. The environment may give FILE, the
database.
"""

from __future__ import annotations

import os
import sys

from desk_tools.arguments import Usage
from desk_tools.ops.diagnosis import cause_of, serves
from desk_tools.ops.ending import run_script
from desk_tools.ops.places import Desk

# How the desk ends where its store failed, and by another fault, such as a file that it may not read.
STORE_FAILED, OTHER_FAULT = "3", "4"
NO_CAUSE = (
    "no cause of a fault 32 is found in the files, the disk, the rights or the locks. "
    "`fault 30` and `fault 31` have numbers of their own"
)
IS_WELL = (
    "nothing is wrong: the desk serves, and its disk and rights are well. What the file holds is looked at once the "
    "desk is stopped"
)


def main(words: list[str]) -> int:
    usage = Usage(
        "deploy/diagnose",
        description=__doc__.partition("\n\n")[0],
        epilog="the environment may give FILE",
    )
    usage.takes("agency AGENCY", "the agency's short name (main)", nargs="?")
    usage.flag("--after-stop", "for the unit: only where the desk ended by a fault")
    given = usage.parse_args(words)
    status = os.environ.get("EXIT_STATUS") if given.after_stop else None
    if given.after_stop and status not in (STORE_FAILED, OTHER_FAULT):
        return 0
    desk = Desk(given.agency)
    cause = cause_of(desk)
    if cause or status != OTHER_FAULT:
        print(f"deploy/diagnose: {cause or (IS_WELL if serves(desk) else NO_CAUSE)}")
    return 1 if cause else 0


if __name__ == "__main__":
    sys.exit(run_script("diagnose", main, sys.argv[1:]))
