#!/usr/bin/env python3
"""deploy/drill [FOLDER]: restores the newest backup of FOLDER (/var/backups/desk-main) beside the desk that runs, serves it
on a free port of this machine, compares its counts, and prints how long the office would be without the desk.

A person runs it each quarter, on the machine that would take over, and writes down what it prints. It touches neither
the desk nor the backup, and removes what it made. --at gives the folder for the trial (/var/tmp). With --elsewhere PLACE
it does so from another place alone, a folder or MACHINE:/FOLDER by ssh, as after a fire: it takes the newest backup
there and the newest copy of a machine, and looks whether a new machine could be made of them. --identity FILE is the
private key of copies that age encrypted; gpg has its own. The environment may give DESK, the program, and SSH.
"""

from __future__ import annotations

import argparse
import os
import sys

from desk_tools import agencies, elsewhere
from desk_tools.arguments import Usage
from desk_tools.ops.copying import folder_within
from desk_tools.ops.drilling import Drill, newest_backup, newest_elsewhere
from desk_tools.ops.ending import Failure, run_script, WRONG_WORDS


def told_elsewhere(given: argparse.Namespace) -> str:
    """The drill from another place alone."""
    with folder_within(given.at, "desk-drill-") as folder:
        try:
            backup, name, machine = newest_elsewhere(
                given.elsewhere, folder, os.environ.get("SSH") or "ssh", given.identity
            )
        except elsewhere.Wrong as wrong:
            raise Failure(str(wrong), WRONG_WORDS) from None
        moment = elsewhere.moment_of(name)
        if moment is None:
            raise Failure(f"{name} does not name its minute")
        told = Drill(backup, given.at, moment.timestamp()).make().told().replace(backup, name)
        return f"{told}\n{machine}"


def main(words: list[str]) -> None:
    usage = Usage(
        "deploy/drill",
        description=__doc__.partition("\n\n")[0],
        epilog="the environment may give DESK, the program, and SSH",
    )
    usage.takes(
        "folder FOLDER", "where the backups are", nargs="?", default=agencies.Agency().backups
    )
    usage.takes("--at PLACE", "the folder for the trial", default="/var/tmp")
    usage.takes("--elsewhere PLACE", "from another place alone: a folder, or MACHINE:/FOLDER")
    usage.takes("--identity FILE", "the private key of encrypted copies")
    given = usage.parse_args(words)
    os.umask(0o077)
    told = (
        told_elsewhere(given)
        if given.elsewhere
        else Drill(newest_backup(given.folder), given.at).make().told()
    )
    for line in told.splitlines():
        print(f"deploy/drill: {line}")


if __name__ == "__main__":
    sys.exit(run_script("drill", main, sys.argv[1:]))
