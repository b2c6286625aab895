#!/usr/bin/env python3
"""deploy/elsewhere send [AGENCY]: brings the newest backup to the place that /etc/desk/copies.conf names.

OFFSITE= is a mounted folder (/mnt/elsewhere), a host by ssh (desk-copies@backup.example.org:/srv/desk), or `none yet`.
RECIPIENT= is a public key, or the path of one, of age or gpg: then what goes there is encrypted, and this machine cannot
read it again. SSH= may be the command that reaches the host. The night's backup and what a new machine needs beside it
(machine-...tar.gz) go there, and nothing there is ever replaced or removed. `elsewhere list [AGENCY]` lists what is there.

The unit desk-elsewhere runs it after each night's backup. BACKUPS.md has how the other place is set up.
"""

from __future__ import annotations

import os
import sys

from desk_tools.arguments import usage_of
from desk_tools.ops import elsewhere
from desk_tools.ops.ending import Failure, run_script, WRONG_WORDS
from desk_tools.ops.places import Desk


def main(words: list[str]) -> None:
    usage = usage_of("deploy/elsewhere", __doc__)
    usage.takes("task TASK", "send or list", choices=["send", "list"])
    usage.takes("agency AGENCY", "the agency's short name (main)", nargs="?")
    given = usage.parse_args(words)
    os.umask(0o077)
    desk, settings = Desk(given.agency), elsewhere.Settings()
    backups = os.environ.get("BACKUPS") or desk.agency.backups
    if given.task == "send":
        lines = elsewhere.send(desk, settings, backups)
    elif settings.place is None:
        raise Failure(f"{settings.path} names no place", WRONG_WORDS)
    else:
        lines = elsewhere.names_there(settings, settings.place.of_agency(desk.agency), backups)
    for line in lines or ():
        print(f"deploy/elsewhere: {line}", flush=True)


if __name__ == "__main__":
    sys.exit(run_script("elsewhere", main, sys.argv[1:]))
