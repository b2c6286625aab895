#!/usr/bin/env python3
"""deploy/backup COPY [AGENCY]: copies the database to the new file COPY, while the desk runs. AGENCY is that of the
unit desk@AGENCY.

The desk is halted while its two files are copied: what they hold then is what a kill would leave, and that is whole. It
goes on in any case after MOST seconds (30), and at once where this script ends. The copy is read back, made into one
file, counted, and opened by the desk itself before it gets the name COPY. Whatever fails ends the backup with one
sentence and status 1, and no COPY is there.

deploy/backup --for-denial FOLDER [AGENCY]: makes one copy into FOLDER for the denials that dispatch has marked since the
last one, as the site's log has them (TALLY, or /var/log/desk/tally-main.log) and what was rotated out of it in the last week,
and a note of each beside it. Where no new one is marked it does nothing.

deploy/backup --identity COPY: prints by what the agency of the backup COPY is known. The night's copy of the machine has
it, so that nobody puts it beside another agency's backup.

deploy/backup --files LIST [AGENCY]: writes the names of the files that the night's copy of the machine takes along into
the file LIST: the agency's own, and those of the machine for `main`.

The environment may give MOST; FILE, the database (/var/lib/desk-main/desk.db, or /var/lib/desk-AGENCY/desk.db); PROCESS, the
command that prints the number of the process that serves it (systemctl show --property=MainPID --value desk); and DESK,
the program that judges the copy (that of the process, else /usr/bin/desk).
"""

from __future__ import annotations

import json
import os
import sys
from pathlib import Path

from desk_tools.arguments import usage_of
from desk_tools.ops.backing_up import Backup, MOST
from desk_tools.ops.content import content_of, identity_of
from desk_tools.ops.ending import Failure, run_script, WRONG_WORDS
from desk_tools.ops.for_denial import copy_for
from desk_tools.ops.machine_copy import files
from desk_tools.ops.places import Desk


def seconds_of(text: str) -> int:
    if not text.isdigit() or not 0 < int(text) <= 3600:
        raise Failure(f"MOST is {text!r}, and has to be 1 to 3600 seconds", WRONG_WORDS)
    return int(text)


def main(words: list[str]) -> None:
    usage = usage_of("deploy/backup", __doc__)
    usage.flag(
        "--for-denial", "COPY is a folder, which gets a copy for the denials that dispatch marked"
    )
    usage.flag("--identity", "print by what the agency of the backup COPY is known")
    usage.flag("--files", "COPY gets the names of the files of the machine's copy")
    usage.takes("copy COPY", "the new file")
    usage.takes("agency AGENCY", "the agency's short name (main)", nargs="?")
    given = usage.parse_args(words)
    if given.identity:
        print(json.dumps(identity_of(content_of(given.copy))))
        return
    if given.files:
        listed = "".join(f"{it}\n" for it in files(Desk(given.agency).agency))
        Path(given.copy).write_text(listed, encoding="utf-8")
        return
    most = seconds_of(os.environ.get("MOST") or str(MOST))
    if given.for_denial:
        for line in copy_for(given.copy, given.agency, most).splitlines():
            print(f"deploy/backup: {line}")
        return
    made = Backup(Desk(given.agency), given.copy, most).make()
    for line in made.told().splitlines():
        print(f"deploy/backup: {line}")


if __name__ == "__main__":
    sys.exit(run_script("backup", main, sys.argv[1:]))
