#!/usr/bin/env python3
"""deploy/restore COPY [AGENCY]: puts the backup COPY in the database's place. What was there is kept in a folder beside
it, with the time in its name. AGENCY is that of the unit desk@AGENCY.

The backup is read and opened by the desk first, in a copy: so nothing is left beside it, and the desk still runs. Only
then is the desk stopped. Where anything fails after that, the old file comes back, and the desk is started again. A
machine that has no desk.db needs none.

The environment may give FILE, the database (/var/lib/desk-main/desk.db, or /var/lib/desk-AGENCY/desk.db), STOP, START and
PROCESS, the commands that stop the desk, start it, and print the number of its process (those of systemctl), and DESK,
the program (/usr/bin/desk).
"""

from __future__ import annotations

import sys

from desk_tools.arguments import usage_of
from desk_tools.ops.ending import run_script
from desk_tools.ops.places import Desk
from desk_tools.ops.restoring import Restore


def main(words: list[str]) -> None:
    usage = usage_of("deploy/restore", __doc__)
    usage.takes("copy COPY", "the backup")
    usage.takes("agency AGENCY", "the agency's short name (main)", nargs="?")
    usage.flag("--migrate", "take a backup of an older version, and migrate it")
    usage.flag("--another", "take a backup of which no caller is one of the present file")
    given = usage.parse_args(words)
    restored = Restore(Desk(given.agency), given.copy, given.migrate, given.another).make()
    for line in [*restored.told().splitlines(), *restored.keys_not_known()]:
        print(f"deploy/restore: {line}")


if __name__ == "__main__":
    sys.exit(run_script("restore", main, sys.argv[1:]))
