#!/usr/bin/env python3
"""deploy/ballast [AGENCY]: keeps 64 MiB of the disk free for the desk, as the file `ballast` beside its database.

The unit runs it before each start. Where less than 16 MiB are free the file is removed, so that the desk can start on a
full disk. Where there is room for it twice it is made again. It never keeps the desk from its start. The environment
may give FILE, the database.
"""

from __future__ import annotations

import sys
from typing import Any

from desk_tools.arguments import Usage
from desk_tools.ops.ballast import tended
from desk_tools.ops.ending import run_script
from desk_tools.ops.places import Desk


def main(words: list[Any]) -> None:
    usage = Usage(
        "deploy/ballast",
        description=__doc__.partition("\n\n")[0],
        epilog="the environment may give FILE",
    )
    usage.takes("agency AGENCY", "the agency's short name (main)", nargs="?")
    told = tended(Desk(usage.parse_args(words).agency))
    if told:
        print(f"deploy/ballast: {told}")


if __name__ == "__main__":
    sys.exit(run_script("ballast", main, sys.argv[1:]))
