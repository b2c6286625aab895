"""What this machine, which is fenced, has answered and the machine that serves now does not have."""

from __future__ import annotations

import os
import pathlib
import subprocess
from typing import TYPE_CHECKING

from desk_tools import agencies, left_behind, theft
from . import standby, stolen
from .backing_up import Backup
from .content import counted
from .copying import folder_within
from .ending import WRONG_WORDS, Failure

if TYPE_CHECKING:
    from desk_tools.ops.places import Desk

NONE = "nothing is missing: the second machine has all that this machine answered"


def fetched(
    settings: standby.Settings, agency: agencies.Agency, place: str
) -> tuple[pathlib.Path, str]:
    """The copy that the second machine opened, which this machine once sent."""
    machine, folder = settings.place(agency)
    named = settings.told(machine, "opened", folder)
    path = f"{place}/there.db"
    with open(path, "xb") as file:
        ran = subprocess.run(
            [*settings.shell(), machine, settings.command("fetch", folder, named)],
            stdout=file,
            stderr=subprocess.PIPE,
            stdin=subprocess.DEVNULL,
            check=False,
        )
    if ran.returncode:
        raise Failure(
            f"the copy {named} did not come from {machine}: {' '.join(ran.stderr.decode(errors='replace').split())}"
        )
    return pathlib.Path(path), f"{named}, the copy that {machine} opened"


def tell(
    desk: Desk, settings: standby.Settings, copy: str | None = None, roster: str = stolen.ROSTER
) -> None:
    """Prints what is missing there, with what to do, and whom to call. `copy` is a copy of what the other machine opened."""
    if not os.path.exists(desk.fence):
        raise Failure(
            "this machine is not fenced, so no other machine serves in its place", WRONG_WORDS
        )
    if copy and not os.path.isfile(copy):
        raise Failure(f"there is no copy {copy}", WRONG_WORDS)
    with folder_within(os.environ.get("OUTGOING") or "/var/tmp", "desk-missing-") as place:
        there, name = (pathlib.Path(copy), copy) if copy else fetched(settings, desk.agency, place)
        here = f"{place}/here.db"
        Backup(desk, here).make()
        try:
            found, lines = left_behind.compared(there, pathlib.Path(here))
        except theft.NotReadable as failure:
            raise Failure(str(failure)) from None
    if not found and not lines:
        print(f"deploy/standby: {NONE} ({name})")
    else:
        print(
            f"deploy/standby: {counted(len(found), 'row')} of riders, and {counted(len(lines), 'other line')}, are on this "
            f"machine alone, beside {name}. Enter them on the machine that serves"
        )
        stolen.tell(found, stolen.telephones(roster))
        for it in lines:
            print(f"- {it}")
    standby.note_compared(desk)
