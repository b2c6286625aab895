"""Work for which the desk is stopped, and what is put right where it was killed in the middle.

Meanwhile the folder of the database has a note, and whoever works there has the folder's lock. A note whose lock nobody
has is that of a script that was killed: then nobody serves, and the watch of this machine starts the desk again.
"""

from __future__ import annotations

import contextlib
import json
import os
from typing import Any, TYPE_CHECKING

from .copying import naming, synced
from .locking import alone, is_held

if TYPE_CHECKING:
    from desk_tools.ops.places import Desk

NAME = ".stopped-for.json"
LOCKED = "somebody else has {} at this moment, as for a restore or for a copy: nothing was changed"
# So many seconds a script waits for another one that works in the folder.
PATIENCE = 2
# The order in which files come back: a file of the desk's that is there has its log beside it.
ENDS = ("-shm", "-wal", "")


def one_at_a_time(desk: Desk, patience: int = PATIENCE) -> Any:
    """The lock of all that write the desk's file while the desk is stopped."""
    return alone(desk.folder, patience, LOCKED.format(desk.folder))


class Note:
    """The note of this script. `kept` is the folder of what was there, `starts_old` whether the desk may serve that again."""

    def __init__(
        self, desk: Desk, what: str, kept: str | None = None, starts_old: bool = True
    ) -> None:
        self.path = f"{desk.folder}/{NAME}"
        self.said = {"what": what, "kept": kept, "starts_old": starts_old, "placed": False}
        try:
            self.write()
        except OSError:
            forget(desk.folder)
            raise

    def write(self) -> None:
        with naming(self.path), open(f"{self.path}.new", "w", encoding="utf-8") as file:
            json.dump(self.said, file)
        synced(f"{self.path}.new")
        os.rename(f"{self.path}.new", self.path)
        synced(os.path.dirname(self.path))

    def is_placed(self) -> None:
        """From now on the new file may be served."""
        self.said["placed"] = True
        self.write()

    def remove(self) -> None:
        forget(os.path.dirname(self.path))


def forget(folder: str) -> None:
    for end in (".new", ""):
        with contextlib.suppress(FileNotFoundError):
            os.remove(f"{folder}/{NAME}{end}")


def read(folder: str) -> dict[str, Any] | None:
    """What the note in the folder says, or None."""
    try:
        with open(f"{folder}/{NAME}", encoding="utf-8") as file:
            said = json.load(file)
    except (OSError, ValueError):
        return None
    return said if isinstance(said, dict) else None


def left_in(folder: str) -> dict[str, Any] | None:
    """The note of a script that was killed there, or None. It is none as long as a script works there."""
    said = read(folder)
    return None if said is None or is_held(folder) else said


def put_right(desk: Desk) -> bool | None:
    """Puts back what a killed script had moved. Whether the desk may start then, or None where no script was killed.

    Whoever calls this has the folder's lock.
    """
    said = read(desk.folder)
    if said is None or desk.is_served():
        forget(desk.folder)
        return None if said is None else True
    desk.stop()
    kept = said.get("kept") or ""
    if os.path.isdir(kept) and not (
        os.path.exists(desk.file) and os.path.exists(f"{kept}/{os.path.basename(desk.file)}")
    ):
        for end in ENDS:
            path = f"{kept}/{os.path.basename(desk.file)}{end}"
            if os.path.exists(path):
                os.rename(path, f"{desk.file}{end}")
        with contextlib.suppress(OSError):
            os.rmdir(kept)
        synced(desk.folder)
    may_start = bool(said.get("starts_old") or said.get("placed")) and os.path.exists(desk.file)
    forget(desk.folder)
    return may_start


def start_again(desk: Desk) -> bool:
    """The desk whose script was killed serves again, where it may; whether it may."""
    with one_at_a_time(desk):
        may_start = put_right(desk)
    if may_start:
        desk.start()
    return bool(may_start)


def told_of(said: dict[str, Any]) -> str:
    """What the watch says of it."""
    what = said.get("what") or "a script"
    if said.get("starts_old") or said.get("placed"):
        return f"{what} was killed after it had stopped the desk: the desk is started again with the file that is there"
    return f"{what} was killed before the copy was in its place, and nothing serves here: give the same command again"
