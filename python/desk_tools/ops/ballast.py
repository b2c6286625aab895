"""Room kept free beforehand: a file that is given up where the disk is full, so that the desk can start."""

from __future__ import annotations

import contextlib
import os
from typing import TYPE_CHECKING

if TYPE_CHECKING:
    from desk_tools.ops.places import Desk

SIZE = 64 << 20
# Below that the desk may find no room for its log, which has four megabytes, and for the writes of a morning.
LEAST = 16 << 20


def path_of(desk: Desk) -> str:
    return f"{desk.folder}/ballast"


def free_in(folder: str) -> int:
    """The room that a user has who is not root."""
    found = os.statvfs(folder)
    return found.f_frsize * found.f_bavail


def give_up(desk: Desk) -> str | None:
    """Where there is little room the file is removed. What to say, or None."""
    path, free = path_of(desk), free_in(desk.folder)
    if free >= LEAST or not os.path.exists(path):
        return None
    size = os.stat(path).st_blocks * 512
    os.remove(path)
    return (
        f"{desk.folder} had {free // 1024:,} KiB free: the ballast of {size // 1024:,} KiB is given up, so that "
        f"the desk can start. "
        "Make room now: there is no more of it"
    )


def put_back(desk: Desk) -> str | None:
    """Where there is room for it twice and more the file is there. What to say, or None."""
    path = path_of(desk)
    if os.path.exists(path) or free_in(desk.folder) < 2 * SIZE + LEAST:
        return None
    try:
        with open(f"{path}.new", "wb", opener=lambda it, flags: os.open(it, flags, 0o600)) as file:
            os.posix_fallocate(file.fileno(), 0, SIZE)
        owner = os.stat(desk.folder)
        if os.geteuid() == 0:
            os.chown(f"{path}.new", owner.st_uid, owner.st_gid)
        os.replace(f"{path}.new", path)
    except OSError:
        with contextlib.suppress(OSError):
            os.remove(f"{path}.new")
        raise
    return f"{path} keeps {SIZE >> 20} MiB of room for a day on which the disk is full"


def tended(desk: Desk) -> str | None:
    """What to say, or None."""
    return give_up(desk) or put_back(desk)
