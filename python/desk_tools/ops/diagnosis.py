"""Which of its causes a fault 32 has: the desk says one sentence for them all."""

from __future__ import annotations

import contextlib
import os
import stat
import struct
import subprocess
from typing import Any, TYPE_CHECKING

from .ballast import free_in
from .content import TABLES, content_in, content_of_pair
from .ending import Failure
from .locking import is_locked
from .pages import FILE_HEAD, bytes_of, in_memory, log_head, page_size_of
from .places import has_open

if TYPE_CHECKING:
    from desk_tools.ops.places import Desk

# The desk's log grows to this as it opens a file and takes its first write.
LEAST_ROOM = 1 << 20
HEAD = 100


def owner_of(desk: Desk) -> os.stat_result:
    """The user who runs the desk: the folder is that user's."""
    return os.stat(desk.folder)


def may(owner: os.stat_result, found: os.stat_result, wanted: int) -> bool:
    """Whether that user may do this with a file: the bits of reading 4, writing 2, entering 1."""
    if owner.st_uid == 0:
        return True
    shift = 6 if found.st_uid == owner.st_uid else 3 if found.st_gid == owner.st_gid else 0
    return (found.st_mode >> shift) & wanted == wanted


def cause_of_folder(desk: Desk) -> str | None:
    if not os.path.isdir(desk.folder):
        return f"there is no folder {desk.folder}"
    if not os.path.exists(desk.file):
        return f"there is no {desk.file} (the desk calls that fault 5)"
    return None


def cause_of_disk(desk: Desk) -> str | None:
    """A file system that is read only."""
    if os.statvfs(desk.folder).f_flag & os.ST_RDONLY:
        return (
            f"the file system of {desk.folder} is read only: look into `dmesg` for errors of the disk, make a "
            f"copy of both files, and only "
            f"then mount it again for writing"
        )
    return None


def cause_of_permission(desk: Desk) -> str | None:
    """A file that the desk's user may not read and write, or a folder in which that user may make none."""
    owner = owner_of(desk)
    if not may(owner, owner, 7):
        return (
            f"the owner of {desk.folder} may not read, write and enter it: chmod 700 {desk.folder}"
        )
    for path in (desk.file, desk.log):
        if not os.path.lexists(path):
            continue
        found = os.stat(path)
        if not stat.S_ISREG(found.st_mode):
            return f"{path} is no plain file"
        if not may(owner, found, 6):
            return (
                f"the desk's user ({owner.st_uid}) may not read and write {path}, which is user {found.st_uid}'s "
                f"with mode "
                f"{found.st_mode & 0o777:o}: chown --reference={desk.folder} {path} && chmod 600 {path}"
            )
        if found.st_nlink > 1:
            return (
                f"{path} has {found.st_nlink} names (hard links), and the desk opens a file of one name: "
                "remove the others"
            )
    return None


def holders_of(path: str) -> list[str]:
    """The processes that have the file open, as far as this user sees them."""
    found = []
    for number in filter(str.isdigit, os.listdir("/proc")):
        with contextlib.suppress(OSError):
            folder = f"/proc/{number}/fd"
            if any(is_same(f"{folder}/{it}", path) for it in os.listdir(folder)):
                with open(f"/proc/{number}/cmdline", "rb") as words:
                    command = words.read().replace(b"\0", b" ").decode(errors="replace").strip()
                found.append(f"process {number} ({command[:120]})")
    return found


def is_same(link: str, path: str) -> bool:
    try:
        return os.path.samefile(link, path)
    except OSError:
        return False


def cause_of_lock(desk: Desk) -> str | None:
    """Another process has the file or its log."""
    for path in (desk.file, desk.log):
        if os.path.exists(path) and is_locked(path):
            holders = [
                it for it in holders_of(path) if not it.startswith(f"process {os.getpid()} ")
            ]
            named = (
                ", ".join(holders)
                if holders
                else "one that is not seen from here: run this as root"
            )
            return f"another process has {path}: {named}. Let it end; the desk is one process alone"
    return None


def cause_of_room(desk: Desk) -> str | None:
    """No room for the log, or no more files."""
    found, free = os.statvfs(desk.folder), free_in(desk.folder)
    if free < LEAST_ROOM:
        return (
            f"the disk of {desk.folder} is full: {free // 1024:,} KiB are free for the desk. Make room, or run "
            f"`ballast` as root, which "
            f"gives up what was kept for this"
        )
    if found.f_files and found.f_favail == 0:
        return f"the disk of {desk.folder} has room and takes no more files (no inode is free): remove some"
    return None


def cause_of_file(desk: Desk) -> str | None:
    """A file that was cut, or has other bytes."""
    content = bytes_of(desk.file)
    if not content:
        return f"{desk.file} is empty: restore a backup"
    if content[:16] != FILE_HEAD or len(content) < HEAD:
        return f"{desk.file} does not begin as an SQLite database does: it holds other bytes. Restore a backup"
    size, pages = page_size_of(content, desk.file), struct.unpack(">I", content[28:32])[0]
    if len(content) % size or len(content) < pages * size and not holds_pages(desk, size):
        return (
            f"{desk.file} was cut: it has {len(content):,} bytes, and {pages * size:,} belong to it. "
            "Restore a backup"
        )
    return None


def holds_pages(desk: Any, size: Any) -> bool:
    """Whether the log is one over pages of this size, so that pages which the file lacks may be there."""
    head = log_head(bytes_of(desk.log))
    return head is not None and head[1] == size


def cause_of_log(desk: Desk) -> str | None:
    """A log that is not this file's."""
    head = log_head(bytes_of(desk.log))
    size = page_size_of(bytes_of(desk.file), desk.file)
    # (one that is no log at all is passed over by the desk)
    if head is not None and head[1] != size:
        return (
            f"{desk.log} is another file's log: its pages have {head[1]} bytes, and those of {desk.file} {size}. "
            "A log goes with its own file: restore a backup"
        )
    return None


def cause_of_pages(desk: Desk) -> str | None:
    """Pages that SQLite does not read."""
    try:
        with contextlib.closing(in_memory(desk.file)) as connection:
            content_in(connection, desk.file)
            found = connection.execute("PRAGMA integrity_check(1)").fetchone()[0]
    except Failure as failure:
        return f"{failure}. Make a copy of both files, and restore a backup"
    if found == "ok":
        return None
    return (
        f"{desk.file} and its log do not make a sound database ({' '.join(found.split())}): pages are spoilt, or "
        f"the log is another file's. "
        "Make a copy of both, and restore a backup"
    )


def cause_of_version(desk: Desk) -> str | None:
    """Tables of an earlier version, which the desk calls fault 30."""
    content = content_of_pair(desk.file)
    if len(content.counts) == len(TABLES):
        return None
    return (
        f"{desk.file} is of version {content.version}, which is an earlier one (the desk calls that fault 30): "
        '`desk migrate` makes it of this one; see "Upgrading" in README.md'
    )


CAUSES = (
    cause_of_folder,
    cause_of_disk,
    cause_of_permission,
    cause_of_lock,
    cause_of_room,
    cause_of_file,
    cause_of_log,
    cause_of_pages,
    cause_of_version,
)


# A desk that serves has its file open and locked, and writes it: then these are looked at alone.
CAUSES_OF_SERVING = (cause_of_folder, cause_of_disk, cause_of_permission, cause_of_room)


def serves(desk: Desk) -> bool:
    """Whether the unit's own process runs and has the file, as far as this user sees it."""
    try:
        process = desk.process()
    except (Failure, subprocess.SubprocessError, OSError):
        return False
    # (what a process of another user has open is seen by root alone)
    return bool(process) and (
        has_open(process, desk.file) or not os.access(f"/proc/{process}/fd", os.R_OK)
    )


def cause_of(desk: Desk) -> str | None:
    """The first cause that is found, in the order in which they are looked for; or None."""
    for look in CAUSES_OF_SERVING if serves(desk) else CAUSES:
        try:
            found = look(desk)
        except OSError as error:
            return f"{error.filename or desk.file}: {error.strerror}; the disk or the rights to it fail"
        if found:
            return found
    return None
