"""Copies of files whose every step is looked at: read, written, synced, and read back."""

from __future__ import annotations

import contextlib
import fcntl
import os
import pathlib
import shutil
import tempfile
import time
import zlib
from collections.abc import Iterator
from typing import Any

from .ending import WRONG_WORDS, Failure

PIECE = 1 << 20
# What is thrown away and was not touched for so many seconds was left by a script that was killed.
LEFT_FOR = 60
# Linux: make one file share the other's blocks, where the file system can (btrfs, xfs).
FICLONE = 0x40049409


def copied(source: str, target: str) -> tuple[int, int | None]:
    """Copies a file into a new one, and tells the length and the checksum of what was read."""
    with open(source, "rb", buffering=0) as from_file, open(
        target, "xb", buffering=0, opener=only_owners
    ) as to_file:
        length = os.fstat(from_file.fileno()).st_size
        if is_cloned(from_file, to_file):
            return length, None
        written = checksum = 0
        while piece := from_file.read(PIECE):
            checksum = zlib.crc32(piece, checksum)
            written += written_whole(to_file, piece, target)
        if written != length or os.fstat(from_file.fileno()).st_size != length:
            raise Failure(f"{source} has {length} bytes and {written} of them were copied")
        return length, checksum


def only_owners(path: str, flags: int) -> int:
    return os.open(path, flags, 0o600)


def is_cloned(from_file: Any, to_file: Any) -> bool:
    try:
        fcntl.ioctl(to_file.fileno(), FICLONE, from_file.fileno())
    except OSError:
        return False
    return True


def written_whole(file: Any, piece: bytes, name: str) -> int:
    """Writes all of the bytes: a write may take fewer, and says so."""
    rest = memoryview(piece)
    while rest:
        with naming(name):
            count = file.write(rest)
        if not count:
            raise Failure(f"{name}: nothing more was written")
        rest = rest[count:]
    return len(piece)


@contextlib.contextmanager
def naming(path: str) -> Iterator[None]:
    """A fault of the disk meanwhile names the file: the system itself tells it without."""
    try:
        yield
    except OSError as error:
        if error.filename is None:
            error.filename = path
        raise


def summed(path: str) -> tuple[int, int]:
    """The length and the checksum of a file."""
    length = checksum = 0
    with open(path, "rb", buffering=0) as file:
        while piece := file.read(PIECE):
            checksum = zlib.crc32(piece, checksum)
            length += len(piece)
    return length, checksum


def synced(path: str) -> None:
    """What the file or folder holds is on the disk."""
    file = os.open(path, os.O_RDONLY)
    try:
        with naming(path):
            os.fsync(file)
    finally:
        os.close(file)


def check_copy(path: str, said: tuple[int, int | None]) -> None:
    """Syncs a copy and reads it back: it has the length and the checksum of what was read from its source."""
    synced(path)
    length, checksum = said
    found = summed(path)
    if found[0] != length or checksum not in (None, found[1]):
        raise Failure(
            f"{path} does not hold what was read: {found[0]} bytes for {length}, or other bytes"
        )


def size_of(path: pathlib.Path | str) -> int:
    return os.stat(path).st_size if os.path.exists(path) else 0


def check_folder_of(path: Any) -> None:
    """The folder of a file that is to be made is there."""
    folder = os.path.dirname(os.path.abspath(path))
    if not os.path.isdir(folder):
        raise Failure(
            f"there is no folder {folder}: make it by install -d -m 700 {folder}", WRONG_WORDS
        )


def check_room(folder: str, needed: int, what: str) -> None:
    """There is so much room in the folder for whoever asks."""
    found = os.statvfs(folder)
    free = found.f_frsize * (found.f_bfree if os.geteuid() == 0 else found.f_bavail)
    if free < needed:
        raise Failure(
            f"{folder} has {free // 1024} KiB free, and {what} takes {needed // 1024} KiB"
        )


def give_name(part: str, name: Any) -> None:
    """Gives a file its name, where nothing has that name, and syncs the folder."""
    try:
        os.link(part, name)
    except FileExistsError:
        raise Failure(f"{name} is there already") from None
    except OSError:
        os.rename(part, name)
    else:
        os.unlink(part)
    synced(os.path.dirname(os.path.abspath(name)))


def remove_left(folder: str, prefix: str, left_for: int | None = None) -> None:
    """Removes folders of this user with that prefix that a killed script left there, and that no script holds."""
    least = LEFT_FOR if left_for is None else left_for
    for entry in os.scandir(folder):
        if not entry.name.startswith(prefix) or not entry.is_dir(follow_symlinks=False):
            continue
        found = entry.stat(follow_symlinks=False)
        if found.st_uid == os.geteuid() and time.time() - found.st_mtime >= least:
            with contextlib.suppress(OSError), held(entry.path):
                shutil.rmtree(entry.path)


@contextlib.contextmanager
def held(path: str) -> Iterator[None]:
    """The folder is this script's, or there is an error where it is another one's."""
    folder = os.open(path, os.O_RDONLY | os.O_DIRECTORY)
    try:
        fcntl.flock(folder, fcntl.LOCK_EX | fcntl.LOCK_NB)
        yield
    finally:
        os.close(folder)


@contextlib.contextmanager
def folder_within(folder: Any, prefix: str, left_for: int | None = None) -> Iterator[str]:
    """A folder for files that are thrown away, on the disk of the given one."""
    remove_left(folder, prefix, left_for)
    path = tempfile.mkdtemp(prefix=prefix, dir=folder)
    try:
        with held(path):
            yield path
    finally:
        shutil.rmtree(path, ignore_errors=True)
