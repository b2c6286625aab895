"""Locks: that of a database, as the desk and SQLite take it, and that of a folder, in which one script at a time works."""

from __future__ import annotations

import contextlib
import fcntl
import os
import struct
import time
from collections.abc import Iterator

from .ending import Failure

# SQLite's bytes of locks in a file, which the desk locks whole in the file and in its log.
BEGIN, LENGTH = 1 << 30, 512
FLOCK = "hhqqi4x"


def lock_of(kind: int) -> bytes:
    return struct.pack(FLOCK, kind, os.SEEK_SET, BEGIN, LENGTH, 0)


def is_locked(path: str) -> bool:
    """Whether a process has the file's lock."""
    with open(path, "rb") as file:
        found = fcntl.fcntl(file.fileno(), fcntl.F_OFD_GETLK, lock_of(fcntl.F_WRLCK))
    return bool(struct.unpack(FLOCK, found)[0] != fcntl.F_UNLCK)


@contextlib.contextmanager
def locked(path: str) -> Iterator[None]:
    """No desk opens the file meanwhile."""
    with open(path, "r+b") as file:
        try:
            fcntl.fcntl(file.fileno(), fcntl.F_OFD_SETLK, lock_of(fcntl.F_WRLCK))
        except OSError:
            raise Failure(f"another process has {path}: stop the desk first") from None
        yield


@contextlib.contextmanager
def alone(path: str, patience: int, why: str) -> Iterator[None]:
    """Only one process at a time has the lock of this folder or file; one waits so many seconds for it."""
    line, end = os.open(path, os.O_RDONLY), time.monotonic() + patience
    try:
        while True:
            try:
                fcntl.flock(line, fcntl.LOCK_EX | fcntl.LOCK_NB)
                break
            except BlockingIOError:
                if time.monotonic() >= end:
                    raise Failure(why) from None
                time.sleep(0.2)
        yield
    finally:
        os.close(line)


def is_held(folder: str) -> bool:
    """Whether a process has the folder's lock."""
    line = os.open(folder, os.O_RDONLY | os.O_DIRECTORY)
    try:
        fcntl.flock(line, fcntl.LOCK_SH | fcntl.LOCK_NB)
        return False
    except BlockingIOError:
        return True
    finally:
        os.close(line)
