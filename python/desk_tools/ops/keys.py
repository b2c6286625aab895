"""Keys of callers: how they are made, kept in files, and put into a file of a desk that does not run."""

from __future__ import annotations

import contextlib
import hashlib
import os
import sqlite3
import stat
import tempfile
from collections.abc import Iterator
from typing import Any

from desk_tools.setup import keys as moving_keys
from desk_tools.tables import ROLES
from .copying import check_folder_of, synced
from .ending import WRONG_WORDS, Failure

SHORTEST = 16
ADMIN = ROLES.index("admin")


def digest_of(key: str) -> bytes:
    return hashlib.sha256(key.encode()).digest()


def fault_of(key: str) -> str | None:
    """Why a key is none to give to anybody; or None."""
    if not key:
        return "is empty"
    if not (key.isascii() and key.isprintable() and key == key.strip()):
        return "has signs that fit no header, or blanks at an end"
    if len(key) < SHORTEST:
        return f"is shorter than {SHORTEST} signs"
    return None


def key_in(path: str) -> str:
    """The key that a file holds, as the desk knows it. Nobody else may read the file."""
    with open(path, encoding="utf-8", errors="replace") as file:
        key = moving_keys.normalized(file.read().rstrip("\n"))
        mode = os.fstat(file.fileno()).st_mode
    fault = fault_of(key)
    if fault:
        raise Failure(f"the key in {path} {fault}", WRONG_WORDS)
    if stat.S_IMODE(mode) & 0o077:
        raise Failure(f"others can read {path}: say chmod 600 {path}", WRONG_WORDS)
    return key


def key_made_or_in(path: str) -> str:
    """The key of a file, which is made where it is not there, and is on the disk before anybody is given the key."""
    if not os.path.exists(path):
        check_folder_of(path)
        make_key(path)
    return key_in(path)


def make_key(path: str) -> None:
    """A new key in a file, which has its name only once it is whole. Where another one was made meanwhile, that one counts."""
    folder = os.path.dirname(os.path.abspath(path))
    descriptor, part = tempfile.mkstemp(prefix=".key-", dir=folder)
    try:
        with open(descriptor, "w", encoding="ascii") as file:
            file.write(moving_keys.made() + "\n")
            file.flush()
            os.fsync(descriptor)
        with contextlib.suppress(FileExistsError):
            os.link(part, path)
    finally:
        os.remove(part)
    synced(folder)


@contextlib.contextmanager
def as_owner_of(path: str) -> Iterator[None]:
    """What is done meanwhile is done as the owner of a file or folder, so that the owner has what is made there."""
    owner = os.stat(path)
    if os.geteuid() != 0 or owner.st_uid == 0:
        yield
        return
    os.setegid(owner.st_gid)
    os.seteuid(owner.st_uid)
    try:
        yield
    finally:
        os.seteuid(0)
        os.setegid(0)


@contextlib.contextmanager
def changing(path: str) -> Iterator[sqlite3.Connection]:
    """The tables of a file that no desk has open, in one transaction."""
    with as_owner_of(path), contextlib.closing(
        sqlite3.connect(path, timeout=0, isolation_level=None)
    ) as tables:
        try:
            tables.execute("BEGIN EXCLUSIVE")
        except sqlite3.OperationalError as error:
            raise Failure(f"{path}: {error}: a desk serves it, or another program has it") from None
        yield tables
        tables.execute("COMMIT")


def role_of(tables: sqlite3.Connection, caller: int) -> str | None:
    """The role of a caller who is there."""
    row = tables.execute("SELECT role FROM callers WHERE id = ?", (caller,)).fetchone()
    if row is None:
        raise Failure(f"there is no caller {caller}", WRONG_WORDS)
    return ROLES[row[0]]


def put_key(tables: sqlite3.Connection, caller: int, key: Any) -> str | None:
    role = role_of(tables, caller)
    query = "SELECT id FROM callers WHERE digest = ? AND id <> ?"
    other = tables.execute(query, (digest_of(key), caller)).fetchone()
    if other:
        raise Failure(f"caller {other[0]} has this key")
    tables.execute("UPDATE callers SET digest = ? WHERE id = ?", (digest_of(key), caller))
    return role


def add_admin(tables: sqlite3.Connection, caller: int, key: str) -> None:
    row = caller, ADMIN, digest_of(key)
    tables.execute("INSERT INTO callers (id, role, subject, digest) VALUES (?, ?, 0, ?)", row)


def make_admin(tables: sqlite3.Connection, caller: int) -> str | None:
    role = role_of(tables, caller)
    tables.execute("UPDATE callers SET role = ?, subject = 0 WHERE id = ?", (ADMIN, caller))
    return role


def forget_number(tables: sqlite3.Connection, caller: int) -> int | None:
    """The last write is forgotten, so that the numbers begin anew. The desk takes no kept write with the number 0."""
    role_of(tables, caller)
    row = tables.execute("SELECT number FROM kept WHERE caller = ?", (caller,)).fetchone()
    tables.execute("DELETE FROM kept WHERE caller = ?", (caller,))
    return row[0] if row else None
