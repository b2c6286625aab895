"""A database as it is in its two files, read without opening either: the pages of the file with those of its log over
them.

So nothing is written, no lock is taken, and no third file is left beside them. Any file that is read is a copy, or a
stopped desk's.
"""

from __future__ import annotations

import sqlite3
import struct
from typing import Any

from .ending import Failure

FILE_HEAD = b"SQLite format 3\0"
LOG_HEAD, FRAME_HEAD = 32, 24
LITTLE, BIG = 0x377F0682, 0x377F0683
LOG_FORMAT = 3007000


class Malformed(Failure):
    """A file is no sound database, for the reason that is told."""


def page_size_of(content: bytes, name: str) -> int:
    """The length of a page, by the head of a database."""
    if len(content) < 100 or content[:16] != FILE_HEAD:
        raise Malformed(f"{name} is malformed: it does not begin as an SQLite database does")
    size = int.from_bytes(content[16:18], "big")
    return 65536 if size == 1 else size


def checksum(words: tuple[int, ...] | tuple[int, int], before: Any) -> tuple[int, int]:
    """The checksum of a log over these words, after that one."""
    first, second = before
    for at in range(0, len(words), 2):
        first = (first + words[at] + second) & 0xFFFFFFFF
        second = (second + words[at + 1] + first) & 0xFFFFFFFF
    return first, second


def log_head(log: bytes) -> tuple[str, int] | None:
    """The order of bytes and the length of a page of a log, or None where it has no sound head."""
    if len(log) < LOG_HEAD:
        return None
    magic, version, size, *_ = struct.unpack(">3I", log[:12])
    if magic not in (LITTLE, BIG) or version != LOG_FORMAT:
        return None
    order = "<" if magic == LITTLE else ">"
    if checksum(struct.unpack(f"{order}6I", log[:24]), (0, 0)) != struct.unpack(">2I", log[24:32]):
        return None
    return order, size


def committed(log: bytes, size: Any) -> tuple[dict[int, int], int | None]:
    """Where the log has pages, up to its last whole commit, and how many pages the database then has."""
    head = log_head(log)
    if head is None or head[1] != size:
        return {}, None
    order, salts = head[0], log[16:24]
    before, pages, kept, count = struct.unpack(">2I", log[24:32]), {}, {}, None
    for at in range(LOG_HEAD, len(log) - FRAME_HEAD - size + 1, FRAME_HEAD + size):
        number, commits, *_ = struct.unpack(">2I", log[at : at + 8])
        body = at + FRAME_HEAD
        before = checksum(struct.unpack(f"{order}2I", log[at : at + 8]), before)
        before = checksum(struct.unpack(f"{order}{size // 4}I", log[body : body + size]), before)
        if (
            log[at + 8 : at + 16] != salts
            or struct.unpack(">2I", log[at + 16 : at + 24]) != before
            or not number
        ):
            break
        pages[number] = body
        if commits:
            kept, count = dict(pages), commits
    return kept, count


def merged(content: bytes, log: bytes, name: str) -> bytes:
    """The bytes of the one file that the two make."""
    size = page_size_of(content, name)
    pages, count = committed(log, size)
    whole = bytearray(content)
    if count is not None:
        whole.extend(bytes(max(0, count * size - len(whole))))
        del whole[count * size :]
        for number, body in pages.items():
            whole[(number - 1) * size : number * size] = log[body : body + size]
    # (in memory there is no log: what the head says of it is put back to none)
    whole[18:20] = b"\1\1"
    return bytes(whole)


def bytes_of(path: str) -> bytes:
    try:
        with open(path, "rb") as file:
            return file.read()
    except FileNotFoundError:
        return b""


def in_memory(file: str) -> sqlite3.Connection:
    """A connection to what the file and its log have, in memory."""
    content = merged(bytes_of(file), bytes_of(f"{file}-wal"), file)
    connection = sqlite3.connect(":memory:")
    try:
        connection.deserialize(content)
        connection.execute("PRAGMA query_only = 1")
        connection.execute("SELECT count(*) FROM sqlite_master").fetchall()
    except sqlite3.Error as error:
        connection.close()
        raise Malformed(f"{file} is malformed: {error}") from None
    return connection
