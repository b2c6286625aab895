"""Callers of the file that a restore replaces, beside those of the backup."""

from __future__ import annotations

import contextlib
import sqlite3

from desk_tools import keys_of_then, theft
from .ending import Failure
from .pages import in_memory


def callers_of_pair(file: str) -> dict[int, theft.Caller] | None:
    """The callers of a file and its log, by number, or None where these cannot be read."""
    try:
        with contextlib.closing(in_memory(file)) as tables:
            return theft.callers_of(tables)
    except (Failure, OSError, sqlite3.Error, IndexError):
        return None


def told(before: dict[int, theft.Caller] | None, then: dict[int, theft.Caller]) -> list[str]:
    """What to say of keys, line by line. `before` is None where the file that was replaced cannot be read."""
    if before is None:
        return [keys_of_then.UNKNOWN]
    lines = keys_of_then.lines_of(before, then)
    return (
        [f"{len(lines)} callers have other keys or roles than before the restore:", *lines]
        if len(lines) > 1
        else lines
    )
