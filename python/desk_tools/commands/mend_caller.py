#!/usr/bin/env python3
"""deploy/mend-caller: lets a caller in again whom the desk itself cannot let in, while the desk is stopped.

    mend-caller key CALLER KEYFILE    gives the caller the key in KEYFILE, which is made where it is not there
    mend-caller admin CALLER          makes the caller an admin again
    mend-caller number CALLER         forgets the caller's last write, whose number was too high: numbers begin anew

It stops the desk, changes the caller in the file, and starts the desk again in any case. --agency AGENCY is for one of
several. The environment may give FILE, the database, and STOP and START, the commands that stop and start the desk.
"""

from __future__ import annotations

import argparse
import os
import sqlite3
import sys

from desk_tools.arguments import usage_of
from desk_tools.ops import interrupted
from desk_tools.ops.ending import Failure, run_script, WRONG_WORDS
from desk_tools.ops.keys import changing, forget_number, key_made_or_in, make_admin, put_key
from desk_tools.ops.places import Desk


def mended(tables: sqlite3.Connection, given: argparse.Namespace, key: str | None) -> str:
    """Does what is asked; the sentence that says so."""
    caller = given.caller
    if given.what == "key":
        role = put_key(tables, caller, key)
        return f"caller {caller}, {role}, has the key in {given.keyfile}"
    if given.what == "admin":
        return f"caller {caller} was {make_admin(tables, caller)} and is admin"
    number = forget_number(tables, caller)
    return (
        f"caller {caller}: there is no write to forget"
        if number is None
        else f"caller {caller}: the write with the number {number} is forgotten; do not send it once more"
    )


def mended_while_stopped(desk: Desk, given: argparse.Namespace, key: str | None) -> str:
    """The desk is stopped, and started again in any case. Where this is killed in the middle, the watch starts it."""
    note = interrupted.Note(desk, "deploy/mend-caller")
    try:
        desk.stop()
        with changing(desk.file) as tables:
            return mended(tables, given, key)
    finally:
        try:
            desk.start_until_it_serves()
        finally:
            note.remove()


def main(words: list[str]) -> None:
    usage = usage_of("deploy/mend-caller", __doc__)
    usage.takes("what", choices=["key", "admin", "number"])
    usage.takes("caller CALLER", "the caller's number", type=int)
    usage.takes("keyfile KEYFILE", "the file of the key", nargs="?")
    usage.takes("--agency", "the agency's short name (main)")
    given = usage.parse_args(words)
    if (given.what == "key") != (given.keyfile is not None):
        raise Failure("`key` takes a KEYFILE, and nothing else does", WRONG_WORDS)
    desk = Desk(given.agency)
    if not os.path.isdir(desk.folder):
        raise Failure(f"there is no {desk.file}", WRONG_WORDS)
    with interrupted.one_at_a_time(desk):
        if interrupted.put_right(desk) is False:
            raise Failure(
                "a restore was killed here, and nothing serves: give that command again first"
            )
        if not os.path.isfile(desk.file):
            raise Failure(f"there is no {desk.file}", WRONG_WORDS)
        said = mended_while_stopped(
            desk, given, key_made_or_in(given.keyfile) if given.keyfile else None
        )
    print(f"deploy/mend-caller: {said}")


if __name__ == "__main__":
    sys.exit(run_script("mend-caller", main, sys.argv[1:]))
