"""The desk itself as the judge of a copy: it opens it, looks at each row, and says what it found."""

from __future__ import annotations

import os
import re
import secrets
import shutil
import subprocess

from .content import TABLES
from .copying import check_copy, copied, folder_within
from .ending import Failure

ANY_ZONE, ANY_DAY = "UTC0", "2000-01-01"
DENIED, NO_STORE = 1, 3
FAULT = re.compile(r"fault (\d+) row (\d+)")
MEMORY, OTHER_TABLES, UNSOUND, STORE = 0, 30, 31, 32


class Refused(Failure):
    """The desk does not open a file; with the code of its fault."""

    def __init__(self, sentence: str, code: int) -> None:
        super().__init__(sentence)
        self.code = code


def sentence_of(code: int, row: int) -> str:
    """What a fault says, in words."""
    if code == UNSOUND and 1 <= row <= len(TABLES):
        return (
            f"the rows of table {TABLES[row - 1]} are those of no sound state (fault 31 row {row})"
        )
    return {
        MEMORY: "the machine has too little memory free (fault 0)",
        OTHER_TABLES: "its tables are not the desk's, or of another version (fault 30)",
        STORE: "the store refuses it (fault 32)",
    }.get(code, f"fault {code} row {row}")


def ask(program: str, file: str) -> None:
    """Has the desk open a throw-away file. The key is nobody's, so it is denied once the file is open."""
    told = subprocess.run(
        [program, "trips", file, ANY_ZONE, secrets.token_hex(16), ANY_DAY],
        capture_output=True,
        text=True,
        stdin=subprocess.DEVNULL,
    )
    if told.returncode == DENIED and told.stdout == "desk.key\n":
        return
    fault = FAULT.search(told.stderr)
    if told.returncode == NO_STORE and fault:
        code, row = int(fault[1]), int(fault[2])
        raise Refused(f"the desk does not open the copy: {sentence_of(code, row)}", code)
    raise Failure(
        f"the desk ended with status {told.returncode} where it should open the copy: {told.stderr.strip()}"
    )


def judge(program: str, file: str) -> None:
    """The desk opens a copy of the file. Nothing is left beside the file, and it is not touched."""
    with folder_within(os.path.dirname(os.path.abspath(file)), ".judged-") as folder:
        throw_away = f"{folder}/desk.db"
        check_copy(throw_away, copied(file, throw_away))
        ask(program, throw_away)


def judge_or_migrate(program: str, file: str) -> bool:
    """The same; a file of an older version is judged as what `desk migrate` makes of it. Whether it was migrated."""
    try:
        judge(program, file)
        return False
    except Refused as refused:
        if refused.code != OTHER_TABLES:
            raise
        first = refused
    with folder_within(os.path.dirname(os.path.abspath(file)), ".judged-") as folder:
        throw_away = f"{folder}/desk.db"
        shutil.copyfile(file, throw_away)
        if not migrated(program, throw_away):
            raise first
        ask(program, throw_away)
    return True


def migrated(program: str, file: str) -> bool:
    """Whether `desk migrate` takes the file."""
    told = subprocess.run(
        [program, "migrate", file], capture_output=True, text=True, stdin=subprocess.DEVNULL
    )
    return told.returncode == 0
