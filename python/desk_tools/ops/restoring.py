"""A backup in the database's place.

All that can be tried is tried while the desk still runs. Where a later step fails, all is put back.
"""

from __future__ import annotations

import contextlib
import os
import secrets
import shutil
import sqlite3
import subprocess
import time
from collections.abc import Callable
from typing import Any
from typing import TYPE_CHECKING

from . import interrupted, keys_of_then
from .content import check_whole, content_of
from .copying import check_copy, check_room, copied, folder_within, size_of, summed, synced
from .ending import WRONG_WORDS, Failure, pass_over_signals, sentence_of
from .judge import judge_or_migrate, migrated
from .places import program_to_start
from .zones import check_zone

if TYPE_CHECKING:
    from desk_tools.ops.content import Content
    from desk_tools.ops.places import Desk

EMPTY_LOG = 41
# The new file, what the desk opens and throws away, and what SQLite writes as it goes.
COPIES = 3
SERVES, SILENT = (
    "the desk serves the file of before again",
    "the file of before is in its place again, and the desk does not serve it",
)


def check_backup(copy: str) -> None:
    """The backup is one file, whose log has nothing."""
    if not os.path.isfile(copy):
        raise Failure(f"there is no backup {copy}", WRONG_WORDS)
    if size_of(f"{copy}-wal") > EMPTY_LOG:
        raise Failure(
            f"{copy} has a log beside it, {copy}-wal: make one file of both first, as BACKUPS.md says of a "
            f"snapshot"
        )


def prepared(copy: str, folder: str, program: str, migrate: bool) -> tuple[str, Content]:
    """A checked copy of the backup in a folder: its path and content."""
    file = f"{folder}/desk.db"
    said = copied(copy, file)
    check_copy(file, said)
    try:
        content = content_of(file)
        check_whole(file)
    except Failure as failure:
        # (the person named the backup, and never the copy of it)
        raise type(failure)(str(failure).replace(file, copy), failure.status) from None
    if judge_or_migrate(program, file):
        if not migrate:
            raise Failure(
                f"{copy} is of version {content.version}, and the program of a later one: say --migrate"
            )
        if not migrated(program, file):
            raise Failure(f"{copy} could not be migrated")
        file, content = settled(file)
    return file, content


def settled(file: str) -> tuple[str, Content]:
    """A file whose log is put into it."""
    with contextlib.closing(sqlite3.connect(file)) as connection:
        connection.execute("PRAGMA wal_checkpoint(TRUNCATE)").fetchone()
    for end in ("-wal", "-shm"):
        with contextlib.suppress(FileNotFoundError):
            os.remove(f"{file}{end}")
    synced(file)
    return file, content_of(file)


class Restore:
    """Puts the backup `copy` in the place of the database of a desk.

    `starts_old` is whether the old file is served again where this fails: not where another machine has served since.
    `is_placed` is called once the backup is in its place, and before the desk starts. `since` is the moment of
    time.monotonic() from which on the office is without the desk, where that is before this one stops it.
    """

    def __init__(
        self,
        desk: Desk,
        copy: str,
        migrate: bool = False,
        another: bool = False,
        starts_old: bool = True,
        is_placed: Callable[..., Any] = lambda: None,
        since: float | None = None,
    ) -> None:
        self.desk, self.copy = desk, os.path.abspath(copy)
        self.migrate, self.another, self.starts_old, self.is_placed = (
            migrate,
            another,
            starts_old,
            is_placed,
        )
        self.since = since
        self.kept: Any = None
        self.note: Any = None
        self.moved: list[str] = []
        self.placed = self.stopped = False
        self.is_compared = True
        self.content: Any = None
        self.callers_before: Any = None
        self.callers_then: Any = None
        self.seconds = 0.0

    def make(self) -> Restore:
        check_backup(self.copy)
        if not os.path.isdir(self.desk.folder):
            raise Failure(
                f"there is no folder {self.desk.folder}: set the machine up first, as README.md says"
            )
        check_zone(self.desk)
        with interrupted.one_at_a_time(self.desk):
            interrupted.put_right(self.desk)
            self.prepare_and_replace()
        return self

    def prepare_and_replace(self) -> None:
        check_room(self.desk.folder, COPIES * size_of(self.copy), "restoring this backup")
        program = program_to_start(self.desk.process())
        before = os.umask(0o077)
        try:
            # (nobody else restores here meanwhile: what is left has no process, however young it is)
            with folder_within(self.desk.folder, ".restored-", left_for=0) as folder:
                file, self.content = prepared(self.copy, folder, program, self.migrate)
                self.callers_then = keys_of_then.callers_of_pair(file)
                self.replace(file)
        finally:
            os.umask(before)

    def replace(self, file: str) -> None:
        """The part in which the office is without the desk."""
        begun = time.monotonic() if self.since is None else self.since
        try:
            kept = (
                f"{self.desk.folder}/before-{time.strftime('%Y%m%d-%H%M%S')}-{secrets.token_hex(4)}"
            )
            self.note = interrupted.Note(self.desk, "a restore", kept, self.starts_old)
            self.stopped = True
            self.desk.stop()
            self.check_agency()
            self.put_aside(kept)
            self.put_in_place(file)
            self.is_placed()
            self.note.is_placed()
            self.desk.start_until_it_serves()
            self.note.remove()
        except BaseException as error:
            who_serves = self.put_back()
            if not who_serves:
                raise
            kind = type(error) if isinstance(error, Failure) else Failure
            raise kind(f"{sentence_of(error)}; {who_serves}", getattr(error, "status", 1)) from None
        self.seconds = time.monotonic() - begun

    def check_agency(self) -> None:
        """The backup is of the agency whose database is there."""
        if self.desk.is_served():
            raise Failure("the desk did not stop")
        if not os.path.exists(self.desk.file):
            return
        self.callers_before = keys_of_then.callers_of_pair(self.desk.file)
        self.is_compared = self.callers_before is not None
        digests = {it.digest for it in (self.callers_before or {}).values()}
        if digests and not digests & self.content.callers and not self.another:
            raise Failure(
                f"{self.copy} is another agency's: no caller of it is one of {self.desk.file}; "
                "if that is meant, say --another"
            )

    def put_aside(self, kept: str) -> None:
        """What is there goes into a folder of its own, the log with it: it would be taken for the new file's."""
        there = [
            it
            for it in (self.desk.file, self.desk.log, f"{self.desk.file}-shm")
            if os.path.exists(it)
        ]
        if not there:
            return
        os.mkdir(kept, 0o700)
        self.kept = kept
        for path in there:
            os.rename(path, f"{self.kept}/{os.path.basename(path)}")
            self.moved.append(path)
        self.give_owner(self.kept, *(f"{self.kept}/{os.path.basename(it)}" for it in there))
        synced(self.kept)

    def put_in_place(self, file: str) -> None:
        os.chmod(file, 0o600)
        self.give_owner(file)
        os.rename(file, self.desk.file)
        self.placed = True
        synced(self.desk.folder)
        if summed(self.desk.file)[0] == 0:
            raise Failure(f"{self.desk.file} is empty")

    def give_owner(self, *paths: str) -> None:
        owner = os.stat(self.desk.folder)
        if os.geteuid() == 0:
            for path in paths:
                os.chown(path, owner.st_uid, owner.st_gid)

    def put_back(self) -> str:
        """The old file is there again, and the desk runs as before."""
        pass_over_signals()
        if self.placed:
            with contextlib.suppress(Exception):
                self.desk.stop()
            for path in (self.desk.file, self.desk.log):
                with contextlib.suppress(FileNotFoundError):
                    os.remove(path)
        # (the file itself last: one that is there has its log beside it)
        for path in reversed(self.moved):
            os.rename(f"{self.kept}/{os.path.basename(path)}", path)
        if self.kept:
            shutil.rmtree(self.kept, ignore_errors=True)
        return self.served_again()

    def served_again(self) -> str:
        """The old file is served again, where it may be; who serves, in words, or nothing where the caller says it."""
        try:
            if not self.stopped or not self.starts_old:
                return ""
            if not os.path.exists(self.desk.file):
                return "there is no database, as before, and nothing serves"
            try:
                self.desk.start_until_it_serves()
            except (Failure, OSError, subprocess.SubprocessError) as error:
                return f"{SILENT} ({sentence_of(error)})"
            return SERVES
        finally:
            if self.note:
                self.note.remove()

    def told(self) -> str:
        kept = f"; what was there is in {self.kept}" if self.kept else ""
        kept += (
            ""
            if self.is_compared
            else ", and could not be read, so whether it is the same agency's is not known"
        )
        opening = ", until it answered" if self.desk.is_asked() else ", beside its opening"
        return "\n".join(
            [
                f"{self.copy} has {self.content.told()}",
                f"{self.desk.file} is that backup now{kept}; the office was "
                f"without the desk for {self.seconds:.1f} seconds{opening}",
                *self.keys_of_then(),
            ]
        )

    def keys_of_then(self) -> list[str]:
        """The keys that hold again, or no longer, since the restore; a line each, and what to do."""
        return keys_of_then.told(self.callers_before, self.callers_then) if self.kept else []

    def keys_not_known(self) -> list[str]:
        """What to say of keys where no file was there to compare: it may have been lost after a stolen key was replaced."""
        return [] if self.kept else keys_of_then.told(None, self.callers_then)
