"""A backup, step by step. Each step does the whole of its work, or the backup ends and nothing gets the name."""

from __future__ import annotations

import contextlib
import fcntl
import os
import shutil
import sqlite3
import time
from typing import Any
from typing import TYPE_CHECKING

from .content import check_same, check_whole, content_of, content_of_pair
from .copying import check_copy, check_folder_of, check_room, copied, give_name, size_of, synced
from .ending import WRONG_WORDS, Failure
from .halt import halted, is_stopped
from .judge import judge_or_migrate
from .pages import Malformed
from .places import program_of

if TYPE_CHECKING:
    from desk_tools.ops.places import Desk

TURNS, MOST = 10, 30
# A copy of both files, the one file that is made of them, and what the desk opens and throws away.
COPIES = 3


class Backup:
    """The backup of a desk to a new file `copy`. It is made in a folder beside it, which nobody else uses meanwhile."""

    def __init__(self, desk: Desk, copy: str, most: int = MOST) -> None:
        self.desk, self.copy, self.most = desk, os.path.abspath(copy), most
        self.folder = f"{self.copy}.part"
        self.part = f"{self.folder}/desk.db"
        self.lock: Any = None
        self.program: Any = None
        self.halt: Any = None
        self.sums: dict[str, Any] = {}
        self.at_halt: Any = None
        self.content: Any = None
        self.is_older = False

    # The steps, in their order.

    def take_folder(self) -> None:
        """A folder that a killed backup left is taken over; one that is in use is not."""
        if not os.path.isfile(self.desk.file):
            raise Failure(f"there is no {self.desk.file}", WRONG_WORDS)
        if os.path.exists(self.copy):
            raise Failure(f"{self.copy} is there already", WRONG_WORDS)
        check_folder_of(self.copy)
        with contextlib.suppress(FileExistsError):
            os.mkdir(self.folder, 0o700)
        self.lock = os.open(self.folder, os.O_RDONLY)
        try:
            fcntl.flock(self.lock, fcntl.LOCK_EX | fcntl.LOCK_NB)
        except BlockingIOError:
            os.close(self.lock)
            self.lock = None
            raise Failure(f"{self.folder} is in use by another backup") from None
        self.clear()

    def check_there_is_room(self) -> None:
        size = size_of(self.desk.file) + size_of(self.desk.log)
        check_room(self.folder, COPIES * size, f"a backup of {self.desk.file}")

    def copy_files(self) -> None:
        """Both files as they are at one moment. Where the desk ends or starts meanwhile, once more."""
        for _ in range(TURNS):
            process = self.desk.serving()
            self.program = program_of(process)
            self.clear()
            if (
                process
                and self.copied_of_running(process)
                or not process
                and self.copied_of_stopped()
            ):
                return
            time.sleep(0.5)
        raise Failure("the desk ends and starts again and again, so that no copy could be made")

    def copied_of_running(self, process: int) -> bool | None:
        try:
            with halted(process, self.most) as self.halt:
                self.copy_both()
                # (one that was killed meanwhile may be served by the next already)
                is_at_halt = is_stopped(process)
        except ProcessLookupError:
            return False
        return is_at_halt

    def copied_of_stopped(self) -> bool:
        self.halt = None
        self.copy_both()
        return not self.desk.process()

    def copy_both(self) -> None:
        self.sums = {self.part: copied(self.desk.file, self.part)}
        if os.path.exists(self.desk.log):
            self.sums[f"{self.part}-wal"] = copied(self.desk.log, f"{self.part}-wal")

    def check_bytes(self) -> None:
        """The copies hold, on the disk, what was read at that moment."""
        for path, said in self.sums.items():
            check_copy(path, said)

    def count_rows(self) -> None:
        self.at_halt = content_of_pair(self.part)

    def make_one_file(self) -> None:
        """SQLite puts what the log has into the file, and says that it was all of it."""
        with contextlib.closing(sqlite3.connect(self.part)) as connection:
            try:
                busy, *_ = connection.execute("PRAGMA wal_checkpoint(TRUNCATE)").fetchone()
            except sqlite3.DatabaseError as error:
                raise Malformed(f"{self.part} is malformed: {error}") from None
        if busy or size_of(f"{self.part}-wal"):
            raise Failure(f"what {self.part}-wal has was not put into {self.part}")
        for end in ("-wal", "-shm"):
            with contextlib.suppress(FileNotFoundError):
                os.remove(f"{self.part}{end}")
        synced(self.part)

    def check_rows(self) -> None:
        """The one file has as many rows as the two had, and the same last numbers."""
        self.content = content_of(self.part)
        check_same(self.at_halt, self.content, self.copy)
        check_whole(self.part)

    def ask_desk(self) -> None:
        self.is_older = judge_or_migrate(self.program, self.part)

    def name_it(self) -> None:
        give_name(self.part, self.copy)

    STEPS = tuple(
        """
        take_folder check_there_is_room copy_files check_bytes count_rows make_one_file check_rows
        ask_desk name_it
        """.split()
    )

    # How it ends.

    def make(self) -> Backup:
        before = os.umask(0o077)
        try:
            for step in self.STEPS:
                getattr(self, step)()
        finally:
            os.umask(before)
            self.leave()
        return self

    def clear(self) -> None:
        for name in os.listdir(self.folder):
            path = f"{self.folder}/{name}"
            if os.path.isdir(path) and not os.path.islink(path):
                shutil.rmtree(path)
            else:
                os.remove(path)

    def leave(self) -> None:
        if self.lock is not None:
            shutil.rmtree(self.folder, ignore_errors=True)
            os.close(self.lock)

    def told(self) -> str:
        """Two lines: what the copy has, and how it was made."""
        older = "; its version is an older one, which `desk migrate` takes" if self.is_older else ""
        pause = (
            f"the desk stood still for {self.halt.milliseconds} milliseconds, since {self.halt.since:.6f}"
            if self.halt
            else "the desk was not running"
        )
        return f"{self.copy} has {self.content.told()}{older}\n{self.copy} is whole; {pause}"
