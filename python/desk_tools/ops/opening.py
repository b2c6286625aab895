"""The second machine opens the desk: the first is fenced and sends what it has at rest, and this one serves that.

Whatever fails leaves somebody serving: the first machine goes on where this one could not begin.
"""

from __future__ import annotations

import contextlib
import datetime
import json
import os
import sys
import time
from collections.abc import Callable
from pathlib import Path
from typing import Any, TYPE_CHECKING

from . import standby
from .answering import NotServing
from .content import counted, summary_of
from .copying import check_room, size_of, synced
from .ending import WRONG_WORDS, Failure, pass_over_signals, sentence_of
from .locking import alone
from .places import program_to_start
from .restoring import COPIES, Restore
from .retention import copies_in, moment_of
from .zones import check_zone

if TYPE_CHECKING:
    from desk_tools.ops.places import Desk

FLAG, WORD = "--without-last-copy", "open"
# With less than that no copy finds room.
LEAST_ROOM = 1 << 20


def missing_rows(newer: dict[str, Any], older: dict[str, Any]) -> list[str]:
    """Which writes of the first summary the second has not: rows by table, and callers whose last write differs."""
    words = [
        counted(newer["counts"][it] - older["counts"].get(it, 0), "row") + f" of {it}"
        for it in newer["counts"]
        if newer["counts"][it] != older["counts"].get(it, 0)
    ]
    callers = [it for it, number in newer["kept"].items() if older["kept"].get(it) != number]
    words += (
        [f"writes of caller{'' if len(callers) == 1 else 's'} {', '.join(callers)}"]
        if callers
        else []
    )
    return words


def told_minutes(since: datetime.datetime, until: datetime.datetime) -> str:
    minutes = max(0, (until - since).total_seconds()) / 60
    return f"{minutes:.0f} minutes" if minutes >= 1.5 else f"{minutes * 60:.0f} seconds"


class Opening:
    """The desk of this machine serves the newest copy of a folder. `agreed` is whether it may be one that lacks writes.
    `say` tells a line as soon as it is so."""

    def __init__(
        self,
        desk: Desk,
        folder: str,
        settings: standby.Settings,
        first: str | None = None,
        first_is_off: bool = False,
        agreed: bool = False,
        say: Callable[..., Any] = lambda _: None,
    ) -> None:
        self.desk, self.folder, self.settings = desk, folder, settings
        self.first, self.first_is_off, self.agreed = first, first_is_off, agreed
        self.answer: Any = None
        self.fence_before: str | None = None
        self.copy: str | None = None
        self.is_fenced_by_us = self.is_marked = False
        self.say = say
        self.since: float | None = None
        self.told: list[str] = []

    def tell(self, *lines: str) -> None:
        for it in lines:
            self.told.append(it)
            self.say(it)

    def make(self) -> None:
        if not os.path.isdir(f"{self.folder}/copies"):
            raise Failure(
                f"{self.folder}/copies has no copy: nothing was changed, and who served before serves on"
            )
        with alone(
            f"{self.folder}/copies",
            2,
            "somebody else opens the desk on this machine at this moment",
        ):
            self.check_beforehand()
            try:
                self.stop_first()
                self.serve()
            except BaseException as error:
                pass_over_signals()
                raise Failure(
                    f"{sentence_of(error)}; {self.given_back()}", getattr(error, "status", 1)
                ) from None

    # Beforehand: nothing is changed.

    def check_beforehand(self) -> None:
        copies = self.copies()
        if not copies:
            room = os.statvfs(self.folder)
            full = ", and its disk is full" if room.f_frsize * room.f_bavail < LEAST_ROOM else ""
            raise Failure(
                f"{self.folder}/copies has no copy{full}: nothing was changed, and who served before serves on"
            )
        if standby.is_opened(self.folder) and not self.was_cut_off():
            raise Failure(
                f"this machine has opened the desk already: {self.folder}/{standby.OPENED} says when. If it does "
                f"not run, say systemctl start {self.desk.unit}. To put a copy in place of what it has written "
                "since, run deploy/restore"
            )
        if not self.first and not self.first_is_off:
            raise Failure(
                "name the first machine by --first, or say --first-is-off once its power or its network is "
                "gone",
                WRONG_WORDS,
            )
        program_to_start()
        check_zone(self.desk)
        check_room(
            self.desk.folder,
            COPIES * size_of(f"{self.folder}/copies/{copies[0]}"),
            "opening the newest copy",
        )

    def was_cut_off(self) -> bool:
        """Whether an opening was killed before the copy was in its place: then nothing was served here, and this goes on."""
        try:
            with open(f"{self.folder}/{standby.OPENED}", encoding="utf-8") as file:
                return json.load(file).get("placed") is False
        except (OSError, ValueError, AttributeError):
            return False

    def copies(self) -> list[str]:
        return copies_in(os.listdir(f"{self.folder}/copies"))

    # The first machine.

    def words(self, *words: str) -> list[str]:
        return [*words, *self.desk.agency.words]

    def stop_first(self) -> None:
        """The first machine serves no longer. Its answer says whether its last copy was sent."""
        if not self.first:
            self.tell("the first machine is off, as was said; it fences itself when it is back")
            return
        begun = time.monotonic()
        try:
            said = self.settings.told(str(self.first), *self.words("fence", "--answer"))
        except standby.NotTold as failure:
            # (it may be fenced, where the line broke before it answered)
            self.is_fenced_by_us = failure.is_reached
            if self.first_is_off:
                self.tell(
                    f"{failure}; the first machine is off, as was said; it fences itself when it is back"
                )
                return
            if failure.is_reached:
                raise Failure(
                    f"{self.first} did not answer whether it is fenced ({failure})"
                ) from None
            raise Failure(
                f"{self.first} could not be fenced ({failure}): take its power or its network away, and say "
                "--first-is-off"
            ) from None
        self.is_fenced_by_us, self.since = True, begun
        self.answer = answer_in(said)
        self.tell(f"{self.first} is fenced and serves no longer")

    # The copy.

    def serve(self) -> None:
        """The newest copy that opens is served. One that lacks writes is agreed to first."""
        complete, refused = self.complete_copy(), list[str]()
        for name in self.copies():
            if name != complete:
                self.agree_to_lose(name, refused)
            try:
                restored = self.restored(f"{self.folder}/copies/{name}")
            except NotServing:
                # (another copy would not serve either)
                raise
            except Failure as failure:
                refused.append(f"{name} could not be opened: {failure}")
                continue
            self.tell(*refused, *restored.told().splitlines(), *self.enabled())
            return
        raise Failure("; ".join(refused))

    def complete_copy(self) -> str | None:
        """The copy that has all that the first machine answered, or None. What is known of it is told."""
        if not self.answer:
            return None
        for name in self.copies()[: standby.TURN]:
            if standby.digest_of(f"{self.folder}/copies/{name}") == self.answer["sent"]:
                self.tell(
                    f"its last copy, of after it had stopped, came as {name}: no write is missing"
                )
                return name
        newest = self.copies()[0]
        if self.answer["content"] and self.answer["content"] == summary_of(
            f"{self.folder}/copies/{newest}"
        ):
            self.tell(
                f"its last copy did not come ({self.answer['why']}), but {newest} has all of its writes"
            )
            return newest
        return None

    def what_is_missing(self, name: str) -> str:
        """How long and which writes a copy lacks, in words."""
        since = moment_of(name)
        until = moment_in(self.answer) if self.answer else datetime.datetime.utcnow()
        told = [
            f"{name} lacks what was answered from {since:%Y-%m-%d %H:%M:%S} to {until:%H:%M:%S} UTC, "
            f"{told_minutes(since, until)}"
        ]
        if self.answer and self.answer["why"]:
            told.append(f"the last copy did not come ({self.answer['why']})")
        if self.answer and self.answer["content"]:
            rows = missing_rows(self.answer["content"], summary_of(f"{self.folder}/copies/{name}"))
            told.append(f"missing are {', '.join(rows)}" if rows else "no row is missing by count")
        else:
            told.append("which writes these are is known on the first machine alone")
        return "; ".join(told)

    def agree_to_lose(self, name: str, refused: list[str]) -> None:
        """A person agrees to a copy that lacks writes, by a word or by the flag."""
        missing = "; ".join([*refused, self.what_is_missing(name)])
        if self.agreed:
            self.tell(missing)
            return
        if sys.stdin.isatty():
            print(f"deploy/standby: {missing}", flush=True)
            if input(f'Type "{WORD}" to open it all the same: ').strip() == WORD:
                self.tell(missing)
                return
        raise Failure(f"{missing}. To open it all the same, say {FLAG}")

    def restored(self, copy: str) -> Restore:
        """From the mark on the first machine is told so, whenever it asks. An old file of this machine never serves."""
        self.mark_opened(False)
        with contextlib.suppress(FileNotFoundError):
            self.fence_before = Path(self.desk.fence).read_text("utf-8")
            os.remove(self.desk.fence)
        self.copy = os.path.basename(copy)
        return Restore(
            self.desk,
            copy,
            migrate=True,
            another=True,
            starts_old=False,
            is_placed=lambda: self.mark_opened(True),
            since=self.since,
        ).make()

    def mark_opened(self, is_placed: bool) -> None:
        path = f"{self.folder}/{standby.OPENED}"
        said = {
            "at": f"{datetime.datetime.utcnow():%Y-%m-%dT%H:%M:%SZ}",
            "how": self.told[0],
            "fence": self.desk.fence,
            "placed": is_placed,
            "copy": self.copy,
        }
        Path(f"{path}.new").write_text(json.dumps(said), "utf-8")
        # (the user who takes the copies reads it)
        os.chmod(f"{path}.new", 0o644)
        synced(f"{path}.new")
        os.rename(f"{path}.new", path)
        self.is_marked = True
        synced(self.folder)

    def enabled(self) -> list[Any]:
        """The desk and what looks after it begin at each start of this machine."""
        try:
            self.desk.enable()
            return []
        except Exception as error:  # (the desk serves; this is told, and undoes nothing)
            return [f"the units are not enabled: {sentence_of(error)}"]

    # Back.

    def given_back(self) -> str:
        """This machine does not serve, and the first one does again; who serves, in words."""
        if self.is_marked:
            with contextlib.suppress(FileNotFoundError):
                os.remove(f"{self.folder}/{standby.OPENED}")
        if self.fence_before is not None:
            Path(self.desk.fence).write_text(self.fence_before, "utf-8")
        if not self.is_fenced_by_us:
            return "this machine does not serve, and nothing was done to the first machine" + (
                ", which is off, as was said" if self.first_is_off else ""
            )
        try:
            self.settings.told(str(self.first), *self.words("fence", "--undo"))
            return f"{self.first} serves again"
        except Failure as failure:
            return (
                f"this machine does not serve, and it is not known whether {self.first} serves ({failure}). It serves "
                "again by itself once the line is back. To have it serve at once, say there, as root: "
                f"{self.settings.script} {' '.join(self.words('fence', '--undo'))}. To serve here, take its power or its "
                "network away, and say --first-is-off"
            )


def answer_in(said: str) -> dict[str, Any]:
    """The first machine's answer. One of an earlier version says less."""
    try:
        found = json.loads(said.splitlines()[-1])
        return {it: found[it] for it in ("at", "sent", "why", "content")}
    except (ValueError, KeyError, TypeError, IndexError):
        now = f"{datetime.datetime.utcnow():%Y-%m-%dT%H:%M:%SZ}"
        return {
            "at": now,
            "sent": None,
            "why": "the first machine's scripts are of an earlier version",
            "content": None,
        }


def moment_in(answer: dict[str, Any]) -> datetime.datetime:
    return datetime.datetime.strptime(answer["at"], "%Y-%m-%dT%H:%M:%SZ")
