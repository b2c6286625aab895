"""What was sent, in a file beside the tool: reminders.jsonl, to which lines are added.

A message stands there, on the disk, before its command is started. So a run that was killed sends none twice: what was
begun and has no end is in the list of those whom a person calls.
"""

import contextlib
import datetime
import fcntl
import json
import os
from collections.abc import Iterator
from dataclasses import dataclass, field
from pathlib import Path
from typing import Any

from desk_tools.reminders.settings import Wrong
from desk_tools.setup import whole_file

NAME, ANSWERS = "reminders.jsonl", "answers.jsonl"
# For so long a line stays: it has numbers and addresses of riders.
DAYS_KEPT = 60
SENT, FAILED = "sent", "failed"
UNKNOWN = "a run was cut off, so nobody knows whether it was sent"
WAITS = "its gateway was away, and no later run came to it"
NO_RUN = "No run of yesterday evening came to its end: other riders may have had no reminder."


@dataclass
class Reminder:
    """One message: of which trip, to whom, and what came of it. `result` is empty where that was not seen."""

    day: str
    trip: int
    which: str
    rider: int
    channel: str
    to: str
    at: str
    result: str = ""
    why: str = ""

    @property
    def key(self) -> str:
        """What makes two messages one."""
        return key_of(self.day, self.trip, self.which)


@dataclass(frozen=True)
class Answer:
    """What somebody sent back."""

    id: str
    sender: str
    text: str
    at: str


def key_of(day: str, trip: int, which: str) -> str:
    """The key of a trip's reminder."""
    return f"{day} {trip} {which}"


@dataclass
class Kept:
    """What the file says."""

    reminders: dict[str, Reminder] = field(default_factory=dict)
    answers: dict[str, Answer] = field(default_factory=dict)
    runs: set[tuple[str, str]] = field(default_factory=set)
    # What a run did not come to, since its gateway was away: a later run sends it.
    left: dict[str, Reminder] = field(default_factory=dict)

    def take(self, entry: dict[str, Any]) -> None:
        """Takes what a line says."""
        kind = entry.pop("kind")
        if kind == "begin":
            reminder = Reminder(**entry)
            self.reminders[reminder.key] = reminder
            self.left.pop(reminder.key, None)
        elif kind == "left":
            waiting = Reminder(**entry)
            self.left[waiting.key] = waiting
        elif kind == "end":
            reminder = self.reminders[entry["key"]]
            reminder.result, reminder.why = str(entry["result"]), str(entry["why"])
        elif kind == "answer":
            answer = Answer(**entry)
            self.answers.setdefault(answer.id, answer)
        elif kind == "run":
            self.runs.add((entry["day"], entry["which"]))
        else:
            raise ValueError(kind)

    def without_end(self) -> list[Reminder]:
        """The messages that were begun and have no end, by their trips: nobody knows whether they were sent."""
        found = [it for it in self.reminders.values() if not it.result]
        return sorted(found, key=lambda it: (it.day, it.trip, it.which))

    def to_call(self, first: datetime.date) -> list[Reminder]:
        """The messages of that day and later ones that nobody may count on."""
        begun = [it for it in self.reminders.values() if it.result != SENT]
        found = [it for it in (*begun, *self.left.values()) if it.day >= first.isoformat()]
        return sorted(found, key=lambda it: (it.day, it.trip, it.which))


def read(path: Path) -> Kept:
    """What a file says; nothing where there is none."""
    kept = Kept()
    try:
        content = path.read_bytes()
    except FileNotFoundError:
        return kept
    except OSError as error:
        raise Wrong(f"{path}: {error.strerror}") from None
    # (a program that was killed wrote a part of its last line, about something that it had not begun)
    for line in content[: content.rfind(b"\n") + 1].splitlines():
        try:
            kept.take(json.loads(line))
        except (ValueError, KeyError, TypeError, AttributeError):
            raise Wrong(
                f"{path} has a line that is none of this program's: {line[:60]!r}. Nothing is sent: "
                "who has had a message is not known"
            ) from None
    return kept


class State(Kept):
    """The file of a folder, to which this run alone adds."""

    def __init__(self, path: Path) -> None:
        held = read(path)
        super().__init__(held.reminders, held.answers, held.runs, held.left)
        self.path = path

    def add(self, **entry: Any) -> None:
        """Takes an entry, once it is on the disk."""
        line = json.dumps(entry, separators=(",", ":"), ensure_ascii=False).encode() + b"\n"
        flags = os.O_RDWR | os.O_CREAT | os.O_NOFOLLOW
        is_new = not self.path.exists()
        with open(os.open(self.path, flags, 0o600), "rb+") as file:
            # (what a killed program began goes, so that this line is one)
            _cut_half_line(file.fileno())
            file.seek(0, os.SEEK_END)
            file.write(line)
            file.flush()
            os.fsync(file.fileno())
        if is_new:
            whole_file.folder_synced(self.path.parent)
        self.take(entry)

    def begin(self, reminder: Reminder) -> None:
        """A message is about to be sent."""
        self.add(kind="begin", **_spelled(reminder))

    def leave(self, reminder: Reminder) -> None:
        """A message waits for a later run."""
        if reminder.key not in self.left:
            self.add(kind="left", **_spelled(reminder))

    def end(self, key: str, result: str, why: str = "") -> None:
        """What came of a message."""
        self.add(kind="end", key=key, result=result, why=why)

    def shorten(self, today: datetime.date) -> None:
        """Leaves out what is long past."""
        oldest = (today - datetime.timedelta(days=DAYS_KEPT)).isoformat()
        count = len(self.reminders) + len(self.left) + len(self.answers) + len(self.runs)
        self.reminders = {key: it for key, it in self.reminders.items() if it.day >= oldest}
        self.left = {key: it for key, it in self.left.items() if it.day >= oldest}
        self.answers = {key: it for key, it in self.answers.items() if it.at[:10] >= oldest}
        self.runs = {it for it in self.runs if it[0] >= oldest}
        if count > len(self.reminders) + len(self.left) + len(self.answers) + len(self.runs):
            self._rewrite()

    def _rewrite(self) -> None:
        entries: list[dict[str, Any]] = []
        for it in self.reminders.values():
            entries.append({"kind": "begin", **_spelled(it)})
            if it.result:
                entries.append({"kind": "end", "key": it.key, "result": it.result, "why": it.why})
        entries += [{"kind": "left", **_spelled(it)} for it in self.left.values()]
        entries += [{"kind": "answer", **vars(it)} for it in self.answers.values()]
        entries += [{"kind": "run", "day": day, "which": which} for day, which in sorted(self.runs)]
        lines = [json.dumps(it, separators=(",", ":"), ensure_ascii=False) for it in entries]
        new = self.path.with_name(f"{self.path.name}.new")
        flags = os.O_WRONLY | os.O_CREAT | os.O_TRUNC | os.O_NOFOLLOW
        with open(os.open(new, flags, 0o600), "wb") as file:
            file.write("".join(f"{it}\n" for it in lines).encode())
            file.flush()
            os.fsync(file.fileno())
        new.replace(self.path)
        whole_file.folder_synced(self.path.parent)


def _spelled(reminder: Reminder) -> dict[str, Any]:
    return {name: value for name, value in vars(reminder).items() if name not in ("result", "why")}


def _cut_half_line(number: int) -> None:
    """Takes away what stands behind the last line's end."""
    end = os.fstat(number).st_size
    at = end
    while at and os.pread(number, 1, at - 1) != b"\n":
        at -= 1
    if at != end:
        os.ftruncate(number, at)


@contextlib.contextmanager
def held(folder: Path, name: str = NAME) -> Iterator[State]:
    """The state of a file of the folder, which no other run has meanwhile. For answers it is waited, which is short."""
    try:
        flags = os.O_RDWR | os.O_CREAT | os.O_NOFOLLOW
        number = os.open(folder / f".{name}.lock", flags, 0o600)
    except OSError as error:
        raise Wrong(f"{folder}: {error.strerror}") from None
    try:
        fcntl.flock(number, fcntl.LOCK_EX | (0 if name == ANSWERS else fcntl.LOCK_NB))
        yield State(folder / name)
    except BlockingIOError:
        raise Wrong(f"another run is under way in {folder}") from None
    finally:
        os.close(number)
