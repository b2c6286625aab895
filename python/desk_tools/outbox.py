"""Events that a program tells the site: each is on the disk before what it is about is done, and stays until the site has it."""

import json
import os
from pathlib import Path

HELD, READY, GONE = "held", "ready", "gone"


class UnreadableOutbox(Exception):
    """A file that is no outbox: one sentence."""


class Outbox:
    """The file, to which lines are added: of each key, such as a trip's number, the path that tells its event.

    A held event is of something whose outcome is not known yet, and a ready one is told.
    """

    def __init__(self, path: Path) -> None:
        self.path = path
        self.states: dict[str, str] = {}
        self.paths: dict[str, str] = {}
        for line in self._lines():
            self._take(line)

    def _lines(self) -> list[str]:
        if not self.path.exists():
            return []
        # (a program that was killed wrote a part of its last line, about something that it had not begun)
        text = self.path.read_text("utf-8", "replace")
        return text[: text.rfind("\n") + 1].splitlines()

    def _take(self, line: str) -> None:
        try:
            entry = json.loads(line)
            key, state = entry["key"], entry["state"]
            if state not in (HELD, READY, GONE):
                raise ValueError(state)
        except (ValueError, KeyError, TypeError):
            raise UnreadableOutbox(
                f"{self.path} has a line that is none of this program's: {line[:60]!r}. Move the file away"
            ) from None
        self.states[key] = state
        self.paths[key] = entry.get("path", self.paths.get(key, ""))

    def _add(self, entry: dict[str, str]) -> None:
        line = json.dumps(entry, separators=(",", ":"))
        flags = os.O_RDWR | os.O_APPEND | os.O_CREAT
        with open(os.open(self.path, flags, 0o600), "rb+") as file:
            # (what a killed program began goes, so that this line is one)
            content = file.read()
            file.truncate(content.rfind(b"\n") + 1)
            file.write(line.encode() + b"\n")
            file.flush()
            os.fsync(file.fileno())
        self._take(line)

    def hold(self, key: str, path: str) -> None:
        """Keeps an event, before what it is about is done. One that is held already stays as it was."""
        if self.states.get(key) != HELD:
            self._add({"key": key, "state": HELD, "path": path})

    def ready(self, key: str) -> None:
        """What a held event is about was done."""
        if self.states.get(key) == HELD:
            self._add({"key": key, "state": READY})

    def drop(self, key: str) -> None:
        """What the event is about was not done, or the site has it."""
        if self.states.get(key) in (HELD, READY):
            self._add({"key": key, "state": GONE})

    def held(self) -> list[str]:
        """The keys of events whose outcome was not seen."""
        return [key for key, state in self.states.items() if state == HELD]

    def untold(self) -> dict[str, str]:
        """The keys of events that the site does not have yet, by their paths."""
        return {self.paths[key]: key for key, state in self.states.items() if state == READY}
