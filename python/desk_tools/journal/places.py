"""Where the record is, and the settings that every command of it shares."""

import fcntl
import json
import os
from collections.abc import Iterator
from contextlib import contextmanager
from dataclasses import dataclass
from datetime import datetime, timezone, tzinfo
from pathlib import Path
from zoneinfo import ZoneInfo, ZoneInfoNotFoundError

from desk_tools import agencies

MAIN = agencies.Agency()
FOLDER, AGENCY = Path(MAIN.record), Path(MAIN.names)
# The line that nginx writes to, and what it wrote before it was told to begin anew.
REQUESTS, PART = "requests", "part-"


class Wrong(Exception):
    """What is wrong with what was given: one sentence."""


@dataclass(frozen=True)
class Places:
    """The folder of one agency's record, its name on the net and its zone."""

    folder: Path
    site: str
    zone: tzinfo

    @property
    def record(self) -> Path:
        """The folder of the chained files."""
        return self.folder / "record"

    @property
    def requests(self) -> Path:
        """The file that nginx writes to."""
        return self.folder / REQUESTS

    @property
    def callers(self) -> Path:
        """Who had which number, name, role and digits, from when to when."""
        return self.folder / "callers.csv"

    @property
    def kept_callers(self) -> Path:
        """Each row that the file of the callers ever had."""
        return self.folder / "callers-kept.csv"

    def parts(self) -> list[tuple[int, Path]]:
        """What nginx wrote before and no entry holds yet, by its number."""
        found = []
        for path in self.folder.iterdir() if self.folder.is_dir() else []:
            number = path.name.removeprefix(PART)
            if path.name.startswith(PART) and number.isdecimal():
                found.append((int(number), path))
        return sorted(found)

    def today(self) -> str:
        """The day by the machine's clock in the agency's zone."""
        return datetime.now(self.zone).date().isoformat()

    @contextmanager
    def locked(self) -> Iterator[None]:
        """Sees that no other command changes the record meanwhile."""
        self.record.mkdir(mode=0o750, parents=True, exist_ok=True)
        number = os.open(self.folder / "lock", os.O_RDWR | os.O_CREAT, 0o640)
        try:
            fcntl.flock(number, fcntl.LOCK_EX)
            yield
        finally:
            os.close(number)


def agency_of(path: Path | None) -> dict[str, object]:
    """The agency's file; nothing where there is none."""
    if path is None or not path.exists():
        return {}
    try:
        found = json.loads(path.read_text(encoding="utf-8-sig"))
    except (OSError, ValueError, RecursionError) as error:
        raise Wrong(f"{path} can't be read: {error}") from None
    if not isinstance(found, dict):
        raise Wrong(f"{path} is not a JSON object")
    return found


def zone_of(agency: dict[str, object]) -> tzinfo:
    """The agency's zone; UTC where its file has none."""
    name = agency.get("zone")
    if not isinstance(name, str):
        return timezone.utc
    try:
        return ZoneInfo(name)
    except (ValueError, OSError, ZoneInfoNotFoundError):
        raise Wrong(f"the agency's zone {name!r} is none that this machine knows") from None
