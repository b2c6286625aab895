"""How long each kind of record is kept, and what is removed when its time is over."""

import contextlib
import logging
import os
from collections.abc import Iterator
from dataclasses import dataclass
from datetime import date, timedelta
from pathlib import Path

from desk_tools.journal import chain, lines, taking
from desk_tools.journal.lengths import DEFAULTS, HOLD, days_of, hold_of
from desk_tools.journal.places import Places, Wrong
from desk_tools.setup import whole_file

LOG = logging.getLogger("journal")
# However wrong a clock is, one night removes no more days of the record than this.
MOST_DAYS, MOST_BEHIND = 31, 2
BY_AGENCY = "by agency.json"
# The pattern of all files of a folder and of those in it.
ALL = "**"
LINKED = "where nothing is removed"


@dataclass(frozen=True)
class Rule:
    """For how many days a kind is kept."""

    kind: str
    days: int
    why: str


def rules_of(agency: dict[str, object]) -> list[Rule]:
    """The agency's rules, with the defaults where it has none."""
    given = agency.get("retention", {})
    if not isinstance(given, dict):
        raise Wrong("retention: not an object")
    for name in given:
        if name not in DEFAULTS and name != HOLD:
            kinds = ", ".join([*DEFAULTS, HOLD])
            raise Wrong(f"retention.{name}: there is no such kind; there are {kinds}")
    try:
        return [
            Rule(kind, days_of(kind, given[kind]), BY_AGENCY)
            if kind in given
            else Rule(kind, days, why)
            for kind, (days, why) in DEFAULTS.items()
        ]
    except ValueError as error:
        raise Wrong(f"retention: {error}") from None


def hold_in(agency: dict[str, object]) -> str:
    """Why nothing is to be removed now; empty where nothing stops it."""
    given = agency.get("retention", {})
    if not isinstance(given, dict) or HOLD not in given:
        return ""
    try:
        return hold_of(given[HOLD])
    except ValueError as error:
        raise Wrong(f"retention.{HOLD}: {error}") from None


def age(path: Path, today: date) -> int:
    """How many days ago the file was last changed, by its own moment."""
    return (today - date.fromtimestamp(path.stat().st_mtime)).days


def last_day(places: Places) -> date:
    """The day of the record's last entry that has a moment."""
    files = chain.files_in(places.record)
    found = date.min
    for entry in chain.entries_of(files[-1]) if files else []:
        with contextlib.suppress(ValueError):
            moment = lines.moment_of(lines.text_of(entry.fields, "at"))
            found = moment.astimezone(places.zone).date()
    return found


def old_files(places: Places, rule: Rule, today: date) -> list[chain.File]:
    """The closed files of the record whose time is over: the oldest ones only, so that the chain stays one piece."""
    old: list[chain.File] = []
    for file in chain.files_in(places.record)[:-1]:
        if (
            date.fromisoformat(file.day) >= today - timedelta(days=rule.days)
            or len(old) == MOST_DAYS
        ):
            break
        old.append(file)
    return old


def keep_journal(places: Places, rule: Rule, today: date, is_plan: bool) -> list[str]:
    """Removes the oldest files of the record. The note of it comes first, and so the record says why they are gone."""
    last_of_record = last_day(places)
    if last_of_record == date.min:
        # (a record that has not begun has nothing to remove, and no day to hold the clock against)
        return []
    behind = (today - last_of_record).days
    if behind > MOST_BEHIND or behind < 0:
        raise Wrong(
            f"the clock says {today}, and the record's last entry is of {last_of_record}: nothing is removed"
        )
    old = old_files(places, rule, today)
    if not old or is_plan:
        return [it.path.name for it in old]
    *_, last = chain.entries_of(old[-1])
    taking.note(
        places,
        "removed",
        last_file=old[-1].number,
        digest=last.chain,
        files=[it.name for it in old],
    )
    for file in old:
        file.path.unlink()
    whole_file.folder_synced(places.record)
    return [it.path.name for it in old]


def files_below(folder: Path) -> Iterator[Path]:
    """The files of a folder and of the folders in it, but of no link to one. What can't be read is said, not left out."""

    def fail(error: OSError) -> None:
        raise Wrong(f"{error.filename} can't be read: {error.strerror}") from None

    for place, _, names in os.walk(folder, onerror=fail):
        yield from (Path(place, it) for it in names)


def files_of(folder: Path, pattern: str) -> Iterator[Path]:
    """The files of a folder by their names. A pattern for all files is also for those in its folders."""
    yield from files_below(folder) if pattern == ALL else folder.glob(pattern)


def remove(path: Path, folder: Path) -> None:
    """Removes a file, and the folders below that one which have nothing else."""
    path.unlink()
    for above in path.parents:
        if above == folder or any(above.iterdir()):
            break
        above.rmdir()


def keep_files(
    folder: Path, patterns: list[str], rule: Rule, today: date, is_plan: bool
) -> list[str]:
    """Removes the files of a folder whose time is over. The newest of each pattern stays in any case."""
    gone = []
    for pattern in patterns:
        found = sorted(
            (it for it in files_of(folder, pattern) if it.is_file()),
            key=lambda it: (it.stat().st_mtime, it),
        )
        for path in found[:-1]:
            if age(path, today) > rule.days:
                gone.append(str(path.relative_to(folder)))
                if not is_plan:
                    remove(path, folder)
    return gone


def links_in(folder: Path, patterns: list[str]) -> list[str]:
    """The links to folders, where nothing is removed although each file is meant."""
    return [
        str(it.relative_to(folder))
        for place, names, _ in os.walk(folder)
        for it in (Path(place, name) for name in sorted(names))
        if ALL in patterns and it.is_symlink()
    ]


def keep(
    places: Places,
    folders: dict[str, Path],
    rules: list[Rule],
    today: date,
    is_plan: bool,
    hold: str = "",
) -> list[str]:
    """Keeps to the rules; returns a sentence for each kind. Where there is a hold, nothing is removed.

    `folders` has the folder of each kind; of the tally it is the log, beside which are those rotated out of it.
    """
    log = folders.get("tally")
    folders = {**folders, "tally": log.parent} if log else folders
    patterns = {
        "tally": [f"{log.name}-*" if log else ""],
        "exports": [ALL],
        "backups": ["desk-*.db", "machine-*.tar.gz", "before-*.db"],
    }
    said = [f"nothing is removed, for a hold: {hold}"] if hold else []
    is_plan = is_plan or bool(hold)
    for rule in rules:
        links: list[str] = []
        if rule.kind == "journal":
            gone = keep_journal(places, rule, today, is_plan)
        elif rule.kind in folders and folders[rule.kind].is_dir():
            gone = keep_files(folders[rule.kind], patterns[rule.kind], rule, today, is_plan)
            links = links_in(folders[rule.kind], patterns[rule.kind])
        else:
            continue
        verb = "would be removed" if is_plan else "removed"
        named = f": {', '.join(gone)}" if gone else ""
        files = f"{len(gone)} file{'' if len(gone) == 1 else 's'}"
        said.append(f"{rule.kind}, kept {rule.days} days ({rule.why}): {files} {verb}{named}")
        said += [f"{rule.kind}: {it} is a link to a folder, {LINKED}" for it in links]
    return said
