"""The lines of the record in order: the chained files, and behind them what is not chained yet."""

import logging
from collections.abc import Callable, Iterator
from contextlib import suppress
from datetime import date, timedelta
from pathlib import Path
from typing import Any

from desk_tools.journal import chain, former, lines, people, verifying
from desk_tools.journal.lines import Line
from desk_tools.journal.people import People
from desk_tools.journal.places import Places

CALLERS = b"/callers"
LOG = logging.getLogger("journal")
Wanted = Callable[[bytes], bool]


def first_place(file: chain.File) -> int:
    """The place of a file's first entry; 0 where it has none."""
    return next((it.place for it in chain.entries_of(file)), 0)


def files_after(places: Places, after: int) -> list[chain.File]:
    """The files that have entries behind that place."""
    files = chain.files_in(places.record)
    kept: list[chain.File] = []
    for file in reversed(files):
        kept.insert(0, file)
        if after and first_place(file) <= after:
            break
    return kept


def files_from(files: list[chain.File], first: date | None) -> list[chain.File]:
    """The files from a day on, and the one before it; the file of an earlier day that a wrong clock opened later is among them."""
    if first is None:
        return files
    day = (first - timedelta(days=1)).isoformat()
    return files[next((at for at, it in enumerate(files) if it.day >= day), len(files)) :]


class Reader:
    """Reads a record behind a place, or the files from a day on. `unreadable` says how many lines could not be read so far.

    A reader that `checks` reads all files, and has in `broken` the first thing that does not hold.
    """

    def __init__(
        self, places: Places, after: int = 0, first: date | None = None, checks: bool = False
    ) -> None:
        self.places, self.after, self.first = places, after, first
        self.checks, self.broken = checks, ""
        self.seen = verifying.Seen()
        self.unreadable = 0
        self.part, self.taken = 0, 0

    def files(self) -> Iterator[Iterator[chain.Entry]]:
        """The entries of each file."""
        if not self.checks:
            yield from map(
                chain.entries_of, files_from(files_after(self.places, self.after), self.first)
            )
            return
        for folder in self.places.record, self.places.folder / "heads":
            self.seen.marks.update(verifying.marks_in(folder) if folder.is_dir() else {})
        files = chain.files_in(self.places.record)
        self.tries(lambda: verifying.check_files(files))
        for file in files:
            yield self.checked(file, file is files[-1])
        self.tries(lambda: verifying.check_ends(self.seen, files))

    def tries(self, check: Callable[[], object]) -> None:
        """Keeps the first thing that does not hold."""
        try:
            if not self.broken:
                check()
        except chain.Broken as broken:
            self.broken = str(broken)

    def checked(self, file: chain.File, is_last: bool) -> Iterator[chain.Entry]:
        """The entries of a file, each looked at. The unit may just write the last line of all.

        A file that can't be read to its end keeps no answer from the other files: it is what does not hold.
        """
        checker = verifying.Checker(self.seen, file)
        try:
            for raw in chain.raw_lines(file):
                if is_last and not raw.endswith(b"\n"):
                    break
                self.tries(lambda line=raw: checker.line(line))  # type: ignore[misc]
                entry = chain.entry_of(raw)
                if entry and raw.endswith(b"\n"):
                    yield entry
        except chain.Broken as broken:
            self.broken = self.broken or str(broken)
        self.tries(lambda: checker.end(is_last))

    def raw(self) -> Iterator[tuple[int, bytes]]:
        """Each request's line with its place in the record; 0 where it is not chained yet."""
        for entries in self.files():
            for entry in entries:
                note = entry.note
                if note == "opened":
                    self.part, self.taken = int(entry.fields.get("part", 0)), 0
                elif note == "taken":
                    self.part, self.taken = int(entry.fields.get("part", 0)), 0
                elif not note:
                    self.taken += 1
                    if entry.place > self.after:
                        yield entry.place, entry.line
        for number, path in self.places.parts():
            if number >= self.part:
                yield from waiting(path, self.taken if number == self.part else 0)
        yield from waiting(self.places.requests, 0)

    def lines(self, wanted: Wanted = lambda raw: True) -> Iterator[Line]:
        """Each line that is wanted and can be read."""
        for place, raw in self.raw():
            if wanted(raw):
                line = lines.read(place, raw)
                if line is not None:
                    yield line
                else:
                    self.unreadable += 1


def notes_of(places: Places, kind: str) -> Iterator[dict[str, Any]]:
    """The notes of this tool of one kind. A file is left out from where it can't be read: a reader that checks names it."""
    for file in chain.files_in(places.record):
        with suppress(chain.Broken):
            for entry in chain.entries_of(file):
                if entry.note == kind:
                    yield entry.fields


def waiting(path: Path, taken: int) -> Iterator[tuple[int, bytes]]:
    """The whole lines of a file that nginx wrote, behind the first few."""
    if not path.exists():
        return
    for at, (line, has_end) in enumerate(chain.lines_of(path)):
        if at >= taken and has_end:
            yield 0, line


def people_of(places: Places) -> People:
    """The callers by the file, by what the record has behind it, and by the rows that the file had before."""
    known = people.read(places.callers)
    put_lines(places, known)
    return former.with_former(people.read(places.kept_callers), known, places.today())


def put_lines(places: Places, known: People) -> None:
    """Takes in the callers' records that stand behind the last one."""
    for line in Reader(places, known.upto).lines(lambda raw: CALLERS in raw):
        known.put(line)
        known.upto = max(known.upto, line.place)


def keep_former(places: Places, known: People) -> None:
    """Keeps each row that callers.csv has or had. What it lost before anything was kept comes from the record."""
    kept = people.read(places.kept_callers)
    if not places.kept_callers.exists():
        of_record = People()
        put_lines(places, of_record)
        kept = former.without_row(known, of_record)
    rows = former.rows_now(kept, known, places.today())
    lost = len([it for it in rows if it.gone]) - len([it for it in kept.rows if it.gone])
    if lost > 0:
        LOG.warning(
            "callers.csv lacks %s that it had: answers go on to name them, from %s",
            "a row" if lost == 1 else f"{lost} rows",
            places.kept_callers,
        )
    former.keep(places.kept_callers, rows)


def keep_people(places: Places) -> None:
    """Brings callers.csv up to the last entry of the record."""
    known = people.read(places.callers)
    reader, before = Reader(places, known.upto), known.alike()
    for place, raw in reader.raw():
        line = lines.read(place, raw) if place and CALLERS in raw else None
        if line is not None:
            known.put(line)
        known.upto = max(known.upto, place)
    people.keep(places.callers, known)
    keep_former(places, known)
    was_alike = {row.digits for rows in before for row in rows}
    for alike in known.alike():
        if alike[0].digits in was_alike:
            continue
        numbers = " and ".join(str(it) for it in sorted({it.number for it in alike}))
        LOG.warning("the keys of callers %s begin alike, so lines of either are nobody's", numbers)
