"""Whether the record holds: the first thing that does not, in words."""

from dataclasses import dataclass, field
from datetime import date, timedelta
from pathlib import Path

from desk_tools.journal import chain, lines, signing
from desk_tools.journal.places import Places

HOLDS, BROKEN, ENDS_EARLY = 0, 1, 3
# A clock that is put right by less than this was not set back. Of more places than these only the first are named.
CLOCK, MOST_NAMED = timedelta(seconds=5), 3
# What is said where nothing was compared: a whole record that root wrote anew holds by itself.
NOT_COMPARED = "; not compared with a copy elsewhere, which alone shows a record that root wrote anew: --elsewhere FOLDER does that"


@dataclass
class Seen:
    """How far the record was read: the last entry, its digest, and what notes said of files that were removed."""

    place: int = 0
    chain: str = chain.FIRST
    site: str = ""
    day: str = ""
    files: int = 0
    requests: int = 0
    unreadable: int = 0
    torn: list[int] = field(default_factory=list)
    last: str = ""
    begins: str = ""
    # Whether the last file that was read is closed.
    is_closed: bool = False
    removed: dict[int, str] = field(default_factory=dict)
    marks: dict[int, str] = field(default_factory=dict)
    # Where the clock was set back: the entry, the moment there and the one before.
    set_back: list[tuple[int, str, str]] = field(default_factory=list)


class Checker:
    """Whether the lines of a file hold, one after another; raises what does not."""

    def __init__(self, seen: Seen, file: chain.File) -> None:
        self.seen, self.file = seen, file
        self.at = 0
        self.is_closed = False

    def broken(self, said: str) -> chain.Broken:
        """What is wrong with this line."""
        return chain.Broken(f"{self.file.name}, line {self.at}: {said}")

    def line(self, raw: bytes) -> chain.Entry:
        """Reads the next line."""
        self.at += 1
        seen, entry = self.seen, chain.entry_of(raw)
        if not raw.endswith(b"\n"):
            raise self.broken("it has no end: torn by a fall of the power, or cut by hand")
        if entry is None:
            raise self.broken("it is no entry")
        note = entry.note
        if self.at == 1:
            begin(seen, self.file, entry)
        elif note == "opened":
            raise self.broken("the file is opened twice")
        if self.is_closed:
            raise self.broken("an entry stands after the end of the file")
        if entry.place != seen.place + 1:
            raise self.broken(f"entry {entry.place} comes after entry {seen.place}")
        if chain.digest(seen.chain, entry.place, entry.line) != entry.chain:
            raise self.broken(f"entry {entry.place} was changed, or the one before it")
        count(seen, entry, note)
        self.is_closed = note == "closed"
        return entry

    def end(self, is_last: bool) -> None:
        """No more lines follow in this file."""
        if not self.at:
            raise chain.Broken(f"{self.file.name} is empty")
        if not self.is_closed and not is_last:
            raise chain.Broken(f"{self.file.name} has no end, and another file follows")
        self.seen.files += 1
        self.seen.is_closed = self.is_closed


def read_file(seen: Seen, file: chain.File, is_last: bool) -> None:
    """Reads a file on; raises what does not hold."""
    checker = Checker(seen, file)
    for raw in chain.raw_lines(file):
        checker.line(raw)
    checker.end(is_last)


def check_files(files: list[chain.File]) -> None:
    """Whether no file is missing between two."""
    for file, after in zip(files, files[1:]):
        if after.number != file.number + 1:
            raise chain.Broken(
                f"{after.name} comes after {file.name}: a file between them is missing"
            )


def close(places: Places, file: chain.File, key: Path) -> str:
    """Signs and packs the file of a day that is over. A file that does not hold stays as it is, unsigned, and what is
    wrong with it is returned; else the text is empty."""
    if file.is_packed and (places.record / f"{file.name}.head.sig").exists():
        return ""
    try:
        read_file(Seen(), file, False)
    except chain.Broken as error:
        return str(error)
    signing.sign(places.record, signing.head_of(file), key)
    chain.pack(file)
    return ""


def begin(seen: Seen, file: chain.File, entry: chain.Entry) -> None:
    """The first entry of a file says what it goes on from."""
    fields = entry.fields
    if entry.note != "opened" or fields.get("file") != file.number or fields.get("day") != file.day:
        raise chain.Broken(f"{file.name}, line 1: it is not the beginning of this file")
    site, before = str(fields.get("site")), str(fields.get("before"))
    if seen.files and site != seen.site:
        raise chain.Broken(f"{file.name} is of {site}, and the files before it are of {seen.site}")
    if not seen.files and file.number > 1:
        seen.place, seen.chain, seen.begins = entry.place - 1, before, file.name
    if before != seen.chain:
        raise chain.Broken(f"{file.name} goes on from another file than the one before it")
    seen.site, seen.day = site, file.day


def count(seen: Seen, entry: chain.Entry, note: str) -> None:
    """Counts an entry that holds."""
    seen.place, seen.chain = entry.place, entry.chain
    fields = entry.fields if note else {}
    if note == "removed":
        seen.removed[int(fields.get("last_file", 0))] = str(fields.get("digest"))
    elif note == "torn":
        seen.torn.append(entry.place)
    elif not note:
        seen.requests += 1
        seen.unreadable += entry.line.startswith(b'{"unreadable":')
    if isinstance(fields.get("at"), str):
        at = str(fields["at"])
        if is_back(seen.last, at):
            seen.set_back.append((entry.place, at, seen.last))
        seen.last = at
    if entry.place in seen.marks and seen.marks[entry.place] != entry.chain:
        raise chain.Broken(
            f"entry {entry.place}: its digest is another one elsewhere: one of the two was changed"
        )


def is_back(before: str, at: str) -> bool:
    """Whether a note has an earlier moment than the note before it: then the machine's clock was set back."""
    try:
        return bool(before) and lines.moment_of(at) + CLOCK < lines.moment_of(before)
    except ValueError:
        return False


def marks_in(folder: Path) -> dict[int, str]:
    """The digests that heads of a folder name, by the places of their entries."""
    found = {}
    for path in folder.glob("*"):
        if path.suffix in (".head", ".now"):
            words = path.read_text(encoding="utf-8", errors="replace").split()
            if len(words) > 4 and words[-2] == "digest" and words[-3].isdecimal():
                found[int(words[-3])] = words[-1]
    return found


def check_heads(places: Places, files: list[chain.File], public: Path | None) -> str:
    """Each closed file has the head that was signed. Returns words on signatures that nobody looked at.

    A file without a signature is as bad as one with a false one: who can't sign would leave it out.
    """
    for file in files:
        path = places.record / f"{file.name}.head"
        if not path.exists():
            raise chain.Broken(f"{file.name} is closed and has no head")
        text, signature = path.read_bytes(), path.with_name(f"{path.name}.sig")
        if text != signing.head_of(file).text().encode():
            raise chain.Broken(f"{file.name} has a head of other entries")
        if public is None:
            continue
        if not signature.exists():
            raise chain.Broken(f"{file.name} is closed and has no signature")
        if not signing.is_signed(text, signature, public):
            raise chain.Broken(f"{file.name} has a signature that is not by {public.name}")
    return "; no signature was checked, for lack of the public key" if files and not public else ""


def check_begin(seen: Seen, files: list[chain.File]) -> str:
    """Whether files that are not there were removed by the rule."""
    if files[0].number == 1:
        return ""
    first = next(iter(chain.entries_of(files[0])))
    if seen.removed.get(files[0].number - 1) != first.fields.get("before"):
        raise chain.Broken(
            f"the record begins with {files[0].name}, and no entry says why the files before are gone"
        )
    return f"; files before {files[0].name} were removed by the rule of retention"


def check_ends(seen: Seen, files: list[chain.File]) -> None:
    """Whether the record that was read begins and ends where it should."""
    if files:
        check_begin(seen, files)
    far = max([*seen.marks, 0])
    if far > seen.place:
        raise chain.Broken(f"it ends with entry {seen.place}, and a head names entry {far}")


def verify(
    places: Places, public: Path | None, elsewhere: Path | None, today: date
) -> tuple[int, str]:
    """A status and one sentence."""
    seen = Seen()
    if elsewhere and not (elsewhere.is_dir() and marks_in(elsewhere)):
        what = "has no head of the record" if elsewhere.is_dir() else "is no folder here"
        return BROKEN, f"nothing was compared: {elsewhere} {what}"
    try:
        marks = [marks_in(it) for it in (places.folder / "heads", elsewhere) if it and it.is_dir()]
        for found in marks:
            for place, digest in found.items():
                if seen.marks.setdefault(place, digest) != digest:
                    raise chain.Broken(
                        f"entry {place} has two digests: the copy elsewhere names another one"
                    )
        files = chain.files_in(places.record)
        check_files(files)
        if not files:
            return ENDS_EARLY, f"there is no record in {places.record}"
        for file in files:
            read_file(seen, file, file is files[-1])
        notes = check_begin(seen, files) + check_heads(places, files[:-1], public)
    except chain.Broken as broken:
        return BROKEN, f"the record does NOT hold: {broken}"
    unreadable = f"; {seen.unreadable} lines could not be read" if seen.unreadable else ""
    places_torn = ", ".join(map(str, seen.torn))
    torn = f"; half a line was found at entry {places_torn}, and is kept there" if seen.torn else ""
    for place, at, before in seen.set_back[:MOST_NAMED]:
        torn += f"; the clock went back at entry {place}, from {before} to {at}, so moments there are not certain"
    more = len(seen.set_back) - MOST_NAMED
    torn += f", and {more} more times" if more > 0 else ""
    notes += "" if elsewhere else NOT_COMPARED
    told = f"{seen.requests} requests in {seen.files} files, up to entry {seen.place}, {seen.day}{unreadable}{torn}{notes}"
    far = max([*seen.marks, 0])
    if far > seen.place:
        return ENDS_EARLY, f"the record ends too early: {told}; a head names entry {far}"
    if lines.moment_of(seen.last).astimezone(places.zone).date() < today - timedelta(days=1):
        return (
            ENDS_EARLY,
            f"the record ends too early: {told}; the days from then to {today} are not there",
        )
    if seen.is_closed:
        # (a day is closed when the next one's file is opened)
        return (
            ENDS_EARLY,
            f"the record ends too early: {told}; that day is closed, and the file that was opened then is not there",
        )
    return HOLDS, f"the record holds: {told}"
