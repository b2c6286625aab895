"""The record's files: each entry has the SHA-256 over the one before it and its own bytes.

A file NNNNNN-YYYY-MM-DD.jsonl is one day of the machine's clock as it was opened; NNNNNN rises by one, and so it orders
the files whatever a clock said. An entry is `{"n":N,"chain":"DIGEST","line":LINE}`: a request of the site, a note of this
tool (with `note`), or bytes that were no JSON (`unreadable`, in base64). A closed file is packed by gzip.
"""

import base64
import gzip
import hashlib
import json
import os
import re
import zlib
from collections.abc import Iterator
from dataclasses import dataclass
from pathlib import Path
from typing import Any

from desk_tools.setup import whole_file

FIRST = "0" * 64
# How nginx begins each line, and how this tool begins that of driving times.
BEGINNINGS = b'{"at":"', b'{"at": "'
NAME = re.compile(r"(\d{6})-(\d{4}-\d\d-\d\d)\.jsonl(\.gz)?")
ENTRY = re.compile(rb'\{"n":(\d{1,12}),"chain":"([0-9a-f]{64})","line":(.*)\}', re.DOTALL)


@dataclass(frozen=True)
class File:
    """A file of the record."""

    number: int
    day: str
    path: Path

    @property
    def name(self) -> str:
        """Its name without what says how it is packed."""
        return f"{self.number:06}-{self.day}"

    @property
    def is_packed(self) -> bool:
        """Whether it is closed and packed."""
        return self.path.suffix == ".gz"


@dataclass(frozen=True)
class Entry:
    """An entry: its place in the whole record, its digest, and the bytes of its line."""

    place: int
    chain: str
    line: bytes

    @property
    def fields(self) -> dict[str, Any]:
        """What the line says, or nothing where it is no JSON object."""
        try:
            found = json.loads(self.line)
        except ValueError:
            return {}
        return found if isinstance(found, dict) else {}

    @property
    def note(self) -> str:
        """The kind of a note of this tool; empty for a request."""
        note = self.fields.get("note") if self.line.startswith(b'{"note":') else ""
        return note if isinstance(note, str) else ""


class Broken(Exception):
    """What of the record does not hold, and where."""


def digest(before: str, place: int, line: bytes) -> str:
    """The digest of an entry."""
    return hashlib.sha256(f"{before} {place} ".encode() + line).hexdigest()


def files_in(folder: Path) -> list[File]:
    """The files of the record, by their numbers. Of one that is there packed and not, the packed one counts."""
    found: dict[int, File] = {}
    for path in sorted(folder.iterdir()) if folder.is_dir() else []:
        name = NAME.fullmatch(path.name)
        if name:
            file = File(int(name[1]), name[2], path)
            other = found.get(file.number)
            if other and other.day != file.day:
                raise Broken(f"{other.name} and {file.name} have one number")
            found[file.number] = file
    return [found[it] for it in sorted(found)]


def raw_lines(file: File) -> Iterator[bytes]:
    """The lines of a file, each with its end; the last one may lack it."""
    try:
        with gzip.open(file.path, "rb") if file.is_packed else file.path.open("rb") as content:
            yield from content
    except (EOFError, OSError, ValueError, zlib.error) as error:
        raise Broken(f"{file.path.name} can't be read: {error}") from None


def entry_of(line: bytes) -> Entry | None:
    """The entry of a line, or None where it is none."""
    found = ENTRY.fullmatch(line.removesuffix(b"\n"))
    return Entry(int(found[1]), found[2].decode(), found[3]) if found else None


def entries_of(file: File) -> Iterator[Entry]:
    """The entries of a file, as they stand there. What is none is left out: `verify` names it."""
    for line in raw_lines(file):
        entry = entry_of(line)
        if entry and line.endswith(b"\n"):
            yield entry


def object_in(line: bytes) -> dict[str, Any] | None:
    """The JSON object that the bytes are, or None."""
    try:
        found = json.loads(line)
    except (ValueError, RecursionError):
        return None
    return found if isinstance(found, dict) else None


def lines_of(part: Path) -> Iterator[tuple[bytes, bool]]:
    """The lines that nginx wrote into a file without their ends, and whether each has one.

    Where the power fell in the middle of a line, nginx goes on behind that half: the half is a line of its own.
    """
    with part.open("rb") as file:
        for raw in file:
            line, has_end = raw.removesuffix(b"\n"), raw.endswith(b"\n")
            at = max(line.rfind(it) for it in BEGINNINGS)
            if at > 0 and object_in(line) is None and object_in(line[at:]) is not None:
                yield line[:at], True
                line = line[at:]
            if line.strip():
                yield line, has_end


def safe(line: bytes) -> bytes:
    """The line as an entry holds it: itself where it is one JSON object, else its bytes in base64."""
    found = object_in(line)
    if found is not None and "note" not in found and not {*b"\r\n"} & {*line}:
        return line
    return json.dumps({"unreadable": base64.b64encode(line).decode()}).encode()


def noted(kind: str, **fields: Any) -> bytes:
    """The line of a note."""
    return json.dumps({"note": kind, **fields}).encode()


class Writer:
    """The last file of the record, to which entries are added. Whoever has it holds the folder's lock."""

    def __init__(self, folder: Path) -> None:
        self.folder = folder
        self.file: File | None = None
        self.place, self.chain, self.is_closed = 0, FIRST, True
        self.part, self.taken, self.count = 0, 0, 0
        # (the record keeps the name of its first file, whatever the site is called later)
        self.day = self.site = ""
        files = files_in(folder)
        if files:
            self.resume(files[-1])

    def resume(self, file: File) -> None:
        """Goes on where the file ends. A torn last line, as a fall of the power leaves it, is cut off and kept in a note."""
        self.file, self.day = file, file.day
        torn = b""
        for line in raw_lines(file):
            entry = entry_of(line)
            if not line.endswith(b"\n"):
                torn = line
            elif entry is None:
                raise Broken(
                    f"{file.path.name} has a line that is no entry after entry {self.place}"
                )
            else:
                self.went(entry)
        if torn and not file.is_packed:
            os.truncate(file.path, file.path.stat().st_size - len(torn))
            self.add(noted("torn", base64=base64.b64encode(torn).decode()))

    def went(self, entry: Entry) -> None:
        """Counts an entry that stands in the file now."""
        self.place, self.chain = entry.place, entry.chain
        note, fields = entry.note, entry.fields
        self.count += 1
        self.is_closed = note == "closed"
        if note == "opened":
            self.part, self.taken = int(fields.get("part", 0)), -1
            self.site = str(fields.get("site", ""))
        elif note == "taken":
            self.part, self.taken = int(fields.get("part", 0)), 0
        elif not note and self.taken >= 0:
            self.taken += 1

    def add(self, *lines: bytes) -> None:
        """Adds lines, which are on the disk when this returns."""
        assert self.file is not None
        with self.file.path.open("ab") as file:
            for line in lines:
                place = self.place + 1
                chain = digest(self.chain, place, line)
                file.write(
                    b'{"n":%d,"chain":"%s","line":' % (place, chain.encode()) + line + b"}\n"
                )
                self.went(Entry(place, chain, line))
            file.flush()
            os.fsync(file.fileno())

    def open(self, day: str, site: str, at: str) -> None:
        """Begins the next file."""
        number = self.file.number + 1 if self.file else 1
        path = self.folder / f"{number:06}-{day}.jsonl"
        os.close(os.open(path, os.O_WRONLY | os.O_CREAT | os.O_EXCL, 0o640))
        whole_file.folder_synced(self.folder)
        before, self.file, self.day, self.count = self.chain, File(number, day, path), day, 0
        self.add(
            noted("opened", file=number, day=day, site=site, at=at, before=before, part=self.part)
        )

    def close(self, at: str) -> None:
        """Ends the file. Its last digest is what is signed."""
        self.add(noted("closed", at=at, entries=self.count + 1))


def pack(file: File) -> File:
    """Packs a closed file; the packed one has its name only when it is on the disk."""
    if file.is_packed:
        return file
    packed = file.path.with_suffix(".jsonl.gz")
    new = packed.with_suffix(".new")
    with new.open("wb") as out, gzip.GzipFile(fileobj=out, mode="wb", mtime=0, filename="") as into:
        into.write(file.path.read_bytes())
    with new.open("rb") as there:
        os.fsync(there.fileno())
    os.chmod(new, 0o640)
    os.replace(new, packed)
    whole_file.folder_synced(packed.parent)
    file.path.unlink()
    return File(file.number, file.day, packed)
