"""Spreadsheets as people save them: how their bytes, their columns and their rows are read.

A row is numbered as a spreadsheet numbers it; the row that names the columns is row 1. A row that
can't be read is refused with the reason, and the others go on.
"""

import csv
import io
import re
from collections import Counter
from collections.abc import Iterator, Sequence
from dataclasses import dataclass, field
from pathlib import Path

MARKS = {b"\xff\xfe": "utf-16", b"\xfe\xff": "utf-16"}
DELIMITERS = {",": "commas", ";": "semicolons", "\t": "tabs"}
# What a cell has at most, and by how many bytes a file is no table of an agency.
MOST_SIGNS, MOST_BYTES = 10_000, 400_000_000
# So far down it is looked for a row that names the columns.
MOST_ABOVE = 20
LINE = re.compile(rb"[^\r\n]*(?:\r\n|\r|\n|$)")
# Signs that no cell has; a line break in a cell is read as a blank.
WRONG_SIGN = re.compile("[\x00-\x08\x0e-\x1f\x7f\ufffd]")


class Unreadable(Exception):
    """Why a file is no table at all: one sentence."""


@dataclass(frozen=True)
class Row:
    """A row: its number, its cells by the names of their columns, and its cells as they stand."""

    number: int
    fields: dict[str, str]
    cells: list[str]


@dataclass(frozen=True)
class Refusal:
    """A row that is refused, whole, and why."""

    number: int
    reason: str
    cells: list[str]


@dataclass
class Sheet:
    """A table: the names of its columns, its rows, those refused, and how it was read."""

    path: Path
    header: list[str]
    rows: list[Row] = field(default_factory=list)
    refused: list[Refusal] = field(default_factory=list)
    notes: list[str] = field(default_factory=list)


def read(path: Path, columns: dict[str, tuple[str, ...]], most: int | None = None) -> Sheet:
    """The table of a file. `columns` has the other names by which a column goes.

    A file of more rows than `most` is unreadable.
    """
    try:
        with path.open("rb") as file:
            content = file.read(MOST_BYTES + 1)
    except OSError as error:
        raise Unreadable(f"{path} can't be read: {error.strerror}") from None
    return of_bytes(content, path, columns, most)


def of_bytes(
    content: bytes, path: Path, columns: dict[str, tuple[str, ...]], most: int | None = None
) -> Sheet:
    """The table of these bytes of a file."""
    if content.startswith(b"PK") or content.startswith(b"\xd0\xcf\x11\xe0"):
        raise Unreadable(f"{path} is a workbook and no CSV: save it as CSV")
    if len(content) > MOST_BYTES:
        raise Unreadable(f"{path} has more than {MOST_BYTES:,} bytes")
    lines, notes = decoded(content, path)
    delimiter = delimiter_of(lines)
    if lines and lines[0].lower().startswith("sep="):
        lines = lines[1:]
    if delimiter != ",":
        notes.append(f"{DELIMITERS[delimiter]} between the columns")
    sheet = Sheet(path, [], notes=notes)
    for number, cells, fault in cells_of(lines, delimiter):
        if not sheet.header:
            sheet.header = [named(it, columns) for it in cells]
            repeated = [it for it, count in Counter(sheet.header).items() if it and count > 1]
            if repeated or fault:
                raise Unreadable(
                    f"{path}, row 1: {fault or f'the column {repeated[0]} stands twice'}"
                )
        elif any(it.strip() for it in cells) or fault:
            add(sheet, number, cells, fault)
            if most is not None and len(sheet.rows) + len(sheet.refused) > most:
                raise Unreadable(f"{path} has more than {most:,} rows, and {most:,} are the most")
    return sheet


def require(sheet: Sheet, names: Sequence[str], columns: dict[str, tuple[str, ...]]) -> None:
    """Raises Unreadable where a column is missing. A later row that names the columns is named.

    Every table that the tools read goes through here, so each says it in the same words.
    """
    missing = next((it for it in names if it not in sheet.header), None)
    if missing is None:
        return
    early = [(it.number, it.cells) for it in sheet.rows]
    early += [(it.number, it.cells) for it in sheet.refused]
    later = [
        number
        for number, cells in early
        if number <= MOST_ABOVE and {*names} <= {named(cell, columns) for cell in cells}
    ]
    said = f"{sheet.path} has no column {missing} in row 1, which names the columns"
    raise Unreadable(
        f"{said}: row {later[0]} names them, so take away the rows above it"
        if later
        else f"{said}: {', '.join(columns)}"
    )


def add(sheet: Sheet, number: int, cells: list[str], fault: str) -> None:
    """Adds a row, or refuses it."""
    if not fault and len(cells) > len(sheet.header) and any(cells[len(sheet.header) :]):
        fault = f"it has {len(cells)} cells, and row 1 names {len(sheet.header)} columns"
    for name, cell in zip(sheet.header, cells):
        sign = WRONG_SIGN.search(cell)
        if not fault and sign:
            is_lost = sign[0] == "\ufffd"
            said = "a byte that is no letter" if is_lost else f"the sign {ord(sign[0]):#04x}"
            fault = f"{name or 'a column without a name'} has {said}: was the file damaged?"
        if not fault and len(cell) > MOST_SIGNS:
            fault = f"{name} has more than {MOST_SIGNS:,} signs"
    if fault:
        sheet.refused.append(Refusal(number, fault, cells))
        return
    fields = {name: " ".join(cell.split()) for name, cell in zip(sheet.header, cells) if name}
    sheet.rows.append(Row(number, fields, cells))


def named(cell: str, columns: dict[str, tuple[str, ...]]) -> str:
    """The name of a column, in whatever case and form the sheet has it."""
    plain = re.sub(r"[\W_]+", "_", cell.lower()).strip("_")
    return next((name for name, others in columns.items() if plain in (name, *others)), plain)


def decoded(content: bytes, path: Path) -> tuple[list[str], list[str]]:
    """The lines of a file, and notes on how its bytes were read: each line is UTF-8 or Windows-1252."""
    for mark, encoding in MARKS.items():
        if content.startswith(mark):
            text = content.decode(encoding, "replace")
            return list(io.StringIO(text, newline="")), ["read as UTF-16"]
    content = content.removeprefix(b"\xef\xbb\xbf")
    try:
        return list(io.StringIO(content.decode("utf-8"), newline="")), []
    except UnicodeDecodeError:
        pass
    lines, others = [], 0
    for line in LINE.findall(content):
        try:
            lines.append(line.decode("utf-8"))
        except UnicodeDecodeError:
            lines.append(line.decode("cp1252", "replace"))
            others += 1
    if not lines:
        raise Unreadable(f"{path} is empty")
    return lines, [f"{others:,} lines are no UTF-8 and were read as Windows-1252"]


def delimiter_of(lines: list[str]) -> str:
    """What stands between the columns, by the first line."""
    first = next((it for it in lines if it.strip()), "")
    if first.lower().startswith("sep=") and first[4:5] in DELIMITERS:
        return first[4]
    outside = re.sub(r'"[^"]*"', "", first)
    return max(DELIMITERS, key=outside.count)


def cells_of(lines: list[str], delimiter: str) -> Iterator[tuple[int, list[str], str]]:
    """Each row's number and cells, with what is wrong with its quotation marks, if anything."""
    at = number = 0
    while at < len(lines):
        start = at
        reader = csv.reader(Lines(lines, at), delimiter=delimiter, strict=True)
        try:
            for cells in reader:
                number += 1
                yield number, cells, ""
                at = start + reader.line_num
        except csv.Error as error:
            number += 1
            whole = lines[at].rstrip("\r\n")
            yield number, [whole], f"its quotation marks are wrong ({error})"
            at += 1


class Lines:
    """The lines from one on, without a copy of them."""

    def __init__(self, lines: list[str], at: int) -> None:
        self.lines, self.at = lines, at

    def __iter__(self) -> "Lines":
        return self

    def __next__(self) -> str:
        if self.at >= len(self.lines):
            raise StopIteration
        self.at += 1
        return self.lines[self.at - 1]
