"""callers.csv: who had which number, name, role and key, from when to when.

A row is one key of one caller. The record gives the rows: each accepted `POST /callers` ends the caller's row and begins
another one. The agency may write names by hand, and rows of keys that are older than the record; they stay. Of a key
there are the first digits of its digest alone.
"""

import contextlib
import hashlib
import re
import sqlite3
from bisect import bisect_left
from collections.abc import Iterable
from dataclasses import dataclass, field, replace
from pathlib import Path

from desk_tools.journal import lines, shown
from desk_tools.journal.lines import Line
from desk_tools.journal.places import Wrong
from desk_tools.journal.sheets import as_csv
from desk_tools.journal.signing import written
from desk_tools.journal.words import Words
from desk_tools.tables import ROLES
from desk_tools.town import sheets as tables

# The last column has the callers whose keys begin with the same digits at the same time: their lines are nobody's.
COLUMNS = ("number", "name", "role", "subject", "from", "to", "digits", "alike")
DIGITS = 12
UPTO = "up to entry "
IS_DIGITS = re.compile(r"[0-9a-fA-F]{12}")
# A moment as lines have it, or a day by hand.
IS_MOMENT = re.compile(r"\d{4}-\d\d-\d\d(T\d\d:\d\d:\d\d\.\d{3}Z)?", re.ASCII)
A_MOMENT = "2026-11-29T12:00:00.000Z"
# Behind each moment.
ENDLESS = "~"
# Bytes that no name has and that an older version let by.
CONTROLS = bytes([*range(0x09), *range(0x0E, 0x20), 0x7F])


class Damaged(Exception):
    """Why callers.csv can't be read: one sentence with the row."""


@dataclass(frozen=True)
class Person:
    """One key of one caller. `since` and `until` are moments as lines have them, or empty where none is known."""

    number: int
    name: str
    role: str
    subject: int
    since: str
    until: str
    digits: str
    # The day by which callers.csv no longer had the row; empty while it has.
    gone: str = ""

    @property
    def state(self) -> tuple[str, int]:
        """The role, and for whom."""
        return self.role, self.subject

    def held_at(self, moment: str) -> bool:
        """Whether the key was the caller's at that moment."""
        return self.since <= moment and (not self.until or moment < self.until)

    def title(self, words: Words) -> str:
        """The person as an answer names them."""
        kind = "subject-rider" if self.role == "rider" else "subject-vehicle"
        return words.said(
            "caller-gone" if self.gone else "caller",
            day=self.gone,
            name=f"{shown.quoted(self.name)}, " if self.name else "",
            role=words.said(f"role-{self.role}"),
            subject=words.said(kind, number=self.subject) if self.subject else "",
            number=self.number,
        )


def digits_of(digest: str) -> str:
    """The first digits of a digest, by which lines name a caller."""
    return digest[:DIGITS].lower()


def named(fields: dict[str, object]) -> str:
    """The name beside a caller's record, on one line."""
    return shown.plain(lines.text_of(fields, "name"))


@dataclass
class OfCaller:
    """Where the rows of one caller stand: all, those without an end, and the last of each key."""

    places: list[int] = field(default_factory=list)
    open_ones: list[int] = field(default_factory=list)
    of_key: dict[str, int] = field(default_factory=dict)


class People:
    """All rows, by number and moment, and up to which entry of the record they go.

    What a change of a key needs is looked up and never searched for, since a record may have thousands of changes.
    """

    def __init__(self, rows: Iterable[Person] = (), upto: int = 0) -> None:
        self.upto = upto
        self.rows: list[Person] = []
        self.of_caller: dict[int, OfCaller] = {}
        self.known: set[tuple[int, str, str]] = set()
        self.by_digits: dict[str, list[Person]] | None = None
        self.found_alike: list[list[Person]] | None = None
        self.numbers_alike: dict[str, set[int]] | None = None
        # The rows that callers.csv had and has no more: they name whom no row names.
        self.gone: People | None = None
        self.add(*rows)

    def put_rows(self, rows: list[Person]) -> None:
        """Has these rows from now on."""
        self.rows, self.of_caller, self.known = [], {}, set()
        self.add(*rows)

    def add(self, *rows: Person) -> None:
        """Adds rows."""
        self.forget()
        for row in rows:
            caller = self.of_caller.setdefault(row.number, OfCaller())
            caller.places.append(len(self.rows))
            caller.of_key[row.digits] = len(self.rows)
            if not row.until:
                caller.open_ones.append(len(self.rows))
            self.known.add(identity_of(row))
            self.rows.append(row)

    def forget(self) -> None:
        """Forgets what was found in the rows, because they change."""
        self.by_digits = self.found_alike = self.numbers_alike = None

    def with_digits(self, digits: str) -> list[Person]:
        """The rows of keys that begin with these digits."""
        if self.by_digits is None:
            self.by_digits = {}
            for row in self.rows:
                self.by_digits.setdefault(row.digits, []).append(row)
        return self.by_digits.get(digits, [])

    def of_digits(self, digits: str, moment: str) -> list[Person]:
        """Whose key had these digits at that moment; where nobody's, who had it last before.

        They are two where keys of two callers begin alike: then nobody can say whose line it is.
        """
        rows = self.with_digits(digits)
        gone = self.gone.with_digits(digits) if self.gone else []
        for those in rows, gone:
            held = {it.number: it for it in those if it.held_at(moment)}
            if held:
                return list(held.values())
        those = rows or gone
        return ([it for it in those if it.since <= moment] or those)[-1:]

    def alike(self) -> list[list[Person]]:
        """Keys of different callers that began alike at one time, each time with all of them."""
        if self.found_alike is None:
            first: dict[str, list[Person]] = {}
            for row in self.rows:
                if row.digits:
                    first.setdefault(row.digits, []).append(row)
            self.found_alike = [it for it in first.values() if are_at_once(it)]
        return self.found_alike

    def others_alike(self, number: int | None, digits: str) -> set[int]:
        """The other callers whose keys began with these digits as this caller's did."""
        if self.numbers_alike is None:
            self.numbers_alike = {it[0].digits: {row.number for row in it} for it in self.alike()}
        return self.numbers_alike.get(digits, set()) - {number}

    def merge(self, other: "People") -> None:
        """Takes in the rows of another site's record that are not here."""
        self.add(*(it for it in other.rows if identity_of(it) not in self.known))

    def of_number(self, number: int) -> list[Person]:
        """The caller's rows."""
        caller = self.of_caller.get(number, OfCaller())
        return [self.rows[it] for it in caller.places]

    def now(self, number: int) -> Person | None:
        """The row of the caller's key now, or the last one."""
        caller = self.of_caller.get(number)
        if caller:
            return self.rows[(caller.open_ones or caller.places)[-1]]
        return self.gone.now(number) if self.gone else None

    def all_digits(self, number: int) -> set[str]:
        """The digits of all keys that the caller ever had."""
        gone = self.gone.all_digits(number) if self.gone else set()
        return {*self.of_caller.get(number, OfCaller()).of_key} - {""} | gone

    def put(self, line: Line) -> None:
        """Takes in a caller's record, where the desk accepted it."""
        if not line.is_done or line.path != "/callers":
            return
        fields = line.fields
        number, digits = fields.get("id"), digits_of(lines.text_of(fields, "digest"))
        role, subject = lines.text_of(fields, "role"), fields.get("subject")
        if not isinstance(number, int) or role not in ROLES or not digits:
            return
        moment, last = lines.told(line.at), self.now(number)
        if (number, digits, moment) in self.known:
            return
        caller = self.of_caller.setdefault(number, OfCaller())
        # (a name belongs to its key: a former one that is put back has its own again)
        before = self.rows[caller.of_key[digits]] if digits in caller.of_key else last
        name = named(fields) or (before.name if before else "")
        new = Person(
            number, name, role, subject if isinstance(subject, int) else 0, moment, "", digits
        )
        self.forget()
        same = [it for it in caller.open_ones if self.rows[it].digits == digits]
        if same and self.rows[same[0]].state == new.state:
            # The same key again: a write that was sent twice, or a key that a row by hand names already.
            self.rows[same[0]] = replace(self.rows[same[0]], name=name)
            return
        for at in caller.open_ones:
            self.rows[at] = replace(self.rows[at], until=moment)
        caller.open_ones = []
        self.add(new)


def identity_of(row: Person) -> tuple[int, str, str]:
    """What no two rows have: whose key it is, and since when."""
    return row.number, row.digits, row.since


def are_at_once(rows: list[Person]) -> bool:
    """Whether two of these rows are of different callers at one time."""
    if len({it.number for it in rows}) < 2:
        return False
    ordered = sorted(rows, key=lambda it: it.since)
    sinces = [it.since for it in ordered]
    # How late the rows up to each one end, at the latest: of any caller, and of one other than that.
    latest: list[dict[int, str]] = [{}]
    for row in ordered:
        ends = {**latest[-1]}
        ends[row.number] = max(ends.get(row.number, ""), row.until or ENDLESS)
        latest.append(dict(sorted(ends.items(), key=lambda it: it[1])[-2:]))
    return any(
        number != row.number and until > row.since
        for row in ordered
        for number, until in latest[bisect_left(sinces, row.until or ENDLESS)].items()
    )


def read(path: Path) -> People:
    """The rows of the file; none where there is no file. Its last row says how far it goes."""
    if not path.exists():
        return People()
    try:
        content = path.read_bytes()
    except OSError as error:
        raise Damaged(f"{path} can't be read: {error.strerror}") from None
    if content[:2] not in tables.MARKS:
        content = content.translate(None, CONTROLS)
    try:
        sheet = tables.of_bytes(content, path, {})
    except tables.Unreadable as error:
        raise Damaged(f"{error}") from None
    for name in ("number", "role", "digits"):
        if sheet.header and name not in sheet.header:
            raise Damaged(f"{path}, row 1: it names no column {name}")
    for refused in sheet.refused:
        raise Damaged(f"{path}, row {refused.number}: {refused.reason}")
    known = People()
    for row in sheet.rows:
        if len(row.cells) < len(sheet.header):
            count, columns = len(row.cells), len(sheet.header)
            said = f"it has {count} cells, and row 1 names {columns} columns: was the file cut?"
            raise Damaged(f"{path}, row {row.number}: {said}")
        digits = row.fields.get("digits", "")
        if digits.startswith(UPTO) and digits[len(UPTO) :].isdecimal():
            known.upto = max(known.upto, int(digits[len(UPTO) :]))
        if any(row.fields.get(name) for name in COLUMNS[:6]):
            try:
                known.add(row_of(row.fields))
            except ValueError as error:
                raise Damaged(f"{path}, row {row.number}: {error}") from None
    return known


def row_of(fields: dict[str, str]) -> Person:
    """A row; ValueError says what is wrong."""
    got = {name: (fields.get(name) or "").strip() for name in COLUMNS}
    if not (got["number"].isascii() and got["number"].isdecimal()):
        raise ValueError("it has no number")
    if got["role"] not in ROLES:
        raise ValueError(f"its role is none of {', '.join(ROLES)}")
    # (a spreadsheet takes digits such as 123456789012 or 12e456789012 for a number, and a day for its own)
    if got["digits"] and not IS_DIGITS.fullmatch(got["digits"]):
        raise ValueError(
            f"its digits {got['digits'][:20]!r} are not {DIGITS} of 0 to 9 and a to f: did a spreadsheet change them? "
            f"Import that column as text"
        )
    got["gone"] = (fields.get("gone") or "").strip()
    for name in ("from", "to", "gone"):
        if got[name] and not IS_MOMENT.fullmatch(got[name]):
            raise ValueError(f"{name} is {got[name][:30]!r}, which is no moment such as {A_MOMENT}")
    subject = int(got["subject"]) if got["subject"].isdecimal() else 0
    name = shown.plain(got["name"].removeprefix("'"))
    moments = got["from"], got["to"]
    digits = got["digits"].lower()
    return Person(int(got["number"]), name, got["role"], subject, *moments, digits, got["gone"])


def keep(path: Path, people: People) -> None:
    """Writes the file, whole or not at all."""
    rows = sorted(people.rows, key=lambda it: (it.number, it.since))
    cells = [
        (
            it.number,
            shown.plain(it.name),
            it.role,
            it.subject or "",
            it.since,
            it.until,
            it.digits,
            " ".join(map(str, sorted(people.others_alike(it.number, it.digits)))),
        )
        for it in rows
    ]
    text = as_csv(COLUMNS, [*cells, ("", "", "", "", "", "", f"{UPTO}{people.upto}", "")])
    if not path.exists() or path.read_text(encoding="utf-8") != text:
        written(path, text.encode())


def of_copy(path: Path, moment: str, people: People) -> int:
    """Adds the callers of a copy of the desk's file whose keys no row has. Returns how many."""
    try:
        with contextlib.closing(sqlite3.connect(f"file:{path}?mode=ro", uri=True)) as copy:
            found = copy.execute(
                "SELECT id, role, subject, digest FROM callers ORDER BY id"
            ).fetchall()
    except sqlite3.Error as error:
        raise Wrong(f"{path} can't be read: {error}") from None
    added = 0
    for number, role, subject, digest in found:
        digits = digits_of(bytes(digest).hex())
        if digits not in people.all_digits(number):
            last = people.now(number)
            since = moment if last and not last.until else ""
            name = last.name if last else ""
            people.add(Person(number, name, ROLES[role], subject, since, "", digits))
            added += 1
    return added


def digits_of_key(key: str) -> str:
    """The digits of a key."""
    return digits_of(hashlib.sha256(key.encode()).hexdigest())
