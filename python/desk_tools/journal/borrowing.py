"""Keys, roles and riders that a caller had for a while only, between two times of the same former one.

The record's own lines give the history of each caller; callers.csv adds what is older than the record. So who takes a
row out of that file hides nothing that the record has.
"""

import re
from collections.abc import Iterable
from dataclasses import dataclass, field
from enum import Enum
from itertools import groupby

from desk_tools.journal import lines
from desk_tools.journal.lines import Line
from desk_tools.journal.people import People, Person, digits_of

WHO = re.compile(rb'"who": ?"([0-9a-f]{12})"')
REFUSED_KEY = re.compile(rb'"status": ?401[,}]')
CALLERS, OLDER = b"/callers", -1


class Borrowed(Enum):
    """What somebody else may have had."""

    KEY = "key"
    ROLE = "role"


@dataclass(eq=False)
class Period:
    """How a caller was from one accepted change to the next. Turns number the lines of the record."""

    caller: int
    digits: str
    role: str
    subject: int
    since: int
    line: Line | None = None
    until: int | None = None
    uses: int = 0
    is_by_self: bool = False
    marks: set[Borrowed] = field(default_factory=set)

    @property
    def state(self) -> tuple[str, int]:
        """The role, and for whom."""
        return self.role, self.subject

    def holds_at(self, turn: int) -> bool:
        """Whether it was so at that line."""
        return self.since <= turn and (self.until is None or turn < self.until)


@dataclass
class Return:
    """A change that put a former key, role or rider back, and the periods between."""

    kind: Borrowed
    between: list[Period]
    is_by_self: bool


def runs_of(back: Return) -> list[list[Period]]:
    """The periods between, those with the same key, or the same role, together."""

    def of(period: Period) -> object:
        return period.digits if back.kind is Borrowed.KEY else period.state

    return [[*it] for _, it in groupby(back.between, of)]


class History:
    """How each caller was, line by line."""

    def __init__(self, people: People) -> None:
        self.people, self.turn = people, 0
        self.of_caller: dict[int, list[Period]] = {}
        self.now: dict[int, Period] = {}
        self.holding: dict[str, list[Period]] = {}
        self.first_use: dict[str, int] = {}
        self.first_put: dict[str, int] = {}
        self.changes: set[int] = set()
        self.returns: dict[int, list[Return]] = {}
        self.by_digits: dict[str, list[Period]] = {}
        self.is_closed = False

    def saw(self, raw: bytes, line: Line | None) -> None:
        """Counts a line of the record."""
        self.turn += 1
        found = WHO.search(raw)
        if found and not REFUSED_KEY.search(raw):
            digits = found[1].decode()
            self.first_use.setdefault(digits, self.turn)
            for period in self.holding.get(digits, []):
                period.uses += 1
        if line is not None and line.is_done and line.path == "/callers":
            self.put(line)

    def put(self, line: Line) -> None:
        """Counts an accepted change of a caller."""
        fields = line.fields
        number, digits = fields.get("id"), digits_of(lines.text_of(fields, "digest"))
        role, subject = lines.text_of(fields, "role"), fields.get("subject")
        if not isinstance(number, int) or not digits:
            return
        new = Period(
            number, digits, role, subject if isinstance(subject, int) else 0, self.turn, line
        )
        former = self.now.get(number)
        if former and (former.digits, former.state) == (digits, new.state):
            return
        if former:
            former.until = self.turn
            self.holding[former.digits].remove(former)
        self.now[number] = new
        self.changes.add(self.turn)
        self.first_put.setdefault(digits, self.turn)
        self.holding.setdefault(digits, []).append(new)
        self.of_caller.setdefault(number, []).append(new)

    def is_change(self, turn: int) -> bool:
        """Whether the line of that turn changed a caller."""
        return turn in self.changes

    def close(self) -> None:
        """All lines were counted: finds what was put back."""
        self.is_closed = True
        for number in {*self.of_caller, *self.people.of_caller}:
            periods = self.whole(number)
            for before, after in zip(periods, periods[1:]):
                who = after.line.who if after.line else ""
                after.is_by_self = bool(who) and who == before.digits
            for kind in Borrowed:
                self.find(periods, kind)
            for period in periods:
                self.by_digits.setdefault(period.digits, []).append(period)

    def whole(self, number: int) -> list[Period]:
        """The caller's periods, with those that are older than the record."""
        made = self.of_caller.get(number, [])
        older = older_rows([it for it in self.people.of_number(number) if it.digits], made)
        if made:
            known = {it.digits for it in [*older, *made[:1]]}
            for digits in dict.fromkeys(it.digits for it in made[1:]):
                if digits not in known and self.is_older(digits, number, made[0].since):
                    last = older[-1] if older else made[0]
                    older.append(Period(number, digits, last.role, last.subject, OLDER))
        for before, after in zip(older, [*older[1:], *made[:1]]):
            before.until = after.since
        return [*older, *made]

    def is_older(self, digits: str, number: int, turn: int) -> bool:
        """Whether a key without a row was used before the caller's first change, and was nobody else's then."""
        rows = self.people.with_digits(digits)
        is_others = any(not it.since for it in rows if it.number != number)
        first = min(self.first_put.get(digits, turn), turn)
        return not is_others and self.first_use.get(digits, turn) < first

    def find(self, periods: list[Period], kind: Borrowed) -> None:
        """Marks what stood between a former key, or role, and its return."""

        def of(period: Period) -> object:
            return period.digits if kind is Borrowed.KEY else period.state

        first: dict[object, int] = {}
        for at, period in enumerate(periods):
            first.setdefault(of(period), at)
        latest: dict[object, int] = {}
        for at, back in enumerate(periods):
            last = latest.get(of(back), at)
            latest[of(back)] = at
            between = [it for it in periods[last + 1 : at] if first[of(it)] > first[of(back)]]
            if not between:
                continue
            is_by_self = kind is Borrowed.KEY and all(
                it.is_by_self for it in periods[last + 1 : at + 1]
            )
            self.returns.setdefault(back.since, []).append(Return(kind, between, is_by_self))
            if not is_by_self:
                for period in between:
                    period.marks.add(kind)

    def marks(self, digits: str, turn: int) -> set[Borrowed]:
        """Whether the key of a line was borrowed, or the role in which it was used."""
        periods = self.by_digits.get(digits, [])
        held = [it for it in periods if it.holds_at(turn)]
        before = [it for it in periods if it.since <= turn]
        return {mark for it in held or before[-1:] for mark in it.marks}

    def subjects(self, caller: int) -> set[int]:
        """Of which riders or vans the caller ever was."""
        made = {it.subject for it in self.of_caller.get(caller, [])}
        return made | {it.subject for it in self.people.of_number(caller)}


def older_rows(rows: Iterable[Person], made: list[Period]) -> list[Period]:
    """The rows of callers.csv that stand before all that the record has of the caller."""
    in_record = {(it.digits, lines.told(it.line.at)) for it in made if it.line}
    first = min((moment for _, moment in in_record), default="")
    found = [
        it
        for it in sorted(rows, key=lambda it: it.since)
        if (it.digits, it.since) not in in_record
        and (not it.since or not first or it.since < first)
    ]
    return [Period(it.number, it.digits, it.role, it.subject, OLDER) for it in found]
