"""What a letter says, as blocks in their order. `pages/parts/letter-text.js` makes the same of the same table.

Days are YYYY-MM-DD. `own` is a language, en or es.
"""

import datetime
import re
from collections.abc import Mapping, Sequence
from dataclasses import dataclass, field

from desk_tools import law
from desk_tools.letters.on_record import Notice, Part, missed_in, notice_in, part_in
from desk_tools.letters.sentences import TEXTS, Step, plan_of

HEARING_DAYS = 15
_APPEALABLE = ("refused", "suspended")
_DECISIONS = ("granted", "refused")
_PLACEHOLDER = re.compile(r"\{(\w+)\}")


@dataclass(frozen=True)
class Letter:
    """The desk's own text of a letter, by its lines; `entry` is its place in the case file."""

    entry: int
    text: str
    lines: Mapping[str, str]

    @property
    def date(self) -> str:
        """The day of the decision."""
        return self.lines.get("DATE", "")

    @property
    def decision(self) -> str:
        """The decision in the desk's words."""
        return self.lines.get("DECISION", "")


@dataclass(frozen=True)
class Sender:
    """The agency, and to whom one appeals; a text is empty where the agency names none."""

    name: str
    telephone: str = ""
    address: str = ""
    appeal_to: str = ""
    appeal_address: str = ""
    appeal_telephone: str = ""


@dataclass(frozen=True)
class About:
    """To whom a letter goes, in which language, and the rider's other letters in their order."""

    own: str
    rider: int
    agency: Sender
    letters: Sequence[Letter]
    name: str = ""
    place: str = ""
    more: Mapping[str, str] = field(default_factory=dict)


@dataclass(frozen=True)
class Block:
    """A piece of a letter: what it is (as in a plan), the key of its text, and its lines."""

    makes: str
    key: str
    lines: tuple[str, ...]


def letter_of(entry: int, text: str) -> Letter:
    """The desk's text by its lines."""
    pairs = (line.partition(" ") for line in text.rstrip("\n").split("\n"))
    return Letter(entry, text, {name: rest for name, _, rest in pairs})


def text_of(own: str, key: str, values: Mapping[str, object] | None = None) -> str:
    """A text of the table with what stands in it."""
    held, text = values or {}, str(TEXTS[own][key])
    return _PLACEHOLDER.sub(lambda found: str(held.get(found[1], found[0])), text)


def day_in(own: str, day: str) -> str:
    """ "Monday, March 10, 2025", or what is no day as it is."""
    date = _date(day)
    if date is None:
        return day
    texts = TEXTS[own]
    return text_of(
        own,
        "day",
        {
            "weekday": texts["weekdays"][date.weekday()],
            "month": texts["months"][date.month - 1],
            "number": date.day,
            "year": date.year,
        },
    )


def _date(day: str) -> datetime.date | None:
    try:
        return datetime.date.fromisoformat(day) if len(day) == 10 else None
    except ValueError:
        return None


def _plus(day: str, days: int) -> str:
    date = _date(day)
    return day if date is None else (date + datetime.timedelta(days=days)).isoformat()


def _listed(own: str, items: Sequence[str]) -> str:
    joints: tuple[str, str] = TEXTS[own]["and"]
    two, last = joints
    if len(items) < 2:
        return "".join(items)
    return ", ".join(items[:-1]) + (two if len(items) == 2 else last) + items[-1]


def condition_in(own: str, text: str) -> str:
    """What a condition of a grant says."""
    kind, _, rest = text.partition(":")
    if kind == "months":
        names = TEXTS[own]["months"]
        return text_of(
            own,
            "condition-months",
            {"months": _listed(own, [names[int(it) - 1] for it in rest.split(",")])},
        )
    if kind == "farther":
        return text_of(own, "condition-farther", {"feet": f"{int(rest):,}"})
    return text_of(own, f"condition-{kind}") if kind in ("always", "nolift") else text


def _missed_words(own: str, missed: str) -> str:
    """A missed trip of a notice, which is on record in English, in the reader's language."""
    trip = missed_in(missed)
    if trip is None:
        return missed
    values = {
        "day": day_in(own, trip.day),
        "from": _clock(own, trip.begins),
        "to": _clock(own, trip.ends),
    }
    said = text_of(own, "missed-from", {"place": trip.place}) if trip.place else ""
    return text_of(own, "missed-trip", values) + said


def _clock(own: str, time: str) -> str:
    half: Mapping[str, str] = TEXTS[own]["half"]
    return f"{time[:-2]}{half[time[-2:]]}"


def part_of(letter: Letter) -> Part | None:
    """What a refusal says of a grant in part."""
    return part_in(letter.lines.get("REASONS", "")) if letter.decision == "refused" else None


@dataclass(frozen=True)
class Kind:
    """What kind of letter it is, and the letters of which it is made: of a grant in part a grant and a refusal."""

    name: str
    main: Letter
    refusal: Letter


def kind_of(letter: Letter, letters: Sequence[Letter]) -> Kind:
    """The kind of a letter among the rider's other letters."""
    decisions = [it for it in letters if it.decision in _DECISIONS]
    at = next((place for place, it in enumerate(decisions) if it.entry == letter.entry), -1)
    first = at if letter.decision == "refused" else at - 1
    if at >= 0 and first >= 0 and first + 1 < len(decisions):
        refusal, grant = decisions[first], decisions[first + 1]
        if _is_pair(refusal, grant):
            return Kind("granted-in-part", grant, refusal)
    return Kind("refused-in-part" if part_of(letter) else letter.decision, letter, letter)


def speaks_of(letter: Letter) -> tuple[Sequence[str], Sequence[str]]:
    """The decisions of which a letter needs the last one before it, and the first one after it."""
    before = {"granted": _DECISIONS, "appeal denied": _APPEALABLE}.get(letter.decision, ())
    return before, _DECISIONS if part_of(letter) else ()


def _is_pair(refusal: Letter, grant: Letter) -> bool:
    begins, ends = _date(refusal.date), _date(grant.date)
    if grant.decision != "granted" or not part_of(refusal) or begins is None or ends is None:
        return False
    has_all = "always" in grant.lines.get("CONDITIONS", "").split("; ")
    return not has_all and (ends - begins).days <= law.DAYS_TO_APPEAL


def _days_of(letter: Letter, letters: Sequence[Letter]) -> tuple[str, str]:
    """The days that a letter speaks of: those proposed, of a suspension, or of the suspension that was appealed."""
    if letter.decision == "notice" and (notice := notice_in(letter.lines.get("REASONS", ""))):
        return notice.first, notice.last
    of = letter
    if letter.decision == "appeal denied":
        before = [it for it in letters if it.entry < letter.entry and it.decision in _APPEALABLE]
        of = before[-1] if before and before[-1].decision == "suspended" else letter
    return of.lines.get("FROM", ""), of.lines.get("TO", "")


@dataclass(frozen=True)
class _Facts:
    kind: str
    values: dict[str, object]
    lists: dict[str, tuple[str, ...]]
    flags: set[str]
    quotes: dict[str, str]


def _facts_of(letter: Letter, about: About) -> _Facts:
    own, kind = about.own, kind_of(letter, about.letters)
    first, last = _days_of(kind.main, about.letters)
    part, lines = part_of(kind.refusal), kind.main.lines
    reasons = part.reasons if part else lines.get("REASONS", "")
    notice = notice_in(reasons) if kind.main.decision == "notice" else None
    conditions = [it for it in lines.get("CONDITIONS", "").split("; ") if it]
    more = about.more
    named: tuple[str, dict[str, object]] = (
        ("whose", {"name": about.name}) if about.name else ("whose-rider", {"rider": about.rider})
    )
    is_part = kind.name == "refused-in-part" and part is not None
    values: dict[str, object] = {
        "who": about.name or text_of(own, "rider", {"rider": about.rider}),
        "whose": text_of(own, *named),
        "agency": about.agency.name,
        "call": about.agency.telephone or about.agency.name,
        "rider": about.rider,
        "days": law.DAYS_TO_APPEAL,
        "until": day_in(own, part.until if is_part and part else lines.get("UNTIL", "")),
        "from": day_in(own, first),
        "to": day_in(own, last),
        "date": day_in(own, kind.refusal.date),
        "day": day_in(own, more.get("day") or _plus(kind.refusal.date, law.DAYS_TO_APPEAL)),
        "hearing": day_in(own, _plus(kind.main.date, HEARING_DAYS)),
        "since": day_in(own, more.get("since", "")),
        "by": day_in(own, _plus(more.get("since", ""), law.DAYS_UNTIL_PRESUMED)),
        "against": day_in(own, more.get("against", "")),
        "decision": title_in(own, more["decision"]) if more.get("decision") else "",
    }
    lists = {
        "conditions": tuple(condition_in(own, it) for it in conditions),
        "planned": tuple(condition_in(own, it) for it in (part.conditions if part else ())),
        "missed": tuple(_missed_words(own, it) for it in notice.missed) if notice else (),
    }
    quotes = {"reasons-are": reasons, "-": notice.more if notice else "", "notice-basis": reasons}
    return _Facts(kind.name, values, lists, _flags(kind, about, notice, reasons, first), quotes)


def _flags(kind: Kind, about: About, notice: Notice | None, reasons: str, first: str) -> set[str]:
    lines, decision = kind.main.lines, kind.main.decision
    held = {
        "every": "always" in lines.get("CONDITIONS", "").split("; "),
        "attendant": lines.get("ATTENDANT") == "yes",
        "foreign": about.own != "en" and (notice.more if notice else reasons) != "",
        "reasons": reasons != "" and notice is None,
        "days": first != "",
        "missed": bool(notice and notice.missed),
        "more": bool(notice and notice.more),
        "basis": decision == "notice" and notice is None,
        "suspension": about.more.get("suspension") == "yes"
        or (decision == "appeal denied" and first != ""),
    }
    return {flag for flag, holds in held.items() if holds}


def title_in(own: str, kind: str) -> str:
    """The title of a kind of letter."""
    steps = [it for it in plan_of(kind) or [] if it.makes == "title"]
    return text_of(own, steps[0].key) if steps else kind


def _where_to(about: About) -> tuple[str, ...]:
    """Where one writes and calls."""
    agency = about.agency
    call = agency.appeal_telephone or agency.telephone
    address = (agency.appeal_address or agency.address).split("\n")
    said = text_of(about.own, "telephone", {"call": call}) if call else ""
    return tuple(it for it in (agency.appeal_to or agency.name, *address, said) if it)


def _lines_of(step: Step, facts: _Facts, about: About) -> tuple[str, ...]:
    """The lines of one step of a plan."""
    if step.makes == "items":
        return facts.lists[step.key]
    if step.makes == "where":
        return _where_to(about)
    text = "" if step.key == "-" else text_of(about.own, step.key, facts.values)
    return (text, facts.quotes[step.key]) if step.makes == "quoted" else (text,)


def body_of(letter: Letter, about: About) -> list[Block]:
    """The blocks of a letter from its title on. Of a kind that is not known there is the title alone."""
    facts = _facts_of(letter, about)
    plan = plan_of(facts.kind)
    if plan is None:
        return [Block("title", "", (facts.kind,))]
    found = []
    for step in plan:
        if not step.holds(facts.flags):
            continue
        found.append(Block(step.makes, step.key, _lines_of(step, facts, about)))
    return found


def blocks_of(letter: Letter, about: About) -> list[Block]:
    """The whole letter: who writes to whom and when, its body, how to have it otherwise, and the desk's words."""
    own, agency, kind = about.own, about.agency, kind_of(letter, about.letters)
    call = agency.telephone
    sender = [
        *agency.address.split("\n"),
        text_of(own, "telephone", {"call": call}) if call else "",
    ]
    number = text_of(own, "rider-number", {"rider": about.rider})
    to = [
        about.name or text_of(own, "name-line"),
        about.place or text_of(own, "address-line"),
        number,
    ]
    records = dict.fromkeys(it.text for it in (kind.refusal, kind.main) if it.text)
    blocks = [
        Block("letterhead", "", (agency.name,)),
        Block("sender", "", tuple(filter(None, sender))),
        Block("date", "", (day_in(own, kind.main.date),)),
        Block("to", "", tuple(to)),
        *body_of(letter, about),
        Block("formats", "", (text_of(own, "formats", {"call": call or agency.name}),)),
        Block("record", "", (text_of(own, "record"), *records) if records else ()),
    ]
    return [it for it in blocks if it.lines]


def plain_text(blocks: Sequence[Block]) -> str:
    """A letter in plain signs: each block is a paragraph."""
    return "\n\n".join(map(_paragraph, blocks)) + "\n"


def _paragraph(block: Block) -> str:
    if block.makes == "items":
        return "\n".join(f"- {it}" for it in block.lines)
    if block.makes == "quoted":
        return " ".join(filter(None, block.lines))
    return "\n".join(it.rstrip() for it in block.lines)
