"""The questions that the record answers, each as a table with a title."""

from collections.abc import Callable, Iterator
from dataclasses import dataclass, field
from datetime import date, datetime, tzinfo

from desk_tools.journal import borrowing, chain, lines, reading, shown
from desk_tools.journal.borrowing import Borrowed, History
from desk_tools.journal.events import Event, Teller
from desk_tools.journal.lines import Line, moment_of, text_of
from desk_tools.journal.names import Names
from desk_tools.journal.people import People, Person, digits_of
from desk_tools.journal.places import Places
from desk_tools.journal.words import Words

OWN_COLUMNS = ("when", "who", "what", "outcome", "details")
COLUMNS = ("when", "who", "what", "outcome", "details", "address", "entry")
NO_KEY = 401
USES = {0: "keys-used-never", 1: "keys-used-once"}
# Words of lines that have several riders in them.
LISTS = (b"/staff/", b"/days/", b"/manifest/", b"/drivers/", b"/record/")


@dataclass
class Answer:
    """A table, and sentences below its title. Its columns are names, which each language has words for."""

    title: str
    columns: tuple[str, ...]
    rows: list[tuple[object, ...]]
    notes: list[str] = field(default_factory=list)
    # What comes before all else: that the record does not hold.
    warning: str = ""


@dataclass
class Asked:
    """The record with all that gives its lines names."""

    places: Places
    people: People
    names: Names
    riders: dict[int, int]
    first: date | None = None
    last: date | None = None

    @property
    def zone(self) -> tzinfo:
        """The agency's zone."""
        return self.places.zone

    @property
    def words(self) -> Words:
        """The language of the answer."""
        return self.names.words

    def clock(self, moment: datetime) -> str:
        """The moment by the agency's clocks."""
        return moment.astimezone(self.zone).strftime("%Y-%m-%d %H:%M:%S")

    def titled(self, key: str, **given: object) -> str:
        """The title of an answer, with the days that are asked for: without them a sheet would seem to have all days."""
        title, first, last = self.words.said(key, **given), self.first, self.last
        if not first and not last:
            return title
        days = "days-both" if first and last else "days-from" if first else "days-to"
        return self.words.said(days, title=title, first=first, last=last)

    def when(self, line: Line) -> str:
        """When a line's request came."""
        return self.clock(line.began)

    def is_of_days(self, line: Line) -> bool:
        """Whether the line is of the days that are asked for."""
        day = line.began.astimezone(self.zone).date()
        return (not self.first or day >= self.first) and (not self.last or day <= self.last)

    def events(
        self, reader: reading.Reader, history: History, wanted: reading.Wanted
    ) -> Iterator[Event]:
        """All lines that are wanted, in words. Writes are read in any case: they tell whose each trip is.

        Once all are read, the history says what was borrowed.
        """
        teller = Teller(self.people, self.names, self.riders)
        for place, raw in reader.raw():
            is_wanted = b'"method":"GET"' not in raw or wanted(raw)
            line = lines.read(place, raw) if is_wanted else None
            reader.unreadable += is_wanted and line is None
            history.saw(raw, line)
            if line is not None:
                event = teller.event(line)
                event.turn = history.turn
                yield event
        history.close()

    def warning(self, reader: reading.Reader) -> str:
        """What comes before an answer from a record that does not hold."""
        return self.words.said("broken", why=reader.broken) if reader.broken else ""


def who_of(words: Words, event: Event, history: History) -> str:
    """Who it was, and whether by a borrowed key or in a borrowed role."""
    marks, who = history.marks(event.line.who, event.turn), event.who
    if Borrowed.KEY in marks:
        return words.said("by-borrowed", who=who)
    return words.said("in-borrowed-role", who=who) if marks else who


def row_of(asked: Asked, event: Event, history: History) -> tuple[object, ...]:
    """A line of an answer."""
    line, words = event.line, asked.words
    return (
        asked.when(line),
        who_of(words, event, history),
        event.what,
        event.outcome,
        "; ".join(event.details),
        line.address if line.door != "own" else words.said("this-machine"),
        line.place or words.said("not-chained"),
    )


def answer(
    asked: Asked, title: str, wanted: reading.Wanted, is_asked: Callable[[Event], bool]
) -> Answer:
    """The lines that a question asks for."""
    reader, history = reading.Reader(asked.places, checks=True), History(asked.people)
    found = [
        it
        for it in asked.events(reader, history, wanted)
        if is_asked(it) and asked.is_of_days(it.line)
    ]
    those = [it for event in found for it in event.people]
    notes = notes_of(asked, reader, those) + far_of(asked, found) + marks_of(asked, found, history)
    rows = [row_of(asked, it, history) for it in found]
    return Answer(title, COLUMNS, rows, notes, asked.warning(reader))


def marks_of(asked: Asked, found: list[Event], history: History) -> list[str]:
    """What the marks in these lines say."""
    marks = {mark for it in found for mark in history.marks(it.line.who, it.turn)}
    keys = {Borrowed.KEY: "note-borrowed", Borrowed.ROLE: "note-borrowed-role"}
    return [asked.words.said(key) for mark, key in keys.items() if mark in marks]


def notes_of(asked: Asked, reader: reading.Reader, found: list[Person]) -> list[str]:
    """What a reader of these lines has to know: lines that could not be read, and keys of these people that begin alike."""
    notes, numbers = [], {it.number for it in found}
    if reader.unreadable:
        notes.append(asked.words.said("note-unreadable", count=reader.unreadable))
    for alike in asked.people.alike():
        if numbers & {it.number for it in alike}:
            notes.append(asked.words.said("note-alike", people=titles_of(asked, alike)))
    return notes


def far_of(asked: Asked, found: list[Event]) -> list[str]:
    """How far back the record goes, where a reader could take an early day without lines for one on which nothing was done."""
    files = chain.files_in(asked.places.record)
    if not files:
        return []
    is_before = asked.first is not None and asked.first.isoformat() < files[0].day
    return [asked.words.said("note-begins", day=files[0].day)] if is_before or not found else []


def titles_of(asked: Asked, people: list[Person]) -> str:
    """Several people, each once."""
    titles = [it.title(asked.words) for it in {it.number: it for it in people}.values()]
    return asked.words.said("and").join(titles)


def of_trip(asked: Asked, trip: int) -> Answer:
    """What happened to a trip: bookings, changes, cancellations, outcomes, counts and corrections, with each promise."""
    words = asked.words
    found = answer(
        asked, asked.titled("title-trip", trip=trip), lambda raw: False, lambda it: it.trip == trip
    )
    for note in reading.notes_of(asked.places, "corrections"):
        for row in note.get("rows") or []:
            if isinstance(row, dict) and str(row.get("trip", "")).strip() == str(trip):
                when = asked.clock(moment_of(str(note["at"])))
                said = "; ".join(
                    f"{name}: {value}" for name, value in row.items() if name != "trip" and value
                )
                what, where = words.said("corrected"), words.said("in-corrections")
                who = shown.plain(str(row.get("who", "")))
                found.rows.append((when, who, what, where, said, "", ""))
    return found


def of_rider(asked: Asked, rider: int, has_lists: bool) -> Answer:
    """Who entered or read what of a rider."""
    number = str(rider).encode()

    def wanted(raw: bytes) -> bool:
        return number in raw or has_lists and any(it in raw for it in LISTS)

    def is_asked(event: Event) -> bool:
        return event.rider == rider or has_lists and event.is_of_all and event.was_done

    title = asked.titled("title-rider", rider=asked.names.rider(rider))
    found = answer(asked, title, wanted, is_asked)
    if has_lists:
        found.notes.append(asked.words.said("note-lists"))
    return found


def of_caller(asked: Asked, caller: int) -> Answer:
    """What a caller did, by any key that was theirs at that moment. Of keys that begin alike, what any of them did."""
    digits = [it.encode() for it in asked.people.all_digits(caller)]
    person, words = asked.people.now(caller), asked.words
    who = person.title(words) if person else words.said("caller-number", number=caller)

    def is_asked(event: Event) -> bool:
        return any(it.number == caller for it in event.people)

    title = asked.titled("title-caller", who=who)
    found = answer(asked, title, lambda raw: any(it in raw for it in digits), is_asked)
    if not digits:
        found.notes.append(words.said("note-no-caller", number=caller))
    return found


def of_standing(asked: Asked, rider: int) -> Answer:
    """Every change of a rider's standing, with days and reasons, and what was refused."""
    return answer(
        asked,
        asked.titled("title-standing", rider=asked.names.rider(rider)),
        lambda raw: False,
        lambda it: it.rider == rider and it.kind == "standing",
    )


def of_keys(asked: Asked) -> Answer:
    """Who changed keys, roles and subjects of callers, and what was borrowed: put, and the former one put back."""
    reader, history = reading.Reader(asked.places, checks=True), History(asked.people)
    found = [
        it
        for it in asked.events(reader, history, lambda raw: borrowing.CALLERS in raw)
        if it.kind == "key" and not (it.was_done and not history.is_change(it.turn))
    ]
    found = [it for it in found if asked.is_of_days(it.line)]
    rows = [(*row_of(asked, it, history), "; ".join(found_of(asked, it, history))) for it in found]
    notes = notes_of(asked, reader, asked.people.rows) + far_of(asked, found)
    if any(it.was_done and not it.people for it in found):
        notes.append(asked.words.said("note-keys-nobody"))
    return Answer(
        asked.titled("title-keys"), (*COLUMNS, "note"), rows, notes, asked.warning(reader)
    )


def found_of(asked: Asked, event: Event, history: History) -> Iterator[str]:
    """What a reader has to see of a change."""
    words, caller = asked.words, event.line.fields.get("id")
    digits = digits_of(text_of(event.line.fields, "digest"))
    if event.was_done and digits and not event.people:
        yield words.said("keys-nobody")
    elif event.was_done and digits and all(it.number != caller for it in event.people):
        yield words.said("keys-another")
    for back in history.returns.get(event.turn, []) if event.was_done else []:
        for periods in borrowing.runs_of(back):
            yield said_of(asked, back, periods)
    others = asked.people.others_alike(caller, digits) if event.was_done else set()
    if others:
        yield words.said("keys-alike", number=min(others))


def said_of(asked: Asked, back: borrowing.Return, periods: list[borrowing.Period]) -> str:
    """What was borrowed, from when on, and how often it was used."""
    words, first = asked.words, periods[0]
    count = sum(it.uses for it in periods)
    uses = words.said(USES.get(count, "keys-used"), count=count)
    when = asked.when(first.line) if first.line else words.said("keys-older")
    if back.kind is Borrowed.KEY:
        key = "keys-own-back" if back.is_by_self else "keys-borrowed"
        return words.said(key, when=when, digits=first.digits, uses=uses)
    kind = "subject-rider" if first.role == "rider" else "subject-vehicle"
    subject = words.said(kind, number=first.subject) if first.subject else ""
    role = words.called("role", first.role)
    return words.said("keys-role", when=when, role=role, subject=subject, uses=uses)


def of_own(asked: Asked, rider: int) -> Answer:
    """A rider's own copy: what was entered and read of them, by whom as a role, without other people's names."""
    number, words = str(rider).encode(), asked.words
    reader, history = reading.Reader(asked.places, checks=True), History(asked.people)
    found = [
        it
        for it in asked.events(reader, history, lambda raw: number in raw)
        if it.rider == rider and asked.is_of_days(it.line)
    ]
    rows: list[tuple[object, ...]] = []
    for event in found:
        what, details = event.what, "; ".join(event.details)
        if event.kind == "key":
            what, details = words.said("own-key-put" if event.was_done else "own-key-asked"), ""
        who = own_who(words, event, rider, history)
        rows.append((asked.when(event.line), who, what, event.outcome, details))
    title = asked.titled("title-own", rider=asked.names.rider(rider))
    notes = [*far_of(asked, found), words.said("note-own")]
    return Answer(title, OWN_COLUMNS, rows, notes, asked.warning(reader))


def own_who(words: Words, event: Event, rider: int, history: History) -> str:
    """Who it was, for the rider's own copy: the rider, another one, or a role of the agency."""
    marks = history.marks(event.line.who, event.turn)
    said = {own_person(words, it, rider, history) for it in event.people}
    # (401 is the desk's own word that nobody has the key; else the key is one that callers.csv lacks)
    nobody = "own-nobody" if event.line.status == NO_KEY else "own-unknown"
    who = words.said("or").join(sorted(said)) or words.said(nobody)
    return words.said("own-borrowed", who=who) if marks else who


def own_person(words: Words, person: Person, rider: int, history: History) -> str:
    """One person, for the rider's own copy. A number that was ever another rider's is not simply the rider's."""
    if person.role != "rider":
        return words.said("own-agency", role=words.said(f"role-{person.role}"))
    if person.subject != rider:
        return words.said("own-another")
    return words.said("own-shared" if history.subjects(person.number) != {rider} else "own-you")
