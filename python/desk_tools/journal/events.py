"""What each line of the record says, in words: who asked what, whether it was done, and what was promised."""

import re
import urllib.parse
from dataclasses import dataclass, field
from typing import Any

from desk_tools.journal import shown
from desk_tools.journal.lines import Line, object_of, text_of, told
from desk_tools.journal.names import Names
from desk_tools.journal.people import People, Person, digits_of
from desk_tools.journal.words import Words

TRIP = re.compile(r"/trips/(\d{1,10})/(change|cancel|outcome)")
OF_RIDER = re.compile(r"/riders/(\d{1,10})/(entries|trips|standing|letters)(?:/([^/]+))?")
OF_VEHICLE = re.compile(r"/vehicles/(\d{1,10})/manifest/([^/]+)")
OF_DAY = re.compile(r"/days/([^/]+)/(sheet|trips\.csv)")
OWN = re.compile(r"/own/(\d+)/(places|name)\.json")
DRIVERS = re.compile(r"/drivers/(\d+)/(roster|places|outcomes)\.(?:csv|json)")
TALLY = re.compile(r"/tally/(\w+)")
FIELDS_OF_ENTRY = ("until", "starts", "ends", "against", "reasons", "basis")
PUT = {
    "/policy": "policy",
    "/places": "place",
    "/routes": "fixed-route",
    "/vehicles": "vehicle",
}


@dataclass
class Event:
    """A line in words. `rider` and `trip` are 0 where it is of none; `kind` groups the questions.

    `people` are whose key it was: nobody, one, or those whose keys begin alike.
    """

    line: Line
    people: list[Person]
    words: Words
    kind: str
    done: str
    asked: str
    rider: int = 0
    trip: int = 0
    details: list[str] = field(default_factory=list)
    is_of_all: bool = False
    # Which line of the record it is, counted from its beginning.
    turn: int = 0

    @property
    def what(self) -> str:
        """What was done, or what was asked and not done."""
        return self.done if self.was_done else self.words.said("asked-to", what=self.asked)

    @property
    def was_done(self) -> bool:
        """Whether it was done: a write was accepted, a read was answered."""
        return self.line.status in (200, 204, 206, 304)

    @property
    def outcome(self) -> str:
        """What came of it."""
        if self.was_done:
            return self.words.said("outcome-done")
        if self.line.status >= 499:
            return self.words.said("outcome-unknown", status=self.line.status)
        denied = text_of(self.line.answer, "denied")
        return self.words.said("outcome-refused", why=denied or self.line.status)

    @property
    def who(self) -> str:
        """Whose key it was."""
        titles = [it.title(self.words) for it in self.people]
        if len(titles) > 1:
            return self.words.said("not-certain", people=self.words.said("or").join(titles))
        if titles:
            return titles[0]
        is_without = self.line.who == "-"
        return self.words.said("no-key" if is_without else "unknown-key", digits=self.line.who)

    def tell(self, done: str, asked: str, **given: object) -> None:
        """Says what was done, or asked for."""
        self.done, self.asked = self.words.said(done, **given), self.words.said(asked, **given)


class Teller:
    """Tells lines in their order, and remembers of each trip whose it is and what was promised last."""

    def __init__(self, people: People, names: Names, riders: dict[int, int] | None = None) -> None:
        self.people, self.names, self.words = people, names, names.words
        self.riders = dict(riders or {})
        self.promised: dict[int, str] = {}

    def event(self, line: Line) -> Event:
        """The line in words."""
        event = Event(
            line, self.people.of_digits(line.who, told(line.at)), self.words, "other", "", ""
        )
        event.tell("other-done", "other", what=f"{line.method} {line.path}")
        if line.is_write:
            self.tell_write(event, line.path)
        else:
            self.tell_read(event, line.read.partition("?")[0])
        return event

    def tell_write(self, event: Event, path: str) -> None:
        """Puts a write into words."""
        trip, rider = TRIP.fullmatch(path), OF_RIDER.fullmatch(path)
        if path == "/trips" or trip and trip[2] == "change":
            self.tell_booking(event, int(trip[1]) if trip else 0)
        elif trip:
            self.tell_end(event, int(trip[1]), trip[2])
        elif rider and rider[2] == "entries":
            self.tell_entry(event, int(rider[1]))
        elif path == "/riders":
            self.tell_rider(event)
        elif path == "/callers":
            self.tell_caller(event)
        elif path in PUT:
            event.kind = "setting"
            number = event.line.fields.get("id", "")
            event.tell("put-done", "put", what=self.words.said(PUT[path], number=number))
        elif path.startswith("/travel/"):
            event.kind = "setting"
            event.tell("travel-done", "travel", day=path[8:])

    def wish(self, fields: dict[str, Any]) -> str:
        """What a booking asked for."""
        by = fields.get("by")
        return self.words.said(
            "wish",
            day=fields.get("day"),
            minute=self.names.clock(fields.get("wish")),
            by=(
                self.words.said("wish-by", minute=self.names.clock(by))
                if isinstance(by, int)
                else ""
            ),
            start=self.names.place(fields.get("from")),
            end=self.names.place(fields.get("to")),
        )

    def whose(self, key: str, rider: int) -> str:
        """For whom or of whom it is, where that is known."""
        return self.words.said(key, rider=self.names.rider(rider)) if rider else ""

    def tell_booking(self, event: Event, trip: int) -> None:
        """A booking, or a change, with what was promised before and after."""
        fields, answer, words = event.line.fields, event.line.answer, self.words
        number = answer.get("trip") if event.was_done else None
        event.kind, event.trip = "trip", number if isinstance(number, int) else trip
        rider = fields.get("rider") if not trip else self.riders.get(trip)
        event.rider = rider if isinstance(rider, int) else 0
        whose = self.whose("for-whom", event.rider)
        if trip:
            event.tell("changed", "change", trip=trip, whose=whose)
            before = self.promised.get(trip)
            event.details.append(
                words.said("promised-before" if before else "promised-nothing", promise=before)
            )
        else:
            event.tell("booked", "book", trip=event.trip, whose=whose)
        event.details += [self.wish(fields)] if "day" in fields else []
        if event.was_done and event.trip:
            if event.rider:
                self.riders[event.trip] = event.rider
            promise = words.said(
                "promise",
                day=fields.get("day"),
                first=self.names.clock(answer.get("window_from")),
                last=self.names.clock(answer.get("window_to")),
                vehicle=self.names.vehicle(answer.get("vehicle")),
            )
            self.promised[event.trip] = promise
            due = money(answer.get("due"))
            event.details.append(words.said("promised-due", promise=promise, due=due))

    def tell_end(self, event: Event, trip: int, verb: str) -> None:
        """A cancellation or an outcome."""
        event.kind, event.trip, event.rider = "trip", trip, self.riders.get(trip, 0)
        whose = self.whose("of-whom", event.rider)
        if verb == "cancel":
            event.tell("canceled", "cancel", trip=trip, whose=whose)
            promised = self.promised.get(trip)
            event.details += [self.words.said("promised", promise=promised)] if promised else []
            return
        said = text_of(event.line.fields, "outcome")
        outcome = self.words.called("ended", said)
        event.tell("ended", "end", trip=trip, whose=whose, outcome=outcome)

    def tell_entry(self, event: Event, rider: int) -> None:
        """An entry of a case file, with its days, conditions and reasons."""
        fields, words = event.line.fields, self.words
        kind, place = text_of(fields, "entry"), event.line.answer.get("entered")
        event.kind, event.rider = "standing", rider
        event.tell(
            "entered",
            "enter",
            what=words.called("entry", kind, words.said("entry")),
            rider=self.names.rider(rider),
            place=words.said("at-entry", place=place) if isinstance(place, int) else "",
        )
        for name in FIELDS_OF_ENTRY:
            if fields.get(name) is not None:
                event.details.append(words.said(f"field-{name}", value=fields[name]))
        if isinstance(fields.get("conditions"), list):
            value = "; ".join(map(str, fields["conditions"]))
            event.details.append(words.said("field-conditions", value=value))

    def tell_rider(self, event: Event) -> None:
        """A rider's record."""
        fields, words = event.line.fields, self.words
        number, kind = fields.get("id"), text_of(fields, "kind")
        event.kind, event.rider = "rider", number if isinstance(number, int) else 0
        event.done, event.asked = words.both("rider-put", rider=self.names.rider(number))
        marks = [name for name in ("attendant", "wheelchair") if fields.get(name)] or ["none"]
        event.details.append(
            ", ".join([words.called("kind", kind), *(words.said(f"mark-{it}") for it in marks)])
        )

    def tell_caller(self, event: Event) -> None:
        """A key that was put for somebody."""
        fields, words = event.line.fields, self.words
        role, subject = text_of(fields, "role"), fields.get("subject")
        name, event.kind = text_of(fields, "name"), "key"
        if role == "rider" and isinstance(subject, int):
            event.rider = subject
        event.done, event.asked = words.both(
            "key-put",
            number=fields.get("id"),
            name=f"{shown.quoted(name)}, " if name else "",
            role=words.called("role", role),
            subject=words.said("key-subject", number=subject) if subject else "",
        )
        digits = digits_of(text_of(fields, "digest"))
        event.details.append(words.said("key-digits" if digits else "key-no-digest", digits=digits))

    def tell_read(self, event: Event, path: str) -> None:
        """Puts a read into words."""
        rider, vehicle = OF_RIDER.fullmatch(path), OF_VEHICLE.fullmatch(path)
        day, own, drivers = OF_DAY.fullmatch(path), OWN.fullmatch(path), DRIVERS.fullmatch(path)
        tally = TALLY.match(path)
        event.kind = "read"
        if rider and rider[2] != "entries":
            event.rider = int(rider[1])
            named = self.names.rider(event.rider)
            self.was_read(event, f"read-{rider[2]}", rider=named, day=rider[3])
        elif own:
            event.rider = int(own[1])
            key = "read-own" if own[2] == "places" else "read-name"
            self.was_read(event, key, rider=self.names.rider(event.rider))
        elif vehicle:
            event.is_of_all = True
            named = self.names.vehicle(int(vehicle[1]))
            self.was_read(event, "read-manifest", vehicle=named, day=vehicle[2])
        elif day:
            event.is_of_all = True
            self.was_read(event, "read-sheet" if day[2] == "sheet" else "read-day", day=day[1])
        elif drivers:
            event.is_of_all = True
            named = self.names.vehicle(int(drivers[1]))
            self.was_read(event, f"read-{drivers[2]}", vehicle=named)
        elif path.startswith("/record/"):
            self.tell_question(event, path[8:])
        elif path.startswith("/staff/"):
            event.is_of_all = True
            self.was_read(event, "read-file", path=path[1:])
        elif tally:
            self.tell_tally(event, tally[1])
        else:
            self.was_read(event, "other", what=path)

    def was_read(self, event: Event, key: str, **given: object) -> None:
        """Names what was read."""
        event.done, event.asked = self.words.both("read", what=self.words.said(key, **given))

    def tell_question(self, event: Event, question: str) -> None:
        """What was asked of the record itself."""
        given = dict(urllib.parse.parse_qsl(event.line.path.partition("?")[2]))
        number = given.get("number", "")
        if number.isdecimal() and question not in ("trip", "caller"):
            event.rider = int(number)
        self.was_read(event, "read-record", question=f"{question} {number}".rstrip())

    def tell_tally(self, event: Event, kind: str) -> None:
        """What the pages counted."""
        given = dict(urllib.parse.parse_qsl(event.line.path.partition("?")[2]))
        given.update(
            {name: str(value) for name, value in object_of(event.line.body or b"").items()}
        )
        event.kind = "count"
        trip = given.get("trip", "")
        event.trip = int(trip) if trip.isdecimal() else 0
        event.rider = self.riders.get(event.trip, 0)
        said = ", ".join(f"{name} {value}" for name, value in given.items() if name != "id")
        event.tell("counted", "count", kind=kind, said=said)


def money(cents: object) -> str:
    """Cents as dollars."""
    return f"${cents / 100:.2f}" if isinstance(cents, int) else "?"
