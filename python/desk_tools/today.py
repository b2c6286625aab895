"""Makes the file of the day for staff: what drivers and clerks told the site today, out of the site's log. And with
--no-shows the file of the no-shows of the last 90 days, with what was seen of each.

It follows the log and writes the file anew every ten seconds, whole each time. The log may be rotated, cut short or
missing; what is in it twice counts once. docs/SITE-FILES.md has the form of the file.
"""

import datetime
import errno
import json
import logging
import os
import shutil
import time
import zoneinfo
from collections import defaultdict
from collections.abc import Callable, Iterable, Iterator
from dataclasses import dataclass, field
from pathlib import Path
from typing import BinaryIO

from desk_tools import ending, event_log
from desk_tools.arguments import Usage
from desk_tools.event_log import LONGEST, Told, UnreadableLog
from desk_tools.offers import open_offers

log = logging.getLogger("today")
EVERY = 10.0
# How long a trip may be told before its day: what came before that is passed over.
DAYS_KEPT = 16
# For so long what was seen of a no-show is told to who writes a notice of a proposed suspension.
DAYS_OF_NO_SHOWS = 90
# Taps are many, and one that comes on a later day is of no day that is shown.
DAYS_OF_TAPS = 1
# How long a log that was rotated is still looked at, since the site may still write into it.
SECONDS_AFTER = 300.0
# A tap that waited no longer than this before it came is no sign of a wrong date.
FRESH = datetime.timedelta(hours=1)
MARK = 64
KINDS = {
    "arrived": "arrived",
    "aboard": "aboard",
    "dropped": "dropped",
    "left": "skipped",
    "no-show-rider": "no-show",
    "no-show-agency": "missed",
}


# Following a log.


@dataclass
class Followed:
    """A log that is open, as far as it was read: what is left of a line without its end, and the bytes before it."""

    file: BinaryIO
    key: tuple[int, int]
    rest: bytes = b""
    mark: bytes = b""
    replaced: float | None = None

    def lines(self) -> Iterator[bytes]:
        """The whole lines that came since the last look. A log that was cut short is read from its beginning."""
        if self._is_another():
            self.file.seek(0)
            self.rest = self.mark = b""
        while piece := self.file.read(1 << 20):
            self.mark = (self.mark + piece)[-MARK:]
            *whole, self.rest = (self.rest + piece).split(b"\n")
            self.rest = self.rest[: LONGEST + 1]
            yield from (it + b"\n" for it in whole)

    def last_line(self) -> Iterator[bytes]:
        """A line without its end, of a log that nobody writes any more."""
        if self.rest:
            yield self.rest
        self.file.close()

    def _is_another(self) -> bool:
        """Whether the bytes before the place of reading are no longer those that were read."""
        at = self.file.tell()
        self.file.seek(max(0, at - len(self.mark)))
        is_same = self.file.read(len(self.mark)) == self.mark
        self.file.seek(at)
        return not is_same


@dataclass
class Follower:
    """Follows the log of this path over rotations."""

    path: Path
    files: list[Followed] = field(default_factory=list)
    seen: set[tuple[int, int]] = field(default_factory=set)

    def pass_over_rotated(self) -> None:
        """Has logs that were rotated by now count as read."""
        self.seen |= {key_of(os.stat(it)) for it in rotated(self.path, 0)}

    def lines(self, now: float) -> Iterator[bytes]:
        """The lines that came since the last look, at the moment `now` of a clock in seconds."""
        self._look(now)
        for it in [*self.files]:
            yield from it.lines()
            if it.replaced is not None and now - it.replaced >= SECONDS_AFTER:
                yield from it.last_line()
                self.files.remove(it)

    def _look(self, now: float) -> None:
        try:
            file = open(self.path, "rb", buffering=0)
        except FileNotFoundError:
            return
        key = key_of(os.fstat(file.fileno()))
        if any(it.key == key for it in self.files):
            file.close()
            return
        for it in self.files:
            it.replaced = now if it.replaced is None else it.replaced
        # (a log that was begun and rotated between two looks)
        for path in rotated(self.path, 0):
            between = key_of(os.stat(path))
            if between not in self.seen and path.suffix != ".gz":
                self.files.append(Followed(open(path, "rb", buffering=0), between, replaced=now))
                self.seen.add(between)
        self.files.append(Followed(file, key))
        self.seen.add(key)


def key_of(status: os.stat_result) -> tuple[int, int]:
    """What makes a file the same file under another name."""
    return status.st_dev, status.st_ino


def rotated(path: Path, since: float) -> list[Path]:
    """The logs that were this one before and have changed since a moment, the oldest first."""
    names = [*path.parent.glob(f"{path.name}-*"), *path.parent.glob(f"{path.name}.*")]
    found = [(it.stat().st_mtime, it) for it in names if it.is_file()]
    return [it for changed, it in sorted(found) if changed >= since]


# What is known.


@dataclass
class Known:
    """The events of the last days, each once, and how many lines could not be read."""

    events: dict[str, Told] = field(default_factory=dict)
    broken: int = 0
    first: datetime.date = datetime.date.min
    first_tap: datetime.date = datetime.date.min
    first_no_show: datetime.date = datetime.date.min

    def take(self, lines: Iterable[bytes]) -> bool:
        """Takes the events of some lines with their ends; whether there was a new one."""
        oldest, count = self.first.isoformat().encode(), len(self.events)
        oldest_tap = self.first_tap.isoformat().encode()
        oldest_no_show = self.first_no_show.isoformat().encode()
        for line in (piece for it in lines for piece in event_log.apart(it)):
            first = oldest
            if b"\t/tally/stops\t" in line:
                first = oldest_tap
            elif b"\t/tally/no-shows\t" in line:
                first = oldest_no_show
            if line[:10] < first and line[:2] == b"20":
                continue
            try:
                told = event_log.whole_of(line)
            except ValueError as error:
                self.broken += 1
                if self.broken <= 10:
                    log.warning("a line of the log can't be read: %s", error)
                continue
            self.events.setdefault(told.id, told)
        return len(self.events) > count

    def keep_for(self, day: datetime.date) -> None:
        """Forgets what the file of a day does not need."""
        self.first = day - datetime.timedelta(days=DAYS_KEPT)
        self.first_tap = day - datetime.timedelta(days=DAYS_OF_TAPS)
        self.first_no_show = day - datetime.timedelta(days=DAYS_OF_NO_SHOWS)
        self.events = {key: it for key, it in self.events.items() if self._is_kept(it)}

    def _is_kept(self, told: Told) -> bool:
        firsts = {"stops": self.first_tap, "no-shows": self.first_no_show}
        return told.received.date() >= firsts.get(told.kind, self.first)


# The file.


def minute_of(told: Told, zone: datetime.tzinfo) -> int:
    """The minute at which something was, by the agency's clock: as it was told, and never after the site had it."""
    return 60 * moment_of(told, zone).hour + moment_of(told, zone).minute


def moment_of(told: Told, zone: datetime.tzinfo) -> datetime.datetime:
    """When something was, by the agency's clock; a phone whose clock is ahead tells of no future."""
    return min(told.moment("at"), told.received.astimezone(zone).replace(tzinfo=None))


def day_of(known: Known, today: datetime.date, zone: datetime.tzinfo) -> dict[str, object]:
    """What was told of a day, as the file has it but for `made`."""
    events = sorted(event_log.standing(known.events.values()), key=lambda it: _at(it, zone))
    of: dict[str, list[Told]] = defaultdict(list)
    for it in events:
        if _is_of(it, today, zone):
            of[it.kind].append(it)
    return {
        "day": today.isoformat(),
        "vehicles": _taps(of["stops"], zone),
        "notes": [_row(it, zone, "vehicle", "trip", "text") for it in of["notes"]],
        "earlier_notes": _earlier_notes(events, today, zone),
        "bookings": {
            str(it.fields["trip"]): {
                name: it.fields[name]
                for name in ("mode", "minute", "from", "to", "from_address", "to_address")
                if it.fields.get(name) is not None
            }
            for it in of["bookings"]
        },
        "offers": _offers(events, today),
        "no_shows": [
            _row(it, zone, "trip", "vehicle", "from", "to", "arrived", "wait")
            for it in of["no-shows"]
        ],
        "disagreements": [
            _row(it, zone, "trip", "vehicle", "record", "told") for it in of["disagreements"]
        ],
        "calls": _calls(of["calls"], lambda it: it.fields["result"]),
        "call_times": _calls(of["calls"], lambda it: _spelled(moment_of(it, zone))),
        "unreviewed": _unreviewed(events, today, zone),
        "settled": _settled(of["reviews"], zone),
        "late": [_late(it, zone) for it in events if _is_late(it, today, zone)],
        "denials": _denials(events, today, zone),
        "partial_grants": _partial_grants(of["partial-grants"]),
    }


def no_shows_of(known: Known, zone: datetime.tzinfo) -> dict[str, object]:
    """What was seen of each no-show by its trip, as the file of no-shows has it but for `made`."""
    events = sorted(event_log.standing(known.events.values()), key=lambda it: _at(it, zone))
    return {
        "since": known.first_no_show.isoformat(),
        "no_shows": {
            str(it.fields["trip"]): _seen(it, zone) for it in events if it.kind == "no-shows"
        },
    }


def _seen(told: Told, zone: datetime.tzinfo) -> dict[str, object]:
    """What was seen of one no-show."""
    day: dict[str, object] = {"day": str(told.fields["day"])}
    return {**_row(told, zone, "vehicle", "from", "to", "arrived", "wait"), **day}


def _partial_grants(events: list[Told]) -> list[dict[str, object]]:
    """How far each grant in part has come: of each refusal the last step."""
    found: dict[tuple[object, object], dict[str, object]] = {}
    for it in events:
        row: dict[str, object] = {name: it.fields[name] for name in ("rider", "entry", "step")}
        found[row["rider"], row["entry"]] = {**row, "day": str(it.fields["day"])}
    return [*found.values()]


def _offers(events: Iterable[Told], today: datetime.date) -> dict[str, dict[str, object]]:
    """What waits for a rider's answer, as far as somebody told of it."""
    names = ("rider", "mode", "minute", "from", "to", "offer")
    return {
        str(trip): {"day": str(it.fields["day"]), **{name: it.fields[name] for name in names}}
        for trip, it in open_offers(events, today).items()
        if all(it.fields[name] is not None for name in names)
    }


def _denials(
    events: list[Told], today: datetime.date, zone: datetime.tzinfo
) -> list[dict[str, object]]:
    """The denials of today for lack of a vehicle, each with the first mark that came for its day and minute since.

    A way back that was lost was not asked for, and of an offer the desk had a vehicle: no log can say why not.
    """
    marks = [it for it in events if it.kind == "marks"]
    return [
        {
            "id": it.id,
            "day": str(it.fields["day"]),
            **{name: it.fields[name] for name in ("minute", "mode", "channel")},
            "at": _spelled(_at(it, zone)[0]),
            "marked": _marked(it, marks, zone),
        }
        for it in events
        if it.kind == "denials"
        and it.fields["rule"] == "no vehicle"
        and it.fields["leg"] is None
        and it.fields["trip"] is None
        and _at(it, zone)[0].date() == today
    ]


def _marked(denial: Told, marks: list[Told], zone: datetime.tzinfo) -> str | None:
    """When a copy was first asked for of a trip of this day and minute, at or after its denial."""
    asked = [denial.fields[name] for name in ("day", "minute", "mode")]
    since = _at(denial, zone)[0]
    for it in marks:
        is_same = [it.fields[name] for name in ("day", "minute", "mode")] == asked
        if is_same and _at(it, zone)[0] >= since:
            return _spelled(_at(it, zone)[0])
    return None


def _taps(
    events: list[Told], zone: datetime.tzinfo
) -> dict[str, dict[str, list[dict[str, object]]]]:
    """The taps of each van, in the order in which they were, each with its stop where that was told."""
    found: dict[str, dict[str, list[dict[str, object]]]] = defaultdict(lambda: {"taps": []})
    for it in events:
        kind = KINDS[str(it.fields["event"])]
        found[str(it.fields["vehicle"])]["taps"].append(
            {
                "trip": it.fields["trip"],
                "kind": kind,
                "minute": minute_of(it, zone),
                **({"stop": it.fields["stop"]} if it.fields["stop"] else {}),
            }
        )
    return found


def _calls(events: list[Told], said: Callable[[Told], object]) -> dict[str, dict[str, object]]:
    """What is said of the last tick of each trip of each list."""
    found: dict[str, dict[str, object]] = defaultdict(dict)
    for it in events:
        found[str(it.fields["list"])][str(it.fields["trip"])] = said(it)
    return found


def _unreviewed(
    events: list[Told], today: datetime.date, zone: datetime.tzinfo
) -> dict[str, list[dict[str, object]]]:
    """No-shows and disagreements of the last days at which nobody of dispatch has looked since, each with its day.

    A phone that asked the desk twice may have told the same of one trip twice: that is one."""
    known: set[tuple[object, ...]] = set()
    reviewed = {it.fields["trip"]: _at(it, zone) for it in events if it.kind == "reviews"}
    found: dict[str, list[dict[str, object]]] = {"no_shows": [], "disagreements": []}
    for it in events:
        if it.kind not in ("no-shows", "disagreements"):
            continue
        seen, day = reviewed.get(it.fields["trip"]), _day_of(it, zone)
        if day > today or (seen and seen >= _at(it, zone)):
            continue
        names = (
            ("trip", "vehicle", "from", "to", "arrived", "wait")
            if it.kind == "no-shows"
            else ("trip", "vehicle", "record", "told")
        )
        same = (it.kind, day, *(it.fields.get(name) for name in names))
        if same in known:
            continue
        known.add(same)
        told: dict[str, object] = {"day": day.isoformat(), **_row(it, zone, *names)}
        found[it.kind.replace("-", "_")].append(told)
    return found


def _earlier_notes(
    events: list[Told], today: datetime.date, zone: datetime.tzinfo
) -> list[dict[str, object]]:
    """The notes of the day before, with that day: who closes it after midnight reads them."""
    day = today - datetime.timedelta(days=1)
    return [
        {"day": day.isoformat(), **_row(it, zone, "vehicle", "trip", "text")}
        for it in events
        if it.kind == "notes" and it.fields["day"] == day
    ]


def _settled(reviews: list[Told], zone: datetime.tzinfo) -> list[dict[str, object]]:
    """What dispatch found right of each trip at last, and when, for who settles the same trip."""
    found: dict[object, dict[str, object]] = {}
    for it in reviews:
        day = moment_of(it, zone).date().isoformat()
        found[it.fields["trip"]] = {"day": day, **_row(it, zone, "trip", "outcome")}
    return [*found.values()]


def _day_of(told: Told, zone: datetime.tzinfo) -> datetime.date:
    day = told.fields.get("day")
    return day if isinstance(day, datetime.date) else moment_of(told, zone).date()


def _is_late(told: Told, today: datetime.date, zone: datetime.tzinfo) -> bool:
    """Whether a tap came today and is of an earlier day, but for those of the last hour, as at midnight."""
    received = told.received.astimezone(zone).replace(tzinfo=None)
    if told.kind != "stops" or received.date() != today:
        return False
    at = moment_of(told, zone)
    return at.date() < today and received - at > FRESH


def _late(told: Told, zone: datetime.tzinfo) -> dict[str, object]:
    kind = KINDS[str(told.fields["event"])]
    at = _spelled(moment_of(told, zone))
    return {"vehicle": told.fields["vehicle"], "trip": told.fields["trip"], "kind": kind, "at": at}


def _spelled(moment: datetime.datetime) -> str:
    return moment.strftime("%Y-%m-%dT%H:%M:%S")


def _at(told: Told, zone: datetime.tzinfo) -> tuple[datetime.datetime, datetime.datetime]:
    at = told.fields.get("at")
    received = told.received.astimezone(zone).replace(tzinfo=None)
    return (moment_of(told, zone) if at else received), received


def _is_of(told: Told, today: datetime.date, zone: datetime.tzinfo) -> bool:
    """Whether the file of a day has an event: bookings of that day and later ones, what was that day, and all calls,
    reviews and grants in part."""
    if told.kind in ("calls", "reviews", "partial-grants"):
        return True
    day = told.fields.get("day")
    if isinstance(day, datetime.date):
        return day >= today if told.kind == "bookings" else day == today
    return told.fields.get("at") is not None and moment_of(told, zone).date() == today


def _row(told: Told, zone: datetime.tzinfo, *names: str) -> dict[str, object]:
    return {**{name: told.fields[name] for name in names}, "minute": minute_of(told, zone)}


# The work.


def zone_in(path: Path | None) -> datetime.tzinfo:
    """The zone of the agency's file, or this machine's where it names none."""
    try:
        name = json.loads(path.read_text(encoding="utf-8")).get("zone") if path else None
        return zoneinfo.ZoneInfo(name) if name else _of_machine()
    except (OSError, ValueError, AttributeError, TypeError, zoneinfo.ZoneInfoNotFoundError) as why:
        log.warning("%s names no zone (%s): days are those of this machine", path, why)
        return _of_machine()


def _of_machine() -> datetime.tzinfo:
    return datetime.datetime.now().astimezone().tzinfo or datetime.timezone.utc


def write_whole(path: Path, text: str, group: str | None) -> None:
    """Writes a file so that whoever reads it has the one before or this one. Its group may read it."""
    new = path.with_name(f".{path.name}.new")
    with open(
        os.open(new, os.O_WRONLY | os.O_CREAT | os.O_TRUNC, 0o640), "w", encoding="utf-8"
    ) as file:
        file.write(text)
    if group:
        shutil.chown(new, group=group)
    os.replace(new, path)


@dataclass
class Work:
    """One agency's log and file."""

    follower: Follower
    output: Path
    agency: Path | None = None
    group: str | None = None
    no_shows: Path | None = None
    known: Known = field(default_factory=Known)
    made_for: tuple[datetime.date, str] | None = None
    told: dict[str, object] = field(default_factory=dict)
    told_no_shows: dict[str, object] = field(default_factory=dict)

    def begin(self, now: datetime.datetime) -> None:
        """Reads what was told in the last days, also out of logs that were rotated since."""
        self.known.keep_for(now.date())
        days = DAYS_OF_NO_SHOWS if self.no_shows else DAYS_KEPT
        since = now.timestamp() - days * 86_400
        for path in rotated(self.follower.path, since):
            try:
                self.known.take(event_log.lines_in(path))
            except UnreadableLog as error:
                log.warning("%s", error)
        self.follower.pass_over_rotated()

    def step(self, now: datetime.datetime) -> None:
        """Reads what is new, and writes the file."""
        zone = zone_in(self.agency)
        today = now.astimezone(zone).date()
        is_new = self.known.take(self.follower.lines(now.timestamp()))
        if is_new or self.made_for != (today, str(zone)):
            self.known.keep_for(today)
            self.told = day_of(self.known, today, zone)
            self.told_no_shows = no_shows_of(self.known, zone)
            self.made_for = today, str(zone)
        made = now.astimezone(datetime.timezone.utc).strftime("%Y-%m-%dT%H:%M:%SZ")
        text = json.dumps({"day": today.isoformat(), "made": made, **self.told}, ensure_ascii=False)
        write_whole(self.output, text + "\n", self.group)
        if self.no_shows:
            seen = json.dumps({"made": made, **self.told_no_shows}, ensure_ascii=False)
            write_whole(self.no_shows, seen + "\n", self.group)


def _now() -> datetime.datetime:
    return datetime.datetime.now(datetime.timezone.utc)


def main(arguments: list[str]) -> int:
    """Follows the log until it is ended. Its status is 1 where the log or the file can't be had with --once."""
    reader = Usage("deploy/today", description=__doc__)
    reader.takes("log LOG", "the site's log of what it was told", type=Path)
    reader.takes("output FILE", "the file for staff", type=Path)
    reader.takes("--agency FILE", "agency.json, for its zone", type=Path)
    reader.takes("--group", "the group that may read the file, such as www-data")
    reader.takes("--no-shows FILE", "the file of no-shows for staff", type=Path)
    reader.flag("--once", "write the file once")
    words = reader.parse_args(arguments)
    logging.basicConfig(format="deploy/today: %(message)s")
    work = Work(Follower(words.log), words.output, words.agency, words.group, words.no_shows)
    if words.once and not words.log.exists():
        log.error("%s: %s", words.log, os.strerror(errno.ENOENT))
        return 1
    is_begun, said = False, ""
    while True:
        try:
            if not is_begun:
                work.begin(_now())
                is_begun = True
            work.step(_now())
            said = ""
        except (OSError, LookupError) as error:
            why = f"{getattr(error, 'filename', None) or words.output}: {getattr(error, 'strerror', None) or error}"
            if why != said:
                log.error("%s", why)
            said = why
        if words.once:
            return 1 if said else 0
        time.sleep(EVERY)


if __name__ == "__main__":
    ending.run("deploy/today", main)
