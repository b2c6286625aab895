"""A GTFS feed: what runs along which line, on which weekdays of a span of days, and in which minutes.

What cannot be read ends the reading with one sentence that names the file and its row, the header being row 1.
"""

from __future__ import annotations

import collections
import csv
import datetime
import io
import re
import zipfile
import zlib
from collections.abc import Iterator
from typing import Any, NamedTuple

from desk_tools.setup.limits import Wrong


class Run(NamedTuple):
    """Trips of one line: on these weekdays (1, Monday, to 7), from a minute to a minute, which may
    be past midnight."""

    line: Any
    weekdays: Any
    first: int
    last: int
    accessible: bool


class Route(NamedTuple):
    """A route of the feed: its kind is GTFS's number, its runs go along the lines that their keys
    name."""

    key: str
    name: str
    kind: str
    runs: list[Run]


class Stop(NamedTuple):
    """Stops by their keys: a name, a latitude and a longitude."""

    name: str
    latitude: float
    longitude: float


class Line(NamedTuple):
    """A line: positions in order, whether they are a shape's (else those of its stops), and the
    keys of the stops along it."""

    positions: list[tuple[float, float]]
    has_shape: bool
    stops: Any


class Feed(NamedTuple):
    """(agency.json's own names for what the feed says of its agency; the days on which each route
    runs, as far as the feed tells)."""

    agency: dict[str, Any]
    routes: list[Route]
    lines: dict[Any, Line]
    stops: dict[str, Stop]
    notes: list[str]
    days: Any


# For so many days from the first one closed days are looked for; a weekday is served where a bus runs on it so many days before or after.
DAYS_OF_CLOSED, DAYS_ALIKE = 366, 28
WEEKDAYS = ("monday", "tuesday", "wednesday", "thursday", "friday", "saturday", "sunday")
NEEDED = ("agency", "routes", "trips", "stop_times", "stops")
OTHERS = ("calendar", "calendar_dates", "shapes", "frequencies")
TIME, NUMBER = re.compile(r"(\d{1,3}):([0-5]\d):([0-5]\d)"), re.compile(
    r"[+-]?(\d+\.?\d*|\.\d+)([eE][+-]?\d+)?"
)


class NothingRuns(Wrong):
    """A feed without a trip in the days that are asked about."""


class Table:
    """A file of the feed, a row after the other."""

    def __init__(self, archive: zipfile.ZipFile, names: dict[str, str], name: str) -> None:
        self.archive, self.name, self.inside, self.row = archive, name, names.get(name), 1

    def __bool__(self) -> bool:
        return self.inside is not None

    def fault(self, said: str) -> Wrong:
        return Wrong(f"{self.name}, row {self.row}: {said}")

    def rows(self, *needed: str) -> Iterator[dict[str, str]]:
        """Each row as a dict, once all the needed columns are there."""
        with self.archive.open(str(self.inside)) as raw, io.TextIOWrapper(
            raw, "utf-8-sig", newline=""
        ) as text:
            reader = csv.reader(text)
            try:
                header = [it.strip() for it in next(reader, [])]
                missing = [it for it in needed if it not in header]
                if missing:
                    raise Wrong(f"{self.name} has no column {missing[0]}")
                for self.row, fields in enumerate(reader, 2):
                    if fields:
                        yield dict(
                            zip(header, map(str.strip, fields + [""] * (len(header) - len(fields))))
                        )
            except (
                csv.Error,
                UnicodeDecodeError,
                zipfile.BadZipFile,
                zlib.error,
                EOFError,
            ) as error:
                raise Wrong(f"{self.name} can't be read after row {self.row}: {error}") from None

    def number(self, row: dict[str, str], column: str) -> float:
        if not NUMBER.fullmatch(row[column]):
            raise self.fault(f"{column} {row[column]!r} is no number")
        return float(row[column])

    def day(self, row: dict[str, str], column: str) -> datetime.date:
        try:
            if not re.fullmatch(r"[0-9]{8}", row[column]):
                raise ValueError
            return datetime.datetime.strptime(row[column], "%Y%m%d").date()
        except ValueError:
            raise self.fault(f"{column} {row[column]!r} is no date YYYYMMDD") from None

    def seconds(self, row: dict[str, str], column: str) -> int | None:
        """A time as seconds from the beginning of the day of service, or None where it is left open."""
        if not row.get(column):
            return None
        found = TIME.fullmatch(row[column])
        if not found:
            raise self.fault(f"{column} {row[column]!r} is no time HH:MM:SS")
        hours, minutes, seconds = map(int, found.groups())
        return hours * 3600 + minutes * 60 + seconds


def opened(path: str) -> zipfile.ZipFile:
    try:
        return zipfile.ZipFile(path)
    except FileNotFoundError:
        raise Wrong(f"there is no file {path}") from None
    except (zipfile.BadZipFile, OSError):
        raise Wrong(f"{path} is no zip") from None


def checked(archive: zipfile.ZipFile, path: str) -> zipfile.ZipFile:
    """The archive, none of whose files is locked by a password."""
    if any(it.flag_bits & 1 for it in archive.infolist()):
        raise Wrong(f"{path} is locked by a password")
    return archive


def tables_of(archive: zipfile.ZipFile, path: str) -> dict[str, Table]:
    """The feed's files by their names, all that are needed among them."""
    names = {it.rpartition("/")[2]: it for it in archive.namelist()}
    tables = {it: Table(archive, names, f"{it}.txt") for it in (*NEEDED, *OTHERS)}
    for name in NEEDED:
        if not tables[name]:
            raise Wrong(f"{path} has no file {name}.txt")
    if not tables["calendar"] and not tables["calendar_dates"]:
        raise Wrong(f"{path} has neither calendar.txt nor calendar_dates.txt")
    return tables


def read_feed(path: str, first_day: datetime.date, days: int) -> Feed:
    """The feed with what runs on so many days from the first one."""
    with checked(opened(path), path) as archive:
        tables = tables_of(archive, path)
        services = services_of(tables, first_day, first_day + datetime.timedelta(days=days - 1))
        feed, days_of = feed_of(tables, services)
        feed = feed._replace(days=route_days(tables, first_day))
        closed = closed_days(feed)
        for route in feed.routes:
            feed.notes.extend(
                notes_of_days(
                    route.name,
                    days_of[route.key],
                    [
                        it
                        for it in (first_day + datetime.timedelta(days=at) for at in range(days))
                        if it not in closed
                    ],
                )
            )
        return feed


# Which days.


def services_of(
    tables: dict[str, Table], first_day: datetime.date, last_day: datetime.date
) -> dict[str, set[datetime.date]]:
    """For each service the days of the span on which it runs."""
    running, known = collections.defaultdict(set), []
    if tables["calendar"]:
        for row in tables["calendar"].rows("service_id", "start_date", "end_date", *WEEKDAYS):
            start, end = (tables["calendar"].day(row, it) for it in ("start_date", "end_date"))
            known += [start, end]
            day = max(start, first_day)
            while day <= min(end, last_day):
                if row[WEEKDAYS[day.weekday()]] == "1":
                    running[row["service_id"]].add(day)
                day += datetime.timedelta(days=1)
    if tables["calendar_dates"]:
        for row in tables["calendar_dates"].rows("service_id", "date", "exception_type"):
            day = tables["calendar_dates"].day(row, "date")
            if row["exception_type"] not in ("1", "2"):
                raise tables["calendar_dates"].fault(
                    f"exception_type {row['exception_type']!r} is neither 1 nor 2"
                )
            known += [day]
            if first_day <= day <= last_day:
                days = running[row["service_id"]]
                days.add(day) if row["exception_type"] == "1" else days.discard(day)
    if not any(running.values()):
        told = (
            f"it tells of days from {min(known)} to {max(known)}" if known else "it tells of no day"
        )
        raise NothingRuns(f"nothing runs from {first_day} to {last_day} by this feed: {told}")
    return running


def route_days(tables: dict[str, Table], first_day: datetime.date) -> dict[str, set[datetime.date]]:
    """The days on which each route runs, by its key, as far as the feed tells."""
    services = services_of(
        tables, first_day, first_day + datetime.timedelta(days=DAYS_OF_CLOSED - 1)
    )
    days: dict[str, set[datetime.date]] = collections.defaultdict(set)
    for row in trips_of(tables["trips"], services).values():
        days[row["route_id"]] |= services[row["service_id"]]
    return days


def closed_days(feed: Feed) -> list[datetime.date]:
    """The days on which none of the feed's routes runs, though buses run on that weekday some weeks before or after."""
    running = set().union(*(feed.days.get(it.key, ()) for it in feed.routes))
    weeks = [datetime.timedelta(days=it) for it in range(-DAYS_ALIKE, DAYS_ALIKE + 1, 7)]
    span = (
        [
            min(running) + datetime.timedelta(days=it)
            for it in range((max(running) - min(running)).days)
        ]
        if running
        else []
    )
    return [day for day in span if day not in running and any(day + it in running for it in weeks)]


def notes_of_days(name: Any, running: Any, span: Any) -> Iterator[str]:
    """Where a route runs on some of the span's Mondays and not on all, and so on: the desk knows weekdays alone."""
    for weekday in sorted({it.isoweekday() for it in running}):
        alike = [it for it in span if it.isoweekday() == weekday]
        there, missing = [it for it in alike if it in running], [
            it for it in alike if it not in running
        ]
        if missing:
            few, word = (missing, "not") if len(missing) < len(there) else (there, "only")
            listed = ", ".join(map(str, few[:3])) + (
                f" and {len(few) - 3} more" if len(few) > 3 else ""
            )
            runs = (
                f"{name} runs on {len(there)} of {len(alike)} {alike[0]:%A}s ({word} on {listed})"
            )
            yield f"{runs}; the desk takes each {alike[0]:%A}"


# What runs.


def feed_of(
    tables: Any, services: dict[str, set[datetime.date]]
) -> tuple[Feed, dict[str, set[datetime.date]]]:
    """The feed, and for each of its routes the days on which it runs."""
    trips = trips_of(tables["trips"], services)
    notes: list[str] = []
    days_of: dict[str, set[datetime.date]] = collections.defaultdict(set)
    visits = visits_of(tables["stop_times"], trips)
    repeats = repeats_of(tables["frequencies"]) if tables["frequencies"] else {}
    shapes = (
        shapes_of(tables["shapes"], {it["shape_id"] for it in trips.values()})
        if tables["shapes"]
        else {}
    )
    runs: dict[str, dict[Run, bool]] = collections.defaultdict(dict)
    ways: dict[Any, set[str]] = collections.defaultdict(set)
    for key, trip in trips.items():
        if len(visits.get(key, ())) < 2:
            notes.append(
                f"trip {key} of route {trip['route_id']} has fewer than two stops and is left out"
            )
            continue
        stops = tuple(stop for _, stop, _, _ in sorted(visits[key], key=lambda it: it[0]))
        line = trip["shape_id"] if trip["shape_id"] in shapes else stops
        ways[line].update(stops)
        days_of[trip["route_id"]] |= services[trip["service_id"]]
        weekdays = frozenset(it.isoweekday() for it in services[trip["service_id"]])
        for first, last in spans_of(visits[key], repeats.get(key)):
            run = Run(
                line,
                weekdays,
                first // 60,
                -(-last // 60),
                trip.get("wheelchair_accessible") == "1",
            )
            runs[trip["route_id"]][run] = True
    places = stops_of(tables["stops"], set[str]().union(*ways.values()))
    lines = {
        key: Line(shapes[key], True, along)
        if isinstance(key, str)
        else Line([(places[it].latitude, places[it].longitude) for it in key], False, along)
        for key, along in ways.items()
    }
    named = names_of(tables["routes"])
    routes = [
        Route(key, name, kind, list(runs.pop(key))) for key, name, kind in named if key in runs
    ]
    if runs:
        raise Wrong(f"trips.txt names the route {min(runs)!r}, which routes.txt has not")
    return Feed(agency_of(tables["agency"]), routes, lines, places, notes, {}), days_of


def agency_of(table: Table) -> dict[str, str]:
    """What the first agency of the feed says of itself, by the names that agency.json has for it."""
    first: dict[str, str] = next(table.rows("agency_name"), {})
    names = {"name": "agency_name", "zone": "agency_timezone", "telephone": "agency_phone"}
    return {name: " ".join(first.get(column, "").split()) for name, column in names.items()}


def names_of(table: Table) -> Iterator[tuple[str, str, str]]:
    """The key, the name and the kind of each route."""
    for row in table.rows("route_id", "route_type"):
        given = (
            " ".join((row.get(it) or "").split()) for it in ("route_short_name", "route_long_name")
        )
        name = " ".join(dict.fromkeys(it for it in given if it))
        yield row["route_id"], name or " ".join(row["route_id"].split()), row["route_type"]


def trips_of(table: Table, services: dict[str, set[datetime.date]]) -> dict[str, dict[str, str]]:
    """The trips that run in the span of days, by their keys."""
    trips = {}
    for row in table.rows("trip_id", "route_id", "service_id"):
        if services.get(row["service_id"]):
            trips[row["trip_id"]] = {"shape_id": "", **row}
    return trips


def visits_of(
    table: Table, trips: dict[str, dict[str, str]]
) -> dict[str, list[tuple[float, str, int | None, int | None]]]:
    """For each trip its stops: the place in the order, the stop, and the times of arrival and departure."""
    visits: dict[str, list[tuple[float, str, int | None, int | None]]] = collections.defaultdict(
        list
    )
    for row in table.rows("trip_id", "stop_sequence", "stop_id", "arrival_time", "departure_time"):
        if row["trip_id"] not in trips or not row["stop_id"]:
            # (a visit without a stop is one that riders ask for, anywhere in a zone)
            continue
        arrival, departure = table.seconds(row, "arrival_time"), table.seconds(
            row, "departure_time"
        )
        visits[row["trip_id"]].append(
            (table.number(row, "stop_sequence"), row["stop_id"], arrival, departure)
        )
    for key in trips:
        if key in visits and not any(
            time is not None for visit in visits[key] for time in visit[2:]
        ):
            raise Wrong(f"stop_times.txt: trip {key} has no time at any stop")
    return visits


def spans_of(
    visits: list[tuple[float, str, int | None, int | None]], repeats: Any
) -> list[tuple[int, int]]:
    """From when to when a trip runs, in seconds: once, or over and over as frequencies.txt tells."""
    times = [time for visit in visits for time in visit[2:] if time is not None]
    if not repeats:
        return [(min(times), max(times))]
    return [(start, end + max(times) - min(times)) for start, end, _ in repeats]


def repeats_of(table: Any) -> Any:
    """For each trip that is repeated: from when to when, and after how many seconds each time, or 0."""
    repeats = collections.defaultdict(list)
    for row in table.rows("trip_id", "start_time", "end_time"):
        pause = int(table.number(row, "headway_secs")) if row.get("headway_secs") else 0
        repeats[row["trip_id"]].append(
            (*(table.seconds(row, it) or 0 for it in ("start_time", "end_time")), max(0, pause))
        )
    return repeats


def shapes_of(table: Table, wanted: set[str]) -> dict[str, list[tuple[float, float]]]:
    points = collections.defaultdict(list)
    for row in table.rows("shape_id", "shape_pt_lat", "shape_pt_lon", "shape_pt_sequence"):
        if row["shape_id"] in wanted:
            position = table.number(row, "shape_pt_lat"), table.number(row, "shape_pt_lon")
            points[row["shape_id"]].append((table.number(row, "shape_pt_sequence"), position))
    ordered = {key: [position for _, position in sorted(those)] for key, those in points.items()}
    return {key: line for key, line in ordered.items() if len({*line}) > 1}


def stops_of(table: Table, wanted: set[str]) -> dict[str, Stop]:
    """The stops that are served, each with its position."""
    stops: dict[str, Stop] = {}
    for row in table.rows("stop_id", "stop_lat", "stop_lon"):
        if row["stop_id"] in wanted:
            if not row["stop_lat"] or not row["stop_lon"]:
                raise table.fault(f"the stop {row['stop_id']!r} has no position")
            position = table.number(row, "stop_lat"), table.number(row, "stop_lon")
            stops[row["stop_id"]] = Stop(row.get("stop_name", ""), *position)
    lost = wanted - stops.keys()
    if lost:
        raise Wrong(f"stop_times.txt names the stop {min(lost)!r}, which stops.txt has not")
    return stops
