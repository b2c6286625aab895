"""The commands that put what an agency has: the fixed routes of a feed, places, vehicles and callers."""

from __future__ import annotations

import argparse
import datetime
import hashlib
import os
from collections.abc import Callable, Iterator
from typing import Any

from desk_tools.days import clock
from desk_tools import holidays
from desk_tools.counting import counted
from desk_tools.setup import (
    agency_file,
    carry,
    desk,
    feed as feeds,
    fewer_routes as fewer,
    fixed,
    keys,
    plane as geometry,
    tables,
    whole_file,
)
from desk_tools.setup.carry import accepted, Task
from desk_tools.setup.desk import Caller, Journal, Line
from desk_tools.setup.limits import (
    DONE,
    GREATEST_WIDTH,
    MANY_VERSIONS,
    MOST_PLACES,
    MOST_ROUTES,
    MOST_VERSIONS,
    SOME_REFUSED,
    Wrong,
)
from desk_tools.town import corridor

# Statuses of a write that the desk has read and not done.
REFUSALS = range(400, 500)
ROLES = ["admin", "clerk", "examiner", "dispatcher"]


def caller_of(words: argparse.Namespace, role: str) -> Caller:
    """The caller whose key the words name for this role."""
    path = getattr(words, role)
    if not path:
        raise Wrong(f"this takes --{role} FILE, the file with the {role}'s key")
    if not hasattr(words, "line"):
        words.line, words.journal = Line(words.url, words.certificate, words.patience), Journal(
            words.folder, words.url
        )
    return Caller(words.line, words.journal, path)


def put(caller: Caller, path: str, body: dict[str, Any], purpose: str = "") -> Callable[..., Any]:
    """A task's work that is one write."""
    return lambda: accepted(caller.post(path, body, purpose))


def ended(refused: Any) -> int:
    """The exit status of a plan."""
    print("Nothing was sent.")
    return SOME_REFUSED if refused else DONE


# Fixed routes.


def routes(words: argparse.Namespace) -> int:
    """The fixed routes of a feed."""
    feed = wanted_feed(words)
    making = fixed.Making(
        words.width, words.tolerance, words.pause, words.rounding, words.all_accessible
    )
    positions = [(it.latitude, it.longitude) for it in feed.stops.values()]
    plane = geometry.kept_plane(words.folder) or geometry.plane_round(positions)
    made, refused, notes = made_routes(feed, plane, making, words.most)
    error = plane.greatest_error(positions, GREATEST_WIDTH)
    if error >= geometry.GREATEST_ERROR:
        raise Wrong(
            f"a length at the edge of the feed would be wrong by {error:.2%}, and the plane is to be right "
            f"within {geometry.GREATEST_ERROR:.1%}"
        )
    agency = carry.kept_agency(words.folder)
    numbered = {str(at): it for at, it in enumerate(made, 1)}
    retired = {number: it for number, it in agency["routes"].items() if number not in numbered}
    print(
        f"plane: round {plane.latitude}, {plane.longitude}; "
        f"a length is wrong by {error * 1000:.3f} feet in a thousand at most"
    )
    told_routes(numbered, retired, made)
    closed, said = closed_of(feed, agency.get("closed", []))
    told_closed(closed, agency.get("closed", []))
    carry.planned(refused, [*notes, *said, *feed.notes, *notes_of_kinds(feed, made)])
    if words.plan:
        return ended(refused)
    said_of_agency(agency, feed.agency)
    if closed:
        agency["closed"] = closed
    admin = caller_of(words, "admin")
    if not os.path.exists(f"{words.folder}/plane.json"):
        geometry.keep_plane(words.folder, plane, error)
    return put_routes(words, admin, agency, [*bodies_of(numbered, retired)], refused)


def closed_of(
    feed: feeds.Feed, known: list[dict[str, str]]
) -> tuple[list[dict[str, str]], list[str]]:
    """The closed days of agency.json with those on which no bus of the feed runs, and notes where the two differ."""
    found = {it["day"]: it for it in known}
    for day in feeds.closed_days(feed):
        name = holidays.name_of(day)
        found.setdefault(
            day.isoformat(), {"day": day.isoformat(), **({"name": name} if name else {})}
        )
    running = {it.isoformat() for route in feed.routes for it in feed.days.get(route.key, ())}
    notes = [
        f"{it['day']} is closed in agency.json, and buses run on it by the feed"
        for it in known
        if it["day"] in running
    ]
    return [found[it] for it in sorted(found)], notes


def told_closed(closed: list[dict[str, str]], known: list[dict[str, str]]) -> None:
    """Says which days are closed, and which of them are new in agency.json."""
    before = {it["day"] for it in known}
    print(
        f"{len(closed)} closed days, on which no bus runs and no trip is taken:"
        if closed
        else "No day of the feed is closed."
    )
    for it in closed:
        word = f" ({it['name']})" if it.get("name") else ""
        print(f"  {it['day']}{word}: {'in agency.json already' if it['day'] in before else 'new'}")


def made_routes(
    feed: feeds.Feed, plane: geometry.Plane, making: fixed.Making, most: int
) -> tuple[list[fixed.Fixed], list[tuple[str, str]], list[Any]]:
    """The fixed routes of the feed, the routes that are refused, and what is said where some had to become one."""
    made, refused = fixed.fixed_routes(feed, fixed.lines_of(feed, plane, making), making)
    if len(made) <= most:
        return made, refused, []
    made, refused, said = fewer.fewer(feed, plane, making, most)
    return made, refused, [said]


def said_of_agency(agency: dict[str, Any], said: dict[str, str]) -> None:
    """Takes what the feed says of its agency, where agency.json has nothing of it."""
    for name, value in said.items():
        try:
            if value and not agency.get(name):
                agency[name] = agency_file.FIELDS[name](value, name, [])
        except agency_file.Fault as fault:
            print(f"  note: agency.txt: {name}: {fault}")


def wanted_feed(words: argparse.Namespace) -> feeds.Feed:
    """The feed without the routes that are left out."""
    feed = feeds.read_feed(words.feed, words.start or datetime.date.today(), words.days)
    unknown = {*words.leave_out} - {it.key for it in feed.routes}
    if unknown:
        raise Wrong(
            f"{words.feed} has no route {min(unknown)} that runs then, so it can't be left out"
        )
    return feed._replace(routes=[it for it in feed.routes if it.key not in words.leave_out])


def bodies_of(
    numbered: dict[str, fixed.Fixed], retired: Any
) -> Iterator[tuple[str, dict[str, Any]]]:
    """What is put of each fixed route, with its name. One that the feed has no more stays, with no weekdays."""
    for number, it in numbered.items():
        yield it.name, fixed.body_of(int(number), it)
    for number, route in retired.items():
        fields: dict[str, Any] = {"accessible": False, "first": 0, "last": 0, **route, "days": []}
        yield fields.pop("name", ""), {"id": int(number), **fields}


def put_routes(
    words: argparse.Namespace,
    admin: Caller,
    agency: dict[str, Any],
    bodies: list[tuple[str, dict[str, Any]]],
    refused: list[Any],
) -> int:
    tasks = [
        Task(f"fixed route {body['id']} {name}", put(admin, "/routes", body))
        for name, body in bodies
    ]
    stands, status = carry.carried_out("routes", tasks, [admin], words.folder, refused)
    for at in stands:
        name, body = bodies[at]
        kept = {it: value for it, value in body.items() if it != "id"}
        agency["routes"][str(body["id"])] = {"name": name, **kept}
    carry.keep_agency(words.folder, agency)
    return status


def told_routes(numbered: dict[str, fixed.Fixed], retired: Any, made: list[fixed.Fixed]) -> None:
    count = len({key for it in made for key in it.keys})
    print(
        f"{len(made)} fixed routes of {count} routes of the feed, of {MOST_ROUTES} that the desk takes:"
    )
    for number, it in numbered.items():
        hours = f"{fixed.days_text(it.days)} {clock(it.first)}-{clock(it.last)}"
        lift = "accessible" if it.accessible else "not accessible"
        print(
            f"  {number}: {it.name}: {hours}, {len(it.points)} points, {it.width:,} feet to each side, {lift}"
        )
        for said in it.told:
            print(f"     {said}")
    for number, old in retired.items():
        print(f"  {number}: {old.get('name', '')}: the feed has it no more, so it gets no weekdays")


def notes_of_kinds(feed: feeds.Feed, made: list[fixed.Fixed]) -> Iterator[str]:
    for route in feed.routes:
        if route.kind in fixed.NOT_OWED:
            yield (
                f"{route.name} is rail or a coach by its route_type {route.kind}; along commuter bus, commuter rail "
                "and intercity rail no paratransit is owed (49 CFR 37.121(c)): if it is that, leave it out with "
                f"--leave-out {route.key}"
            )
    unmarked = sorted({it.name for it in made if not it.accessible and len(it.keys) == 1})
    if unmarked:
        yield (
            f"not each trip is marked as accessible of {', '.join(unmarked)}, so the desk takes those as not; "
            "if each bus takes a wheelchair, say --all-accessible"
        )


# Places.


def places(words: argparse.Namespace) -> int | None:
    """The places of a table."""
    plane, agency = geometry.kept_plane(words.folder), carry.kept_agency(words.folder)
    records, refused, notes, rows = tables.records_in(words.csv, "places", place_fault)
    if plane is None and any(it["x"] is None for it in records):
        raise Wrong(
            f"{words.folder} has no plane.json for latitudes and longitudes: run the command routes first"
        )
    points = {it["number"]: point_of(it, plane) for it in records}
    room = {int(number) for number in agency["places"]} | points.keys()
    if len(room) > MOST_PLACES:
        raise Wrong(
            f"with these there are {len(room)} places, and the desk has room for {MOST_PLACES}"
        )
    print(f"{counted(len(records), 'place')}, of {MOST_PLACES} that the desk takes:")
    for it in records:
        print(
            f"  {it['number']}: {it['name']}: {place_told(points[it['number']], it['core'], agency['routes'])}"
        )
    carry.planned(refused, notes)
    if words.plan:
        return ended(refused)
    admin = caller_of(words, "admin")
    kept = {
        it["number"]: {**dict(zip("xy", points[it["number"]])), "core": it["core"]}
        for it in records
    }
    tasks = [
        Task(f"place {number}", put_place(admin, number, it, agency["places"].get(str(number), {})))
        for number, it in kept.items()
    ]
    stands, status = carry.carried_out("places", tasks, [admin], words.folder, refused, rows)
    for record in (records[at] for at in stands):
        number = str(record["number"])
        agency["places"][number] = place_named(
            agency["places"].get(number, {}), record, kept[record["number"]], plane
        )
    carry.keep_agency(words.folder, agency)
    return status


def place_named(
    known: dict[str, Any], record: dict[str, Any], fields: dict[str, Any], plane: Any
) -> dict[str, Any]:
    """What agency.json has of a place: what the table says, and beside that what was there."""
    said = {
        name: record[name] for name in ("name", "note", "private") if record[name] not in (None, "")
    }
    position = [record["latitude"], record["longitude"]]
    if plane and position[0] is None:
        position = [round(it, 6) for it in plane.position(fields["x"], fields["y"])]
    elif not plane:
        position = []
    return {**known, **said, **fields, **dict(zip(("latitude", "longitude"), position))}


def point_of(record: dict[str, Any], plane: geometry.Plane | None) -> tuple[int, int]:
    """The point of a place's record."""
    if plane is None or record["x"] is not None:
        return record["x"], record["y"]
    return plane.point(record["latitude"], record["longitude"])


def put_place(
    admin: Caller, number: int, fields: dict[str, Any], known: dict[str, Any]
) -> Callable[..., Any]:
    """A place that the desk has already is no fault where an earlier run put it so."""

    def do() -> None:
        body = {"id": number, **fields}
        was_put = admin.was_sent("/places", body, "") or fields == {
            it: known.get(it) for it in fields
        }
        reply = admin.post("/places", body)
        if not (was_put and reply.body == {"denied": "desk.exists"}):
            accepted(reply)

    return do


def place_fault(record: dict[str, Any]) -> str | None:
    if (record["x"] is None) != (record["y"] is None) or (record["latitude"] is None) != (
        record["longitude"] is None
    ):
        return "one of its two coordinates is missing"
    if (record["x"] is None) == (record["latitude"] is None):
        return "it takes either latitude and longitude or x and y in feet"
    return None


def place_told(
    point: tuple[int, int], is_core: bool, fixed_routes: dict[str, dict[str, Any]]
) -> str:
    """Whether a corridor serves the place, or how many feet are missing to the nearest one."""
    running = corridor.lines_of(fixed_routes)
    if not running:
        return "there are no fixed routes yet"
    missing, name = corridor.nearest(point, running)
    at = f"at {point[0]}, {point[1]}, "
    if missing <= 0:
        return at + "served"
    if is_core:
        return at + "served as core"
    return at + f"NO CORRIDOR SERVES IT: {missing:,} feet are missing to that of {name}"


# Vehicles and callers.


def vehicles(words: argparse.Namespace) -> int:
    """The vehicles of a table."""
    agency = carry.kept_agency(words.folder)

    def fault_of(record: dict[str, Any]) -> Any:
        return vehicle_fault(record, {int(it) for it in agency["places"]})

    records, refused, notes, rows = tables.records_in(
        words.csv, "vehicles", fault_of, ("number", "from_day")
    )
    print(f"{counted(len(records), 'vehicle')}:")
    for it in records:
        hours = f"{fixed.days_text(it['days'])} {clock(it['opens'])}-{clock(it['closes'])}"
        print(
            f"  {it['number']}: {it['name']}: from {it['from_day']}, {hours}, {it['capacity']} seats, "
            f"{it['chairs']} wheelchair places, depot {it['depot']}"
        )
    carry.planned(refused, [*notes, *many_versions(records, desk.versions_put(words.folder))])
    if words.plan:
        return ended(refused)
    dispatcher = caller_of(words, "dispatcher")
    bodies = [
        {"id": it["number"], **{name: it[name] for name in it if name not in ("number", "name")}}
        for it in records
    ]
    tasks = [
        Task(f"vehicle {it['id']} from {it['from_day']}", put(dispatcher, "/vehicles", it))
        for it in bodies
    ]
    stands, status = carry.carried_out("vehicles", tasks, [dispatcher], words.folder, refused, rows)
    for record in (records[at] for at in stands):
        said = {"name": record["name"]} if record["name"] else {}
        agency["vehicles"][str(record["number"])] = {
            **agency["vehicles"].get(str(record["number"]), {}),
            **said,
        }
    carry.keep_agency(words.folder, agency)
    return status


def many_versions(records: list[dict[str, Any]], put: dict[Any, Any]) -> Iterator[str]:
    """A note for each vehicle that comes near the versions for which the desk has room."""
    days = {vehicle: set(those) for vehicle, those in put.items()}
    for it in records:
        days.setdefault(it["number"], set()).add(str(it["from_day"]))
    for vehicle, those in sorted(days.items()):
        if len(those) >= MANY_VERSIONS and any(it["number"] == vehicle for it in records):
            yield (
                f"vehicle {vehicle} has {len(those)} versions with this table, and the desk takes {MOST_VERSIONS} of a vehicle, for good. "
                "For a holiday take closed days of agency.json in their place"
            )


def vehicle_fault(record: dict[str, Any], depots: set[int]) -> Any:
    if record["opens"] > record["closes"]:
        return "it closes before it opens"
    return (
        f"its depot, place {record['depot']}, was not put yet"
        if record["depot"] not in depots
        else None
    )


def callers(words: argparse.Namespace) -> int:
    """The callers of a table, each with a key of its own in a file."""
    records, refused, notes, rows = tables.records_in(words.csv, "callers", caller_fault)
    folder = f"{words.folder}/keys"
    print(
        f"{counted(len(records), 'caller')}, whose keys go into {folder}; a caller that is there already is replaced:"
    )
    for it in records:
        print(
            f"  {it['number']}: {it['name']}: {it['role']}"
            + (f" of {it['subject']}" if it["subject"] else "")
        )
    carry.planned(refused, notes)
    if words.plan:
        return ended(refused)
    admin = caller_of(words, "admin")
    os.makedirs(folder, mode=0o700, exist_ok=True)
    tasks = [
        Task(
            f"caller {it['number']}", put_caller(admin, it, f"{folder}/{it['number']}-{it['role']}")
        )
        for it in records
    ]
    return carry.carried_out("callers", tasks, [admin], words.folder, refused, rows)[1]


def caller_fault(record: dict[str, Any]) -> Any:
    subject = {"rider": "rider", "driver": "vehicle"}.get(record["role"])
    if subject and not record["subject"]:
        return f"a {record['role']} takes the number of the {subject} as its subject"
    return f"a {record['role']} takes no subject" if record["subject"] and not subject else None


def made_key(path: str) -> str:
    """The key that the file holds, made where it holds none, so that only its owner reads it."""
    key = ""
    if os.path.exists(path):
        with open(path, encoding="ascii") as file:
            key = file.read().rstrip("\n")
    if key:
        os.chmod(path, 0o600)
        return key
    key = keys.made()
    whole_file.written(path, key)
    return key


def put_caller(admin: Caller, record: dict[str, Any], path: str) -> Callable[..., Any]:
    """The key is in its file before the desk hears of it, so it is not lost when the line breaks."""

    def do() -> None:
        # (the desk passes over the name; the site's record keeps it)
        body = {
            "id": record["number"],
            "role": record["role"],
            "subject": record["subject"],
            "name": record["name"],
        }
        is_new = not os.path.exists(path)
        digest = hashlib.sha256(made_key(path).encode()).hexdigest()
        reply = admin.post("/callers", {**body, "digest": digest})
        # (a key that the desk refused is nobody's)
        if is_new and reply.status in REFUSALS:
            os.remove(path)
        accepted(reply)

    return do
