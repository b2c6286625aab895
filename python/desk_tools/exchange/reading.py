"""What is read for a day's trips: the desk's export, day sheet and riders' trips, and the files of the site's folder."""

import csv
import datetime
import io
import json
import re
import zoneinfo
from collections.abc import Callable
from dataclasses import dataclass
from pathlib import Path
from typing import Any

from desk_tools.asking import Desk, Refused
from desk_tools.exchange.telegrams import STATES, Clock, Known, Trip
from desk_tools.town.site_addresses import ENDS, End
from desk_tools.town.site_addresses import Known as Addresses

STOP = re.compile(r"(\d\d):(\d\d) (PICK|DROP) trip (\d+) ")
ROSTER = ("name", "telephone", "language", "aid")


class Wrong(Exception):
    """A file that can't be used: one sentence."""


@dataclass(frozen=True)
class Site:
    """The agency's files of the site's folder: what they say of places, vehicles, addresses, riders and the day."""

    name: str
    telephone: str
    zone: zoneinfo.ZoneInfo
    places: dict[int, dict[str, Any]]
    vehicles: dict[int, str]
    addresses: Addresses
    riders: dict[int, dict[str, str]]
    today: dict[str, Any]


def object_in(path: Path) -> dict[str, Any]:
    """A file's JSON object; an empty one where there is no file."""
    try:
        held = json.loads(path.read_text(encoding="utf-8-sig"))
    except FileNotFoundError:
        return {}
    except OSError as error:
        raise Wrong(f"{path}: {error.strerror}") from None
    except (ValueError, RecursionError):
        held = None
    if not isinstance(held, dict):
        raise Wrong(f"{path} is no JSON object")
    return held


def listed(held: dict[str, Any], name: str) -> list[dict[str, Any]]:
    """The objects with a number of one list."""
    found = held.get(name, [])
    there = [it for it in found if isinstance(it, dict)] if isinstance(found, list) else []
    return [it for it in there if isinstance(it.get("id"), int)]


def roster_in(path: Path) -> dict[int, dict[str, str]]:
    """The riders of the site's roster; none where there is no such file."""
    try:
        rows = list(csv.DictReader(io.StringIO(path.read_text(encoding="utf-8-sig"))))
        return {int(it["rider"]): {name: it.get(name) or "" for name in ROSTER} for it in rows}
    except FileNotFoundError:
        return {}
    except OSError as error:
        raise Wrong(f"{path}: {error.strerror}") from None
    except (ValueError, KeyError, TypeError, csv.Error):
        raise Wrong(f"{path} is no roster that bin/site-files made") from None


def site_in(folder: Path, day: datetime.date, has_names: bool) -> Site:
    """The site's files. What drivers and riders reported is that of the day alone."""
    agency, staff = object_in(folder / "agency.json"), folder / "staff"
    if not agency.get("name") or not agency.get("zone"):
        raise Wrong(f"{folder}/agency.json has no name and zone: bin/site-files makes the folder")
    try:
        zone = zoneinfo.ZoneInfo(str(agency["zone"]))
    except (ValueError, OSError, zoneinfo.ZoneInfoNotFoundError):
        raise Wrong(f"{folder}/agency.json: {agency['zone']!r} is no zone") from None
    names, today = object_in(staff / "places.json"), object_in(staff / "today.json")
    return Site(
        str(agency["name"]),
        str(agency.get("telephone", "")),
        zone,
        {it["id"]: it for it in listed(names, "places")},
        {it["id"]: str(it.get("name", "")) for it in listed(names, "vehicles")},
        Addresses(listed(object_in(staff / "addresses.json"), "addresses")),
        roster_in(staff / "roster.csv") if has_names else {},
        {
            "bookings": today.get("bookings"),
            "vehicles": today.get("vehicles") if today.get("day") == day.isoformat() else None,
        },
    )


# The desk.


def trips_on(
    desk: Desk, day: datetime.date, say: Callable[[int, int], None] = lambda done, count: None
) -> list[Trip]:
    """All trips of a day by their numbers, with what only their riders' lists say of them.

    `say` gets how many riders were asked for, of how many.
    """
    rows = rows_of(desk, f"/days/{day}/trips.csv")
    try:
        riders, found = sorted({int(it["rider"]) for it in rows}), list[Trip]()
        for done, rider in enumerate(riders):
            say(done, len(riders))
            held = json.loads(text_of(desk, f"/riders/{rider}/trips"))["trips"]
            # (a trip that is changed meanwhile is taken as its rider's list has it, if it is of that day still)
            found += [trip_in(rider, it) for it in held if it["day"] == day.isoformat()]
    except (KeyError, ValueError, TypeError) as error:
        raise Refused(f"the desk's trips of {day} are not of their form: {error}") from None
    return sorted(found, key=lambda it: it.number)


def trip_in(rider: int, it: dict[str, Any]) -> Trip:
    """A trip of a rider's list. Raises ValueError for a state that is none."""
    if it["status"] not in STATES:
        raise ValueError(f"trip {it['trip']} has the state {it['status']!r}")
    return Trip(
        int(it["trip"]),
        rider,
        str(it["status"]),
        int(it["wish"]),
        (int(it["window_from"]), int(it["window_to"])),
        (int(it["from"]), int(it["to"])),
        int(it["vehicle"]),
        None if it["by"] is None else int(it["by"]),
        bool(it["attendant"]),
        int(it["companions"]),
        int(it["due"]),
    )


def rows_of(desk: Desk, path: str) -> list[dict[str, str]]:
    """The rows of a CSV of the desk's."""
    return list(csv.DictReader(io.StringIO(text_of(desk, path))))


def text_of(desk: Desk, path: str) -> str:
    """A reply that has to be there."""
    text = desk.get(path)
    if text is None:
        raise Refused(f"the desk has nothing at {path}")
    return text


def planned_on(desk: Desk, day: datetime.date) -> dict[int, tuple[int, int]]:
    """By trip the minutes of its pickup and of its drop-off, by the day sheet."""
    found: dict[int, dict[str, int]] = {}
    for line in text_of(desk, f"/days/{day}/sheet").splitlines():
        if stop := STOP.match(line):
            minute = 60 * int(stop[1]) + int(stop[2])
            found.setdefault(int(stop[4]), {})[stop[3]] = minute
    return {
        trip: (it["PICK"], it["DROP"]) for trip, it in found.items() if {"PICK", "DROP"} <= set(it)
    }


# Both together.


def known_of(trip: Trip, site: Site, planned: dict[int, tuple[int, int]]) -> Known:
    """What is known of a trip besides."""
    booking = object_at(site.today["bookings"], str(trip.number))
    points = tuple(point_of(trip, site, booking, at) for at in range(len(ENDS)))
    asked = {it: booking[it] for it in ("mode", "minute") if it in booking}
    taps = object_at(site.today["vehicles"], str(trip.vehicle)).get("taps", [])
    return Known(
        (points[0], points[1]),
        site.riders.get(trip.rider, {}),
        asked if isinstance(asked.get("minute"), int) else {},
        planned.get(trip.number),
        site.vehicles.get(trip.vehicle, ""),
        {
            str(it["kind"]): int(it["minute"])
            for it in (taps if isinstance(taps, list) else [])
            if isinstance(it, dict) and it.get("trip") == trip.number and "minute" in it
        },
    )


def point_of(trip: Trip, site: Site, booking: dict[str, Any], end: int) -> dict[str, Any]:
    """One end of a trip: the address that is meant, where it is known, with its place's name; else the place."""
    number = trip.ends[end]
    place = site.places.get(number, {"id": number})
    meant = site.addresses.meant(End(trip.rider, number), booking.get(f"{ENDS[end]}_address"))
    return {**place, "name": place.get("name", str(number)), **(meant or {})}


def object_at(held: object, name: str) -> dict[str, Any]:
    """A named object of an object; an empty one where there is none."""
    found = held.get(name) if isinstance(held, dict) else None
    return found if isinstance(found, dict) else {}


def clock_of(site: Site, day: datetime.date) -> Clock:
    """The day by the agency's clock."""
    return Clock(day, site.zone)
