"""What is read for reminders: the agency's file, and booked trips of the desk."""

import csv
import datetime
import io
import json
import logging
import zoneinfo
from dataclasses import replace
from pathlib import Path
from typing import Any

from desk_tools import driver_files
from desk_tools.asking import Desk, Refused
from desk_tools.reminders.settings import Wrong
from desk_tools.reminders.texts import Agency, Trip

LOG = logging.getLogger("bin/reminders")
BOOKED = "booked"


def agency_in(path: Path, site: Path | None = None) -> tuple[Agency, datetime.tzinfo | None]:
    """What the texts say of the agency, with the addresses of the site's folder, and its zone."""
    try:
        held: dict[str, Any] = json.loads(path.read_text("utf-8-sig"))
        named = {int(it["id"]): str(it["name"]) for it in held.get("places", []) if it.get("name")}
        clock = 24 if held.get("clock") == 24 else 12
        agency = Agency(str(held["name"]), str(held.get("telephone", "")), clock, named)
        zone = zoneinfo.ZoneInfo(str(held["zone"])) if "zone" in held else None
    except OSError as error:
        raise Wrong(f"{path}: {error.strerror}") from None
    except (ValueError, KeyError, TypeError, AttributeError, zoneinfo.ZoneInfoNotFoundError):
        raise Wrong(f"{path} is no agency.json with a name, places and a zone") from None
    town = town_in(site) if site else None
    return (replace(agency, town=town) if town else agency), zone


def town_in(site: Path) -> driver_files.Town | None:
    """The town's addresses. Of a folder that can't be read none are known: no reminder waits for a street."""
    try:
        return driver_files.town_in(site)
    except driver_files.Wrong as error:
        LOG.warning("%s: places go by their names", error)
        return None


def trips_on(desk: Desk, day: datetime.date) -> list[Trip]:
    """The booked trips of a day, in order of their pickup windows."""
    text = desk.get(f"/days/{day}/trips.csv")
    if text is None:
        raise Refused(f"the desk has no trips of {day}")
    try:
        rows = [it for it in csv.DictReader(io.StringIO(text)) if it["status"] == BOOKED]
        found = [_trip(it, int(it["rider"])) for it in rows]
    except (KeyError, ValueError, TypeError) as error:
        raise Refused(f"the desk's trips of {day} are not of their form: {error}") from None
    return sorted(found, key=lambda it: (it.begins, it.number))


def booked_now(desk: Desk, trip: Trip) -> Trip | None:
    """The trip as the desk has it now, or None where it is no longer booked."""
    text = desk.get(f"/riders/{trip.rider}/trips")
    if text is None:
        return None
    try:
        for row in json.loads(text)["trips"]:
            if row["trip"] == trip.number:
                return _trip(row, trip.rider) if row["status"] == BOOKED else None
    except (KeyError, ValueError, TypeError) as error:
        raise Refused(
            f"the desk's trips of rider {trip.rider} are not of their form: {error}"
        ) from None
    return None


def _trip(row: dict[str, Any], rider: int) -> Trip:
    numbers = [int(row[it]) for it in ("window_from", "window_to", "from", "to")]
    return Trip(int(row["trip"]), rider, datetime.date.fromisoformat(row["day"]), *numbers)


def begins_at(trip: Trip) -> datetime.datetime:
    """When the pickup window begins, by the agency's clock."""
    midnight = datetime.datetime.combine(trip.day, datetime.time())
    return midnight + datetime.timedelta(minutes=trip.begins)


def is_soon(trip: Trip, now: datetime.datetime, minutes: int) -> bool:
    """Whether the pickup window begins within so many minutes."""
    return now < begins_at(trip) <= now + datetime.timedelta(minutes=minutes)


def days_of_soon(now: datetime.datetime) -> list[datetime.date]:
    """The days whose trips may begin soon: a window may lie behind the midnight of its trip's day."""
    return [now.date() + datetime.timedelta(days=it) for it in (-1, 0, 1)]
