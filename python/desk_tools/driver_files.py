"""The files of each van's driver: the riders, places and outcomes of today's and tomorrow's manifests, and nothing more.

bin/site-files makes the agency's whole list of places (staff/places.json) and of riders for drivers
(drivers/roster.csv). No driver reads these. This command reads the manifests of two days from the
desk and writes what each van needs of the lists: drivers/VEHICLE/roster.csv, places.json and
outcomes.json, which has what drivers of the van told today as well (staff/today.json). A van without
stops has no files. A file is written whole, and only where it changes.

It also writes staff/plans.json, with which a clerk's page says how late a van is: the times of today's
stops and how trips ended, without riders and places.
"""

import argparse
import contextlib
import csv
import datetime
import io
import json
import logging
import os
import re
import urllib.error
import urllib.request
import zoneinfo
from dataclasses import dataclass, field
from pathlib import Path
from typing import Any

from desk_tools.arguments import Usage
from desk_tools.setup import whole_file
from desk_tools import asking, ending
from desk_tools.town.site_addresses import End, Known

LOG = logging.getLogger("desk-driver-files")
HEAD = re.compile(r"VEHICLE (\d+) DAY \d{4}-\d{2}-\d{2}")
STOP = re.compile(r"\d\d:\d\d (?:DEPOT (\d+)|(PICK|DROP) trip (\d+) rider (\d+) place (\d+)\b.*)")
END_OF = {"PICK": "from", "DROP": "to"}
PLANNED = re.compile(
    r"(\d\d):(\d\d) (?:(DEPOT) \d+|(PICK|DROP) trip (\d+) rider \d+ place \d+ load (\d+)(?: chairs (\d+))?.*)"
)
WINDOW = re.compile(r" window (\d\d):(\d\d)-(\d\d):(\d\d)\b")
PLACE_FIELDS = ("id", "name", "note", "latitude", "longitude")
ROSTER_FIELDS = ("rider", "name", "note")
PLACES = "staff/places.json"
PLANS = "staff/plans.json"
NAMES = ("roster.csv", "places.json", "outcomes.json", "addresses.json")
ADDRESS_FIELDS = ("id", "street", "note", "latitude", "longitude")
# Of what a driver taps, what says how far a trip has come.
TAPS = ("aboard", "dropped", "no-show", "missed")
SECONDS = 60
# Whoever serves the files is in the folder's group; nobody else reads them.
FILE_MODE, FOLDER_MODE = 0o640, 0o2750


class Wrong(Exception):
    """What keeps the files from being made, in one sentence."""


@dataclass
class Need:
    """What one driver has to know: numbers of riders and of places, by trip how it ended and what was tapped, and
    both ends of its trips.
    """

    riders: set[int] = field(default_factory=set)
    places: set[int] = field(default_factory=set)
    outcomes: dict[int, str] = field(default_factory=dict)
    taps: dict[int, dict[str, Any]] = field(default_factory=dict)
    ends: dict[tuple[int, str], End] = field(default_factory=dict)


def needs_in(sheets: list[str], exports: list[str]) -> dict[int, Need]:
    """What the driver of each van needs, by the day sheets and the exports of the same days.

    A van has a need where it has stops. Outcomes are those of its trips that are no longer booked.
    """
    needs: dict[int, Need] = {}
    for sheet in sheets:
        vehicle = 0
        for line in sheet.splitlines():
            if head := HEAD.fullmatch(line):
                vehicle = int(head[1])
            elif stop := STOP.fullmatch(line):
                need = needs.setdefault(vehicle, Need())
                need.places.add(int(stop[1] or stop[5]))
                if stop[2]:
                    need.riders.add(int(stop[4]))
                    end = End(int(stop[4]), int(stop[5]))
                    need.ends[int(stop[3]), END_OF[stop[2]]] = end
    for export in exports:
        for row in csv.DictReader(io.StringIO(export)):
            if row["status"] != "booked" and int(row["vehicle"]) in needs:
                needs[int(row["vehicle"])].outcomes[int(row["trip"])] = row["status"]
    return needs


def plans_in(day: str, sheet: str, export: str, made: datetime.datetime) -> dict[str, Any]:
    """What staff/plans.json has: by van the times of a day's stops, and how trips ended."""
    vehicles: dict[str, list[dict[str, Any]]] = {}
    vehicle = "0"
    for line in sheet.splitlines():
        if head := HEAD.fullmatch(line):
            vehicle = head[1]
        elif found := PLANNED.fullmatch(line):
            vehicles.setdefault(vehicle, []).append(planned_stop(found, WINDOW.search(line)))
    rows = csv.DictReader(io.StringIO(export))
    outcomes = {row["trip"]: row["status"] for row in rows if row["status"] != "booked"}
    moment = made.astimezone(datetime.timezone.utc).strftime("%Y-%m-%dT%H:%M:%SZ")
    return {"day": day, "made": moment, "vehicles": vehicles, "outcomes": outcomes}


def planned_stop(found: re.Match[str], window: re.Match[str] | None) -> dict[str, Any]:
    """One stop of a manifest: its minute of the day, and of a pickup its window."""
    stop: dict[str, Any] = {"at": minutes_of(found[1], found[2]), "what": found[3] or found[4]}
    if found[5]:
        stop |= {"trip": int(found[5]), "load": int(found[6]), "chairs": int(found[7] or 0)}
    if window:
        stop["window"] = [minutes_of(window[1], window[2]), minutes_of(window[3], window[4])]
    return stop


def minutes_of(hour: str, minute: str) -> int:
    """The minute of the day."""
    return 60 * int(hour) + int(minute)


def texts_of(
    need: Need,
    places: list[dict[str, Any]],
    roster: list[dict[str, str]],
    town: "Town | None" = None,
) -> dict[str, str]:
    """The text of each file of one van."""
    rows = [it for it in roster if it["rider"].isdecimal() and int(it["rider"]) in need.riders]
    wanted = [it for it in places if it.get("id") in need.places]
    known = [{name: it[name] for name in PLACE_FIELDS if name in it} for it in wanted]
    out = io.StringIO()
    table = csv.DictWriter(out, ROSTER_FIELDS, lineterminator="\n", extrasaction="ignore")
    table.writeheader()
    table.writerows(rows)
    outcomes = {str(trip): how for trip, how in sorted(need.outcomes.items())}
    taps = {str(trip): tap for trip, tap in sorted(need.taps.items())}
    return {
        "roster.csv": out.getvalue(),
        "places.json": as_json({"places": known}),
        "outcomes.json": as_json({"outcomes": outcomes, "taps": taps}),
        **({"addresses.json": as_json({"addresses": town.ends_of(need)})} if town else {}),
    }


@dataclass
class Town:
    """The addresses, and which of them each booking named (staff/today.json)."""

    known: Known
    bookings: dict[str, Any]

    def named(self, trip: int, end: str) -> object:
        """The number of the address that a trip's booking named for an end, "from" or "to"; None where it named none."""
        booking = self.bookings.get(str(trip))
        return booking.get(f"{end}_address") if isinstance(booking, dict) else None

    def ends_of(self, need: Need) -> dict[str, dict[str, dict[str, Any]]]:
        """By trip and end the address that is meant, where one is known."""
        found: dict[str, dict[str, dict[str, Any]]] = {}
        for (trip, end), it in sorted(need.ends.items()):
            meant = self.known.meant(it, self.named(trip, end))
            if meant is not None:
                fields = {name: meant[name] for name in ADDRESS_FIELDS if name in meant}
                found.setdefault(str(trip), {})[end] = fields
        return found


def town_in(folder: Path) -> Town | None:
    """The town's addresses with today's bookings; none where there is no file of addresses."""
    path = folder / "staff/addresses.json"
    if not path.exists():
        return None
    listed = object_in(path).get("addresses", [])
    known = Known([it for it in listed if isinstance(it, dict)])
    bookings = object_in(folder / "staff/today.json").get("bookings", {})
    return Town(known, bookings if isinstance(bookings, dict) else {})


def as_json(value: object) -> str:
    """A value as a file has it."""
    return json.dumps(value, ensure_ascii=False) + "\n"


# What is read.


def asked(url: str, key: str, path: str) -> str:
    """The desk's reply to a read."""
    request = urllib.request.Request(f"{url}{path}", headers={"Desk-Key": key})
    try:
        with urllib.request.urlopen(request, timeout=SECONDS) as reply:
            return str(reply.read().decode("utf-8"))
    except urllib.error.HTTPError as error:
        raise Wrong(
            f"the desk answers {path} with {error.code}: {asking.refusal_in(error)}"
        ) from None
    except (OSError, ValueError) as error:
        raise Wrong(f"the desk does not answer at {url}: {error}") from None


def key_in(path: Path) -> str:
    """The key in a file of one line."""
    try:
        key = path.read_text(encoding="ascii").strip()
    except (OSError, ValueError) as error:
        raise Wrong(f"{path}: {getattr(error, 'strerror', None) or error}") from None
    if not key:
        raise Wrong(f"{path} holds no key")
    return key


def places_in(folder: Path) -> list[dict[str, Any]]:
    """All places, as bin/site-files has them for staff; none where there is no such file."""
    found = object_in(folder / PLACES).get("places", [])
    return [it for it in found if isinstance(it, dict)]


def object_in(path: Path) -> dict[str, Any]:
    """The object in a file of JSON, an empty one where there is no file."""
    try:
        value = json.loads(path.read_text(encoding="utf-8"))
    except FileNotFoundError:
        return {}
    except (OSError, ValueError) as error:
        raise Wrong(f"{path}: {getattr(error, 'strerror', None) or error}") from None
    if not isinstance(value, dict):
        raise Wrong(f"{path} is no JSON object")
    return value


def roster_in(folder: Path) -> list[dict[str, str]]:
    """What drivers may know of riders, as bin/site-files has it; none where there is no such file."""
    path = folder / "drivers/roster.csv"
    try:
        rows = list(csv.DictReader(io.StringIO(path.read_text(encoding="utf-8-sig"))))
    except FileNotFoundError:
        return []
    except (OSError, ValueError, csv.Error) as error:
        raise Wrong(f"{path}: {getattr(error, 'strerror', None) or error}") from None
    return [{name: it.get(name) or "" for name in ROSTER_FIELDS} for it in rows]


def taps_in(folder: Path, day: str) -> dict[int, dict[int, dict[str, Any]]]:
    """By van and trip the last tap of a day that says how far the trip has come.

    There is none where the file of the day is missing, of another day or not of its form: the other
    files do not wait for it.
    """
    found: dict[int, dict[int, dict[str, Any]]] = {}
    try:
        told = object_in(folder / "staff/today.json")
        for van, it in told["vehicles"].items() if told.get("day") == day else ():
            for tap in it["taps"]:
                if tap["kind"] in TAPS:
                    one = {"kind": tap["kind"], "minute": int(tap["minute"])}
                    found.setdefault(int(van), {})[int(tap["trip"])] = one
    except (Wrong, KeyError, TypeError, ValueError, AttributeError) as why:
        LOG.warning("staff/today.json is passed over: %s", why)
    return found


def days_from(today: str | None, zone: str | None) -> list[str]:
    """Today and tomorrow, by the agency's clock where no day is given."""
    try:
        place = zoneinfo.ZoneInfo(zone) if zone else None
        first = datetime.date.fromisoformat(today) if today else datetime.datetime.now(place).date()
    except (ValueError, OSError, zoneinfo.ZoneInfoNotFoundError) as error:
        raise Wrong(str(error)) from None
    return [first.isoformat(), (first + datetime.timedelta(1)).isoformat()]


# What is written.


def put(folder: Path, texts: dict[int, dict[str, str]]) -> int:
    """Gives each van its files and takes away those of all others; how many files changed."""
    drivers, changed = folder / "drivers", 0
    make_folder(drivers)
    for old in sorted(drivers.iterdir()):
        if old.is_dir() and re.fullmatch("[1-9][0-9]*", old.name) and int(old.name) not in texts:
            changed += emptied(old)
    for vehicle, files in texts.items():
        make_folder(drivers / str(vehicle))
        changed += sum(written(drivers / str(vehicle) / name, text) for name, text in files.items())
    return changed


def make_folder(path: Path) -> None:
    """Makes a folder that the group of the folder above may read."""
    if not path.is_dir():
        path.mkdir(parents=True)
        os.chown(path, -1, path.parent.stat().st_gid)
        path.chmod(FOLDER_MODE)


def emptied(folder: Path) -> int:
    """Takes a van's files away; how many there were."""
    ours = [it for it in folder.iterdir() if it.name.removesuffix(".new") in NAMES]
    for it in ours:
        it.unlink()
    with contextlib.suppress(OSError):
        folder.rmdir()
    return len(ours)


def written(path: Path, text: str) -> bool:
    """Writes a file whole where it says something else; whether it did."""
    with contextlib.suppress(OSError, ValueError):
        if path.read_text(encoding="utf-8") == text:
            return False
    new = path.with_name(f"{path.name}.new")
    with open(new, "w", encoding="utf-8", opener=opener) as file:
        file.write(text)
        os.fchown(file.fileno(), -1, path.parent.stat().st_gid)
        file.flush()
        os.fsync(file.fileno())
    new.replace(path)
    return True


def opener(path: str, flags: int) -> int:
    """Opens a file that nobody else reads until it has its group."""
    number = os.open(path, flags | os.O_NOFOLLOW, FILE_MODE)
    os.fchmod(number, FILE_MODE)
    return number


def make(folder: Path, url: str, key: str, today: str | None) -> str:
    """Makes the files of all vans; what was done, in one line."""
    if not (folder / PLACES).is_file():
        raise Wrong(f"{folder} has no {PLACES} of bin/site-files, so it is not the site's folder")
    try:
        days = days_from(today, object_in(folder / "agency.json").get("zone"))
        sheets = [asked(url, key, f"/days/{day}/sheet") for day in days]
        exports = [asked(url, key, f"/days/{day}/trips.csv") for day in days]
        with whole_file.turn_in(str(folder)):
            places, roster, town = places_in(folder), roster_in(folder), town_in(folder)
            needs = sorted(needs_in(sheets, exports).items())
            for van, taps in taps_in(folder, days[0]).items():
                for need in (need for number, need in needs if number == van):
                    need.taps = taps
            changed = put(
                folder, {van: texts_of(need, places, roster, town) for van, need in needs}
            )
            plans = plans_in(days[0], sheets[0], exports[0], datetime.datetime.now().astimezone())
            written(folder / PLANS, as_json(plans))
    except OSError as error:
        raise Wrong(f"{error.filename or folder}: {error.strerror}") from None
    except (KeyError, ValueError) as error:
        raise Wrong(f"the desk's reply is not of its form: {error}") from None
    return f"{folder}/drivers: {len(needs)} vans, {changed} files changed"


def words_of(arguments: list[str]) -> argparse.Namespace:
    """The words of the command line."""
    parser = Usage("bin/driver-files", description=(__doc__ or "").split("\n\n")[0])
    parser.takes("folder FOLDER", "the site's folder", type=Path)
    parser.takes("--key", "a file with a dispatcher's key", type=Path, required=True)
    parser.takes("--url", "where the desk answers", default="http://127.0.0.1:8437")
    parser.takes("--today DAY", "YYYY-MM-DD; today where it is left out")
    return parser.parse_args(arguments)


def main(arguments: list[str]) -> int:
    """Runs the command: 0, or 1 where the files could not be made and stay as they were."""
    logging.basicConfig(format="%(name)s: %(message)s", level=logging.INFO)
    words = words_of(arguments)
    try:
        print(make(words.folder, words.url, key_in(words.key), words.today))
    except Wrong as wrong:
        LOG.error("%s", wrong)
        return 1
    return 0


if __name__ == "__main__":
    ending.run("bin/driver-files", main)
