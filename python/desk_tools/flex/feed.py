"""The files of a GTFS-Flex feed: zones are the corridors, and a trip joins two zones while both are served.

The desk takes a trip where each end lies in a corridor that is served at the requested minute. So fixed routes with the
same days and hours share a zone, and of each two zones there is a trip for the hours that they share.
"""

import csv
import datetime
import io
import json
from collections import defaultdict
from collections.abc import Callable, Iterable, Sequence
from dataclasses import dataclass

from desk_tools import law
from desk_tools.flex.outline import Line, Point, polygons_of

Position = Callable[[float, float], tuple[float, float]]
Table = list[dict[str, str]]
WEEKDAYS = ("monday", "tuesday", "wednesday", "thursday", "friday", "saturday", "sunday")
RULE, ROUTE, AGENCY = "ada", "paratransit", "agency"
FIRST_DAY, LAST_DAY = law.DAYS_AHEAD, 1
PHONE_AGENCY, NOT_AVAILABLE, PRIOR_DAYS, BUS = "2", "1", "2", "3"
REMOVED = "2"


@dataclass(frozen=True)
class Hours:
    """Weekdays, 1 for Monday, and the first and last minute at which trips may be requested."""

    days: tuple[int, ...]
    first: int
    last: int


@dataclass(frozen=True)
class Corridor:
    """A fixed route's corridor and hours."""

    line: Line
    hours: Hours


@dataclass(frozen=True)
class Service:
    """What the feed says beside the zones."""

    name: str
    telephone: str
    url: str
    zone: str
    first: datetime.date
    last: datetime.date
    until: int
    closed: tuple[datetime.date, ...] = ()


def zones_of(corridors: Iterable[Corridor]) -> dict[Hours, list[Line]]:
    """The lines of each zone, by their hours."""
    found: dict[Hours, list[Line]] = defaultdict(list)
    for it in corridors:
        found[it.hours].append(it.line)
    return dict(found)


def shared(one: Hours, other: Hours) -> Hours | None:
    """The hours at which both are served, or None."""
    days = tuple(it for it in one.days if it in other.days)
    first, last = max(one.first, other.first), min(one.last, other.last)
    return Hours(days, first, last) if days and first < last else None


def clock(minute: int) -> str:
    """A minute as a time of the feed."""
    return f"{minute // 60:02}:{minute % 60:02}:00"


def geojson_of(
    zones: dict[Hours, list[Line]],
    position: Position,
    show: Callable[[int], None] = lambda done: None,
) -> dict[str, object]:
    """locations.geojson: a zone for each set of hours. `show` gets how many are drawn."""
    features = []
    for at, lines in enumerate(zones.values(), 1):
        show(at - 1)
        polygons = [[_ring(ring, position) for ring in it] for it in polygons_of(lines)]
        features.append(
            {
                "type": "Feature",
                "id": f"zone-{at}",
                "properties": {"stop_name": f"Paratransit zone {at}"},
                "geometry": {"type": "MultiPolygon", "coordinates": polygons},
            }
        )
    return {"type": "FeatureCollection", "features": features}


def _ring(points: Sequence[Point], position: Position) -> list[list[float]]:
    found = []
    for x, y in points[:-1]:
        latitude, longitude = position(x, y)
        found.append([round(longitude, 6), round(latitude, 6)])
    return [*found, found[0]]


def tables_of(zones: dict[Hours, list[Line]], service: Service) -> dict[str, Table]:
    """The feed's tables, by their files."""
    trips: Table = []
    times: Table = []
    services: dict[tuple[int, ...], str] = {}
    for at, one in enumerate(zones, 1):
        for to, other in enumerate(zones, 1):
            both = shared(one, other)
            if both:
                name = services.setdefault(both.days, f"days-{''.join(map(str, both.days))}")
                trip = f"trip-{at}-{to}"
                trips.append({"route_id": ROUTE, "service_id": name, "trip_id": trip})
                times += [_stop(trip, f"zone-{at}", 1, both), _stop(trip, f"zone-{to}", 2, both)]
    return {
        "agency.txt": [_agency(service)],
        "routes.txt": [_route(service)],
        "trips.txt": trips,
        "stop_times.txt": times,
        "calendar.txt": [_calendar(name, days, service) for days, name in services.items()],
        "calendar_dates.txt": [
            {"service_id": name, "date": f"{day:%Y%m%d}", "exception_type": REMOVED}
            for days, name in services.items()
            for day in service.closed
            if service.first <= day <= service.last and day.isoweekday() in days
        ],
        "booking_rules.txt": [_booking(service)],
        "feed_info.txt": [_info(service)],
    }


def _agency(service: Service) -> dict[str, str]:
    return {
        "agency_id": AGENCY,
        "agency_name": service.name,
        "agency_url": service.url,
        "agency_timezone": service.zone,
        "agency_phone": service.telephone,
    }


def _route(service: Service) -> dict[str, str]:
    return {
        "route_id": ROUTE,
        "agency_id": AGENCY,
        "route_long_name": f"{service.name}: ADA paratransit",
        "route_desc": "For riders whom the agency has found eligible (49 CFR 37.123)",
        "route_type": BUS,
    }


def _stop(trip: str, zone: str, sequence: int, hours: Hours) -> dict[str, str]:
    is_pickup = sequence == 1
    return {
        "trip_id": trip,
        "location_id": zone,
        "stop_sequence": str(sequence),
        "start_pickup_drop_off_window": clock(hours.first),
        "end_pickup_drop_off_window": clock(hours.last),
        "pickup_type": PHONE_AGENCY if is_pickup else NOT_AVAILABLE,
        "drop_off_type": NOT_AVAILABLE if is_pickup else PHONE_AGENCY,
        "pickup_booking_rule_id": RULE,
        "drop_off_booking_rule_id": RULE,
    }


def _calendar(name: str, days: tuple[int, ...], service: Service) -> dict[str, str]:
    served = {weekday: str(int(at in days)) for at, weekday in enumerate(WEEKDAYS, 1)}
    dates = {"start_date": f"{service.first:%Y%m%d}", "end_date": f"{service.last:%Y%m%d}"}
    return {"service_id": name, **served, **dates}


def _booking(service: Service) -> dict[str, str]:
    return {
        "booking_rule_id": RULE,
        "booking_type": PRIOR_DAYS,
        "prior_notice_last_day": str(LAST_DAY),
        "prior_notice_last_time": clock(service.until),
        "prior_notice_start_day": str(FIRST_DAY),
        "prior_notice_start_time": "00:00:00",
        "message": f"For riders who are eligible under the ADA. Book {LAST_DAY} to {FIRST_DAY} days ahead.",
        "phone_number": service.telephone,
        "info_url": service.url,
        "booking_url": service.url,
    }


def _info(service: Service) -> dict[str, str]:
    return {
        "feed_publisher_name": service.name,
        "feed_publisher_url": service.url,
        "feed_lang": "en",
        "feed_start_date": f"{service.first:%Y%m%d}",
        "feed_end_date": f"{service.last:%Y%m%d}",
    }


def files_of(tables: dict[str, Table], locations: dict[str, object]) -> dict[str, str]:
    """The text of each file. A table without rows is left out."""
    texts = {name: _csv(rows) for name, rows in tables.items() if rows}
    return {**texts, "locations.geojson": json.dumps(locations, separators=(",", ":")) + "\n"}


def _csv(rows: Table) -> str:
    out = io.StringIO(newline="")
    table = csv.DictWriter(out, rows[0], lineterminator="\r\n")
    table.writeheader()
    table.writerows(rows)
    return out.getvalue()
