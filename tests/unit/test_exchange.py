"""A day's trips for other systems: what each object says, what is not known is null, and odd files are named."""

import datetime
import json
import zoneinfo
from pathlib import Path
from typing import Any

import pytest
from hypothesis import given
from hypothesis import strategies as some

from desk_tools.asking import Refused
from desk_tools.exchange import reading
from desk_tools.exchange.telegrams import STATES, Clock, Known, Trip, trip_of

DAY = datetime.date(2026, 3, 7)
CHICAGO = Clock(DAY, zoneinfo.ZoneInfo("America/Chicago"))
TRIP = Trip(641, 1006, "booked", 540, (535, 550), (3, 14), 4, 600, True, 1, 700)
PLACES: tuple[dict[str, Any], dict[str, Any]] = (
    {"id": 3, "name": "Clinic", "latitude": 44.9, "longitude": -93.2},
    {"id": 14, "name": "Oak St", "street": "12 Oak St", "note": "rear door"},
)


class Desk:
    """A desk that answers from a table."""

    def __init__(self, **replies: str) -> None:
        self.replies = replies

    def get(self, path: str) -> str | None:
        """The reply whose name is the last part of the path."""
        return self.replies.get(path.rpartition("/")[2].partition(".")[0])


def test_what_a_booked_trip_says() -> None:
    rider = {"name": "Ana Ruiz", "telephone": "555-0101", "language": "es", "aid": "walker"}
    known = Known(PLACES, rider, {"mode": "by", "minute": 600}, (541, 570), "Van 12")
    found = trip_of(TRIP, known, CHICAGO)
    asked, told = found["tripRequest"], found["tripTaskConfirmation"]
    assert found["status"] == "scheduled" and "tripTaskCompletion" not in found
    assert asked["pickupTime"] == "2026-03-07T09:00:00-06:00"
    assert asked["dropoffTime"] == "2026-03-07T10:00:00-06:00"
    assert (asked["hardConstraintOnPickupTime"], asked["hardConstraintOnDropoffTime"]) == (
        False,
        True,
    )
    assert asked["numOtherReservedPassengers"] == 2 and asked["notesForDriver"] == "rear door"
    assert asked["customerInfo"]["name"] == "Ana Ruiz"
    assert asked["dropoffAddress"] == {
        "addressName": "Oak St",
        "street": "12 Oak St",
        "lat": None,
        "long": None,
    }
    assert told["tripTaskId"] == "641-4" and told["fareAmount"] == "7.00"
    assert told["scheduledPickupTime"] == "2026-03-07T09:01:00-06:00"


def test_a_requested_pickup_stands_in_place_of_what_was_sent() -> None:
    known = Known(PLACES, requested={"mode": "not-before", "minute": 480})
    asked = trip_of(TRIP, known, CHICAGO)["tripRequest"]
    assert (
        asked["pickupTime"].startswith("2026-03-07T08:00") and asked["hardConstraintOnPickupTime"]
    )


@pytest.mark.parametrize("status", STATES)
def test_each_state_has_its_objects(status: str) -> None:
    trip = Trip(1, 7, status, 540, (540, 555), (1, 2), 1, None, False, 0, 350)
    found = trip_of(trip, Known(({}, {}), taps={"aboard": 545}), CHICAGO)
    assert ("tripTaskConfirmation" in found) == (status != "cancelled")
    assert ("tripTaskCompletion" in found) == (status not in ("booked", "cancelled"))
    done = found.get("tripTaskCompletion")
    if done:
        assert done["performedPickupTime"] == "2026-03-07T09:05:00-06:00"
        assert done["performedDropoffTime"] is None
    json.dumps(found)


def test_the_day_when_clocks_change() -> None:
    clock = Clock(datetime.date(2026, 3, 8), CHICAGO.zone)
    assert clock.at(60) == "2026-03-08T01:00:00-06:00"
    assert clock.at(540) == "2026-03-08T09:00:00-05:00"


def folder(tmp_path: Path, **files: object) -> Path:
    (tmp_path / "staff").mkdir(exist_ok=True)
    held = {"agency": {"name": "Town", "zone": "America/Chicago"}, **files}
    for name, value in held.items():
        path = tmp_path / f"{'' if name == 'agency' else 'staff/'}{name}.json"
        path.write_text(value if isinstance(value, str) else json.dumps(value), encoding="utf-8")
    return tmp_path


def test_which_address_is_meant(tmp_path: Path) -> None:
    rows = [
        {"id": 5, "street": "5 Elm St", "place": 3},
        {"id": 6, "street": "12 Oak St", "place": 14, "riders": [1006]},
    ]
    today = {"day": "2026-03-06", "bookings": {"641": {"from_address": 5}}}
    names = {"places": list(PLACES), "vehicles": [{"id": 4, "name": "Van 12"}]}
    at = folder(tmp_path, addresses={"addresses": rows}, today=today, places=names)
    known = reading.known_of(TRIP, reading.site_in(at, DAY, True), {641: (541, 570)})
    assert [it.get("street") for it in known.points] == ["5 Elm St", "12 Oak St"]
    assert known.vehicle_name == "Van 12" and known.planned == (541, 570) and not known.taps


@pytest.mark.parametrize("day, count", [("2026-03-07", 1), ("2026-03-06", 0)])
def test_taps_count_on_their_day_alone(tmp_path: Path, day: str, count: int) -> None:
    taps = [{"trip": 641, "kind": "aboard", "minute": 545}, {"trip": 9, "kind": "x"}, "odd"]
    at = folder(tmp_path, today={"day": day, "vehicles": {"4": {"taps": taps}}})
    assert len(reading.known_of(TRIP, reading.site_in(at, DAY, True), {}).taps) == count


@pytest.mark.parametrize(
    "files, said",
    [
        ({"agency": "{"}, "agency.json is no JSON object"),
        ({"agency": {"name": "Town"}}, "has no name and zone"),
        ({"agency": {"name": "Town", "zone": "Nowhere"}}, "'Nowhere' is no zone"),
        ({"places": "[]"}, "places.json is no JSON object"),
        ({"addresses": "[" * 9_000}, "addresses.json is no JSON object"),
    ],
)
def test_odd_files_are_named(tmp_path: Path, files: dict[str, object], said: str) -> None:
    at = folder(tmp_path, **files)
    with pytest.raises(reading.Wrong, match=said):
        reading.site_in(at, DAY, True)


def test_an_odd_roster_is_named(tmp_path: Path) -> None:
    at = folder(tmp_path)
    (at / "staff/roster.csv").write_text("a,b\n1,2\n", encoding="utf-8")
    with pytest.raises(reading.Wrong, match="is no roster"):
        reading.site_in(at, DAY, True)
    assert reading.site_in(at, DAY, False).riders == {}


ROW = {
    "trip": 641,
    "day": "2026-03-07",
    "status": "booked",
    "wish": 540,
    "window_from": 535,
    "window_to": 550,
    "from": 3,
    "to": 14,
    "vehicle": 4,
    "by": None,
    "attendant": False,
    "companions": 0,
    "due": 350,
}


def test_trips_of_the_day_alone() -> None:
    lists = json.dumps({"trips": [ROW, {**ROW, "trip": 700, "day": "2026-03-08"}]})
    desk: Any = Desk(trips="trip,rider,status\n641,1006,booked\n700,1006,booked\n")
    texts = [desk.replies["trips"], lists]
    desk.get = lambda path: texts[not path.endswith(".csv")]
    assert [it.number for it in reading.trips_on(desk, DAY)] == [641]


@pytest.mark.parametrize(
    "export, lists",
    [
        ("trip\n1\n", "{}"),
        ("trip,rider\n1,x\n", "{}"),
        ("trip,rider\n1,7\n", "{}"),
        ("trip,rider\n1,7\n", json.dumps({"trips": [{**ROW, "status": "lost"}]})),
    ],
)
def test_replies_of_another_form_are_named(export: str, lists: str) -> None:
    desk: Any = Desk()
    desk.get = lambda path: export if path.endswith(".csv") else lists
    with pytest.raises(Refused, match="not of their form"):
        reading.trips_on(desk, DAY)


@given(some.text(max_size=200))
def test_any_sheet_is_read(text: str) -> None:
    desk: Any = Desk(sheet=text)
    reading.planned_on(desk, DAY)
